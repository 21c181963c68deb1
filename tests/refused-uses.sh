#!/usr/bin/env bash
# Two uses of a maker are refused when a program is checked: a row call on a closed run, and one tape for two makers.
# The program tests/refused/program.txt runs as it stands. With each edit beside it the check must refuse it, with the error
# that the edit's last line names. Nothing is proved here, and nothing has to be built before.
set -euo pipefail
cd "$(dirname "$0")/.."

scratch=$(mktemp -d)
trap 'rm -rf "$scratch"' EXIT

# A repository of the crates that the program stands on, and of the program.
git init -q "$scratch"
mkdir -p "$scratch/crates/uses/src"
for crate in schemes tapes maker; do
    mkdir "$scratch/crates/$crate"
    cp -r "crates/$crate/src" "crates/$crate/specs" "crates/$crate/proofs" "$scratch/crates/$crate/"
done
printf '%s\n' 'schemes:' 'tapes:' 'maker: schemes tapes' 'uses: schemes tapes maker' >"$scratch/crates.txt"

# Runs the program without a proof. A use that the compiler refuses is refused before it runs.
try() {
    printf '%s\n' "$1" >"$scratch/crates/uses/src/main.rt"
    (cd "$scratch/crates/uses" && rt try 2>&1) || true
}

field() { sed -n "s/^$2: //p" "$1"; }

program=$(cat tests/refused/program.txt)
said=$(try "$program")
case $said in
*"run=ended status=0"*) ;;
*) echo "refused-uses: the program is refused as it stands: $said"; exit 1 ;;
esac
for edit in tests/refused/*.edit; do
    name=$(basename "$edit" .edit)
    old=$(field "$edit" old)
    new=$(field "$edit" new)
    changed=${program/"$old"/"$new"}
    [ "$changed" != "$program" ] || { echo "refused-uses: $name changes nothing"; exit 1; }
    said=$(try "$changed")
    case $said in
    *"$(field "$edit" error)"*) echo "refused-uses: $name: refused, as it must be" ;;
    *"run=ended"*) echo "refused-uses: $name is NOT refused"; exit 1 ;;
    *) echo "refused-uses: $name: refused for another reason: $said"; exit 1 ;;
    esac
done
