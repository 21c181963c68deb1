#!/usr/bin/env bash
# Holds our reader of picture files against Netpbm's: size and every bit of pictures that Netpbm makes, and the refusals that
# docs/PICTURES.md names. Usage: tests/netpbm-pictures.sh [PROGRAM], by default crates/weldlatch/out/weldlatch.
# It needs Netpbm, on Debian `apt-get install netpbm`.
set -euo pipefail

program=$(realpath "${1:-crates/weldlatch/out/weldlatch}")
if ! command -v pamfile >/dev/null; then
    echo "netpbm-pictures: needs Netpbm: apt-get install netpbm" >&2
    exit 2
fi
if ! [ -x "$program" ]; then
    echo "netpbm-pictures: no program $program" >&2
    exit 2
fi

work=$(mktemp -d)
trap 'rm -rf "$work"' EXIT
cd "$work"
passed=0
failed=0

# note WHAT HOLDS: one line for each check, and the count
note() {
    if [ "$2" = yes ]; then
        echo "ok      $1"
        passed=$((passed + 1))
    else
        echo "FAILED  $1"
        failed=$((failed + 1))
    fi
}

# by_netpbm FILE: the first picture of the file as Netpbm reads it, `W H` and one line of 0 and 1 for each row
by_netpbm() {
    pamtopnm -plain "$1" >plain
    size=$(sed -n 2p plain)
    echo "$size"
    tail -n +3 plain | tr -d ' \n' | fold -w "${size% *}"
    echo
}

# agree WHAT FILE: ours and Netpbm's reading are the same to the last bit
agree() {
    by_netpbm "$2" >theirs
    if "$program" show --plain "$2" >ours 2>errors && cmp -s ours theirs; then
        note "$1" yes
    else
        note "$1" no
    fi
}

# refuses WHAT FILE NUMBER PLACE: ours ends with status 1 and this refusal
refuses() {
    status=0
    "$program" show --plain "$2" >ours 2>errors || status=$?
    if [ "$status" -eq 1 ] && grep -q "^weldlatch: refused $3 at $4: " errors; then
        note "$1: refused $3 at $4" yes
    else
        note "$1: refused $3 at $4" no
    fi
}

# opens WHAT FILE SIZE: ours is a picture of this size
opens() {
    if "$program" show --plain "$2" >ours 2>errors && [ "$(head -n 1 ours)" = "$3" ]; then
        note "we open it: $1" yes
    else
        note "we open it: $1" no
    fi
}

# accepts WHAT FILE SIZE: Netpbm takes the file, as a picture of this size
accepts() {
    if [ "$(by_netpbm "$2" 2>/dev/null | head -n 1)" = "$3" ]; then
        note "Netpbm takes it: $1" yes
    else
        note "Netpbm takes it: $1" no
    fi
}

# Noise of odd and even widths, plain pictures, text and a ramp in dots.
for size in "1 1" "7 3" "8 2" "9 5" "15 1" "37 21" "4095 3" "3 4095" "4096 1" "1 4096"; do
    pbmnoise -randomseed 7 $size >noise.pbm
    agree "noise of $size" noise.pbm
done
pbmmake -black 13 4 >black.pbm
agree "black" black.pbm
pbmmake -white 13 4 >white.pbm
agree "white" white.pbm
pbmmake -gray 33 9 >squares.pbm
agree "chequered" squares.pbm
pbmtext 4711 >text.pbm
agree "text" text.pbm
pgmramp -lr 250 60 | pgmtopbm >ramp.pbm
agree "a ramp in dots" ramp.pbm
pbmnoise -randomseed 11 4096 4096 >largest.pbm
agree "noise of 4096 4096" largest.pbm

# The same noise under heads that Netpbm does not write itself.
pbmnoise -randomseed 7 37 21 >noise.pbm
tail -n +3 noise.pbm >rows
under() { { printf '%b' "$2"; cat rows; } >"$1"; }
under comments.pbm 'P4# before the gap goes on\n#\n# 9 9\n 37 # the width\n#\n21\n'
agree "comments in both gaps" comments.pbm
under zeros.pbm 'P4\n00037 0000000000000021 '
agree "leading zeros" zeros.pbm
under whites.pbm 'P4\t\r\n 37\r\n\r21\r'
agree "all white bytes" whites.pbm

# Too large.
pbmmake 4097 3 >wide.pbm
refuses "too wide" wide.pbm 3 3
pbmmake 3 4097 >high.pbm
refuses "too high" high.pbm 3 5

# Cut short.
length=$(stat -c %s noise.pbm)
for n in 0 1 2 4 7 9 $((length - 1)); do
    head -c "$n" noise.pbm >short.pbm
    refuses "cut after $n bytes" short.pbm 4 "$n"
done

# Other formats.
pamtopnm -plain noise.pbm >plain.pbm
refuses "plain PBM" plain.pbm 1 0
pgmramp -lr 9 9 >ramp.pgm
refuses "PGM" ramp.pgm 1 0

# What Netpbm takes and we refuse.
cp noise.pbm longer.pbm
printf 'x' >>longer.pbm
accepts "bytes after the rows" longer.pbm "37 21"
refuses "bytes after the rows" longer.pbm 5 "$length"
cat noise.pbm black.pbm >two.pbm
accepts "a second picture" two.pbm "37 21"
refuses "a second picture" two.pbm 5 "$length"
under joined.pbm 'P437 21\n'
accepts "no gap after P4" joined.pbm "37 21"
refuses "no gap after P4" joined.pbm 2 2
under letters.pbm 'P4 37x21y'
accepts "letters after the numbers" letters.pbm "37 21"
refuses "letters after the numbers" letters.pbm 2 5
under remark.pbm 'P4\n37 21# the height\n'
accepts "a comment after the height" remark.pbm "37 21"
refuses "a comment after the height" remark.pbm 2 8

# What Netpbm reads otherwise: its comments end at byte 13 too.
printf 'P4\n#\r8 2\n8 1\nx' >return.pbm
accepts "8 by 2 after byte 13 in a comment" return.pbm "8 2"
opens "8 by 1 after byte 10 in a comment" return.pbm "8 1"

echo "$passed passed, $failed failed"
[ "$failed" -eq 0 ]
