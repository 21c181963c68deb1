#!/usr/bin/env python3
"""Respells this repository's own definitions and lemmas as Rattle's style has it, after the toolchain's port.py has run.

usage: python3 tools/respell.py [--list]     at the top of the repository; --list prints old and new names and writes nothing

Definitions, lemmas, fields, constructors and helpers are in snake case; a dash stays where the name with an underscore is taken.
Types are in upper camel case. Names of src/, strings, and names that the toolchain makes stay as they are.
"""
import collections
import glob
import re
import sys

CHAR = r"[\w'\-₀-₉]"
DECLARED = re.compile(r"^\s*(?:(?:abbrev|unfoldable|pub|record|data)\s+)*([^\s:(){}.,;|]+(?:\s+[^\s:(){}.,;|]+)*?)\s*(?:\([^:]*:.*)?:\s")
BOUND = re.compile(r"[({]([^(){}:,]+?) : ")
IMPORT = re.compile(r"use\s+((?:Rattle|mathlib|lib|Prim|native|borrow|std)[\w.◌']*)\.\{([^}]*)\}")


def texts():
    for p in sorted(glob.glob("crates/*/specs/**/*.antt", recursive=True) + glob.glob("crates/*/proofs/**/*.antt", recursive=True)):
        yield p


def own_modules():
    """Files of definitions and lemmas: those directly in specs/ and proofs/."""
    return sorted(glob.glob("crates/*/specs/*.antt") + glob.glob("crates/*/proofs/*.antt"))


def declared(path):
    """The names that a file declares, with whether each is a lemma: its file stands in proofs/, or it is called ..Facts or ..Lemmas."""
    lemmas = "/proofs/" in path or re.search(r"(Facts|Lemmas|Runs|Generating)\.antt$", path)
    for line in open(path, encoding="utf-8"):
        if line.lstrip().startswith(("--", "use ", "module ", "let ", "|", "λ", "in ")):
            continue
        m = DECLARED.match(line)
        names = m.group(1).split() if m else []
        for group in BOUND.findall(line):
            names += [n for n in group.split() if "-" in n]
        for name in names:
            if re.fullmatch(CHAR + "+", name) and not name[0].isdigit():
                yield name, bool(lemmas) and "abbrev" not in line and "unfoldable" not in line


# where a field has the name in snake case
APART = {"is-full": "run_is_full", "isWhite": "is_white_byte", "isDigit": "is_digit_byte"}


def snake(name):
    name = name.replace("getD", "get_or").replace("countBy", "count_by")
    name = re.sub(r"(?<=[a-z0-9])([A-Z])(?=[a-z])", lambda m: "_" + m.group(1).lower(), name)
    return name.replace("-", "_")


def camel(name):
    return "".join(w[:1].upper() + w[1:] for w in name.split("-"))


def renamings():
    found = {}
    for p in own_modules():
        for name, is_lemma in declared(p):
            found[name] = found.get(name, True) and is_lemma
    there = set()
    for p in texts():
        there.update(TOKEN.findall(open(p, encoding="utf-8").read()))
    turned = {}
    for name, is_lemma in found.items():
        new = APART.get(name) or ((camel(name) if "-" in name else name) if name[0].isupper() else snake(name))
        if new == name:
            continue
        if new in there and name not in APART:
            # a lemma keeps the dash where the name with an underscore is taken
            print(("stays" if is_lemma else "taken") + f": {name}, as {new} stands already")
            if is_lemma:
                continue
        turned[name] = new
    return turned


def imported(text):
    """What a file imports from the library."""
    names = set()
    for path, items in IMPORT.findall(text):
        own = re.match(r"Rattle\.(\w+)\.(specs|proofs)", path)
        if own and own.group(1) in CRATES:
            continue
        for item in items.split(","):
            names.add(item.split(" as ")[-1].strip())
    return names


TOKEN = re.compile(r"(?<![\w'\-₀-₉])" + CHAR + "+")
CRATES = {p.split("/")[1] for p in glob.glob("crates/*/src")}


def main():
    turned = renamings()
    back = collections.defaultdict(set)
    for old, new in turned.items():
        back[new].add(old)
    for new, olds in sorted(back.items()):
        if len(olds) > 1:
            print("fall together:", new, sorted(olds))
    if "--list" in sys.argv:
        for old, new in sorted(turned.items()):
            print(old, new)
        return
    for p in list(texts()) + sorted(glob.glob("crates/*/src/**/*.rt", recursive=True)):
        text = open(p, encoding="utf-8").read()
        skip = imported(text)
        rust = p.endswith(".rt")
        seen = set(TOKEN.findall(text))
        made = set(re.findall(r"goal\.(" + CHAR + "+)", text))

        def turn(m):
            word = m.group(0)
            if word in skip or word in made or word not in turned:
                return word
            if turned[word] in seen:
                print(f"{p}: {word} becomes {turned[word]}, which stands there too")
            return turned[word]

        lines = []
        for line in text.split("\n"):
            if not rust:
                lines.append(TOKEN.sub(turn, line))
                continue
            # of Rust text only what is ghost, and names between backticks in comments
            code, mark, comment = line.partition("//")
            if mark and code.count('"') % 2 == 0:
                comment = re.sub(r"`[^`]*`", lambda m: TOKEN.sub(turn, m.group(0)), comment)
            else:
                code, mark, comment = line, "", ""
            pieces = re.split(r'("(?:[^"\\]|\\.)*")', code)
            pieces = [x if x.startswith('"') else re.sub(TOKEN, lambda m: turn(m) if "-" in m.group(0) or GHOST.match(code) else m.group(0), x) for x in pieces]
            lines.append("".join(pieces) + mark + comment)
        new = "\n".join(lines)
        if new != text:
            open(p, "w", encoding="utf-8").write(new)


GHOST = re.compile(r"\s*(ghost|requires|ensures|pub ghost|law)\b")

if __name__ == "__main__":
    main()
