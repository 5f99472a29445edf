#!/usr/bin/env python3
"""Brings the names of definitions and lemmas to the spelling of today's Rattle.

usage: python3 tools/respell.py [FOLDER]     once, right after the kit's port.py, at the top of the repository

Definitions and lemmas of specs/ and proofs/ are in snake case: keysOf becomes keys_of, place-here
place_here. Types, modules, functions of src/ and the names that the check itself makes keep theirs.
Prints each renaming, and beside it, after `look:`, names that would fall together.
"""
import os
import re
import sys

ROOT = sys.argv[1] if len(sys.argv) > 1 else "."
DEFINED = re.compile(r"^\s*(?:(?:abbrev|unfoldable) )?(?:pub )?([^\s:(){}\[\].,;]+) : (.*)$")
WORD = re.compile(r"[A-Za-z_][A-Za-z0-9_'\u2032-]*")
STRING = re.compile(r'b?"(?:\\.|[^"\\])*"', re.S)


def files(ending, folders):
    for folder, dirs, names in os.walk(os.path.join(ROOT, "crates")):
        dirs[:] = sorted(d for d in dirs if d != "out")
        parts = os.path.relpath(folder, os.path.join(ROOT, "crates")).split(os.sep)
        if len(parts) > 1 and parts[1] in folders:
            for name in sorted(names):
                if name.endswith(ending):
                    yield os.path.join(folder, name)


def read(path):
    with open(path, encoding="utf-8") as f:
        return f.read()


# A lemma that would have its function's name gets an ending of its own, and so does a part of a record.
APART = {
    "kind-named": "kind_named_lem",
    "shape-named": "shape_named_lem",
    "zero-words": "zero_words_lem",
    "listed-seal": "listed_seals",
}


def snake(name):
    if name in APART:
        return APART[name]
    apart = re.sub(r"(?<=[a-z0-9])(?=[A-Z])", "_", name)
    return apart.replace("-", "_").lower()


def own_names():
    """The names that specs/ and proofs/ define, but for the answers to goals."""
    names = set()
    for path in files(".antt", ("specs", "proofs")):
        if os.path.basename(path) == "Proof.antt":
            continue
        for line in read(path).split("\n"):
            found = DEFINED.match(line)
            if found and not re.match(r"(goal|given|need)\.", found.group(2)) and not line.lstrip().startswith(("let ", "use ", "--")):
                names.add(found.group(1))
    return names


def renamings(names):
    said = {}
    for name in sorted(names):
        if WORD.fullmatch(name) and name[0].islower():
            new = snake(name)
            if new != name:
                said[name] = new
    for name, new in said.items():
        others = [n for n in names if n == new or (n != name and said.get(n) == new)]
        if others:
            print(f"look: {name} and {', '.join(others)} both become {new}")
    return said


def respelled(text, said):
    return WORD.sub(lambda m: said.get(m.group(0), m.group(0)), text)


def outside_strings(text, said):
    """The text of a source file with its words respelled, its string literals as they are."""
    made, at = [], 0
    for literal in STRING.finditer(text):
        made.append(respelled(text[at:literal.start()], said))
        made.append(literal.group(0))
        at = literal.end()
    made.append(respelled(text[at:], said))
    return "".join(made)


def main():
    said = renamings(own_names())
    for name, new in said.items():
        print(f"{name} -> {new}")
    for ending, turn in ((".antt", respelled), (".rt", outside_strings)):
        for path in files(ending, ("specs", "proofs", "src")):
            old = read(path)
            new = turn(old, said)
            if new != old:
                with open(path, "w", encoding="utf-8") as f:
                    f.write(new)


main()
