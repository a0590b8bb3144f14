#!/usr/bin/env python3
"""Respells this repository's own names of specs/, proofs/ and clauses: words in snake case, types and modules in camel case.

  respell.py        reads respelled.txt beside it and rewrites crates/*/{src,specs,proofs} in place, word by word

Strings are left as they are; a module's other name is respelled in the two files that give it.
"""
import pathlib
import re

HERE = pathlib.Path(__file__).resolve().parent
WORD = re.compile(r"(?<![\w'?′-])[A-Za-z][\w'?′]*(?:-[\w'?′]+)*(?![\w'?′-])")
STRING = re.compile(r'("(?:[^"\\]|\\.)*")')
MODULES = {"grading/proofs/Hands.antt": {"of-five": "OfFive"}, "grading/specs/Steps.antt": {"of-five": "OfFive"}}


def table():
    rows = (HERE / "respelled.txt").read_text().split("\n")
    return dict(r.split() for r in rows if r and not r.startswith("#"))


def main():
    names = table()
    crates = HERE.parent / "crates"
    for path in sorted(crates.glob("*/*/**/*")):
        inside = path.relative_to(crates)
        if inside.parts[1] not in ("src", "specs", "proofs") or path.suffix not in (".rt", ".antt"):
            continue
        here = names | MODULES.get(str(inside), {})
        text = path.read_text()
        parts = STRING.split(text)
        parts[::2] = [WORD.sub(lambda m: here.get(m.group(0), m.group(0)), p) for p in parts[::2]]
        new = "".join(parts)
        if new != text:
            path.write_text(new)


main()
