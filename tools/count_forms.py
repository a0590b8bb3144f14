#!/usr/bin/env python3
"""Lists the places of each point of docs/DESIGN-PASS.md in the crates' src/ (and proofs/ for the last).

    count_forms.py [TREE]      TREE is a checkout; the one this file lies in if none is named
"""

import collections
import difflib
import glob
import os
import re
import sys

ROOT = sys.argv[1] if len(sys.argv) > 1 else os.path.join(os.path.dirname(os.path.abspath(__file__)), "..")
FILES = sorted(
    f for f in glob.glob(os.path.join(ROOT, "crates/*/src/**/*.rt"), recursive=True) if not f.endswith("tests.rt")
)
TEXT = {os.path.relpath(f, os.path.join(ROOT, "crates")): open(f).read() for f in FILES}


def lines_like(pattern):
    return [
        f"{name}:{number}: {line.strip()}"
        for name, text in TEXT.items()
        for number, line in enumerate(text.splitlines(), 1)
        if re.search(pattern, line)
    ]


def functions():
    """Each function with its file, its head and its body."""
    for name, text in TEXT.items():
        for found in re.finditer(r"^( *)(?:pub(?:\(crate\))? )?fn (\w+)", text, re.M):
            closing = re.compile(r"^" + found.group(1) + r"\}", re.M).search(text, found.end())
            block = text[found.start() : closing.end()] if closing else text[found.start() :]
            head, _, body = block.partition("\n" + found.group(1) + "{")
            if not body:
                head, _, body = block.partition(" {\n")
            yield name, found.group(2), head, body


def show(title, places):
    print(f"\n{title}: {len(places)}")
    for place in places:
        print("   ", place)


def twins():
    """Pairs of functions whose bodies are the same words, but for numbers, names and types in them."""
    shapes = []
    for name, function, head, body in functions():
        words = re.findall(r"[A-Za-z_]\w*|\d+|[^\s\w]", re.sub(r"//.*", "", body))
        words = [
            "N" if w[0].isdigit() else re.sub(r"[Tt]hrees?|[Ff]ives?|first|second|tray|rack|\d+", "X", w) for w in words
        ]
        if len(words) >= 12:
            shapes.append((f"{name} {function}", words))
    found = []
    for i, (one, a) in enumerate(shapes):
        for other, b in shapes[i + 1 :]:
            if abs(len(a) - len(b)) * 8 > len(a):
                continue
            same = difflib.SequenceMatcher(None, a, b, autojunk=False).ratio()
            if same >= 0.88:
                found.append(f"{same:.2f} {one} ~ {other}")
    return found


def repeated_requires():
    where = collections.defaultdict(list)
    for name, function, head, _ in functions():
        for clause in re.findall(r"^ *requires(?: \w+)? \{ (.*) \}", head, re.M):
            clause = re.sub(r"\b(self|table)\.(now|old)\b", "it", clause)
            where[re.sub(r"\b(seat|k)\b", "k", clause)].append(f"{name.split('/')[0]}::{function}")
    return [f"{len(w)} {clause} {w}" for clause, w in sorted(where.items(), key=lambda x: -len(x[1])) if len(w) >= 3]


def together():
    where = collections.defaultdict(list)
    for name, function, head, _ in functions():
        inside = re.search(r"\((.*?)\)(?: ->|\n|$)", head, re.S)
        given = re.findall(r"(\w+): ([^,\n]+)", inside.group(1)) if inside else []
        given = [f"{a}: {b.strip()}" for a, b in given]
        for i, one in enumerate(given):
            for other in given[i + 1 :]:
                where[one, other].append(f"{name.split('/')[0]}::{function}")
    return [f"{len(w)} ({a}, {b}) {w}" for (a, b), w in sorted(where.items(), key=lambda x: -len(x[1])) if len(w) >= 4]


def proofs():
    rows = []
    for crate in sorted(glob.glob(os.path.join(ROOT, "crates/*"))):
        files = [f for f in glob.glob(os.path.join(crate, "proofs/**/*.antt"), recursive=True)]
        answers = [f for f in files if f.endswith("Answers.antt")]
        lines = sum(len(open(f).read().splitlines()) for f in files)
        if files:
            rows.append(f"{os.path.basename(crate)}: {len(files)} files, {len(answers)} of answers, {lines} lines")
    return rows


show("1 enums", lines_like(r"^ *(pub(\(crate\))? )?enum "))
show("1 flags among fields", lines_like(r"^ +(pub(\(crate\))? )?[a-z_]+: (bool|\[bool; \d+\]),"))
show("1 a number where there is none", lines_like(r"//.*(\b0 (where|in places|for none)|; 0 )"))
show("1 a number for a kind", lines_like(r"\.number\(\) *[=!<>]=|^ +(0x[0-9A-F]+|\d+)( \| \d+)* (if .*)?=> "))
show("2 functions alike", twins())
show("3 loops", lines_like(r"^ *(for [\w, ()]+ in |while |loop \{)"))
show("3 a list written out place by place", lines_like(r"\w[\[(][46][\],)]|let \[\w+(, \w+){4,}\]|let \(fifth, "))
show("4 impls by hand", lines_like(r"^ *impl.* (PartialEq|Eq|Ord|PartialOrd|Clone|Copy|From|TryFrom|fmt::Display|Debug)(<.*>)? for"))
show("4 conversions, words and comparisons", lines_like(r"fn (eq|cmp|clone|from|try_from|of_numbers|of|is|word|name|number|compare_parts|cause|outcome|meaning)\("))
show("4 let x = self.x before printing", lines_like(r"^ *let (\w+) = self\.\1(\(\))?;|^ *let (\w+) = \w+\.word\(\);"))
show("5 a condition in three or more contracts", repeated_requires())
show("5 parameters together in four or more functions", together())
show("6 arrays among fields", lines_like(r"^ +(pub(\(crate\))? )?[a-z_]+: \[\w+; \d+\],"))
show("6 a length or a start beside", lines_like(r"^ +(pub(\(crate\))? )?(len|count|start): (usize|u8),"))
show("7 a match that picks which function to call", lines_like(r"^ *match self \{$"))
show("8 proofs", proofs())
