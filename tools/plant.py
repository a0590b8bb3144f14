#!/usr/bin/env python3
"""Plants wrong code in crates, one bug at a time, and says what refused each.

usage: tools/plant.py [--write] [--untried] [--only TEXT] CRATE..

The bugs of a crate are in docs/planted/CRATE.txt: blocks of lines, with an empty line between them,

    file: src/lib.rt
    old: TEXT            stands in the file once
    new: TEXT            what is planted in its place (lines old and new may come again, for one bug in two places)
    by: FUNCTION, GOAL   what refused it: a fact that no longer holds there, or the file of a proof that no longer fits

The checkout is copied, so that nothing here changes; there each bug is tried as an edit that the prover must refuse.
--write puts into the file what refused each. --only tries the bugs whose text has TEXT, --untried those of which
the file does not say what refused them.
The status is 1 where a bug was not refused, or does not fit its file."""
import pathlib
import re
import shutil
import subprocess
import sys
import tempfile

top = pathlib.Path(__file__).resolve().parent.parent


def blocks(text):
    """The bugs, each as a list of its lines."""
    return [b.splitlines() for b in re.split(r"\n\s*\n", text.strip()) if b.strip()]


def function_at(source, line):
    """The function in which a line of a source file stands."""
    lines = source.read_text().splitlines()[:line]
    here = [re.match(r"\s*(?:pub(?:\([a-z]+\))? )?(?:const )?fn (\w+)", l) for l in lines]
    named = [m.group(1) for m in here if m]
    # a note points at the head of a function or an attribute above it, or at what stands in it
    after = [l for l in source.read_text().splitlines()[line - 1 :] if not l.lstrip().startswith("#[")]
    head = re.match(r"\s*(?:pub(?:\([a-z]+\))? )?(?:const )?fn (\w+)", after[0]) if after else None
    return head.group(1) if head else named[-1] if named else "?"


def tried(crate, copy, bugs):
    """What became of each bug: what refused it, or None and what was said."""
    edits = copy / "crates" / crate / "must-fail"
    for other in (copy / "crates").glob("*/must-fail"):
        shutil.rmtree(other)
    edits.mkdir()
    for n, bug in enumerate(bugs):
        lines = [l for l in bug if l.startswith(("file: ", "old: ", "new: "))]
        (edits / f"b{n:03}.edit").write_text("\n".join(lines) + "\n")
    out = subprocess.run(["rt", "must-fail", crate], cwd=copy, capture_output=True, text=True)
    said = {}
    for line in (out.stdout + out.stderr).splitlines():
        m = re.match(rf"rt: must-fail {crate}/b(\d+)\.edit: (.*)", line)
        if m:
            said[int(m.group(1))] = m.group(2)
    answers = []
    for n, bug in enumerate(bugs):
        text = said.get(n, "not tried")
        m = re.search(r"(\S+?\.(?:rt|antt)):(\d+):\d+: (.*)", text)
        # a bug that takes away a name which a proof uses shows little
        if not text.startswith("refused, as it must be:") or not m:
            answers.append((None, text))
            continue
        goal = re.search(r"\(`([^`]+)`\)", m.group(3)) or re.search(r"`([^`]+)`", m.group(3))
        where = copy / "crates" / crate / m.group(1)
        by = function_at(where, int(m.group(2))) if where.suffix == ".rt" else m.group(1).removeprefix("./")
        answers.append((f"{by}, {goal.group(1) if goal else m.group(3)[:60]}", text))
    return answers


def main():
    args = sys.argv[1:]
    write = "--write" in args
    untried = "--untried" in args
    only = args[args.index("--only") + 1] if "--only" in args else ""
    crates = [a for n, a in enumerate(args) if not a.startswith("--") and (n == 0 or args[n - 1] != "--only")]
    if not crates:
        sys.exit(__doc__)
    bad = 0
    for crate in crates:
        page = top / "docs" / "planted" / f"{crate}.txt"
        every = blocks(page.read_text())
        chosen = [b for b in every if only in "\n".join(b)]
        if untried:
            chosen = [b for b in chosen if not any(l.startswith("by: ") for l in b)]
        with tempfile.TemporaryDirectory() as folder:
            copy = pathlib.Path(folder) / "copy"
            shutil.copytree(top, copy, symlinks=True, ignore=shutil.ignore_patterns(".git", "target"))
            answers = tried(crate, copy, chosen)
        for bug, (by, text) in zip(chosen, answers):
            bug[:] = [l for l in bug if not l.startswith("by: ")] + ([f"by: {by}"] if by else [])
            if by is None:
                bad += 1
                print(f"{crate}: {text}\n    " + "\n    ".join(bug))
        print(f"{crate}: {sum(1 for by, _ in answers if by)} of {len(chosen)} refused")
        if write:
            page.write_text("\n\n".join("\n".join(b) for b in every) + "\n")
    sys.exit(1 if bad else 0)


main()
