#!/usr/bin/env python3
"""Makes the bytes of the worked sheets, and what the programs `worked` and `settle` are run on and have to print.

A worked sheet, NAME.hex, is text: a line holds hexadecimal digits in groups, with spaces or tabs between groups; '#' begins
a comment, up to the end of the line. A line '(' begins a block and a line '* N' ends it: the lines between stand N times in
all. Blocks do not nest. NAME.out is what the sheet prints, worked out by hand.

  make.py            writes crates/worked/data, args and stdout, and crates/settle/stdin and stdout
  make.py --check    only says whether they are what they should be (status 1 where they are not)
  make.py --bytes F  writes the bytes of one worked sheet to standard output
"""
import pathlib
import re
import sys

HERE = pathlib.Path(__file__).resolve().parent
WORKED = HERE.parent / "crates" / "worked"
SETTLE = HERE.parent / "crates" / "settle"
# what `settle` is run on: a long sheet of which runs stop early for want of places, so that one that is cut would show
SETTLED = "early-stop-entries"


def convert(path):
    done = bytearray()
    block = None
    for number, line in enumerate(path.read_text().split("\n"), 1):
        words = line.split("#", 1)[0].strip(" \t")
        if words == "(" and block is None:
            block = bytearray()
        elif re.fullmatch("\\*[ \t]+[0-9]+", words) and block is not None:
            done += bytes(block) * int(words[1:])
            block = None
        else:
            for group in words.split():
                if not re.fullmatch("([0-9A-Fa-f][0-9A-Fa-f])+", group):
                    sys.exit(f"{path.name}, line {number}: not pairs of digits: {group}")
                (done if block is None else block).extend(bytes.fromhex(group))
    if block is not None:
        sys.exit(f"{path.name}: a block is not closed")
    return bytes(done)


def wanted():
    files = {}
    args = ""
    printed = b""
    for path in sorted(HERE.glob("*.hex")):
        name = path.stem
        files[WORKED / "data" / f"{name}.sheet"] = convert(path)
        args += f"{name}.sheet\n"
        printed += f"== {name}.sheet\n".encode() + path.with_suffix(".out").read_bytes()
    files[SETTLE / "stdin"] = convert(HERE / f"{SETTLED}.hex")
    files[SETTLE / "stdout"] = (HERE / f"{SETTLED}.out").read_bytes()
    files[WORKED / "args"] = args.encode()
    files[WORKED / "stdout"] = printed
    return files


def main():
    if len(sys.argv) == 3 and sys.argv[1] == "--bytes":
        sys.stdout.buffer.write(convert(pathlib.Path(sys.argv[2])))
        return
    files = wanted()
    present = set((WORKED / "data").glob("*")) | {WORKED / "args", WORKED / "stdout", SETTLE / "stdin", SETTLE / "stdout"}
    if sys.argv[1:] == ["--check"]:
        wrong = [p.name for p, content in files.items() if not p.exists() or p.read_bytes() != content]
        wrong += [p.name for p in present - set(files)]
        if wrong:
            sys.exit("not as the worked sheets say, run samples/make.py: " + " ".join(sorted(wrong)))
        return
    for path in present - set(files):
        path.unlink()
    for path, content in files.items():
        path.write_bytes(content)


main()
