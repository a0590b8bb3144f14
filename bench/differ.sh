#!/usr/bin/env bash
# Compares PROGRAM with the baseline, byte by byte, on N sheets of malformed and mistaken commands.
#
#   differ.sh PROGRAM N [SEED]
#
# Sheets on which the two differ, in output or in exit status, are kept in out/differ with both outputs.
set -euo pipefail

if [ $# -lt 2 ]; then
    echo "usage: differ.sh PROGRAM N [SEED]" >&2
    exit 2
fi
program=$(realpath -- "$1")
count=$2
seed=${3:-1}
here=$(cd -- "$(dirname -- "$0")" && pwd)
baseline=$here/baseline/target/release/baseline
kept=$here/out/differ

cargo build --release --quiet --manifest-path "$here/baseline/Cargo.toml"
work=$(mktemp -d)
trap 'rm -rf -- "$work"' EXIT
mkdir -p "$work/sheets"
python3 "$here/sheets.py" fuzz "$seed" "$count" "$work/sheets"

agreed=0
differed=0
for ((number = seed; number < seed + count; number++)); do
    sheet=$work/sheets/$number.sheet
    ours=0
    theirs=0
    "$baseline" <"$sheet" >"$work/baseline.txt" || ours=$?
    "$program" <"$sheet" >"$work/program.txt" || theirs=$?
    if [ "$ours" = "$theirs" ] && cmp -s "$work/baseline.txt" "$work/program.txt"; then
        agreed=$((agreed + 1))
        continue
    fi
    differed=$((differed + 1))
    mkdir -p "$kept"
    cp "$sheet" "$kept/$number.sheet"
    cp "$work/baseline.txt" "$kept/$number.baseline.txt"
    cp "$work/program.txt" "$kept/$number.program.txt"
    echo "differ: $kept/$number.sheet (exit status $ours of the baseline, $theirs of the program)"
done

echo "$agreed of $count agreed, $differed differed"
[ "$differed" = 0 ]
