#!/usr/bin/env bash
# Counts the instructions of PROGRAM and of the baseline on sheets of 16, 32 and 64 KB of each game.
#
#   count.sh PROGRAM
set -euo pipefail

if [ $# -ne 1 ]; then
    echo "usage: count.sh PROGRAM" >&2
    exit 2
fi
program=$(realpath -- "$1")
here=$(cd -- "$(dirname -- "$0")" && pwd)
baseline=$here/baseline/target/release/baseline

cargo build --release --quiet --manifest-path "$here/baseline/Cargo.toml"
work=$(mktemp -d)
trap 'rm -rf -- "$work"' EXIT

# The total of instructions of one program on one sheet; its output is kept for comparison.
instructions() {
    valgrind --tool=callgrind --callgrind-out-file=/dev/null "$1" <"$2" >"$3" 2>"$work/valgrind.txt" || {
        cat "$work/valgrind.txt" >&2
        return 1
    }
    awk '/Collected/ { print $NF }' "$work/valgrind.txt"
}

row='%-5s %7d %15d %15d %7.2f\n'
printf '%-5s %7s %15s %15s %7s\n' game bytes settle baseline ratio

# An empty sheet: what it costs to start and end.
settled=$(instructions "$program" /dev/null "$work/program.txt")
plain=$(instructions "$baseline" /dev/null "$work/baseline.txt")
awk -v row="$row" -v a="$settled" -v b="$plain" 'BEGIN { printf row, "-", 0, a, b, a / b }'

for game in 1 2 3 4; do
    for size in 16384 32768 65536; do
        sheet=$work/$game.$size.sheet
        python3 "$here/sheets.py" "$game" "$size" >"$sheet"
        settled=$(instructions "$program" "$sheet" "$work/program.txt")
        plain=$(instructions "$baseline" "$sheet" "$work/baseline.txt")
        awk -v row="$row" -v game="$game" -v bytes="$(wc -c <"$sheet")" -v a="$settled" -v b="$plain" \
            'BEGIN { printf row, game, bytes, a, b, a / b }'
        echo "$game $size $settled $plain" >>"$work/counts"
        if ! cmp -s "$work/program.txt" "$work/baseline.txt"; then
            echo "the two print different lines for game $game at $size bytes" >&2
            touch "$work/different"
        fi
    done
done

echo
echo 'growth when the sheet doubles (2.00 is in step with the sheet)'
printf '%-5s %-14s %15s %15s\n' game from settle baseline
awk '{
        if ($1 == game)
            printf "%-5d %2d to %2d KB    %15.2f %15.2f\n", $1, size / 1024, $2 / 1024, $3 / a, $4 / b
        game = $1; size = $2; a = $3; b = $4
        total_a[$2] += $3; total_b[$2] += $4
    }
    END {
        for (size = 16384; size < 65536; size *= 2)
            printf "%-5s %2d to %2d KB    %15.2f %15.2f\n", "all", size / 1024, 2 * size / 1024,
                total_a[2 * size] / total_a[size], total_b[2 * size] / total_b[size]
    }' "$work/counts"
[ ! -e "$work/different" ]
