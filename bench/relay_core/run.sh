#!/bin/sh
# Times a moment of the clock in the proved core: it evaluates four schedules of 16 entries, none of
# which matches, over the day since the last moment. Prints the nanoseconds of a moment, a schedule
# and an entry; then those of a block of 256 samples of which none, 16 or all fire, and of a firing.
# The fastest of five runs counts.
#
# usage: run.sh [ROUNDS]     (ROUNDS of 40,000 days, and of 1,000 blocks of each kind; default: 10)
set -e
here=$(cd "$(dirname "$0")" && pwd)
rounds=${1:-10}
work=$(mktemp -d)
trap 'rm -rf "$work"' EXIT
program=$("$here/../.program" relay_core relay_core_bench)
for _ in 1 2 3 4 5; do
    "$program" "$rounds" >> "$work/proved.txt"
done
moment=$(sed -n 's/^moment \([0-9]*\) ns.*/\1/p' "$work/proved.txt" | sort -n | head -1)
awk "BEGIN { printf \"a moment: %d ns, a schedule %.1f ns, an entry %.1f ns\n\", $moment, $moment / 4, $moment / 64 }"
fastest() {
    sed -n "s/^block of $1 firings \([0-9]*\) ns.*/\1/p" "$work/proved.txt" | sort -n | head -1
}
quiet=$(fastest 0)
some=$(fastest 16)
all=$(fastest 256)
awk "BEGIN { printf \"a block of 256 samples: %d ns without firings, %d ns with 16, %d ns with 256; a firing %.1f ns\\n\", $quiet, $some, $all, ($all - $quiet) / 256 }"
