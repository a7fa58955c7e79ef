#!/bin/sh
# Plays a trace in memory (a meter in mode 1 and events of mixed kinds) with the proved crates and
# with a plain Rust program. Prints the times and the ratio, and the memory that trace_player uses
# for this trace above that for a trace of one event, with the length of the trace. The fastest of
# five runs counts.
#
# usage: run.sh [EVENTS]     (default and maximum: 65,536)
set -e
here=$(cd "$(dirname "$0")" && pwd)
events=${1:-65536}
work=$(mktemp -d)
trap 'rm -rf "$work"' EXIT
rustc --edition 2021 -O -o "$work/plain" "$here/plain.rs" 2> "$work/warnings" || { cat "$work/warnings"; exit 1; }
program=$("$here/../.program" trace trace_player_bench)
for _ in 1 2 3 4 5; do
    "$program" "$events" >> "$work/proved.txt"
    "$work/plain" "$events" >> "$work/plain.txt"
done
if [ "$(grep -h ' in, ' "$work/proved.txt" "$work/plain.txt" | sort -u | wc -l)" != 1 ]; then
    echo "trace: the outputs of the two programs differ" >&2
    exit 1
fi
fastest() { sed -n "s/played in \([0-9]*\) us/\1/p" "$work/$1.txt" | sort -n | head -1; }
proved=$(fastest proved)
plain=$(fastest plain)
grep -h ' in, ' "$work/proved.txt" | head -1
echo "proved $proved us, plain $plain us, ratio $(awk "BEGIN { printf \"%.2f\", $proved / $plain }")"
player="$here/../../crates/trace_player_cli/out/trace_player_cli"
# (started by a small process, since the peak includes the memory before exec)
held() {
    "$work/plain" "$1" text > "$work/trace"
    /usr/bin/time -o "$work/held" -f %M "$player" < "$work/trace" > /dev/null
    cat "$work/held"
}
if [ -x /usr/bin/time ] && [ -x "$player" ]; then
    least=$(held 1)
    most=$(held "$events")
    echo "the player holds $((most - least)) KiB of a trace of $(($(wc -c < "$work/trace") / 1024)) KiB"
else
    echo "SKIPPED memory of the player: needs $player (bin/build) and /usr/bin/time (Debian: apt-get install time)"
fi
