#!/bin/sh
# Reads and writes a text of 8,192 bytes with 255 nested items, by the proved crate and by a plain
# Rust program, and prints the times and the ratio. The fastest of five runs counts.
#
# usage: run.sh [ROUNDS]     (default: 20,000)
set -e
here=$(cd "$(dirname "$0")" && pwd)
rounds=${1:-20000}
work=$(mktemp -d)
trap 'rm -rf "$work"' EXIT
rustc -O -o "$work/plain" "$here/plain.rs" 2> "$work/warnings" || { cat "$work/warnings"; exit 1; }
program=$("$here/../.program" cosem_axdr cosem_axdr_bench)
for _ in 1 2 3 4 5; do
    "$program" "$rounds" >> "$work/proved.txt"
    "$work/plain" "$rounds" >> "$work/plain.txt"
done
fastest() { sed -n "s/.*$1 \([0-9]*\) ns.*/\1/p" "$work/$2.txt" | sort -n | head -1; }
for what in read write; do
    proved=$(fastest $what proved)
    plain=$(fastest $what plain)
    echo "$what: proved $proved ns, plain $plain ns, ratio $(awk "BEGIN { printf \"%.2f\", $proved / $plain }")"
done
