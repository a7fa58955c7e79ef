#!/bin/sh
# Times `classify`, `classify_plain` and plain loops in Rust over blocks of samples in the cache,
# for the processor that the kit compiles for. Needs rt and rustc.
#
# usage: run.sh [ROUNDS [SAMPLES]]     (SAMPLES of a block, at most 256)
set -eu
here=$(cd "$(dirname "$0")" && pwd)
rounds=${1:-20000}
size=${2:-256}
built=$(mktemp -d)
trap 'rm -r "$built"' EXIT
rustc -O -C target-cpu=x86-64-v2 -o "$built/plain" "$here/plain.rs"
program=$("$here/../.program" lane_sampler lane_sampler_bench)
for _ in 1 2 3 4 5 6 7; do
    "$built/plain" "$rounds" "$size"
    "$program" "$rounds" "$size"
done > "$built/runs"
# The fastest of seven runs of each. Equal checksums show that all made the same masks.
awk '{ if (!($1 in ns) || $3 + 0 < ns[$1]) ns[$1] = $3 + 0; sums[$2] = 1 }
    END { for (sum in sums) different++
        if (different != 1) { print "lane_sampler: the checksums of the programs differ"; exit 1 }
        printf "classify %.1f ns a block, classify_plain %.1f, Rust plain loop %.1f, by words %.1f\n", ns["lanes"], ns["plain"], ns["rust"], ns["rust_by_words"]
        printf "time of classify over time of the plain Rust loop: %.2f\n", ns["lanes"] / ns["rust"]
        printf "time of classify over time of the Rust loop by words: %.2f\n", ns["lanes"] / ns["rust_by_words"] }' "$built/runs"
