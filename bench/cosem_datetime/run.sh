#!/bin/sh
# Times the search of a day for entries: the proved program, and a plain loop over the seconds of
# the day in Rust (rustc -O).
set -eu
here=$(cd "$(dirname "$0")" && pwd)
work=$(mktemp -d)
trap 'rm -r "$work"' EXIT
rustc -O -o "$work/naive" "$here/naive.rs"
program=$("$here/../.program" cosem_datetime cosem_datetime_bench)
"$program" time
"$work/naive"
