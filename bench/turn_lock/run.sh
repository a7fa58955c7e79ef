#!/bin/sh
# Times calls through the turn lock and through a Mutex with 1, 2, 4 and 11 threads, and prints the
# nanoseconds of a call and the ratios. Needs rt and rustc, and proves the benchmark first.
set -e
here=$(cd "$(dirname "$0")" && pwd)
top=$(cd "$here/../.." && pwd)
work=$(mktemp -d)
trap 'rm -rf "$work"' EXIT
rustc -O -o "$work/mutex" "$here/mutex.rs"
program=$("$top/bench/.program" turn_lock turn_lock_bench)
for round in 1 2 3; do
    "$program" time > "$work/lock.$round"
    "$work/mutex" > "$work/mutex.$round"
done
cat "$work"/lock.* > "$work/lock"
cat "$work"/mutex.? > "$work/mutex.all"
awk '
    NF == 5 { n = $2; key = $1; if (!(key in lock) || $3 / n < lock[key]) lock[key] = $3 / n; if (!(key in own) || $5 / n < own[key]) own[key] = $5 / n }
    NF == 3 { key = $1; if (!(key in rust) || $3 / $2 < rust[key]) rust[key] = $3 / $2 }
    END {
        print "threads  turn_lock  Rattle Mutex  Rust Mutex   (ns a call, best of 3)   to Rattle Mutex  to Rust Mutex"
        split("1 2 4 11", counts)
        for (k = 1; k <= 4; k++) {
            i = counts[k]
            printf "%7d  %9.1f  %12.1f  %10.1f %43.2f  %13.2f\n", i, lock[i], own[i], rust[i], lock[i] / own[i], lock[i] / rust[i]
        }
    }' "$work/lock" "$work/mutex.all"
