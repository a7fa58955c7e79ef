#!/usr/bin/env bash
# The figures of the library for C: code size of a program with all exports (x86-64, and 64-bit ARM
# if its compiler is installed), heap of one session and of eight, the stack bound that Rattle's own
# compiler reports, and the time of a GET through the handle with the pool, and through
# `serve_session` in Rattle, and of a save to simulated flash.
set -eu
here=$(cd "$(dirname "$0")" && pwd)
top=$(cd "$here/../.." && pwd)
work=$(mktemp -d)
trap 'rm -rf "$work"' EXIT
build() { (cd "$top/crates/meter" && rt lib "$@" > "$work/log" 2>&1) || { cat "$work/log" >&2; exit 1; }; }
code() { "$1" -A "$2" | awk '$1 ~ /^\.(text|rodata)/ { sum += $2 } END { print sum }'; }
sources=("$here/figures.c" "$top/firmware/heap_pool.c" "$top/examples/firmware/"{stored_meter,slots,flash_simulated}.c)
includes=(-I"$top/crates/meter/include" -I"$top/firmware" -I"$top/examples/firmware")
if command -v aarch64-linux-gnu-gcc > /dev/null; then
    build --target aarch64-unknown-linux-gnu
    echo "code and constants of libmeter.a, 64-bit ARM: $(code aarch64-linux-gnu-size "$top/crates/meter/out/libmeter.a") bytes"
    if command -v qemu-aarch64 > /dev/null; then
        aarch64-linux-gnu-gcc -static -std=c11 -O2 "${includes[@]}" -o "$work/figures" "${sources[@]}" "$top/crates/meter/out/libmeter.a"
        qemu-aarch64 "$work/figures" | sed -n '/ns (best/!s/^/64-bit ARM: /p'
    fi
fi
build --backend rattle
grep -o 'frame-bytes=[^ ]* stack-bytes=[^ ]*' "$work/log" | tail -1
build
echo "code and constants of libmeter.a, x86-64: $(code size "$top/crates/meter/out/libmeter.a") bytes"
cc -std=c11 -O2 "${includes[@]}" -o "$work/figures" "${sources[@]}" "$top/crates/meter/out/libmeter.a"
"$work/figures"
echo "a GET through serve_session, and in the plain program: $("$top/bench/session/run.sh" 200000 get | grep ^whole)"
