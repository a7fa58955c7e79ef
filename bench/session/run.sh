#!/bin/sh
# Serves sessions in memory with the proved crates and with a plain Rust program, and prints the
# time of a unit of work and the ratio. A unit is a framed GET of the state of the switch, with the
# bytes in pieces of up to 1,024 (whole) and one by one (single); with the bytes in pieces, a SET of
# the mode, an ACTION of the switch, a GET of a list of ten, and a transfer of the object list in 13
# blocks. Both programs run 25 times alternately, and the fastest run counts.
#
# usage: run.sh [COUNT [KIND..]]    (default: 100000 get set action list blocks)
#
# The plain program of GETs is plain.rs, which knows GETs alone; that of the others is
# plain_kinds.rs.
# A session has COUNT GETs, SETs or ACTIONs, a tenth of that of lists, a hundredth of transfers.
set -e
here=$(cd "$(dirname "$0")" && pwd)
times=${1:-100000}
[ $# -eq 0 ] || shift
kinds=${*:-get set action list blocks}
rounds=25
work=$(mktemp -d)
trap 'rm -rf "$work"' EXIT
compile() { rustc --edition 2021 -O "$@" 2> "$work/warnings" || { cat "$work/warnings"; exit 1; }; }
compile -o "$work/plain" "$here/plain.rs"
compile -C codegen-units=1 -o "$work/plain_kinds" "$here/plain_kinds.rs"
program=$("$here/../.program" session meter_server_bench)

fastest() { sed -n "s/.*$1 \([0-9]*\) ns.*/\1/p" "$2" | sort -n | head -1; }

# ratio LABEL KIND HOW: prints the fastest runs of a kind, with the bytes whole or single.
ratio() {
    proved=$(fastest "$3" "$work/proved.$2")
    plain=$(fastest "$3" "$work/plain.$2")
    echo "$1: proved $proved ns, plain $plain ns, ratio $(awk "BEGIN { printf \"%.2f\", $proved / $plain }")"
}

for kind in $kinds; do
    case $kind in
        list) count=$((times / 10)) ;;
        blocks) count=$((times / 100)) ;;
        *) count=$times ;;
    esac
    for _ in $(seq $rounds); do
        "$program" "$count" "$kind" >> "$work/proved.$kind"
        case $kind in
            get) "$work/plain" "$count" ;;
            *) "$work/plain_kinds" "$count" "$kind" ;;
        esac >> "$work/plain.$kind"
    done
    for program_name in proved plain; do
        right=$(grep -c "^answered rightly: true, and byte by byte: true$" "$work/$program_name.$kind" || true)
        if [ "$right" != "$rounds" ]; then
            echo "session: the $program_name program, $kind: expected $rounds runs with right answers, found $right" >&2
            exit 1
        fi
    done
    case $kind in
        get)
            ratio whole get whole
            ratio single get single
            ;;
        *) ratio "$kind" "$kind" whole ;;
    esac
done
