#!/usr/bin/env bash
# Times `meter_server apdu` and a plain program in Rust (rustc -O) that does the same over 100,000
# lines, and prints the ratio. An input has at most 1,048,576 bytes, so there are three inputs.
set -eu
here=$(cd "$(dirname "$0")" && pwd)
top=$(cd "$here/../.." && pwd)
proved="$top/crates/meter_server_cli/out/meter_server_cli"
[ -x "$proved" ] || { echo "$proved is missing: run bin/build first" >&2; exit 1; }
work=$(mktemp -d)
trap 'rm -rf "$work"' EXIT
rustc -O -o "$work/plain" "$here/plain.rs"
python3 - "$proved" "$work/plain" <<'PY'
import subprocess, sys, time

proved, plain = sys.argv[1], sys.argv[2]
kinds = [
    b"C001C10046000060030AFF0300", b"C101C10046000060030AFF04001601", b"C301C10046000060030AFF0100",
    b"C301C10046000060030AFF0200", b"C001C1000100002A0000FF0200", b"C001C10046000060030BFF0200", b"C001",
]
inputs, line = [], 0
for count in (33334, 33333, 33333):
    lines = [kinds[(line + i) % len(kinds)] for i in range(count)]
    inputs.append(b"\n".join(lines) + b"\n")
    line += count

def total(program, words):
    seconds, outputs = 0.0, []
    for text in inputs:
        start = time.perf_counter()
        run = subprocess.run([program, *words], input=text, capture_output=True, check=True)
        seconds += time.perf_counter() - start
        outputs.append(run.stdout)
    return seconds, outputs

best = {}
for _ in range(15):
    for name, program, words in (("proved", proved, ["apdu"]), ("plain", plain, [])):
        seconds, outputs = total(program, words)
        best[name] = min(best.get(name, (seconds, outputs)), (seconds, outputs), key=lambda pair: pair[0])
if best["proved"][1] != best["plain"][1]:
    sys.exit("apdu: the outputs of the two programs differ")
print(f"100,000 lines: proved {best['proved'][0]:.3f} s, plain {best['plain'][0]:.3f} s, "
      f"ratio {best['proved'][0] / best['plain'][0]:.2f} (best of 15, three inputs each)")
PY
