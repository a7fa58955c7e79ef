#!/usr/bin/env bash
# Measures what a ledger costs: campaigns of 1,000 switching jobs by `head_end run`, with `--ledger`
# and without, in turn.
#
# - Meters that answer at once, with 1, 4 and 16 workers: the milliseconds per job that the ledger
#   adds. Next to it the time of a write of 4,096 bytes with `fdatasync` to a file in the same
#   folder, measured before each campaign: a job has two such writes, its mark and its outcome.
# - Meters that take 100 ms for a command, with 16 workers: the jobs per second with a ledger,
#   divided by those without.
#
# Each job has an address of its own in 127.0.0.0/8: jobs of one address run one after the other.
# Each time is the median of the runs. HEAD_END names another executable than the proved one; the
# ledgers are made in FOLDER.
#
# usage: run.sh [RUNS [FOLDER]]     (default: 5, and a new folder in the temporary one)
set -eu
here=$(cd "$(dirname "$0")" && pwd)
top=$(cd "$here/../.." && pwd)
proved=${HEAD_END:-$top/crates/head_end_cli/out/head_end_cli}
[ -x "$proved" ] || { echo "$proved is missing: run bin/build first" >&2; exit 1; }
work=$(mktemp -d)
trap 'rm -rf "$work"' EXIT
rustc --edition 2021 -O -o "$work/peer" "$top/bench/head_end/peer.rs"
python3 - "$proved" "$work/peer" "${1:-5}" "${2:-$work}" <<'PY'
import os, statistics, subprocess, sys, tempfile, time

proved, peer, rounds, folder = sys.argv[1], sys.argv[2], int(sys.argv[3]), sys.argv[4]
JOBS = 1000
WRITES = 200
environment = {**os.environ, "METER_PASSWORD": "12345678"}

def write_milliseconds():
    """The median time of a write of a page with `fdatasync`, in a file that has the page."""
    times = []
    with tempfile.TemporaryFile(dir=folder, buffering=0) as file:
        file.write(bytes(4096 * WRITES))
        os.fsync(file.fileno())
        for number in range(WRITES):
            start = time.perf_counter()
            os.pwrite(file.fileno(), bytes([1]) * 4096, 4096 * number)
            os.fdatasync(file.fileno())
            times.append(time.perf_counter() - start)
    return 1000 * statistics.median(times)

def seconds(port, workers, ledger):
    """The time of a campaign."""
    verbs = ("disconnect", "reconnect")
    jobs = "".join(f"m{number} 127.0.{number // 250}.{number % 250 + 1}:{port} {verbs[number % 2]}\n"
                   for number in range(JOBS))
    words = [proved, "run", "--workers", str(workers), *(["--ledger", ledger] if ledger else [])]
    start = time.perf_counter()
    made = subprocess.run(words, input=jobs.encode(), stdout=subprocess.PIPE, stderr=subprocess.DEVNULL,
                          check=True, env=environment)
    taken = time.perf_counter() - start
    if made.stdout != "".join(f"m{number} done 0\n" for number in range(JOBS)).encode():
        sys.exit("expected `NAME done 0` for each job, found another report")
    return taken

def compare(milliseconds, workers):
    """The median times of campaigns without and with a ledger, and of a write next to them."""
    meter = subprocess.Popen([peer, str(milliseconds)], stdin=subprocess.PIPE, stdout=subprocess.PIPE)
    port = int(meter.stdout.readline())
    without, with_one, writes = [], [], []
    for _ in range(rounds):
        writes.append(write_milliseconds())
        without.append(seconds(port, workers, None))
        with tempfile.TemporaryDirectory(dir=folder) as place:
            with_one.append(seconds(port, workers, f"{place}/ledger"))
    meter.stdin.close()
    meter.wait()
    return [statistics.median(times) for times in (without, with_one, writes)]

for workers in (1, 4, 16):
    without, with_one, write = compare(0, workers)
    print(f"at once, {workers:2} workers: {1000 * without / JOBS:.2f} ms a job, with a ledger "
          f"{1000 * with_one / JOBS:.2f} ms: {1000 * (with_one - without) / JOBS:.2f} ms more; "
          f"a write with fdatasync takes {write:.2f} ms")
without, with_one, write = compare(100, 16)
print(f"100 ms, 16 workers: {JOBS / without:.1f} jobs a second, with a ledger {JOBS / with_one:.1f}: "
      f"{without / with_one:.2f} of those; a write with fdatasync takes {write:.2f} ms")
PY
