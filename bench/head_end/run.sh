#!/usr/bin/env bash
# Runs campaigns of 1,000 jobs with a scripted meter on this machine, by `head_end run` and by a
# plain program in Rust (rustc -O) that sends the same bytes, with 1, 4 and 16 workers. Prints the
# jobs per second of both and the ratio; the processor time per job of both and the ratio, which
# other load on the machine disturbs less; and the peak memory of `head_end` in a campaign of 16
# workers. Times are medians of the runs, since single runs vary. HEAD_END names another executable
# than the proved one.
#
# usage: run.sh [RUNS]     (default: 31)
set -eu
here=$(cd "$(dirname "$0")" && pwd)
top=$(cd "$here/../.." && pwd)
proved=${HEAD_END:-$top/crates/head_end_cli/out/head_end_cli}
[ -x "$proved" ] || { echo "$proved is missing: run bin/build first" >&2; exit 1; }
work=$(mktemp -d)
trap 'rm -rf "$work"' EXIT
for program in plain peer; do
    rustc --edition 2021 -O -o "$work/$program" "$here/$program.rs"
done
python3 - "$proved" "$work/plain" "$work/peer" "${1:-31}" <<'PY'
import fcntl, os, resource, statistics, subprocess, sys, time

proved, plain, peer, rounds = sys.argv[1], sys.argv[2], sys.argv[3], int(sys.argv[4])
JOBS = 1000
F_SETPIPE_SZ = 1031
environment = {**os.environ, "METER_PASSWORD": "12345678"}
meter = subprocess.Popen([peer], stdin=subprocess.PIPE, stdout=subprocess.PIPE)
port = int(meter.stdout.readline())
# names of 32 bytes, so that the report does not fit a small pipe
names = [f"meter{number:027d}" for number in range(JOBS)]
# an address for each job: jobs of one address run one after the other
addresses = [f"127.0.{place // 250}.{place % 250 + 1}:{port}" for place in range(JOBS)]
jobs = "".join(f"{name} {address} {'reconnect' if place % 2 else 'disconnect'}\n"
               for place, (name, address) in enumerate(zip(names, addresses))).encode()
wanted = "".join(f"{name} done 0\n" for name in names).encode()

def processor_seconds():
    spent = resource.getrusage(resource.RUSAGE_CHILDREN)
    return spent.ru_utime + spent.ru_stime

def seconds(words):
    """The time of a campaign, and its processor time."""
    start, worked = time.perf_counter(), processor_seconds()
    made = subprocess.run(words, input=jobs, stdout=subprocess.PIPE, stderr=subprocess.DEVNULL,
                          check=True, env=environment)
    taken, worked = time.perf_counter() - start, processor_seconds() - worked
    if made.stdout != wanted:
        sys.exit(f"{words[0]}: expected `NAME done 0` for each job, found another report")
    return taken, worked

def most_memory(words):
    """The peak resident memory in KiB, read while the program waits to write the end of its report to a
    pipe of 4,096 bytes."""
    running = subprocess.Popen(words, stdin=subprocess.PIPE, stdout=subprocess.PIPE, env=environment)
    fcntl.fcntl(running.stdout, F_SETPIPE_SZ, 4096)
    running.stdin.write(jobs)
    running.stdin.close()
    begun = running.stdout.read(1)
    status = dict(line.split(":", 1) for line in open(f"/proc/{running.pid}/status"))
    report = begun + running.stdout.read()
    if running.wait() or report != wanted:
        sys.exit(f"{words[0]}: expected `NAME done 0` for each job, found another report")
    return {key: int(status[key].split()[0]) for key in ("VmHWM", "RssAnon", "RssFile")}

print("workers  head_end jobs/s  plain Rust jobs/s  ratio   head_end us a job  plain Rust us a job  ratio   (processor time; median of %d)" % rounds)
for workers in (1, 4, 16):
    both = {"proved": [proved, "run", "--workers", str(workers)], "plain": [plain, str(workers)]}
    taken, worked = {name: [] for name in both}, {name: [] for name in both}
    for _ in range(rounds):
        for name, words in both.items():
            one, other = seconds(words)
            taken[name].append(one)
            worked[name].append(other)
    taken, worked = ({name: statistics.median(times) for name, times in all.items()} for all in (taken, worked))
    speeds = (JOBS / taken["proved"], JOBS / taken["plain"], taken["plain"] / taken["proved"])
    costs = (worked["proved"] / JOBS * 1e6, worked["plain"] / JOBS * 1e6, worked["plain"] / worked["proved"])
    print("%7d  %15.0f  %17.0f  %5.2f   %17.1f  %19.1f  %5.2f" % (workers, *speeds, *costs))
memory = most_memory([proved, "run", "--workers", "16"])
print("peak memory of a campaign of 1,000 jobs and 16 workers: %(VmHWM)d KiB; at its end %(RssAnon)d KiB anonymous and %(RssFile)d KiB of files" % memory)
meter.stdin.close()
meter.wait()
PY
