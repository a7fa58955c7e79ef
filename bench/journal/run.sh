#!/usr/bin/env bash
# What a journal costs `meter_server serve`. One client and eight, each of which waits for its
# responses, write the control mode of a server with a journal, and read the control state of one
# with a journal and of one without. Prints the answers per second, the processor time of the
# servers per GET, and the number of SETs that share a sync. Next to that the machine alone: the
# time to append 40 bytes to a file and to sync it by fdatasync, 1,000 times. All times are medians
# of the runs, since single runs vary. METER_SERVER names another executable than the proved one.
# The journals are in a new folder of TMPDIR, which must be on a disk: on a tmpfs a sync costs
# nothing. With SYNC the servers' syncs take that many microseconds each, as on a slower disk, and
# sync nothing.
#
# usage: run.sh [SETS [GETS [RUNS [SYNC]]]]
#
# (default: 500 SETs of each client and 40,000 GETs of all in a run, 15 runs, the disk's own sync)
set -eu
here=$(cd "$(dirname "$0")" && pwd)
top=$(cd "$here/../.." && pwd)
proved=${METER_SERVER:-$top/crates/meter_server_cli/out/meter_server_cli}
[ -x "$proved" ] || { echo "$proved is missing: run bin/build first" >&2; exit 1; }
work=$(mktemp -d)
trap 'rm -rf "$work"' EXIT
rustc --edition 2021 -O -o "$work/load" "$top/bench/serve/load.rs"
cc -O2 -Wall -shared -fPIC -o "$work/slow_sync.so" "$here/slow_sync.c"
echo "file system: $(stat -f -c %T "$work")"
python3 - "$proved" "$work" "${1:-500}" "${2:-40000}" "${3:-15}" "${4:-0}" <<'PY'
import os, pathlib, re, statistics, subprocess, sys, time

proved, work, sets, gets, rounds, slow = sys.argv[1], pathlib.Path(sys.argv[2]), *map(int, sys.argv[3:7])
OPTIONS = ["--listen", "127.0.0.1:0", "--password", "12345678", "--verbose"]
SYNCS, LINE = 1_000, b"set 1 70 000060030AFF 4 0 1602 ........\n"

def begun(has_journal, clients):
    """Starts a server, with a new journal or without one; returns it and its port."""
    for name in ("journal", "journal.lock", "journal.new"):
        (work / name).unlink(missing_ok=True)
    words = [proved, "serve", *OPTIONS, "--connections", str(clients), *["--journal", work / "journal"] * has_journal]
    settings = {"LD_PRELOAD": work / "slow_sync.so", "SLOW_SYNC": str(slow), "SYNC_REPORT": work / "syncs"}
    server = subprocess.Popen(words, env={**os.environ, **settings}, stdin=subprocess.PIPE, stdout=subprocess.DEVNULL, stderr=subprocess.PIPE)
    return server, int(re.fullmatch(rb"\S+ listening on .*:(\d+)\n", server.stderr.readline())[1])

def run(has_journal, clients, each, kind):
    """The time of a run and the processor time of the server, in microseconds per request, and the
    requests per sync."""
    server, port = begun(has_journal, clients)
    made = subprocess.run([work / "load", str(port), str(clients), str(each), *kind], stdout=subprocess.PIPE, check=True)
    server.stdin.close()
    _, status, spent = os.wait4(server.pid, 0)
    server.returncode = os.waitstatus_to_exitcode(status)
    if server.returncode:
        sys.exit("the server ended with status %d" % server.returncode)
    if kind and (work / "journal").read_bytes().count(b"\nset 1 ") != each * clients:
        sys.exit("the journal does not have each SET once")
    all = each * clients
    return int(made.stdout) / 1e3 / all, (spent.ru_utime + spent.ru_stime) * 1e6 / all, all / max(1, int((work / "syncs").read_text()))

def sync():
    """The time to append a line to a file and to sync it, in microseconds."""
    with open(work / "probe", "wb", buffering=0) as file:
        begun = time.perf_counter()
        for _ in range(SYNCS):
            file.write(LINE)
            time.sleep(slow / 1e6) if slow else os.fdatasync(file.fileno())
        return (time.perf_counter() - begun) * 1e6 / SYNCS

assert len(LINE) == 40
NAMES = {"set": (True, ["set"]), "get": (True, []), "plain": (False, [])}
taken, worked, shared, synced = {}, {}, {}, []
for _ in range(rounds):
    synced.append(sync())
    for clients in (1, 8):
        for name, (has_journal, kind) in NAMES.items():
            figures = run(has_journal, clients, sets if kind else gets // clients, kind)
            for all, one in zip((taken, worked, shared), figures):
                all.setdefault((name, clients), []).append(one)
taken, worked, shared = ({key: statistics.median(ones) for key, ones in all.items()} for all in (taken, worked, shared))
synced = statistics.median(synced)
print("an append of 40 bytes and its fdatasync: %.1f us, %.0f a second (median of %d runs of %d)" % (synced, 1e6 / synced, rounds, SYNCS))
print("clients  SETs/s with a journal  GETs/s with a journal  GETs/s without  time ratio   us a GET with  us a GET without  ratio   (processor time)")
for clients in (1, 8):
    written, read, plain = (taken[name, clients] for name in NAMES)
    costs = worked["get", clients], worked["plain", clients]
    print("%7d  %21.0f  %21.0f  %14.0f  %10.3f   %13.1f  %16.1f  %5.2f" % (clients, 1e6 / written, 1e6 / read, 1e6 / plain, read / plain, *costs, costs[0] / costs[1]))
print("SETs of eight clients against those of one: %.2f times; SETs a sync: %.2f and %.2f" % (taken["set", 1] / taken["set", 8], shared["set", 8], shared["set", 1]))
PY
