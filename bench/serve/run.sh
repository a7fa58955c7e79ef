#!/usr/bin/env bash
# Reads the control state over the loopback interface, with one client and with eight, each of which
# waits for its responses, from `meter_server serve` and from a bare server in plain Rust (rustc -O)
# that sends the same bytes and does nothing else. Prints the requests per second of both and the
# ratio; and the processor time of the servers per request and the ratio, which other load on the
# machine disturbs less. Times are medians of the runs, since single runs vary. METER_SERVER names
# another executable than the proved one.
#
# usage: run.sh [REQUESTS [RUNS]]     (default: 40,000 requests in a run, 15 runs)
set -eu
here=$(cd "$(dirname "$0")" && pwd)
top=$(cd "$here/../.." && pwd)
proved=${METER_SERVER:-$top/crates/meter_server_cli/out/meter_server_cli}
[ -x "$proved" ] || { echo "$proved is missing: run bin/build first" >&2; exit 1; }
work=$(mktemp -d)
trap 'rm -rf "$work"' EXIT
for program in echo load; do
    rustc --edition 2021 -O -o "$work/$program" "$here/$program.rs"
done
python3 - "$proved" "$work/echo" "$work/load" "${1:-40000}" "${2:-15}" <<'PY'
import os, re, statistics, subprocess, sys

proved, echo, load, requests, rounds = sys.argv[1], sys.argv[2], sys.argv[3], int(sys.argv[4]), int(sys.argv[5])
OPTIONS = ["--listen", "127.0.0.1:0", "--password", "12345678", "--verbose"]

def begun(name, clients):
    """Starts a server; returns it and its port."""
    if name == "bare":
        server = subprocess.Popen([echo], stdin=subprocess.PIPE, stdout=subprocess.PIPE)
        return server, int(server.stdout.readline())
    words = [proved, "serve", *OPTIONS, "--connections", str(clients)]
    server = subprocess.Popen(words, stdin=subprocess.PIPE, stdout=subprocess.DEVNULL, stderr=subprocess.PIPE)
    return server, int(re.fullmatch(rb"\S+ listening on .*:(\d+)\n", server.stderr.readline())[1])

def run(name, clients):
    """The time of a run, and the processor time of the server, in microseconds per request."""
    server, port = begun(name, clients)
    each = requests // clients
    made = subprocess.run([load, str(port), str(clients), str(each)], stdout=subprocess.PIPE, check=True)
    server.stdin.close()
    _, status, spent = os.wait4(server.pid, 0)
    server.returncode = os.waitstatus_to_exitcode(status)
    if server.returncode:
        sys.exit("the %s server ended with status %d" % (name, server.returncode))
    return int(made.stdout) / 1e3 / (each * clients), (spent.ru_utime + spent.ru_stime) * 1e6 / (each * clients)

print("clients  serve requests/s  bare server requests/s  ratio   serve us a request  bare server us a request  ratio   (processor time; median of %d)" % rounds)
for clients in (1, 8):
    taken, worked = {"serve": [], "bare": []}, {"serve": [], "bare": []}
    for _ in range(rounds):
        for name in taken:
            one, other = run(name, clients)
            taken[name].append(one)
            worked[name].append(other)
    taken, worked = ({name: statistics.median(times) for name, times in all.items()} for all in (taken, worked))
    speeds = (1e6 / taken["serve"], 1e6 / taken["bare"], taken["bare"] / taken["serve"])
    costs = (worked["serve"], worked["bare"], worked["bare"] / worked["serve"])
    print("%7d  %16.0f  %22.0f  %5.2f   %18.1f  %24.1f  %5.2f" % (clients, *speeds, *costs))
PY
