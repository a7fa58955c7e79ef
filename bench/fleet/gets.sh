#!/usr/bin/env bash
# Reads the control state over the loopback interface, with eight clients and with 64, each of which
# waits for its responses: from `meter_fleet serve`, eight clients a meter, and from a bare server
# in plain Rust (rustc -O) with one event loop over epoll that sends the same bytes and does nothing
# else; with eight clients from `meter_server serve`, too, which has no more sessions. Prints the
# requests per second and the processor time of the server per request, which other load on the
# machine disturbs less: medians of the runs, since single runs vary, and the ratios to the bare
# server. METER_FLEET and METER_SERVER name other executables than the proved ones.
#
# usage: gets.sh [REQUESTS [RUNS]]     (default: 64,000 requests in a run, 15 runs)
set -eu
here=$(cd "$(dirname "$0")" && pwd)
top=$(cd "$here/../.." && pwd)
fleet=${METER_FLEET:-$top/crates/meter_fleet_cli/out/meter_fleet_cli}
serve=${METER_SERVER:-$top/crates/meter_server_cli/out/meter_server_cli}
for it in "$fleet" "$serve"; do
    [ -x "$it" ] || { echo "$it is missing: run bin/build and bin/build meter_fleet first" >&2; exit 1; }
done
work=$(mktemp -d)
trap 'rm -rf "$work"' EXIT
rustc --edition 2021 -O -o "$work/echo" "$here/echo.rs"
rustc --edition 2021 -O -o "$work/load" "$here/../serve/load.rs"
python3 - "$fleet" "$serve" "$work/echo" "$work/load" "${1:-64000}" "${2:-15}" <<'PY'
import os, re, statistics, subprocess, sys

fleet, serve, echo, load, requests, rounds = *sys.argv[1:5], int(sys.argv[5]), int(sys.argv[6])
WORDS = {
    "fleet": [fleet, "serve", "--meters", "8", "--mode", "1", "--listen", "0.0.0.0", "--port", "0"],
    "serve": [serve, "serve", "--listen", "127.0.0.1:0"],
}

def begun(name):
    """Starts a server; returns it and its port."""
    if name == "bare":
        server = subprocess.Popen([echo], stdout=subprocess.PIPE)
        return server, int(server.stdout.readline())
    words = [*WORDS[name], "--password", "12345678", "--verbose"]
    server = subprocess.Popen(words, stdin=subprocess.PIPE, stdout=subprocess.DEVNULL, stderr=subprocess.PIPE)
    return server, int(re.search(rb"listening on .*:(\d+)\n", server.stderr.readline())[1])

def run(name, clients):
    """The time of a run, and the processor time of the server, in microseconds per request."""
    server, port = begun(name)
    each = requests // clients
    made = subprocess.run([load, str(port), str(clients), str(each)], stdout=subprocess.PIPE, check=True)
    server.kill()
    _, _, spent = os.wait4(server.pid, 0)
    server.returncode = 0
    return int(made.stdout) / 1e3 / (each * clients), (spent.ru_utime + spent.ru_stime) * 1e6 / (each * clients)

print(f"clients  server  requests/s  of the bare  us a request  of the bare   (processor time; median of {rounds})")
for clients, names in ((8, ("bare", "fleet", "serve")), (64, ("bare", "fleet"))):
    taken, worked = ({name: [] for name in names} for _ in range(2))
    for _ in range(rounds):
        for name in names:
            one, other = run(name, clients)
            taken[name].append(one)
            worked[name].append(other)
    for name in names:
        one, other = (statistics.median(times[name]) for times in (taken, worked))
        speed, cost = (statistics.median(times["bare"]) for times in (taken, worked))
        print(f"{clients:7}  {name:6}  {1e6 / one:10.0f}  {speed / one:11.2f}  {other:12.2f}  {other / cost:11.2f}")
PY
