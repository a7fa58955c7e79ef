#!/usr/bin/env bash
# Switches all meters of a fleet by bin/campaign, and asks them for their states: `meter_fleet serve`
# on this machine, parts of 1,000 jobs by GNU parallel or as an array of Slurm. Prints for each
# campaign the time, the jobs per second, the processor time of both sides and their time per job,
# and the memory of the fleet. Each row of each report must be `done 0`. METER_FLEET and HEAD_END
# name other executables than the proved ones. With --slurm the cluster is the one that sbatch finds
# (SLURM_CONF), or else one of one node that is started here.
#
# usage: run.sh [--slurm] [METERS [PARTS [WORKERS]]]
#        (default: 10,000 meters, 4 parts in parallel, each with 16 workers)
set -eu
here=$(cd "$(dirname "$0")" && pwd)
top=$(cd "$here/../.." && pwd)
fleet=${METER_FLEET:-$top/crates/meter_fleet_cli/out/meter_fleet_cli}
head_end=${HEAD_END:-$top/crates/head_end_cli/out/head_end_cli}
for it in "$fleet" "$head_end"; do
    [ -x "$it" ] || { echo "$it is missing: run bin/build and bin/build meter_fleet first" >&2; exit 1; }
done
slurm=
[ "${1-}" != --slurm ] || { slurm=--slurm; shift; }
work=$(mktemp -d)
trap 'rm -rf "$work"' EXIT
python3 -B - "$top" "$fleet" "$head_end" "$work" "${1:-10000}" "${2:-4}" "${3:-16}" $slurm <<'PY'
import contextlib, os, pathlib, re, resource, subprocess, sys, time

top, fleet, head_end, work, meters, parts, workers, *slurm = sys.argv[1:]
top, work, meters = pathlib.Path(top), pathlib.Path(work), int(meters)
sys.path.insert(0, str(top / "tests"))
from one_node_slurm import Slurm, missing_commands

PASSWORD, TICKS = "12345678", os.sysconf("SC_CLK_TCK")

# (a part's processor time, also if Slurm runs it; the program's own output is passed on)
counted = work / "head_end"
counted.write_text(f"""#!/bin/bash
TIMEFORMAT='%U %S'
[ "$1" = run ] || exec {head_end} "$@"
{{ time {head_end} "$@" 2>&3; }} 3>&2 2>> {work}/times
""")
counted.chmod(0o700)

def address(meter):
    return "127." + ".".join(map(str, meter.to_bytes(3, "big")))

def processor_seconds(process):
    words = open(f"/proc/{process}/stat").read().rsplit(")", 1)[1].split()
    return (int(words[11]) + int(words[12])) / TICKS

def memory(process):
    """The resident memory and its peak, in KiB."""
    text = open(f"/proc/{process}/status").read()
    return [int(re.search(rf"{it}:\s+(\d+)", text)[1]) for it in ("VmRSS", "VmHWM")]

def campaign(server, port, verb):
    """Runs a campaign over all meters and prints its figures."""
    jobs = work / "jobs"
    with jobs.open("w") as file:
        for meter in range(1, meters + 1):
            file.write(f"m{meter} {address(meter)}:{port} {verb}\n")
    (work / "times").write_text("")
    words = [str(top / "bin" / "campaign"), *slurm, "--jobs", parts, "--workers", workers, "--program", str(counted), str(jobs)]
    begun, served = time.monotonic(), processor_seconds(server)
    with (work / "report").open("w") as report:
        ran = subprocess.run(words, stdin=subprocess.DEVNULL, stdout=report, env={**os.environ, "METER_PASSWORD": PASSWORD})
    taken, served = time.monotonic() - begun, processor_seconds(server) - served
    with (work / "report").open() as report:
        rows = sum(line == f"m{number} done 0\n" for number, line in enumerate(report, 1))
    if ran.returncode or rows != meters:
        sys.exit(f"{verb}: status {ran.returncode}, {rows:,} of {meters:,} rows are `done 0`")
    asked = sum(float(it) for it in (work / "times").read_text().split())
    resident, peak = memory(server)
    print(f"{verb}: {meters:,} jobs in {taken:.1f} s: {meters / taken:,.0f} jobs/s; processor time: fleet {served:.1f} s ({1e6 * served / meters:.0f} us per job), "
          f"head ends {asked:.1f} s ({1e6 * asked / meters:.0f} us per job); fleet: {resident:,} KiB ({1024 * resident / meters:,.0f} bytes per meter), at most {peak:,} KiB", flush=True)

def main():
    words = [fleet, "serve", "--meters", str(meters), "--password", PASSWORD, "--mode", "1", "--listen", "0.0.0.0", "--port", "0", "--verbose"]
    server = subprocess.Popen(words, stdin=subprocess.DEVNULL, stderr=subprocess.PIPE, text=True)
    try:
        port = int(re.search(r":(\d+)$", server.stderr.readline().strip())[1])
        print(f"{meters:,} meters, {parts} parts in parallel, {workers} workers each, {'Slurm' if slurm else 'GNU parallel'}; "
              f"{os.cpu_count()} processors; fleet before: {memory(server.pid)[0]:,} KiB", flush=True)
        for verb in ("disconnect", "state"):
            campaign(server.pid, port, verb)
    finally:
        server.kill()
        server.wait()

_, most = resource.getrlimit(resource.RLIMIT_NOFILE)
resource.setrlimit(resource.RLIMIT_NOFILE, (most, most))
if not slurm or os.environ.get("SLURM_CONF"):
    main()
    sys.exit()
if missing := missing_commands():
    sys.exit(f"Slurm: {', '.join(missing)} not installed")
cluster = Slurm(work / "slurm")
try:
    if not cluster.start():
        sys.exit(f"the daemons of Slurm accept no tasks: {cluster.errors()}")
    os.environ["SLURM_CONF"] = str(cluster.configuration)
    main()
finally:
    cluster.stop()
PY
