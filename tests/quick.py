#!/usr/bin/env python3
"""Builds the programs without proofs, and runs most scripts of tests/ over them, as many at once as
there are processors: what `bin/test --quick` does. NOTHING IS PROVED: `bin/test` is the gate.

usage: python3 tests/quick.py

A script that is not run is named, with why. The last line is `N passed, M failed (unproved)`.
"""
import os
import pathlib
import re
import subprocess
import sys
import time
from concurrent.futures import ThreadPoolExecutor

sys.dont_write_bytecode = True
TOP = pathlib.Path(__file__).resolve().parent.parent
PROGRAMS = ("meter_server", "head_end", "trace_player", "meter_fleet", "run_tests")
PATIENCE = 1_200
# Scripts that run one after the other, since they listen at fixed ports; the longer ones first.
LANES = [
    ["unproved.py"], ["fleet.py", "readme.py"], ["journal.py"], ["campaigns.py --short"], ["charts.py"], ["hostile.py"],
    ["campaign_reports.py"], ["sessions.py"], ["command_lines.py"], ["service.py"], ["refused_memory.py"], ["serving.py"],
    ["wireshark.py"], ["failing_streams.py"], ["relay.py"], ["codec_rows.py"], ["clients.py"], ["core_rows.py"],
    ["object_rows.py"], ["opening_rows.py"], ["../bin/manuals --check"], ["tables.py"], ["links.py"], ["prose.py"], ["examples.py"],
]
LEFT_OUT = {
    "wrong_bodies_reports.py": "it judges proofs",
    "firmware.py": "the C library is built with its proof",
    "planted.py": "it shows that this run fails over a wrong body",
    "installing.py": "only proved programs are installed",
    "ledger.py": "200 killed campaigns take longer than all the rest",
    "campaign_ledgers.py": "it takes longer than all the rest",
    "fuzz.py": "bin/test --long runs it",
}


def run(script):
    """Runs a script; returns its name, status, seconds and what it printed."""
    began = time.monotonic()
    words = [sys.executable, *f"{TOP}/tests/{script}".split(" ")]
    try:
        ran = subprocess.run(words, stdin=subprocess.DEVNULL, stdout=subprocess.PIPE, stderr=subprocess.STDOUT, text=True, errors="replace",
                             timeout=PATIENCE, env={**os.environ, "WESPLINA_UNPROVED": "1"})
        status, text = ran.returncode, ran.stdout
    except subprocess.TimeoutExpired as late:
        status, text = 1, f"{(late.stdout or b'').decode(errors='replace')}\nFAILED {script}: not done after {PATIENCE} s\n"
    return script, status, time.monotonic() - began, text


def counts_of(text):
    """How many checks have passed and failed, by the last line of a script."""
    found = re.findall(r"(?m)^(\d+) passed, (\d+) failed$", text)
    return (int(found[-1][0]), int(found[-1][1])) if found else (0, 1)


def are_all_named():
    """Whether each script that the gate runs is run here or left out; names those that are not."""
    run_here = {script.split(" ")[0] for lane in LANES for script in lane}
    missing = set(re.findall(r"python3 tests/(\w+\.py)", (TOP / "bin" / "test").read_text())) - run_here - {"quick.py", *LEFT_OUT}
    for it in sorted(missing):
        print(f"FAILED quick: {it} is neither run nor left out")
    return not missing


def main():
    began = time.monotonic()
    built = subprocess.run([f"{TOP}/bin/build", "--unproved", *PROGRAMS], stdout=subprocess.DEVNULL)
    if built.returncode or not are_all_named():
        print("0 passed, 1 failed (unproved)")
        return 1
    passed = failed = 0
    with ThreadPoolExecutor(len(os.sched_getaffinity(0))) as pool:
        for lane in pool.map(lambda lane: [run(it) for it in lane], LANES):
            for script, status, seconds, text in lane:
                more, wrong = counts_of(text)
                wrong = max(wrong, int(status != 0))
                print(f"{script}: {more} passed, {wrong} failed, {seconds:.0f} s", flush=True)
                if wrong:
                    print(text[-10_000:], flush=True)
                passed, failed = passed + more, failed + wrong
    for script, why in LEFT_OUT.items():
        print(f"not run: {script}: {why}")
    print(f"{(time.monotonic() - began) / 60:.1f} minutes; nothing is proved: bin/test is the gate")
    print(f"{passed} passed, {failed} failed (unproved)")
    return 1 if failed else 0


if __name__ == "__main__":
    sys.exit(main())
