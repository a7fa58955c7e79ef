#!/usr/bin/env python3
"""Runs each block of commands in README.md as a script, and compares the output with what README.md
shows. The blocks run in a temporary folder that has links to bin/ and crates/, and what they leave
running is killed.

With WESPLINA_UNPROVED=1 the programs run unproved, and bin/build is left out.

usage: tests/readme.py     (needs the built programs, and port 4059 of the loopback interface)"""
import contextlib
import os
import signal
import socket
import subprocess
import sys
import tempfile
from pathlib import Path

sys.dont_write_bytecode = True  # importing the modules of tests/ leaves no files

from programs import IS_UNPROVED, TOP

SECTIONS = ("First commands", "A session over a socket")
PORT = 4059
LINKS = ("bin", "crates")  # what the blocks use
LONGEST = 300  # the time limit of a block, in seconds


def block_of(text, heading):
    """The indented lines of a section."""
    section = text.split(f"\n## {heading}\n", 1)[1].split("\n## ", 1)[0]
    return [it[4:] for it in section.split("\n") if it.startswith("    ")]


def is_free(port):
    with socket.socket() as it:
        it.setsockopt(socket.SOL_SOCKET, socket.SO_REUSEADDR, 1)
        try:
            it.bind(("127.0.0.1", port))
        except OSError:
            return False
    return True


def run_block(lines, folder):
    """Runs the commands of a block as a script in a folder, and kills what they leave running.
    Returns the lines of standard output, and standard error."""
    script = "\n".join(it[2:] for it in lines if it.startswith("$ ") and not (IS_UNPROVED and it == "$ bin/build"))
    process = subprocess.Popen(["bash", "-c", script], cwd=folder, stdin=subprocess.DEVNULL,
                               stdout=subprocess.PIPE, stderr=subprocess.PIPE, text=True,
                               start_new_session=True)
    late = ""
    try:
        printed, errors = process.communicate(timeout=LONGEST)
    except subprocess.TimeoutExpired:
        late = f"it does not end within {LONGEST} s"
    finally:
        with contextlib.suppress(ProcessLookupError):
            os.killpg(process.pid, signal.SIGKILL)
    if late:
        printed, errors = process.communicate()
    return printed.splitlines(), errors + late


def expected_output(lines):
    return [it for it in lines if not it.startswith("$ ")]


def check(heading, folder):
    """Whether the block of a section prints what it shows, without the paths that `bin/build`
    prints."""
    lines = block_of((TOP / "README.md").read_text(), heading)
    printed, errors = run_block(lines, folder)
    printed = [it for it in printed if not it.startswith(f"{TOP}/crates/")]
    if printed == expected_output(lines):
        return True
    print(f"FAILED readme: {heading}: expected {expected_output(lines)}, found {printed}; standard error: {errors[-2000:]}")
    return False


def main():
    if not is_free(PORT):
        print(f"FAILED readme: port {PORT} is in use")
        print("0 passed, 1 failed")
        return 1
    with tempfile.TemporaryDirectory(prefix="readme-") as folder:
        for it in LINKS:
            Path(folder, it).symlink_to(TOP / it)
        results = [check(it, folder) for it in SECTIONS]
    print(f"{sum(results)} passed, {len(results) - sum(results)} failed")
    return 0 if all(results) else 1


if __name__ == "__main__":
    sys.exit(main())
