"""Runs programs with one allocation, thread, read, write, sync or accept refused. tests/refusing.c,
which the toolchain's compiler builds, is preloaded between the program and the C library."""

import os
import pathlib
import subprocess
import tempfile
from typing import NamedTuple

from serving import PATIENCE, TOP, wait_until

SOURCE = TOP / "tests" / "refusing.c"
TARGET = "--target=x86_64-unknown-linux-gnu"


class Ran(NamedTuple):
    """The result of a program, and the numbers of its allocations, reads and writes, writes to a
    stream or file that had failed, connections, threads and syncs."""

    status: int
    output: bytes
    errors: bytes
    allocations: int
    streams: int
    late: int
    connections: int
    threads: int
    syncs: int


def toolchain():
    """The folder of the toolchain's compiler and C library."""
    page = subprocess.run(["rt", "doc"], capture_output=True, text=True, check=True, timeout=PATIENCE).stdout.strip()
    return pathlib.Path(page).parent / "toolchain"


def library_in(folder):
    """Builds the library that refuses calls."""
    kit = toolchain()
    made, linked = folder / "refusing.o", folder / "refusing.so"
    for words in ([kit / "bin" / "clang", TARGET, f"--sysroot={kit}", "--no-default-config", "-O1", "-fPIC", "-c", SOURCE, "-o", made],
                  [kit / "bin" / "ld.lld", "-shared", "-o", linked, made, kit / "lib" / "libc.so.6"]):
        subprocess.run([str(word) for word in words], check=True, timeout=PATIENCE)
    return linked


class Refusing:
    """The library that refuses calls, in a folder of its own, and the programs that run with it."""

    def __init__(self):
        self.kept = tempfile.TemporaryDirectory()
        self.folder = pathlib.Path(self.kept.name)
        self.library = library_in(self.folder)
        self.report = self.folder / "report"

    def environment(self, **which):
        """The environment in which one call is refused: `refuse_memory`, `refuse_thread`,
        `fail_stream`, `short_stream`, `interrupt_stream`, `fail_sync`, `fail_log` or `fail_accept`,
        with the number of the call; `accept_error` is the error of the last."""
        self.report.unlink(missing_ok=True)
        named = {name.upper(): str(number) for name, number in which.items()}
        return {"LD_PRELOAD": str(self.library), "REFUSING_REPORT": str(self.report), **named}

    def wait_for_end_of_input(self):
        """Waits until the program has read the end of its standard input, or has failed to."""
        wait_until(self.report.exists, pause=0.001)

    def counts(self):
        """The counts of the last program; zeros if it was killed."""
        try:
            return [int(number) for number in self.report.read_text().split()]
        except FileNotFoundError:
            return [0, 0, 0, 0, 0, 0]

    def run(self, words, text=b"", **which):
        environment = {**os.environ, **self.environment(**which)}
        ran = subprocess.run([str(word) for word in words], input=text, capture_output=True, timeout=PATIENCE, env=environment)
        return Ran(ran.returncode, ran.stdout, ran.stderr, *self.counts())

    def stop(self):
        self.kept.cleanup()


def call_numbers(count, is_long):
    """The numbers of the calls to refuse, of `count`: all, or the first eight, the last eight and
    about eight between."""
    if is_long or count <= 24:
        return range(1, count + 1)
    between = range(9, count - 7, max(1, (count - 16) // 8))
    return [*range(1, 9), *between, *range(count - 7, count + 1)]
