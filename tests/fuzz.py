#!/usr/bin/env python3
"""Fuzzes the standard input of the executables that the gate left, from stored inputs:
`meter_server apdu` and `hex`, `trace_player`, `head_end check`. Looks for crashes, hangs,
unexpected statuses and messages, and for results that differ between an input in one piece and byte
by byte, or between the executables of the two compilers. If AFL++ is installed (Debian: apt-get
install afl++), it gets half of the time; else its part is skipped with a message.

usage: tests/fuzz.py [--minutes N] [--seed N]     (default: one minute; findings go to tests/corpus/)"""

import argparse
import collections
import os
import pathlib
import random
import shutil
import subprocess
import sys
import tempfile
import time

sys.dont_write_bytecode = True  # importing the modules of tests/ leaves no files

import serving
from campaigns import HEAD_END
from command_lines import AARQ, CASES, GET_STATE, MANAGEMENT_AARQ, TRACE
from serving import PASSWORD, PLAYER, SERVER, TOP, check

CORPUS = TOP / "tests" / "corpus"
SLOWEST = 10  # the time limit of a run, in seconds
LONGEST_SEED = 4_096  # the maximum length of a stored input that is changed, in bytes
FAULTS = (b"fault: input\n",)  # the standard error of a run with a wrong input


def stored_inputs(words):
    """The inputs of the stored command lines of a program and command."""
    return [text for _, program, given, text, _, _, _ in CASES if (program, given[:1]) == words and 0 < len(text) <= LONGEST_SEED]


def correct_event_count(text):
    """A trace with its line `events` corrected."""
    head, word, rest = text.partition(b"\nevents ")
    events = rest.partition(b"\n")[2]
    return head + word + b"%d\n" % events.count(b"\n") + events if word else text


# The targets: name, program, arguments, whether the input is hexadecimal (then its bytes are
# changed), and seeds.
TARGETS = [
    ("meter_server apdu", SERVER, ["apdu"], True, stored_inputs(("meter_server_cli", ["apdu"]))),
    ("meter_server hex", SERVER, ["hex", "--password", PASSWORD], True, [AARQ + GET_STATE, MANAGEMENT_AARQ] + stored_inputs(("meter_server_cli", ["hex"]))),
    ("trace_player", PLAYER, [], False, [TRACE] + stored_inputs(("trace_player_cli", []))),
    ("head_end check", HEAD_END, ["check"], False, stored_inputs(("head_end_cli", ["check"]))),
]
INTERESTING = (0, 1, 2, 0x0F, 0x7F, 0x80, 0x81, 0x82, 0x84, 0xFE, 0xFF, 0x09, 0x0A, 0x20, 0x30, 0x39, 0x60, 0xC0, 0xC1, 0xC3)


def mutate(text, chance, others):
    """A text with a few changes."""
    text = bytearray(text)
    for _ in range(chance.choice((1, 1, 2, 4, 16))):
        at = chance.randrange(len(text) + 1)
        what = chance.randrange(8)
        if what == 0 and text:
            text[at % len(text)] ^= 1 << chance.randrange(8)
        elif what == 1 and text:
            text[at % len(text)] = chance.choice(INTERESTING)
        elif what == 2:
            text[at:at] = bytes(chance.choice(INTERESTING) for _ in range(chance.randrange(1, 9)))
        elif what == 3:
            del text[at:at + chance.randrange(1, 9)]
        elif what == 4:
            piece = text[at:at + chance.randrange(1, 40)]
            text[at:at] = piece * chance.choice((1, 2, 8))
        elif what == 5:
            other = chance.choice(others)
            start = chance.randrange(len(other) + 1)
            text[at:at + chance.randrange(40)] = other[start:start + chance.randrange(1, 80)]
        elif what == 6:
            del text[at:]
        else:
            other = bytes(chance.randrange(256) for _ in range(chance.randrange(1, 5)))
            text[at:at + len(other)] = other
    return bytes(text[:4 * LONGEST_SEED])


def mutate_lines(text, chance):
    """A text with digits changed, and lines repeated, removed or moved."""
    lines = text.split(b"\n")
    for _ in range(chance.choice((1, 1, 2, 3))):
        at = chance.randrange(len(lines))
        what = chance.randrange(4)
        if what == 0:
            lines.insert(chance.randrange(len(lines)), lines[at])
        elif what == 1 and len(lines) > 2:
            del lines[at]
        elif lines[at]:
            line = bytearray(lines[at])
            places = [place for place, byte in enumerate(line) if byte in b"0123456789"] or [0]
            line[chance.choice(places)] = chance.choice(b"0123456789")
            lines[at] = bytes(line)
    return b"\n".join(lines)


def lines_of(text, chance):
    """The bytes in hexadecimal, in one or two lines."""
    digits = text.hex().upper().encode()
    if chance.randrange(2):
        return digits + b"\n"
    at = 2 * chance.randrange(len(text) + 1)
    return digits[:at] + b"\n" + digits[at:] + b"\n"


def pieces_of(text):
    """The bytes of lines of hexadecimal; empty if they are not hexadecimal."""
    try:
        return bytes.fromhex(text.decode().replace("\n", " "))
    except ValueError:
        return b""


def run(program, words, text):
    """Runs a program; returns its status, or a text if it exceeds the time limit, and its standard
    output and error."""
    try:
        made = subprocess.run([str(program), *words], input=text, capture_output=True, timeout=SLOWEST)
        return made.returncode, made.stdout, made.stderr
    except subprocess.TimeoutExpired:
        return "exceeds the time limit", b"", b""


def run_by_bytes(program, words, text):
    """Runs a program as `run` does, with its input byte by byte."""
    process = subprocess.Popen([str(program), *words], stdin=subprocess.PIPE, stdout=subprocess.PIPE, stderr=subprocess.PIPE, bufsize=0)
    try:
        for byte in text:
            process.stdin.write(bytes([byte]))
    except BrokenPipeError:
        pass
    try:
        output, errors = process.communicate(timeout=SLOWEST)
    except subprocess.TimeoutExpired:
        process.kill()
        process.wait()
        return "exceeds the time limit", b"", b""
    return process.returncode, output, errors


def is_right(made):
    """Whether a result is valid: success without a fault, or status 2 with `fault: input` and no
    output. Warnings are ignored."""
    status, output, errors = made
    errors = b"".join(line for line in errors.splitlines(True) if b": warning: " not in line)
    return (status == 0 and errors == b"") or (status == 2 and output == b"" and errors in FAULTS)


def keep(title, text):
    """Writes an input to tests/corpus/ under the name of its target; returns the file."""
    CORPUS.mkdir(exist_ok=True)
    place = CORPUS / f"{title.replace(' ', '_')}.{abs(hash(text)) % 10**9}"
    place.write_bytes(text)
    return place


def fuzz(title, program, words, is_hex, seeds, seconds, chance):
    """Runs a program with changed inputs for some seconds; returns the number of each result."""
    found, end, turn = collections.Counter(), time.monotonic() + seconds, 0
    twin = pathlib.Path(f"{program}.by-rattle")
    others = [pieces_of(seed) for seed in seeds] if is_hex else seeds
    others = [seed for seed in others if seed] or [b"\0"]
    while time.monotonic() < end:
        turn += 1
        text = chance.choice(others)
        if is_hex or chance.randrange(4) == 0:
            text = mutate(text, chance, others)
        else:
            text = mutate_lines(text, chance)
            text = correct_event_count(text) if chance.randrange(8) else text
        if is_hex:
            text = lines_of(text, chance)
            if chance.randrange(16) == 0:
                text = mutate(text, chance, [text])
        made = run(program, words, text)
        found["done" if made[0] == 0 else "wrong input" if made[0] == 2 else "WRONG"] += 1
        if not is_right(made):
            check(f"{title}: a valid result", False, made, keep(title, text))
        if len(text) <= 2_000 and turn % 4 == 0:
            found["repeated byte by byte"] += 1
            if run_by_bytes(program, words, text) != made:
                check(f"{title}: the same result byte by byte", False, keep(title, text))
        if twin.exists() and turn % 4 == 2:
            found["repeated with the other compiler"] += 1
            if run(twin, words, text) != made:
                check(f"{title}: the same result with the other compiler", False, keep(title, text))
    return found


def by_afl(title, program, words, seeds, seconds):
    """Fuzzes a program with AFL++ without instrumentation. Returns the number of runs, and the
    numbers of inputs that crash or hang."""
    with tempfile.TemporaryDirectory() as folder:
        folder = pathlib.Path(folder)
        (folder / "in").mkdir()
        for number, seed in enumerate(seeds):
            (folder / "in" / str(number)).write_bytes(seed)
        words = ["afl-fuzz", "-n", "-V", str(int(seconds)), "-t", "2000", "-i", str(folder / "in"), "-o", str(folder / "out"), "--", str(program), *words]
        environment = {**os.environ, "AFL_NO_UI": "1", "AFL_I_DONT_CARE_ABOUT_MISSING_CRASHES": "1", "AFL_SKIP_CPUFREQ": "1", "AFL_NO_AFFINITY": "1"}
        made = subprocess.run(words, stdin=subprocess.DEVNULL, capture_output=True, timeout=seconds + 60, env=environment)
        rows = (folder / "out" / "plot_data").read_text().splitlines() if made.returncode == 0 else []
        if len(rows) < 2:
            return None, made.stdout[-400:] + made.stderr[-400:]
        kept = []
        for kind in ("crashes", "hangs"):
            places = sorted((folder / "out" / kind).glob("id*"))
            kept.append(len(places))
            for place in places:
                keep(f"{title} {kind}", place.read_bytes())
        return int(rows[-1].split(", ")[11]), tuple(kept)


def main():
    """Fuzzes each target for its share of the time. The status is 1 if anything is wrong."""
    parser = argparse.ArgumentParser()
    parser.add_argument("--minutes", type=float, default=1.0)
    parser.add_argument("--seed", type=int, default=1)
    options = parser.parse_args()
    for executable in (SERVER, PLAYER, HEAD_END):
        if not os.access(executable, os.X_OK):
            print(f"{executable} is missing: run bin/test, or `rt run` in its crate")
            print("0 passed, 1 failed")
            return 1
    has_afl = shutil.which("afl-fuzz")
    share = 60 * options.minutes / len(TARGETS) / (2 if has_afl else 1)
    for title, program, words, is_hex, seeds in TARGETS:
        found = fuzz(title, program, words, is_hex, seeds, share, random.Random(options.seed))
        print(f"{title}: " + ", ".join(f"{count:,} {what}" for what, count in sorted(found.items())))
        check(f"{title}: nothing wrong", not found["WRONG"])
        if has_afl:
            count, kept = by_afl(title, program, words, seeds, max(share, 5))
            print(f"{title}: AFL++: {count} runs, (crashes, hangs): {kept}")
            check(f"{title}: AFL++ finds nothing", count is not None and kept == (0, 0), kept)
    if not has_afl:
        print("SKIPPED AFL++: afl-fuzz is not installed")
    print(f"{serving.passed} passed, {serving.failed} failed")
    return 1 if serving.failed else 0


if __name__ == "__main__":
    sys.exit(main())
