#!/usr/bin/env python3
"""Plays traces of which a line is replaced or left out, with the proved trace player: each is
accepted, or refused at the expected line. Most of these lines are of the opening. They were written
by hand by docs/TRACE.md.

usage: tests/opening_rows.py
"""
import re
import subprocess
import sys

sys.dont_write_bytecode = True  # importing the modules of tests/ leaves no files

from core_rows import NEW_METER as NEW_METER_2
from core_rows import PLAYER, TOP

# The trace of docs/TRACE.md.
WORKED = TOP / "crates" / "trace_player_cli" / "stdin"
# A new meter, in version 1, which has no export limiter.
NEW_METER = ["RELAYTRACE 1", *[line for line in NEW_METER_2[1:] if not line.startswith("x")]]
# One whose last sample is the greatest.
GREATEST = [*NEW_METER[:4], "value 4294967295", *NEW_METER[5:]]
# A meter with settings of its own, in version 2. Script 1 disconnects, and schedule 1 runs it at
# the last second of each month.
SET_METER = [
    "RELAYTRACE 2", "device 00", "state 2", "mode 4", "value 10", "now 828282828", "normal 5000", "emergency 1000", "minover 60", "minunder 5",
    "profile 7 07D00101FF00012800800000 3600", "groups 7 65535", "actions 1 2", "over 3 0", "under 0 0", "xvalue 0", "xnormal 9", "xemergency 8",
    "xminover 7", "xminunder 6", "xprofile 0 FFFFFFFFFFFFFFFFFF8000FF 0", "xgroups", "xactions 3 4", "xover 0 0", "xunder 42949672950 1",
    "scripts 010102021200010101020516021200460906000060030AFF0F010F00", "schedule 0 3 5 0100",
    "schedule 1 1 1 010102020904173B3B000905FFFFFFFEFF", "schedule 2 0 2 0100", "schedule 3 65535 4 0100",
]

# What a group of rows shows, the opening, and rows: the number of the line that is replaced, the
# line at which the opening is then refused (None: it is accepted), and lines, each in its place.
ROWS = [
    ("the version is 1 or 2; the line after the import limiter is one of the export limiter in version 2 only", NEW_METER, [
        (1, 1, [
            "", "RELAYTRACE", "RELAYTRACE 0", "RELAYTRACE 3", "RELAYTRACE 01", "RELAYTRACE 1 1", "RELAYTRACE  1", "relaytrace 1", "RELAYTRACE 1 ",
            "RELAYTRACE\t1", "RELAYTRACE 1\r"]),
        (1, 16, ["RELAYTRACE 2"]),
    ]),
    ("a device name has 1 to 16 bytes", NEW_METER, [
        (2, None, ["device 00", "device 000102030405060708090A0B0C0D0E0F"]),
        (2, 2, ["device", "device ", "device 000102030405060708090A0B0C0D0E0F10", "device 0a", "device 0A0", "device 0A 0B", "Device 0A"]),
    ]),
    ("mode 0 goes with state 1 alone", NEW_METER, [
        (3, 3, ["state", "state 3", "state 01", "state 1 1", "state -"]),
        (4, 4, ["mode", "mode 7", "mode 00", "mode 0 0", "mode\t0"]),
        (4, None, ["mode 0", "mode 3", "mode 6"]),
        (3, 4, ["state 0"]),
    ]),
    ("values are of 32 bits", NEW_METER, [
        (5, 5, ["value", "value 4294967296", "value 00", "value 0 0", "value  0", "value -", "value\t0", "value 0\r", "xvalue 0"]),
        (6, 6, ["now", "now --", "now - -", "now 4294967296", "now 05"]),
        (7, 7, ["normal", "normal 4294967296", "xnormal 1", "normal 1 1"]),
        (8, 8, ["emergency", "emergency 01", "xemergency 1"]),
        (9, 9, ["minover", "minover 4294967296", "minunder 0"]),
        (10, 10, ["minunder", "minunder 0 ", "minover 0"]),
        (5, None, ["value 4294967295"]),
        (6, None, ["now 0", "now 4294967295"]),
    ]),
    ("an emergency profile has three words", NEW_METER, [
        (11, None, ["profile 65535 07D00101FF00012800800000 4294967295"]),
        (11, 11, [
            "profile 0 FFFFFFFFFFFFFFFFFF8000 0", "profile 0 FFFFFFFFFFFFFFFFFF8000FFFF 0", "profile 0 FFFFFDFFFFFFFFFFFF8000FF 0",
            "profile 65536 FFFFFFFFFFFFFFFFFF8000FF 0", "profile 0 ffFFFFFFFFFFFFFFFF8000FF 0", "profile 0 FFFFFFFFFFFFFFFFFF8000FF 4294967296",
            "profile 0 FFFFFFFFFFFFFFFFFF8000FF", "profile 0 FFFFFFFFFFFFFFFFFF8000FF 0 0", "xprofile 0 FFFFFFFFFFFFFFFFFF8000FF 0"]),
    ]),
    ("a limiter has up to 32 groups", NEW_METER, [
        (12, None, ["groups 1 1 1 1 1 1 1 1 1 1 1 1 1 1 1 1 1 1 1 1 1 1 1 1 1 1 1 1 1 1 1 1"]),
        (12, 12, [
            "groups 1 1 1 1 1 1 1 1 1 1 1 1 1 1 1 1 1 1 1 1 1 1 1 1 1 1 1 1 1 1 1 1 1", "groups 65536", "groups 1 01", "groups ", "groups  1",
            "xgroups"]),
        (13, None, ["actions 65535 1"]),
        (13, 13, ["actions", "actions 0", "actions 0 65536", "actions 0 0 0", "actions 00 0", "xactions 0 0"]),
    ]),
    ("runs are such as samples give", NEW_METER, [
        (14, 14, ["over", "over 0", "over 0 1", "over 1 0", "over 0 2", "over 0 0 0", "over 42949672950 0", "over 42949672951 1", "xover 0 0"]),
        (15, 15, ["under", "under 0", "under 0 1", "under 42949672950 0", "under 42949672951 1", "xunder 0 0"]),
        (15, None, ["under 1 0", "under 42949672949 1"]),
    ]),
    ("a script table is read as it is written", NEW_METER, [
        (16, None, ["scripts 0101020212FFFF0100"]),
        (16, 16, [
            "scripts 018100", "scripts 010000", "scripts 01", "scripts 0301", "scripts 01010100", "scripts 010102021200000100", "scripts",
            "scripts -", "scripts 0100 0100", "xscripts 0100"]),
    ]),
    ("schedules come in their order", NEW_METER, [
        (17, 17, [
            "schedule 1 0 5 0100", "schedule 4 0 5 0100", "schedule 00 0 5 0100", "schedule 0 65536 5 0100", "schedule 0 0 0 0100",
            "schedule 0 0 6 0100", "schedule 0 0 5 018100", "schedule 0 0 5 0301", "schedule 0 0 5 01010100",
            "schedule 0 0 5 010102020904183B3B000905FFFFFFFEFF", "schedule 0 0 5", "schedule 0 0 5 0100 0"]),
        (18, 18, ["schedule 0 0 5 0100", "schedule 2 0 5 0100"]),
        (19, 19, ["schedule 1 0 5 0100", "schedule 3 0 5 0100"]),
        (20, 20, ["schedule 2 0 5 0100", "events 0"]),
    ]),
    ("version 1 has no lines of an export limiter", SET_METER, [
        (1, 16, ["RELAYTRACE 1"]),
    ]),
    ("mode 0 is refused in state 2", SET_METER, [
        (4, 4, ["mode 0"]),
    ]),
    ("with a run over the threshold there is none under it", SET_METER, [
        (14, None, ["over 1 0", "over 1 1", "over 42949672950 1", "over 0 0"]),
        (14, 14, ["over 0 1", "over 42949672950 0", "over 42949672951 1"]),
        (15, 15, ["under 1 0", "under 1 1"]),
    ]),
    ("lines of the export limiter begin with an x", SET_METER, [
        (16, 16, ["value 0", "xxvalue 0", "xvalue 00", "xvalue"]),
        (17, 17, ["normal 9", "xnormal 4294967296"]),
        (18, 18, ["emergency 8", "Xemergency 8"]),
        (19, 19, ["minover 7", "xminover 07"]),
        (20, 20, ["minunder 6", "xminunder 6 6"]),
        (21, 21, ["profile 0 FFFFFFFFFFFFFFFFFF8000FF 0", "xprofile 0 FFFFFFFFFFFFFFFFFF8000 0"]),
        (22, 22, ["groups", "xgroups 65536", "x groups"]),
        (23, 23, ["actions 3 4", "xactions 3"]),
        (24, 24, ["over 0 0", "xover 1 0", "xover 0 1"]),
        (25, 25, ["under 0 0", "xunder 42949672950 0", "xunder 0 1"]),
    ]),
    ("the greatest export lies under no threshold", SET_METER, [
        (16, 25, ["xvalue 4294967295"]),
    ]),
    ("the greatest value lies under no threshold", GREATEST, [
        (15, 15, ["under 1 0"]),
        (14, None, ["over 1 0"]),
    ]),
]


# Lines that replace one of the worked trace of docs/TRACE.md, whose events are its lines 22 to 30,
# and the line at which the trace is then refused. A trace of version 1 has no pairs.
WORKED_ROWS = [
    (21, "events 8", 30), (21, "events 10", 31), (21, "events 65537", 21), (21, "events --", 21), (21, "events - ", 21), (21, "events -1", 21),
    (21, "events", 21), (21, "event -", 21), (21, "-", 21), (24, "press", 24), (28, "pairs 0 5001", 28),
]

# What follows a journal of a new meter in version 2, whose line 31 has the events, and the number
# of events that are then read, or the line that is wrong: what follows the last whole line and what
# follows a zero is left out.
JOURNAL_ROWS = [
    (b"\n", 0, None), (b"\nbutton\n", 1, None), (b"\nbutton", 0, None), (b"\nbutton\nmoment 5\nmom", 2, None), (b"\n\n", None, 32),
    (b"\n\0button\n", 0, None), (b"\nbutton\n\0\n", 1, None), (b"\nbut\0on\nbutton\n", 0, None), (b"\nbutton\nmoment 7\n\0\0\0", 2, None),
    (b"\nbutton\nmoment 07\nbutton\n", None, 33), (b"", None, 31),
]

# Texts that end before an opening does, and the line at which each is refused.
SHORT = [("", 1), ("RELAYTRACE 1", 1), ("RELAYTRACE 1\n", 2)]


def play(lines):
    """The line at which a trace of these lines and no event is refused, or None if it is
    accepted."""
    return play_text("".join(f"{line}\n" for line in [*lines, "events 0"]))


def play_text(text):
    """The line at which a trace is refused, or None if it is accepted and has no event."""
    ran = subprocess.run([PLAYER, "--verbose"], input=text.encode(), capture_output=True, timeout=60)
    if (ran.returncode, ran.stdout, ran.stderr) == (0, b"", b""):
        return None
    found = re.fullmatch(r"line (\d+): .*\nfault: input\n", ran.stderr.decode())
    return int(found[1]) if ran.returncode == 2 and not ran.stdout and found else ran


def replaced_lines():
    """Whether each opening with another line is accepted, or refused where it must be."""
    for title, opening, rows in ROWS:
        for number, wanted, lines in rows:
            for line in lines:
                found = play([*opening[:number - 1], line, *opening[number:]])
                yield f"{title}: {line!r}", found == wanted, found


def missing_lines():
    """Whether each opening without one of its lines is refused there."""
    for opening in (NEW_METER, SET_METER):
        yield f"{opening[0]}: the whole opening", play(opening) is None, None
        for number in range(1, len(opening) + 1):
            found = play([*opening[:number - 1], *opening[number:]])
            yield f"{opening[0]}: without line {number}", found == number, found
    for text, number in SHORT:
        found = play_text(text)
        yield f"{text!r} alone", found == number, found


def worked_rows():
    """Whether the worked trace is refused where a line is replaced, an event is missing, or its last
    line is not ended."""
    lines = WORKED.read_text().splitlines()
    for number, line, wanted in WORKED_ROWS:
        found = play_text("".join(f"{it}\n" for it in [*lines[:number - 1], line, *lines[number:]]))
        yield f"the worked trace with {line!r}", found == wanted, found
    for number in range(1, 31):
        # Without one of its events, the text ends at the line of the last one.
        wanted = number if number < 22 else 30
        found = play_text("".join(f"{it}\n" for it in [*lines[:number - 1], *lines[number:]]))
        yield f"the worked trace without line {number}", found == wanted, found
    found = play_text("\n".join(lines))
    yield "the worked trace with a last line that is not ended", found == 30, found


def journal_rows():
    """Whether a journal has the expected number of events, or is refused at the expected line."""
    head = "\n".join([*NEW_METER_2, "events -"]).encode()
    for rest, count, number in JOURNAL_ROWS:
        ran = subprocess.run([PLAYER, "--verbose"], input=head + rest, capture_output=True, timeout=60)
        found = re.match(rb"line (\d+): ", ran.stderr)
        if count is None:
            is_so = (ran.returncode, ran.stdout) == (2, b"") and found and int(found[1]) == number
        else:
            is_so = ran.returncode == 0 and ran.stdout.count(b"\n") == count
        yield f"a journal with {rest!r}", bool(is_so), ran


def main():
    if not PLAYER.exists():
        print(f"{PLAYER} is missing: run bin/build or bin/test")
        print("0 passed, 1 failed")
        return 1
    passed, failed = 0, 0
    for name, is_so, found in (*replaced_lines(), *missing_lines(), *worked_rows(), *journal_rows()):
        passed, failed = passed + is_so, failed + (not is_so)
        if not is_so:
            print(f"FAILED opening_rows: {name}: {found}")
    print(f"{passed} passed, {failed} failed")
    return 1 if failed else 0


if __name__ == "__main__":
    sys.exit(main())
