#!/usr/bin/env python3
"""Plays tables of events with the proved trace player, and compares each reply, state and supply
with the tables of the standard and the rules of the limiter.

A row is the line of an event and the expected reply (docs/TRACE.md), which the small functions
below make, and the control state after it if that changes. The rows were worked out by hand from
the Blue Book's tables of transitions and the rules of class 71; none comes from the program's
output.
"""

import subprocess
import sys

sys.dont_write_bytecode = True  # importing the modules of tests/ leaves no files

from programs import PLAYER, TOP

MANAGEMENT, PUBLIC = 1, 16

DEVICE_NAME = "1 00002A0000FF"
ASSOCIATION = "15 0000280000FF"
SWITCH = "70 000060030AFF"
SCRIPTS = "9 00000A006AFF"
FIRST_SCHEDULE = "22 00000F0001FF"
IMPORT_LIMITER = "71 0000110000FF"
EXPORT_LIMITER = "71 0001110000FF"
IMPORT_REGISTER = "3 0100010700FF"
EXPORT_REGISTER = "3 0100020700FF"

MODE = f"{SWITCH} 4"
TABLE = f"{SCRIPTS} 2"
IMPORT_NORMAL, EXPORT_NORMAL = f"{IMPORT_LIMITER} 4", f"{EXPORT_LIMITER} 4"
IMPORT_MIN_OVER, EXPORT_MIN_OVER = f"{IMPORT_LIMITER} 6", f"{EXPORT_LIMITER} 6"
IMPORT_MIN_UNDER, EXPORT_MIN_UNDER = f"{IMPORT_LIMITER} 7", f"{EXPORT_LIMITER} 7"
IMPORT_ACTIONS, EXPORT_ACTIONS = f"{IMPORT_LIMITER} 11", f"{EXPORT_LIMITER} 11"
SCHEDULE_SCRIPT, SCHEDULE_TYPE, SCHEDULE_TIMES = (f"{FIRST_SCHEDULE} {number}" for number in (2, 3, 4))

LIMITER = ["normal 4294967295", "emergency 4294967295", "minover 0", "minunder 0", "profile 0 FFFFFFFFFFFFFFFFFF8000FF 0", "groups", "actions 0 0",
           "over 0 0", "under 0 0"]
NEW_METER = ["RELAYTRACE 2", "device 52454C415931", "state 1", "mode 0", "value 0", "now -", *LIMITER, "xvalue 0", *["x" + line for line in LIMITER],
             "scripts 0100", *[f"schedule {number} 0 5 0100" for number in range(4)]]


# Data of the standard, as bytes.
def long_number(number):
    """A double-long-unsigned as a trace writes it."""
    return f"06{number:08X}"


def mode(number):
    """The enum of a mode as a trace writes it."""
    return f"16{number:02X}"


def step(service, what, number, parameter):
    """A step of a script: 1 writes the attribute, 2 executes the method."""
    kind, name = what.split()
    return f"020516{service:02X}12{int(kind):04X}0906{name}0F{number:02X}{parameter}"


def scripts(**steps_of):
    """A script table; the name of a script is s and its identifier."""
    table = "".join(f"020212{int(name[1:]):04X}01{len(steps):02X}{''.join(steps)}" for name, steps in steps_of.items())
    return f"01{len(steps_of):02X}{table}"


def actions(over, under):
    """The actions of a limiter, by the selectors of their two scripts."""
    return "0202" + "".join(f"0202090600000A006AFF12{selector:04X}" for selector in (over, under))


DISCONNECT, RECONNECT = step(2, SWITCH, 1, "0F00"), step(2, SWITCH, 2, "0F00")
WRITE_MODE_0 = step(1, SWITCH, 4, mode(0))


def limit(which, watts):
    """The step that writes threshold_normal of a limiter."""
    return step(1, which, 4, long_number(watts))


# Rows.
def write(place, data, code=0, client=MANAGEMENT):
    """The event of a SET by a client, and its reply."""
    return f"set {client} {place} 0 {data}", f"code {code}"


def read(place, data):
    """The event of a GET by the management client, and its reply."""
    return f"get {MANAGEMENT} {place} 0", f"value {data}"


def refused_read(place, code, selected=0):
    """The event of a GET that is refused, and its reply."""
    return f"get {MANAGEMENT} {place} {selected}", f"code {code}"


def call(place, code, parameter="-"):
    """The event of an ACTION, and its reply."""
    return f"execute {MANAGEMENT} {place} {parameter}", f"code {code}"


def press(code=0):
    """The event of a press of the button, and its reply."""
    return "button", f"code {code}"


def values(stretches, over, under):
    """A block of import values, from pairs of count and value, and the numbers of firings over and
    under the threshold."""
    return "samples" + "".join(f" {value}" * count for count, value in stretches), f"sampled {over} {under}"


def pairs(count, imported, exported, *fired):
    """A block of equal pairs, and the numbers of firings: import over and under, export over and
    under."""
    return "pairs" + f" {imported} {exported}" * count, "sampled " + " ".join(map(str, fired))


def moment(second, due):
    """The event of a moment at which this number of schedules is due, and its reply."""
    return f"moment {second}", f"ran {due}"


def stale_moment(second, last):
    """The event of a moment that is not after the last one, and its reply."""
    return f"moment {second}", f"stale {last}"


def with_state(row, state):
    """A row that changes the control state."""
    return *row, state


IMPORT_DISCONNECTS = [write(TABLE, scripts(s1=[DISCONNECT])), write(MODE, mode(5)), write(IMPORT_NORMAL, long_number(5000)),
                      write(IMPORT_MIN_OVER, long_number(1)), write(IMPORT_ACTIONS, actions(1, 0))]
EXPORT_DISCONNECTS = [write(TABLE, scripts(s1=[DISCONNECT])), write(MODE, mode(5)), write(EXPORT_NORMAL, long_number(5000)),
                      write(EXPORT_MIN_OVER, long_number(1)), write(EXPORT_ACTIONS, actions(1, 0))]
RAISES = [write(TABLE, scripts(s1=[limit(IMPORT_LIMITER, 9000)])), write(IMPORT_NORMAL, long_number(5000)), write(IMPORT_MIN_OVER, long_number(4)),
          write(IMPORT_ACTIONS, actions(1, 0)), values([(3, 6000)], 0, 0)]
SWITCHES = [write(TABLE, scripts(s1=[DISCONNECT], s2=[RECONNECT])), write(MODE, mode(5)), write(IMPORT_NORMAL, long_number(5000)),
            write(IMPORT_MIN_OVER, long_number(1)), write(IMPORT_MIN_UNDER, long_number(1)), write(IMPORT_ACTIONS, actions(1, 2))]

# The emergency of group 7 begins on 2000-01-01 at 00:01:40, which is moment 100, and lasts 10
# seconds.
PROFILE = "0203120007090C07D00101FF00012800800000060000000A"
SCRIPT_1 = "0202090600000A006AFF120001"
END_OF_MONTH = "010102020904173B3B000905FFFFFFFEFF"
EACH_MONTH = [write(TABLE, scripts(s1=[DISCONNECT])), write(MODE, mode(1)), write(SCHEDULE_SCRIPT, SCRIPT_1), write(SCHEDULE_TYPE, "1601"),
              write(SCHEDULE_TIMES, END_OF_MONTH)]


def emergency(which):
    """The rows of a limiter whose emergency profile is active for ten seconds."""
    threshold = f"{which} 3"
    return [write(f"{which} 4", long_number(5000)), write(f"{which} 5", long_number(3000)), write(f"{which} 9", "0101120007"), write(f"{which} 8", PROFILE),
            moment(99, 0), read(f"{which} 10", "0300"), read(threshold, long_number(5000)),
            moment(100, 0), read(f"{which} 10", "0301"), read(threshold, long_number(3000)),
            moment(109, 0), read(f"{which} 10", "0301"), read(threshold, long_number(3000)),
            moment(110, 0), read(f"{which} 10", "0300"), read(threshold, long_number(5000))]


TABLES = {
    # limiters
    "a second over the threshold disconnects": [*IMPORT_DISCONNECTS, with_state(values([(10, 5001)], 1, 0), 2)],
    "nine samples are less than a second": [*IMPORT_DISCONNECTS, values([(9, 5001)], 0, 0)],
    "an equal value is not over": [*IMPORT_DISCONNECTS, values([(10, 5000)], 0, 0)],
    "a reconnection ends the run": [*IMPORT_DISCONNECTS, with_state(values([(10, 5001)], 1, 0), 2), with_state(press(), 1), values([(9, 5001)], 0, 0),
                                    with_state(values([(1, 5001)], 1, 0), 2)],
    # An import of 0 W is under the import limiter's 4,294,967,295 W, so its lower side fires at the
    # start and once more after a reconnection.
    "a reconnection ends the export's run": [*EXPORT_DISCONNECTS, with_state(pairs(10, 0, 5001, 0, 1, 1, 0), 2), with_state(press(), 1), pairs(9, 0, 5001, 0, 1, 0, 0),
                                             with_state(pairs(1, 0, 5001, 0, 0, 1, 0), 2)],
    "a reconnection ends both runs": [*EXPORT_DISCONNECTS, with_state(pairs(10, 0, 5001, 0, 1, 1, 0), 2), with_state(press(), 1), pairs(1, 0, 5001, 0, 1, 0, 0)],
    "a shorter duration counts at the next sample": [
        *IMPORT_DISCONNECTS, write(IMPORT_MIN_OVER, long_number(10)), values([(70, 5001)], 0, 0), write(IMPORT_MIN_OVER, long_number(5)),
        with_state(values([(1, 5001)], 1, 0), 2), values([(1, 5001)], 0, 0), write(IMPORT_MIN_OVER, long_number(20)), values([(200, 5001)], 0, 0)],
    "a shorter duration counts at the export's next sample": [
        *EXPORT_DISCONNECTS, write(EXPORT_MIN_OVER, long_number(10)), pairs(70, 0, 5001, 0, 1, 0, 0), write(EXPORT_MIN_OVER, long_number(5)),
        with_state(pairs(1, 0, 5001, 0, 0, 1, 0), 2), pairs(1, 0, 5001, 0, 0, 0, 0), write(EXPORT_MIN_OVER, long_number(20)), pairs(200, 0, 5001, 0, 0, 0, 0)],
    # The upper side fires at the 37th of the 256 samples, and 219 are under the new threshold: over
    # five seconds, and with 31 more 25.
    "a firing raises the threshold within a block": [*RAISES, write(IMPORT_MIN_UNDER, long_number(5)), values([(256, 6000)], 1, 1),
                                                     read(f"{IMPORT_LIMITER} 3", long_number(9000))],
    "the samples after a firing are of the new run": [*RAISES, write(IMPORT_MIN_UNDER, long_number(25)), values([(256, 6000)], 1, 0),
                                                      values([(31, 6000)], 0, 1)],
    # The upper side fires at the tenth sample and disconnects; the lower at the twentieth,
    # reconnects, which ends its run; and at the thirtieth without effect.
    "a block cuts and restores the supply": [*SWITCHES, values([(10, 5001), (20, 4999)], 1, 2)],
    "the import limiter takes its value first": [
        write(TABLE, scripts(s1=[limit(EXPORT_LIMITER, 9000)])), write(IMPORT_NORMAL, long_number(5000)), write(IMPORT_ACTIONS, actions(1, 0)),
        write(EXPORT_NORMAL, long_number(5000)), pairs(1, 6000, 6000, 1, 0, 0, 1)],
    "an empty block fires nothing": [values([], 0, 0), pairs(0, 0, 0, 0, 0, 0, 0)],
    "an emergency has a threshold of its own": emergency(IMPORT_LIMITER),
    "the export's emergency is no other's": [*emergency(EXPORT_LIMITER), read(f"{IMPORT_LIMITER} 9", "0100"), read(IMPORT_NORMAL, "06FFFFFFFF")],
    "a written limit is judged": [
        write(IMPORT_NORMAL, "121388", 12), write(f"{IMPORT_LIMITER} 9", "01011107", 12), write(f"{IMPORT_LIMITER} 3", long_number(5000), 3),
        write(IMPORT_NORMAL, long_number(5000), 3, PUBLIC)],
    # moments and schedules
    "a moment before the last is stale": [
        moment(0, 0), moment(5, 0), stale_moment(4, 5), moment(5, 0)],
    "a schedule disconnects at the end of February": [*EACH_MONTH, moment(888_710_398, 0), moment(888_710_399, 0), with_state(moment(888_796_799, 1), 0)],
    "a schedule looks back a day, less a second": [*EACH_MONTH, moment(883_612_800, 0), with_state(moment(888_883_198, 1), 0)],
    "a schedule looks back no whole day": [*EACH_MONTH, moment(883_612_800, 0), moment(888_883_199, 0)],
    "a schedule looks back no longer than a day": [*EACH_MONTH, moment(883_612_800, 0), moment(888_883_200, 0)],
    "a schedule that does not fit its type is kept and never due": [
        *EACH_MONTH, write(SCHEDULE_TYPE, "1602"), moment(888_710_398, 0), moment(888_796_799, 0), read(SCHEDULE_TIMES, END_OF_MONTH)],
    "a schedule judges what is written": [
        *EACH_MONTH, write(SCHEDULE_TYPE, "1606", 250), write(SCHEDULE_TYPE, "1101", 12), write(SCHEDULE_TIMES, "00", 12),
        write(f"{FIRST_SCHEDULE} 1", "00", 3), read(SCHEDULE_SCRIPT, SCRIPT_1), read(SCHEDULE_TYPE, "1601"), read(SCHEDULE_TIMES, END_OF_MONTH)],
    # scripts
    "a script ends at its first step, where that is refused": [
        write(TABLE, scripts(s3=[WRITE_MODE_0, DISCONNECT])), write(MODE, mode(2)), with_state(press(), 2), call(f"{SCRIPTS} 1", 2, "120003"), read(MODE, mode(2))],
    "the first step of a script stands, though the second is refused": [
        write(TABLE, scripts(s1=[DISCONNECT, WRITE_MODE_0])), write(MODE, mode(1)), with_state(call(f"{SCRIPTS} 1", 2, "120001"), 0), read(MODE, mode(1))],
    "a script is selected by a long unsigned": [
        write(TABLE, scripts(s3=[WRITE_MODE_0, DISCONNECT])), call(f"{SCRIPTS} 1", 0, "120000"), call(f"{SCRIPTS} 1", 250, "120009"),
        call(f"{SCRIPTS} 1", 12, "1103"), call(f"{SCRIPTS} 1", 12)],
    "a script writes a limiter": [
        write(TABLE, scripts(s1=[DISCONNECT, limit(IMPORT_LIMITER, 5000)])), write(MODE, mode(1)), with_state(call(f"{SCRIPTS} 1", 0, "120001"), 0),
        read(IMPORT_NORMAL, long_number(5000)), read(EXPORT_NORMAL, "06FFFFFFFF")],
    # 0 is not an identifier.
    "scripts are judged, and read as they were written": [
        read(TABLE, "0100"), write(TABLE, scripts(s3=[WRITE_MODE_0]), 3, PUBLIC), write(TABLE, "00", 12), write(TABLE, scripts(s0=[]), 250), read(TABLE, "0100"),
        write(TABLE, scripts(s1=[DISCONNECT, limit(IMPORT_LIMITER, 5000)])), read(TABLE, scripts(s1=[DISCONNECT, limit(IMPORT_LIMITER, 5000)]))],
    # the switch
    "the public client writes nothing": [write(MODE, mode(2), 3, PUBLIC), read(MODE, mode(0)), write(MODE, mode(2)), read(MODE, mode(2))],
    "in mode 2 the button alone restores what it cut": [write(MODE, mode(2)), with_state(press(), 2), call(f"{SWITCH} 2", 2)],
    "mode 1 goes by its transitions": [
        write(MODE, mode(1)), with_state(call(f"{SWITCH} 1", 0), 0), call(f"{SWITCH} 1", 0), with_state(call(f"{SWITCH} 2", 0), 2), with_state(press(), 1)],
    "each mode is written and read": [row for number in range(7) for row in (write(MODE, mode(number)), read(MODE, mode(number)))],
    # A limiter disconnects and reconnects locally.
    "a local reconnection is of modes 5 and 6": [
        *SWITCHES, *[row for number, state in ((5, 1), (6, 1), (4, 2)) for row in (
            write(MODE, mode(number)), with_state(values([(10, 5001)], 1, 0), 2), with_state(values([(10, 4999)], 0, 1), state))]],
    "mode 0 is refused while the supply is cut": [
        write(MODE, mode(1)), with_state(call(f"{SWITCH} 1", 0), 0), write(MODE, mode(0), 2), read(MODE, mode(1)), read(f"{SWITCH} 2", "0300")],
    "the type of a written mode is judged before its value": [
        write(MODE, "1102", 12), write(MODE, "1107", 12), write(MODE, "1607", 250), call(f"{SWITCH} 3", 3)],
    # objects
    "names and the switch are read": [
        read(f"{DEVICE_NAME} 2", "090652454C415931"), read(f"{DEVICE_NAME} 1", "090600002A0000FF"), read(f"{ASSOCIATION} 1", "09060000280000FF"),
        read(f"{SWITCH} 2", "0301"), read(f"{SWITCH} 3", "1601"), read(MODE, mode(0))],
    "refusals of a read come in their order": [
        refused_read("70 000060030BFF 2", 4), refused_read("71 000060030AFF 2", 9, 1), refused_read(f"{SWITCH} 5", 3, 1), refused_read(f"{SWITCH} 3", 13, 1),
        refused_read(f"{ASSOCIATION} 3", 3)],
    "a list is read at one moment": [("getlist 16 2 70 000060030AFF 3 0 70 000060030BFF 3 0", "values 2 value 1601 code 4")],
    "a register has the last sample in watts": [
        read(f"{IMPORT_REGISTER} 2", long_number(0)), read(f"{IMPORT_REGISTER} 3", "02020F00161B"), read(f"{EXPORT_REGISTER} 2", long_number(0)),
        read(f"{EXPORT_REGISTER} 3", "02020F00161B"), pairs(2, 5001, 4999, 0, 1, 0, 1), read(f"{IMPORT_REGISTER} 2", long_number(5001)),
        read(f"{EXPORT_REGISTER} 2", long_number(4999)),
        # A block of import values alone has no sample of the export.
        values([(1, 5001), (1, 9000)], 0, 0), read(f"{IMPORT_REGISTER} 2", long_number(9000)), read(f"{EXPORT_REGISTER} 2", long_number(4999))],
}

# Changes to the opening of a new meter, and whether the result is valid. A run has at most
# 42,949,672,950 samples.
OPENINGS = [
    ({"value": "1", "over": "1 0"}, True), ({"value": "0", "over": "1 0"}, False), ({"value": "1", "under": "1 0"}, True),
    ({"value": "4294967295", "under": "1 0"}, False), ({"value": "1", "over": "1 0", "under": "1 0"}, False), ({"value": "1", "over": "0 1"}, False),
    ({"value": "1", "under": "0 1"}, False), ({"value": "1", "over": "42949672950 1"}, True), ({"value": "1", "over": "42949672950 0"}, False),
    ({"value": "1", "under": "42949672950 0"}, False), ({"value": "1", "over": "42949672951 1"}, False),
]
SWITCH_OPENINGS = [
    ({"device": "41"}, True), ({"device": "41" * 16}, True), ({"device": "41" * 17}, False), ({"device": ""}, False),
    ({"state": "0", "mode": "0"}, False), ({"state": "2", "mode": "0"}, False), ({"state": "1", "mode": "0"}, True), ({"state": "0", "mode": "1"}, True),
    ({"groups": "7 " * 31 + "7"}, True), ({"groups": "7 " * 32 + "7"}, False), ({"xgroups": "7 " * 31 + "7"}, True), ({"xgroups": "7 " * 32 + "7"}, False),
]


def opening_with(changes):
    """The opening of a new meter with other words on some lines."""
    lines = []
    for line in NEW_METER:
        word = line.split(" ")[0]
        lines.append(f"{word} {changes[word]}".rstrip(" ") if word in changes else line)
    return lines


def trace_text(opening, events):
    """The text of a trace with this opening and these events."""
    return "\n".join([*opening, f"events {len(events)}", *events]) + "\n"


def play(opening, events):
    """Plays a trace; returns the status, the output and the errors."""
    ran = subprocess.run([PLAYER], input=trace_text(opening, events).encode(), capture_output=True, timeout=60)
    return ran.returncode, ran.stdout.decode(), ran.stderr.decode()


def expected_lines(rows, state=1):
    """The lines that a trace of these rows must print."""
    lines = []
    for number, (_, reply, *after) in enumerate(rows, 1):
        state = after[0] if after else state
        lines.append(f"{number}: {reply}; state {state}; supply {'on' if state == 1 else 'off'}\n")
    return "".join(lines)


def tables():
    """Whether each table of rows is played as expected."""
    for name, rows in TABLES.items():
        yield name, play(NEW_METER, [row[0] for row in rows]) == (0, expected_lines(rows), "")


# An opening with nine samples over the threshold, and one with nine of the export.
RUNS_OF_NINE = [
    ({"normal": "5000", "minover": "1", "value": "5001", "over": "9 0"}, values([(1, 5001)], 1, 0)),
    ({"xnormal": "5000", "xminover": "1", "xvalue": "5001", "xover": "9 0"}, pairs(1, 0, 5001, 0, 1, 1, 0)),
]


def openings():
    """Whether each opening is accepted or refused as expected, and a run continues."""
    for prefix in ("", "x"):
        for changes, is_fit in OPENINGS:
            changes = {prefix + word: value for word, value in changes.items()}
            yield f"an opening with {changes}", play(opening_with(changes), [])[0] == (0 if is_fit else 2)
    for changes, row in RUNS_OF_NINE:
        yield f"an opening with {changes}, played", play(opening_with(changes), [row[0]]) == (0, expected_lines([row]), "")
    for changes, is_fit in SWITCH_OPENINGS:
        yield f"an opening with {changes}", play(opening_with(changes), [])[0] == (0 if is_fit else 2)


# Blocks, and the same samples one by one.
FOUR_SCRIPTS = scripts(s1=[DISCONNECT, limit(IMPORT_LIMITER, 9000)], s2=[RECONNECT, limit(IMPORT_LIMITER, 5000)],
                       s3=[RECONNECT, limit(EXPORT_LIMITER, 9000)], s4=[DISCONNECT, limit(EXPORT_LIMITER, 5000)])
BUSY = [write(TABLE, FOUR_SCRIPTS), write(MODE, mode(5)), write(IMPORT_NORMAL, long_number(5000)), write(IMPORT_MIN_OVER, long_number(0)),
        write(IMPORT_MIN_UNDER, long_number(1)), write(IMPORT_ACTIONS, actions(1, 2)), write(EXPORT_NORMAL, long_number(5000)),
        write(EXPORT_MIN_OVER, long_number(1)), write(EXPORT_MIN_UNDER, long_number(1)), write(EXPORT_ACTIONS, actions(3, 4))]
BUSY_LATE = [write(IMPORT_MIN_OVER, long_number(2)), write(EXPORT_MIN_UNDER, long_number(2))]
# The read after each block: both thresholds, both registers.
LOOK = f"getlist 1 4 {IMPORT_LIMITER} 3 0 {EXPORT_LIMITER} 3 0 {IMPORT_REGISTER} 2 0 {EXPORT_REGISTER} 2 0"


def stretches(seed):
    """256 values at, over and under 5,000 and 9,000 W, in short and long stretches, from a linear
    congruential generator."""
    levels, found = (4999, 5000, 7000, 9000, 9001, 0), []
    level = levels[(seed >> 16) % 6]
    for _ in range(256):
        seed = (seed * 1_664_525 + 1_013_904_223) % 2**32
        if seed < 300_000_000:
            level = levels[(seed >> 16) % 6]
        found.append(level)
    return found


def blocks_and_singles(seed):
    """A block of import values and one of pairs, each as one event and as an event for each
    sample."""
    imported, exported = stretches(seed), stretches((seed * 1_664_525 + 1_013_904_223) % 2**32)
    for word, samples in (("samples", [str(it) for it in imported]), ("pairs", [f"{a} {b}" for a, b in zip(imported, exported)])):
        yield " ".join([word, *samples]), [f"{word} {it}" for it in samples]


def firing_counts(line):
    """How often the limiters fired, in the order of a line `sampled`."""
    return [int(it) for it in line.split("sampled ")[1].split(";")[0].split()]


def is_one_by_one(late, seeds=range(12)):
    """Whether blocks have the same firings, states, thresholds and values as their samples one by
    one, and each side of each limiter fires."""
    whole, single, sizes = [row[0] for row in (*BUSY, *late)], [row[0] for row in (*BUSY, *late)], []
    for seed in seeds:
        for block, samples in blocks_and_singles(seed):
            whole += [block, LOOK]
            single += [*samples, LOOK]
            sizes.append(len(samples))
    first = len(BUSY) + len(late)
    one = play(NEW_METER, whole)[1].splitlines()[first:]
    each = play(NEW_METER, single)[1].splitlines()[first:]
    sums, at = [0, 0, 0, 0], 0
    for number, size in enumerate(sizes):
        block, looked = one[2 * number], one[2 * number + 1]
        singles, looked_again = each[at : at + size], each[at + size]
        at += size + 1
        counts = [sum(it) for it in zip(*map(firing_counts, singles))]
        if counts != firing_counts(block) or looked.split(": ")[1] != looked_again.split(": ")[1] or block.split(";")[1:] != singles[-1].split(";")[1:]:
            return False
        sums = [a + b for a, b in zip(sums, counts + [0, 0])]
    return len(one) == 2 * len(sizes) and all(sums)


def twins():
    """Whether a block of samples has the effect of its samples one by one."""
    yield "a block is its samples one by one", is_one_by_one([])
    yield "a block is its samples one by one, with longer durations", is_one_by_one(BUSY_LATE)


def report(script, results):
    """Prints the name of each result that is wrong, and counts them. Returns the exit status. The
    results are asked for only if there is a player."""
    if not PLAYER.exists():
        print(f"{PLAYER} is missing: run bin/build or bin/test")
        print("0 passed, 1 failed")
        return 1
    passed, failed = 0, 0
    for name, is_so in results:
        passed, failed = passed + is_so, failed + (not is_so)
        if not is_so:
            print(f"FAILED {script}: {name}")
    print(f"{passed} passed, {failed} failed")
    return 1 if failed else 0


def results():
    """The name of each table, and whether it was played as expected."""
    yield from (*tables(), *openings(), *twins())


if __name__ == "__main__":
    sys.exit(report("core_rows", results()))
