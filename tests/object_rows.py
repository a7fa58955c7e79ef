#!/usr/bin/env python3
"""Plays what a client writes to and reads from the limiters, the schedules and the script table,
with the proved trace player: each form of a value, each one that is refused and why, and each size
of a list. Rows are those of tests/core_rows.py.

The Data are those of the Blue Book's classes 9, 22 and 71; none comes from the program's output.

usage: tests/object_rows.py
"""
import sys

sys.dont_write_bytecode = True  # importing the modules of tests/ leaves no files

from core_rows import (DISCONNECT, EXPORT_LIMITER, IMPORT_ACTIONS, IMPORT_LIMITER, IMPORT_MIN_OVER, IMPORT_MIN_UNDER,
                       IMPORT_NORMAL, MODE, NEW_METER, PROFILE, SCHEDULE_SCRIPT, SCHEDULE_TIMES, SCHEDULE_TYPE,
                       SCRIPT_1, SCRIPTS, TABLE, call, expected_lines, limit, long_number, mode, moment, play, read, report, scripts,
                       values, with_state, write)

# The results of a write: success, type-unmatched and other-reason.
SUCCESS, UNMATCHED, OTHER = 0, 12, 250
READ_ONLY = 3

IMPORT_EMERGENCY, IMPORT_PROFILE, IMPORT_GROUPS = (f"{IMPORT_LIMITER} {number}" for number in (5, 8, 9))

# Data that are not a double-long-unsigned.
NUMBERS_OF_OTHER_TYPES = [
    "00", "0500000001", "110A", "12000A", "150000000000000001", "09040000000A", "02010600000001",
]
# Data that are not an emergency profile. Types are judged before the thirteenth month of the last.
PROFILES_OF_OTHER_TYPES = [
    "00", "0103120007090C07D00101FF00012800800000060000000A", "0202120007090C07D00101FF00012800800000",
    "0204120007090C07D00101FF00012800800000060000000A00", "02031107090C07D00101FF00012800800000060000000A",
    "0203120007090B07D00101FF000128008000060000000A", "0203120007090D07D00101FF0001280080000000060000000A",
    "02031200070A0C07D00101FF00012800800000060000000A", "02031200071A07D00101FF060000000A", "0203120007090C07D00101FF0001280080000012000A",
    "0203120007090C07D00D01FF0001280080000012000A",
]
# Profiles whose start has a month, a day or a time that does not exist.
STARTS_OUT_OF_RANGE = [
    "0203120007090C07D00D01FF00012800800000060000000A", "0203120007090C07D0FD01FF00012800800000060000000A",
    "0203120007090C07D00100FF00012800800000060000000A", "0203120007090C07D00101FF18012800800000060000000A",
    "0203120007090C07D00101FF00013C00800000060000000A", "0203120007090C07D00101FF00012800034900060000000A",
    "02031200071907D00D01FF00012800800000060000000A",
]
# Data that are not two scripts. Types are judged before the name of another table, in the last.
ACTIONS_OF_OTHER_TYPES = [
    "00", "01020202090600000A006AFF1200010202090600000A006AFF120002", "02010202090600000A006AFF120001",
    "02030202090600000A006AFF1200010202090600000A006AFF12000200", "02020102090600000A006AFF1200010202090600000A006AFF120002",
    "02020201090600000A006AFF0202090600000A006AFF120002", "02020203090600000A006AFF120001000202090600000A006AFF120002",
    "02020202090500000A006A1200010202090600000A006AFF120002", "02020202090700000A006AFFFF1200010202090600000A006AFF120002",
    "020202020A0600000A006AFF1200010202090600000A006AFF120002", "02020202090600000A006AFF11010202090600000A006AFF120002",
    "02020202090600000A006AFF1200010202090600000A006AFF1102", "02020202090600000A006AFF1200010202090500000A006A120002",
    "020202020906000060030AFF1200010202090600000A006AFF1102",
]
# Scripts of another script table than the meter's.
ACTIONS_OF_OTHER_TABLES = [
    "020202020906000060030AFF1200010202090600000A006AFF120002", "02020202090600000A006AFF12000102020906000060030AFF120002",
    "020202020906000060030AFF12000102020906000060030AFF120002", "02020202090600000A006BFF1200010202090600000A006AFF120002",
]
# Data that are not group ids.
IDS_OF_OTHER_TYPES = [
    "00", "120007", "0201120007", "01010600000007", "01011107", "01021200071107", "0101100007",
]
# Attributes of a schedule, Data that are written, and the result: scripts; types; entries of a wrong
# type; entries with a value that is not accepted.
SCHEDULE_WRITES = [
    (SCHEDULE_SCRIPT, "0102090600000A006AFF120001", 12), (SCHEDULE_SCRIPT, "0201090600000A006AFF", 12),
    (SCHEDULE_SCRIPT, "02020A0600000A006AFF120001", 12), (SCHEDULE_SCRIPT, "0202090500000A006A120001", 12),
    (SCHEDULE_SCRIPT, "0202090600000A006BFF1101", 12), (SCHEDULE_SCRIPT, "0202090600000A006BFF120001", 250), (SCHEDULE_TYPE, "1101", 12),
    (SCHEDULE_TYPE, "00", 12), (SCHEDULE_TYPE, "1600", 250), (SCHEDULE_TYPE, "1606", 250), (SCHEDULE_TYPE, "1601", 0), (SCHEDULE_TYPE, "1605", 0),
    (SCHEDULE_TIMES, "0200", 12), (SCHEDULE_TIMES, "01010100", 12), (SCHEDULE_TIMES, "01010201090400000000", 12),
    (SCHEDULE_TIMES, "010102030904000000000905FFFFFFFFFF00", 12), (SCHEDULE_TIMES, "0101020209030000000905FFFFFFFFFF", 12),
    (SCHEDULE_TIMES, "010102020904000000000904FFFFFFFF", 12), (SCHEDULE_TIMES, "010102021AFFFFFFFFFF0905FFFFFFFFFF", 12),
    (SCHEDULE_TIMES, "010102020904000000001B00000000", 12), (SCHEDULE_TIMES, "01010202190000000000000000000000000905FFFFFFFFFF", 12),
    (SCHEDULE_TIMES, "010202020904180000000905FFFFFFFFFF02020904000000000A05FFFFFFFFFF", 12),
    (SCHEDULE_TIMES, "01010202090400003C000905FFFFFFFFFF", 250), (SCHEDULE_TIMES, "010102020904000000000905FFFFFDFFFF", 250),
    (SCHEDULE_TIMES, "010102020904000000000905FFFFFF20FF", 250), (SCHEDULE_TIMES, "010102021B000000011AFFFFFFFFFF", 250),
]
# Data that are no script table, and the result. The identifier 0 of the first, with a step that is
# not listed, comes before Data that is no script. At the end: identifiers are not 0, and no two are
# the same.
REFUSED_TABLES = [
    ("010202021200000101020516031200460906000060030AFF0F040000", 12), ("0200", 12), ("120000", 12), ("01010100", 12), ("01010201120001", 12),
    ("0101020312000101000100", 12), ("0101020211010100", 12), ("010102021200010200", 12), ("010102021200000100", 250),
    ("0103020212000101000202120002010002021200010100", 250), ("01020202120007010002021200070100", 250),
]
# Steps that no script can have, and the result: steps and profiles of a wrong type, values that are
# not accepted, and steps that are not listed.
REFUSED_STEPS = [
    ("010516011200460906000060030AFF0F041600", 12), ("020416011200460906000060030AFF0F04", 12), ("020511011200460906000060030AFF0F041600", 12),
    ("0205160111460906000060030AFF0F041600", 12), ("020516011200460A06000060030AFF0F041600", 12), ("020516011200460905000060030A0F041600", 12),
    ("020516011200460907000060030AFF000F041600", 12), ("020516011200460906000060030AFF11041600", 12), ("020516011200460906000060030AFF0F041100", 12),
    ("0205160112004709060000110000FF0F04121388", 12), ("020516021200460906000060030AFF0F010301", 12), ("020516021200460906000060030AFF0F021100", 12),
    ("0205160112004709060000110000FF0F080202120007090C07D00101FF00012800800000", 12),
    ("0205160112004709060000110000FF0F0802031107090C07D00101FF00012800800000060000000A", 12),
    ("0205160112004709060000110000FF0F080203120007090B07D00101FF000128008000060000000A", 12),
    ("0205160112004709060000110000FF0F0802031200071A07D00101FF060000000A", 12),
    ("0205160112004709060000110000FF0F080203120007090C07D0FD01FF0001280080000012000A", 12), ("020516011200460906000060030AFF0F041607", 250),
    ("0205160112004709060000110000FF0F080203120007090C07D0FD01FF00012800800000060000000A", 250),
    ("0205160112004709060000110000FF0F0802031200071907D00101FF18012800800000060000000A", 250), ("020516031200460906000060030AFF0F041600", 250),
    ("020516001200460906000060030AFF0F041600", 250), ("020516011200470906000060030AFF0F041600", 250),
    ("020516011200460906000060030BFF0F041600", 250), ("020516011200460906000060030AFF0F050100", 250), ("020516011200460906000060030AFF0FFC00", 250),
    ("020516021200460906000060030AFF0F030F00", 250), ("0205160212004709060000110000FF0F010F00", 250),
    ("0205160112004709060002110000FF0F040600001388", 250), ("0205160112004709060000110000FF0F090100", 250),
    ("02051602120009090600000A006AFF0F01120001", 250),
]
# Steps, each with the one form in which it is read.
OTHER_FORMS = [
    ("020516021200460906000060030AFF0F0200", "020516021200460906000060030AFF0F020F00"),
    ("020516021200460906000060030AFF0F010F05", "020516021200460906000060030AFF0F010F00"),
    ("0205160112004709060001110000FF0F0802031200071907D00101FF00012800800000060000000A",
     "0205160112004709060001110000FF0F080203120007090C07D00101FF00012800800000060000000A"),
]
# Steps that write an attribute, with the attribute and the Data that it has then.
WRITING_STEPS = [
    ("0205160112004709060000110000FF0F040600001388", f"{IMPORT_LIMITER} 4", long_number(5000)),
    ("0205160112004709060001110000FF0F040600001388", f"{EXPORT_LIMITER} 4", long_number(5000)),
    ("0205160112004709060000110000FF0F0506FFFFFFFF", f"{IMPORT_LIMITER} 5", long_number(4_294_967_295)),
    ("0205160112004709060001110000FF0F060600000001", f"{EXPORT_LIMITER} 6", long_number(1)),
    ("0205160112004709060000110000FF0F070600000002", f"{IMPORT_LIMITER} 7", long_number(2)),
    ("0205160112004709060001110000FF0F080203120007090C07D00101FF00012800800000060000000A", f"{EXPORT_LIMITER} 8", PROFILE),
    ("020516011200460906000060030AFF0F041606", MODE, mode(6)),
]

# Two scripts, of which the first runs over the threshold and script 258 under it.
ACTIONS = "0202" "0202090600000A006AFF120001" "0202090600000A006AFF120102"
# One entry, for the last second of each month, as octet-strings and as a time and a date.
LAST_SECOND = "010102020904173B3B000905FFFFFFFEFF"
LAST_SECOND_AS_A_TIME = "010102021B173B3B001AFFFFFFFEFF"
# An entry of each midnight.
MIDNIGHT = "02020904000000000905FFFFFFFFFF"
# A step that writes a duration of the export limiter, and the script table of two steps.
EXPORT_DURATION = "0205160112004709060001110000FF0F07060000000F"
TWO_STEPS = "010102021200030102020516011200460906000060030AFF0F041600020516021200460906000060030AFF0F010F00"


def array(items):
    """An array of Data."""
    return f"01{len(items):02X}{''.join(items)}"


def group_ids(count, last="120005"):
    """An array of group ids: long-unsigned 5 each, but the last is given."""
    return array(["120005"] * (count - 1) + [last])


def midnights(count, last=MIDNIGHT):
    """The entries of a schedule: midnight each, but the last is given."""
    return array([MIDNIGHT] * (count - 1) + [last])


def table_of(count, steps, last=DISCONNECT):
    """A script table of this number of scripts and of steps of each. All disconnect, but the last
    step of the last script is given."""
    return scripts(**{f"s{number}": [DISCONNECT] * (steps - 1) + [last if number == count else DISCONNECT] for number in range(1, count + 1)})


def one_step(text):
    """A script table of one script with one step."""
    return scripts(s1=[text])


def due_at_midnight(count):
    """The rows of a schedule of this number of entries of midnight, whose script writes a limit."""
    return [write(TABLE, scripts(s1=[limit(IMPORT_LIMITER, 9000)])), write(SCHEDULE_SCRIPT, SCRIPT_1), write(SCHEDULE_TIMES, midnights(count)),
            read(SCHEDULE_TIMES, midnights(count)), moment(86_399, 0), moment(86_400, 1), moment(172_799, 0)]


TABLES = {
    # limiters
    "a new limiter is read": [
        read(f"{IMPORT_LIMITER} 2", "020312000309060100010700FF0F02"), read(f"{EXPORT_LIMITER} 2", "020312000309060100020700FF0F02"),
        *[read(f"{IMPORT_LIMITER} {number}", data) for number, data in (
            (3, "06FFFFFFFF"), (4, "06FFFFFFFF"), (5, "06FFFFFFFF"), (6, "0600000000"), (7, "0600000000"),
            (8, "0203120000090CFFFFFFFFFFFFFFFFFF8000FF0600000000"), (9, "0100"), (10, "0300"),
            (11, "02020202090600000A006AFF1200000202090600000A006AFF120000"))]],
    # The tenth sample ends the first second.
    "thresholds and durations are read back": [
        write(IMPORT_NORMAL, long_number(3000)), write(IMPORT_EMERGENCY, long_number(500)), write(IMPORT_MIN_OVER, long_number(1)),
        write(IMPORT_MIN_UNDER, long_number(4_294_967_294)), read(IMPORT_NORMAL, long_number(3000)), read(IMPORT_EMERGENCY, long_number(500)),
        read(IMPORT_MIN_OVER, long_number(1)), read(IMPORT_MIN_UNDER, long_number(4_294_967_294)), read(f"{IMPORT_LIMITER} 3", long_number(3000)),
        read(IMPORT_GROUPS, "0100"), read(f"{IMPORT_LIMITER} 10", "0300"), values([(9, 3001)], 0, 0), values([(1, 3001)], 1, 0)],
    "an emergency is active in its time": [
        write(IMPORT_EMERGENCY, long_number(1000)), write(IMPORT_GROUPS, "0101120007"), write(IMPORT_PROFILE, PROFILE),
        *[row for second, active, threshold in ((99, "0300", "06FFFFFFFF"), (100, "0301", "06000003E8"), (109, "0301", "06000003E8"), (110, "0300", "06FFFFFFFF"))
          for row in (moment(second, 0), read(f"{IMPORT_LIMITER} 3", threshold), read(f"{IMPORT_LIMITER} 10", active))],
        read(IMPORT_PROFILE, PROFILE), read(IMPORT_GROUPS, "0101120007")],
    "a start may be a date-time": [
        write(IMPORT_PROFILE, "02031200071907D00101FF00012800800000060000000A"), read(IMPORT_PROFILE, PROFILE)],
    "actions are read back": [write(IMPORT_ACTIONS, ACTIONS), read(IMPORT_ACTIONS, ACTIONS)],
    "group ids are read back": [
        write(IMPORT_NORMAL, long_number(3000)), *[row for ids in ("0103120007120001120007", "0100", group_ids(32, "12FFFF"), group_ids(32))
                                                   for row in (write(IMPORT_GROUPS, ids), read(IMPORT_GROUPS, ids))],
        read(IMPORT_NORMAL, long_number(3000))],
    # Types are judged before the number of ids.
    "a limiter has 32 groups at most": [write(IMPORT_GROUPS, group_ids(33), OTHER), write(IMPORT_GROUPS, group_ids(33, "1105"), UNMATCHED), read(IMPORT_GROUPS, "0100")],
    "some attributes of a limiter are read only": [write(f"{IMPORT_LIMITER} {number}", "0600000001", READ_ONLY) for number in (1, 2, 3, 10)],
    "numbers of other types are refused": [write(f"{IMPORT_LIMITER} {number}", data, UNMATCHED) for number in (4, 5, 6, 7) for data in NUMBERS_OF_OTHER_TYPES],
    "profiles of other types are refused": [write(IMPORT_PROFILE, data, UNMATCHED) for data in PROFILES_OF_OTHER_TYPES],
    "starts out of range are refused": [write(IMPORT_PROFILE, data, OTHER) for data in STARTS_OUT_OF_RANGE],
    "actions of other types are refused": [write(IMPORT_ACTIONS, data, UNMATCHED) for data in ACTIONS_OF_OTHER_TYPES],
    "actions of other tables are refused": [write(IMPORT_ACTIONS, data, OTHER) for data in ACTIONS_OF_OTHER_TABLES],
    "group ids of other types are refused": [write(IMPORT_GROUPS, data, UNMATCHED) for data in IDS_OF_OTHER_TYPES],
    # schedules
    "a new schedule is read": [read(SCHEDULE_SCRIPT, "0202090600000A006AFF120000"), read(SCHEDULE_TYPE, "1605"), read(SCHEDULE_TIMES, "0100")],
    "a schedule is read back": [
        write(SCHEDULE_SCRIPT, SCRIPT_1), write(SCHEDULE_TYPE, "1603"), write(SCHEDULE_TIMES, LAST_SECOND_AS_A_TIME),
        read(SCHEDULE_SCRIPT, SCRIPT_1), read(SCHEDULE_TYPE, "1603"), read(SCHEDULE_TIMES, LAST_SECOND)],
    "a schedule has sixteen entries at most": [
        # Types are judged before the number of entries.
        write(SCHEDULE_TIMES, midnights(17), OTHER), write(SCHEDULE_TIMES, midnights(17, "00"), UNMATCHED), read(SCHEDULE_TIMES, "0100")],
    "a refused write changes no attribute of a schedule": [
        write(SCHEDULE_SCRIPT, SCRIPT_1), write(SCHEDULE_TYPE, "1601"), write(SCHEDULE_TIMES, LAST_SECOND),
        write(SCHEDULE_SCRIPT, "0202090600000A006BFF120002", OTHER), write(SCHEDULE_TYPE, "1606", OTHER),
        write(SCHEDULE_TIMES, "010102020904180000000905FFFFFFFFFF", OTHER), write(SCHEDULE_TIMES, "00", UNMATCHED),
        read(SCHEDULE_SCRIPT, SCRIPT_1), read(SCHEDULE_TYPE, "1601"), read(SCHEDULE_TIMES, LAST_SECOND)],
    "a schedule judges each form": [write(*row) for row in SCHEDULE_WRITES],
    **{f"{count} entries of a schedule are due": due_at_midnight(count) for count in range(1, 17)},
    # scripts
    "a table is read back": [write(TABLE, TWO_STEPS), read(TABLE, TWO_STEPS)],
    "a table may have each size": [
        row for count, steps in [*[(count, 8) for count in range(1, 17)], *[(16, steps) for steps in range(1, 9)]]
        for row in (write(TABLE, table_of(count, steps)), read(TABLE, table_of(count, steps)))],
    "the last step of a full table is another": [write(TABLE, table_of(16, 8, EXPORT_DURATION)), read(TABLE, table_of(16, 8, EXPORT_DURATION)),
                                                 write(MODE, mode(1)), with_state(call(f"{SCRIPTS} 1", SUCCESS, "120010"), 0), read(f"{EXPORT_LIMITER} 7", long_number(15))],
    # Types are judged before values: the last step of the last table has a boolean as parameter.
    "a table has limits": [
        write(TABLE, table_of(17, 1), OTHER), write(TABLE, table_of(1, 9), OTHER),
        write(TABLE, table_of(17, 9, "020516021200460906000060030AFF0F010301"), UNMATCHED), read(TABLE, "0100")],
    "tables are refused": [*[write(TABLE, *row) for row in REFUSED_TABLES], read(TABLE, "0100")],
    "steps are refused": [*[write(TABLE, one_step(data), code) for data, code in REFUSED_STEPS], read(TABLE, "0100")],
    "steps are read in one form": [row for data, form in OTHER_FORMS for row in (write(TABLE, one_step(data)), read(TABLE, one_step(form)))],
    "steps write their attributes": [
        row for data, place, value in WRITING_STEPS for row in (write(TABLE, one_step(data)), call(f"{SCRIPTS} 1", SUCCESS, "120001"), read(place, value))],
    # The parameters of methods are null-data and the integer 7F.
    "steps execute their methods": [
        write(MODE, mode(1)), write(TABLE, scripts(s1=["020516021200460906000060030AFF0F0100"], s2=["020516021200460906000060030AFF0F020F7F"])),
        with_state(call(f"{SCRIPTS} 1", SUCCESS, "120001"), 0), with_state(call(f"{SCRIPTS} 1", SUCCESS, "120002"), 2)],
}


def results():
    """The name of each table, with what was played if that is not what is expected."""
    for name, rows in TABLES.items():
        found = play(NEW_METER, [row[0] for row in rows])
        is_so = found == (0, expected_lines(rows), "")
        yield (name if is_so else f"{name}: {found}"), is_so


if __name__ == "__main__":
    sys.exit(report("object_rows", results()))
