#!/usr/bin/env python3
"""Plays rows of the encodings with `meter_server hex`, each to a new meter: association requests,
block transfers, and requests that end too early or too late. Each has the expected frames as its
answers.

The expected bytes are those of the standard (IEC 62056-5-3); none comes from the program's output.

usage: tests/codec_rows.py
"""
import sys

sys.dont_write_bytecode = True  # importing the modules of tests/ leaves no files

import serving
from serving import AARE, MANAGEMENT, NAMING, PASSWORD, PUBLIC, REFUSED, RELEASED, SERVER, check
from sessions import (FIRST_BLOCK, GET_STATE, MANAGEMENT_AARQ, OBJECT_LIST, PUBLIC_AARQ, SMALL, TEN_NAMES, Talk, blocks_read, blocks_written, by_hex,
                      check_by_hex, frame)

NOT_ALLOWED, UNREADABLE, UNKNOWN = "D80101", "D80103", "D80202"

# ---- association requests

# The AARQs of the public client and of the management client, which has the password 12345678,
# without their frames.
PUBLIC_OPENING, MANAGEMENT_OPENING = PUBLIC_AARQ[16:], MANAGEMENT_AARQ[16:]
# The public client's AARQ with its fields in another order, one length in the long form, and an
# additional empty field.
REORDERED = "60811F" "BE10040E01000000065F1F0400007E1F04B0" "8B00" "A109060760857405080101"
# An AARQ whose application context name is empty.
EMPTY_CONTEXT = "6008A1020600BE020400"


def accepted(bits):
    """The AARE that accepts an association with these conformance bits."""
    return f"{AARE}{bits}04000007"


def rejected(diagnostic):
    """The AARE that rejects an association with this diagnostic."""
    return f"{REFUSED}{diagnostic:02X}"


def initiate_error(error):
    """The AARE that rejects an association with this error of Initiate."""
    return f"611F{NAMING}A203020101A305A103020101BE0604040E0106{error:02X}"


# Changes to the management client's AARQ, by the place of the byte: all of the user information is
# wrong (the PDU size, the conformance, the version and the tag), then the mechanism, then the
# context.
SHORT_PDU = {55: 0x3F, 54: 0x00}
NO_SERVICE = {**SHORT_PDU, 52: 0x00, 53: 0x00}
OLD_VERSION = {**NO_SERVICE, 46: 0x05}
NO_REQUEST = {**OLD_VERSION, 42: 0x21}
WORST = {**NO_REQUEST, 25: 0x02, 12: 0x02}

# What a group of rows shows, and rows: the client's port, the meter's password, an AARQ, its changed
# bytes, and the answer.
OPENINGS = [
    ("the public client needs no password", [
        (PUBLIC, PASSWORD, PUBLIC_OPENING, {}, accepted("001E19")), (PUBLIC, "87654321", MANAGEMENT_OPENING, {}, accepted("001C19"))]),
    ("the management client needs its password", [
        (MANAGEMENT, PASSWORD, MANAGEMENT_OPENING, {}, accepted("001C19")), (MANAGEMENT, "12345679", MANAGEMENT_OPENING, {}, rejected(13)),
        (MANAGEMENT, "1234567", MANAGEMENT_OPENING, {}, rejected(13)), (MANAGEMENT, PASSWORD, PUBLIC_OPENING, {}, rejected(14)),
        # The example of the Green Book proposes the conformance 007E1F and 1,200 bytes.
        (MANAGEMENT, PASSWORD, MANAGEMENT_OPENING, {52: 0x7E, 53: 0x1F, 55: 0xB0}, accepted("001E19"))]),
    # Another port, another context, a higher and the lowest level of security, no InitiateRequest.
    ("other ports, contexts and mechanisms are rejected", [
        (2, PASSWORD, PUBLIC_OPENING, {}, rejected(1)), (PUBLIC, PASSWORD, PUBLIC_OPENING, {12: 0x03}, rejected(2)),
        (MANAGEMENT, PASSWORD, MANAGEMENT_OPENING, {25: 0x05}, rejected(11)), (MANAGEMENT, PASSWORD, MANAGEMENT_OPENING, {25: 0x00}, rejected(14)),
        (PUBLIC, PASSWORD, PUBLIC_OPENING, {17: 0x08}, rejected(1))]),
    # An older version; a PDU size that is too short, none, or the shortest with only GET; and no
    # service that the meter offers.
    ("a proposal is checked", [
        (PUBLIC, PASSWORD, PUBLIC_OPENING, {21: 5}, initiate_error(1)), (PUBLIC, PASSWORD, PUBLIC_OPENING, {29: 0x00, 30: 0x3F}, initiate_error(3)),
        (PUBLIC, PASSWORD, PUBLIC_OPENING, {29: 0x00, 30: 0x00}, accepted("001E19")),
        (PUBLIC, PASSWORD, PUBLIC_OPENING, {29: 0x00, 30: 0x40, 27: 0x00, 28: 0x10}, accepted("000010")),
        (PUBLIC, PASSWORD, PUBLIC_OPENING, {29: 0x00, 30: 0x40, 27: 0x00, 28: 0x06}, initiate_error(2))]),
    ("fields come in any order", [
        (PUBLIC, PASSWORD, REORDERED, {}, accepted("001E19")), (MANAGEMENT, PASSWORD, REORDERED, {}, rejected(14)),
        (PUBLIC, PASSWORD, EMPTY_CONTEXT, {}, rejected(2))]),
    ("the first check that fails decides", [
        (MANAGEMENT, PASSWORD, MANAGEMENT_OPENING, SHORT_PDU, initiate_error(3)), (MANAGEMENT, PASSWORD, MANAGEMENT_OPENING, NO_SERVICE, initiate_error(2)),
        (MANAGEMENT, PASSWORD, MANAGEMENT_OPENING, OLD_VERSION, initiate_error(1)), (MANAGEMENT, PASSWORD, MANAGEMENT_OPENING, NO_REQUEST, rejected(1)),
        (MANAGEMENT, "87654321", MANAGEMENT_OPENING, NO_REQUEST, rejected(13)),
        (MANAGEMENT, "87654321", MANAGEMENT_OPENING, {**NO_REQUEST, 25: 0x00}, rejected(14)),
        (MANAGEMENT, "87654321", MANAGEMENT_OPENING, {**NO_REQUEST, 25: 0x02}, rejected(11)),
        (MANAGEMENT, "87654321", MANAGEMENT_OPENING, WORST, rejected(2)), (15, "87654321", MANAGEMENT_OPENING, WORST, rejected(1))]),
    # A field twice, no context, a field of a lower tag, and a length that is one too large.
    ("fields come once each", [
        (PUBLIC, PASSWORD, "600CA1020600A1020600BE020400", {}, UNREADABLE), (PUBLIC, PASSWORD, "6004BE020400", {}, UNREADABLE),
        (PUBLIC, PASSWORD, "600AA1020600BE0204007F00", {}, UNREADABLE), (PUBLIC, PASSWORD, PUBLIC_OPENING, {1: 0x1E}, UNREADABLE)]),
    # A context that is not known, with the user information of the public client.
    ("a context may have each length", [
        (PUBLIC, PASSWORD, f"60{22 + size:02X}A1{2 + size:02X}06{size:02X}{size * '2A'}{PUBLIC_OPENING[26:]}", {}, rejected(2)) for size in range(101)]),
]

# The SET of the mode, and its responses for a management client and for the public client.
SET_MODE, SET, DENIED = "C101C10046000060030AFF04001602", "C501C100", "C501C103"
# The response to TEN_NAMES as a whole.
WHOLE_NAMES = "C403C10A" + 10 * "000906000060030AFF"

# Openings that are accepted, with the port, and requests that show the level and the PDU size that
# was agreed (0: no limit).
LEVELS = [
    ("a public client of any password", "87654321", PUBLIC, MANAGEMENT_OPENING, {}, [(SET_MODE, DENIED)]),
    ("a management client", PASSWORD, MANAGEMENT, MANAGEMENT_OPENING, {}, [(SET_MODE, SET)]),
    ("a public client of 1,200 bytes", PASSWORD, PUBLIC, PUBLIC_OPENING, {}, [(SET_MODE, DENIED), (TEN_NAMES, WHOLE_NAMES)]),
    ("a public client without a limit", PASSWORD, PUBLIC, PUBLIC_OPENING, {29: 0x00, 30: 0x00}, [(TEN_NAMES, WHOLE_NAMES)]),
    ("a public client of 64 bytes", PASSWORD, PUBLIC, PUBLIC_OPENING, {29: 0x00, 30: 0x40}, [(TEN_NAMES, FIRST_BLOCK)]),
    ("a public client of GET alone", PASSWORD, PUBLIC, PUBLIC_OPENING, {29: 0x00, 30: 0x40, 27: 0x00, 28: 0x10}, [GET_STATE, (SET_MODE, UNKNOWN)]),
]

# Payloads of an associated client, and whether each is a release. A length may have one or two bytes
# after its first, but not zero or three.
RELEASES = [
    ("6200", True), ("6203800100", True), ("6281028000", True), ("628200028000", True), ("62", False), ("6203800100FF", False), ("62830000028000", False),
    ("62808000", False), ("6202C000", False), ("62027F00", False), ("62028001", False),
]


def changed(text, changes):
    """Bytes in hexadecimal with some of them changed, by their places."""
    raw = bytearray.fromhex(text)
    for place, byte in changes.items():
        raw[place] = byte
    return raw.hex().upper()


def openings_have_their_answers(name):
    for title, rows in OPENINGS:
        for number, (port, password, opening, changes, answer) in enumerate(rows):
            check_by_hex(f"{name}: {title}: {number}", frame(changed(opening, changes), port, 1), frame(answer, 1, port), password)


def openings_have_their_levels(name):
    for title, password, port, opening, changes, pairs in LEVELS:
        opened = frame(changed(opening, changes), port, 1)
        status, lines = by_hex(opened + "".join(frame(request, port, 1) for request, _ in pairs), password)
        found = status, lines.split()[1:]
        check(f"{name}: {title}", found == (0, [frame(response, 1, port) for _, response in pairs]), found)


def releases_are_known(name):
    for payload, is_release in RELEASES:
        pairs = [(payload, RELEASED), (GET_STATE[0], NOT_ALLOWED)] if is_release else [(payload, UNREADABLE), GET_STATE]
        check_by_hex(f"{name}: {payload}", *Talk(PUBLIC, pairs).whole())


# ---- block transfers

# The SET of threshold_normal of the import limiter in blocks, without its blocks, and a read of it.
SET_FIRST, SET_NEXT = "C102C100470000110000FF0400", "C103C1"
GET_THRESHOLD = "C001C100470000110000FF0400"
OF_A_NEW_METER = "C401C10006FFFFFFFF"
# A GET with list whose response has 104 bytes: eleven logical names, and two objects that do not
# exist.
OF_104_BYTES = "C003C10D" + 11 * "0046000060030AFF0100" + 2 * "0046000060030BFF0100"
RESPONSE_OF_104_BYTES = "0D" + 11 * "000906000060030AFF" + 2 * "0104"
# One whose response has 8,192 bytes: twelve object lists, 41 logical names, and five
# objects that do not exist.
OF_8192_BYTES = "C003C13A" + 12 * "000F0000280000FF0200" + 41 * "0046000060030AFF0100" + 5 * "0046000060030BFF0100"
RESPONSE_OF_8192_BYTES = "3A" + 12 * f"00{OBJECT_LIST}" + 41 * "000906000060030AFF" + 5 * "0104"


def block(last, number, raw):
    """A block of a SET or an ACTION: whether it is the last, its number and its bytes."""
    return f"{last:02X}{number:08X}{len(raw) // 2:02X}{raw}"


# Talks in blocks: what each shows, the client, and the requests with their responses. A wrong number
# has data-block-number-invalid (19); a block without a transfer no-long-set-in-progress (18), or for
# a GET no-long-get-in-progress (16).
TALKS = [
    ("three blocks give one value", MANAGEMENT, [
        (SET_FIRST + block(0, 1, "060000"), "C502C100000001"), (SET_NEXT + block(0, 2, ""), "C502C100000002"),
        (SET_NEXT + block(1, 3, "1B58"), "C503C10000000003"), (GET_THRESHOLD, "C401C1000600001B58"), (SET_NEXT + block(1, 3, "1B58"), "C503C11200000003")]),
    *[(f"{first} is not the number of the first block", MANAGEMENT, [
        (SET_FIRST + block(0, first, "06"), f"C503C113{first:08X}"), (SET_NEXT + block(0, 1, "06"), "C503C11200000001"), (GET_THRESHOLD, OF_A_NEW_METER)])
      for first in (0, 2, 4_294_967_295)],
    *[(f"{second} is not the number of the second block", MANAGEMENT, [
        (SET_FIRST + block(0, 1, "06"), "C502C100000001"), (SET_NEXT + block(1, second, "00"), f"C503C113{second:08X}"),
        (SET_NEXT + block(1, 2, "00"), "C503C11200000002"), (GET_THRESHOLD, OF_A_NEW_METER)])
      for second in (1, 3)],
    *[(f"a GET of the block after {wrong} ends a transfer", SMALL, [
        (TEN_NAMES, FIRST_BLOCK), (f"C002C1{wrong:08X}", f"C402C101{wrong:08X}0113"), ("C002C100000001", "C402C101000000010110")])
      for wrong in (0, 7)],
    ("a full block at the end is the last", SMALL, [
        *blocks_read(OF_104_BYTES, RESPONSE_OF_104_BYTES, 52), ("C002C100000002", "C402C101000000020110")]),
    ("8,192 bytes are sent in 158 blocks", SMALL, [
        *blocks_read(OF_8192_BYTES, RESPONSE_OF_8192_BYTES, 52), ("C002C10000009E", "C402C1010000009E0110")]),
    # Other spellings than those that the meter writes: a length in a longer form, any byte for true,
    # and any selector with any parameters.
    ("other spellings are read", MANAGEMENT, [
        (SET_FIRST + block(0, 1, "060000"), "C502C100000001"), (SET_NEXT + "FF00000002" "8200021B58", "C503C10000000002"),
        (GET_THRESHOLD, "C401C1000600001B58"), ("C001C10046000060030AFF030502020211011102", "C401C1010D")]),
]

# A string of 8,192 bytes in A-XDR, which the script table can't be: type-unmatched (12).
LONGEST = "09821FFC" + 8_188 * "AB"


def blocks_have_their_answers(name):
    check(f"{name}: lengths", (len(RESPONSE_OF_104_BYTES), len(RESPONSE_OF_8192_BYTES), len(LONGEST)) == (2 * 104, 2 * 8_192, 2 * 8_192))
    for title, client, pairs in TALKS:
        check_by_hex(f"{name}: {title}", *Talk(client, pairs).whole())


def no_more_than_8192_bytes_are_joined(name):
    """The longest string is joined from blocks of 1,000 and of 52 bytes, and refused because of its
    type. A byte more ends the transfer with other-reason."""
    for size, count in ((1_000, 9), (52, 158)):
        pairs = [*blocks_written(LONGEST, size)]
        pairs[-1] = pairs[-1][0], f"C503C10C{count:08X}"
        check(f"{name}: {count} blocks", len(pairs) == count, len(pairs))
        check_by_hex(f"{name}: blocks of {size}", *Talk(MANAGEMENT, pairs).whole())
    pairs = [*blocks_written(LONGEST + 808 * "AB", 1_000)][:8]
    pairs += [(SET_NEXT + block(0, 9, 96 * "AB"), "C502C100000009"), (SET_NEXT + block(0, 10, 96 * "AB"), "C502C10000000A"),
              (SET_NEXT + block(1, 11, "AB"), "C503C1FA0000000B"), (SET_NEXT + block(1, 12, ""), "C503C1120000000C")]
    check_by_hex(f"{name}: a byte more", *Talk(MANAGEMENT, pairs).whole())


# ---- requests

# A request of each form, some with different contents.
REQUESTS = [
    "C001C10046000060030AFF0300", "C001C10046000060030AFF03010000", "C001C1000100002A0000FF0200", "C002C100000001",
    "C003C1020046000060030AFF03000046000060030BFF0300", "C003C100", "C101C10046000060030AFF04001602", "C102C100470000110000FF0400000000000103060000",
    "C103C10100000002021B58", "C301C10046000060030AFF0200", "C301C10046000060030AFF02010F00", "C304C10046000060030AFF010000000001010F",
    "C306C101000000020100",
]

# Payloads that are no request, and the exception. Lengths with no byte and with five bytes after the
# first are at the end.
NO_REQUESTS = [
    ("", UNKNOWN), ("C2", UNKNOWN), (GET_STATE[1], UNKNOWN), ("C000", UNKNOWN), ("C004C1", UNKNOWN), ("C104", UNKNOWN), ("C302", UNKNOWN), ("C305", UNKNOWN),
    ("C103C10100000002800000000000", UNREADABLE), ("C103C10100000002850000000000", UNREADABLE),
]


def requests_end_where_they_should(name):
    """Each front of each request, and each request with a byte after it, is unreadable."""
    for request in REQUESTS:
        texts = [request[:2 * size] for size in range(1, len(request) // 2)] + [f"{request}00"]
        check_by_hex(f"{name}: {request}", *Talk(PUBLIC, [(text, UNREADABLE) for text in texts]).whole())


def other_payloads_have_their_exceptions(name):
    for payload, exception in NO_REQUESTS:
        check_by_hex(f"{name}: {payload}", *Talk(PUBLIC, [(payload, exception)]).whole())


def main():
    if not serving.are_built(SERVER):
        return 1
    return serving.run_tests((openings_have_their_answers, openings_have_their_levels, releases_are_known, blocks_have_their_answers,
                              no_more_than_8192_bytes_are_joined, requests_end_where_they_should, other_payloads_have_their_exceptions))


if __name__ == "__main__":
    sys.exit(main())
