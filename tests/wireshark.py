#!/usr/bin/env python3
"""Shows captures of sessions to tshark with share/wireshark/dlms_cosem.lua, and compares every line
of each frame's tree with what was sent: all services and forms, a session with `meter_server hex`,
frames split at each byte, several frames in a packet, malformed and cut ones, and the preferences.

Without tshark the test is skipped, with a message (Debian: apt-get install tshark).

usage: tests/wireshark.py
"""

import os
import random
import shutil
import subprocess
import sys
from xml.etree.ElementTree import ParseError

sys.dont_write_bytecode = True  # importing the modules of tests/ leaves no files

from captures import Capture, frames_of, summaries_of, tshark
from serving import PASSWORD, PATIENCE, SERVER
from wireshark_lines import (
    CLASS_NAMES, CONFORMANCE, DIAGNOSTICS, INITIATE_ERRORS, MEMBERS, OBJECTS, OFFERED, RESULTS,
    Answers, access_result, action_result, attribute, block, bytes_of, conformance, data, frame_of,
    get_result, header, indent, joined_blocks, lines_of_parts, list_of, method, raw_data,
    results_lines, service, size_part)

MUTATIONS = 2_000
MANAGEMENT, PUBLIC = 1, 16
STATE, MODE = (70, "000060030AFF", 3), (70, "000060030AFF", 4)
DISCONNECT, RECONNECT = (70, "000060030AFF", 1), (70, "000060030AFF", 2)
NORMAL = (71, "0000110000FF", 4)
OBJECT_LIST = (15, "0000280000FF", 2)
UNKNOWN = (8, "0000010000FF", 2)
SCRIPT = data("02020906" "00000A006AFF" "120001")

# ---- associations

CONTEXT = ("A109060760857405080101",
           "Application context: 2.16.756.5.8.1.1 (logical names, no ciphering)")
LOW_LEVEL = [("8A020780", "ACSE requirements: 0780"),
             ("8B0760857405080201",
              "Authentication mechanism: 2.16.756.5.8.2.1 (low-level security)"),
             ("AC0A8008" + PASSWORD.encode().hex(), "Password: hidden, 8 bytes")]


def association(tag, name, *fields):
    """An APDU in BER with these fields."""
    return [(f"{tag:02X}{len(bytes_of(fields)):02X}", f"APDU: {name} (0x{tag:02x})"), *fields]


def information(tag, name, *parts):
    size = len(bytes_of(parts)) + 1
    return [(f"BE{size + 2:02X}04{size:02X}{tag:02X}",
             f"User information: {name} (0x{tag:02x})"), *indent(parts)]


def initiate_request(bits, size, head=(("000000",),)):
    return information(0x01, "InitiateRequest", *head, ("06", "DLMS version: 6"),
                       conformance(bits), size_part(size))


def initiate_response(bits, size):
    return information(0x08, "InitiateResponse", ("00",), ("06", "DLMS version: 6"),
                       conformance(bits), size_part(size), ("0007", "VAA name: 0x0007"))


def aarq(*fields):
    return association(0x60, "AARQ", CONTEXT, *fields)


def aare(result, name, diagnostic, *fields):
    return association(0x61, "AARE", CONTEXT,
                       (f"A2030201{result:02X}", f"Association result: {name} ({result})"),
                       diagnostic, *fields)


def user_diagnostic(number):
    return (f"A305A1030201{number:02X}",
            f"Diagnostic of the service user: {DIAGNOSTICS[number]} ({number})")


def initiate_error(number):
    return aare(1, "rejected-permanent", user_diagnostic(1), *information(
        0x0E, "ConfirmedServiceError",
        (f"0106{number:02X}", f"Initiate error: {INITIATE_ERRORS[number]} ({number})")))


RELEASE = association(0x62, "RLRQ", ("800100", "Reason: normal (0)"))
RELEASED = association(0x63, "RLRE", ("800100", "Reason: normal (0)"))
ACCEPTED = aare(0, "accepted", user_diagnostic(0), *initiate_response(0x001E19, 1200))
ASSOCIATIONS = {
    "AARQ without a password": aarq(*initiate_request(0x007E1F, 1200)),
    "AARQ with a password": aarq(*LOW_LEVEL, *initiate_request(0x001C19, 1024)),
    "AARQ of the lowest level": aarq(
        ("8B0760857405080200",
         "Authentication mechanism: 2.16.756.5.8.2.0 (lowest-level security)"),
        *initiate_request(0, 0)),
    "AARQ of the high level": association(
        0x60, "AARQ",
        ("A109060760857405080103",
         "Application context: 2.16.756.5.8.1.3 (logical names, with ciphering)"),
        ("A606040411223344", "Other field: 040411223344 (calling-AP-title)"),
        ("8A020780", "ACSE requirements: 0780"),
        ("8B0760857405080205",
         "Authentication mechanism: 2.16.756.5.8.2.5 (high-level security, GMAC)"),
        ("AC068004A1B2C3D4", "Authentication value: a1b2c3d4"),
        ("BE0504032103AA", "User information: glo-InitiateRequest (0x21)",
         "  Undissected: 03aa")),
    "AARQ with all options": aarq(*initiate_request(0xFFFFFF, 65535, (
        ("0104AABBCCDD", "Dedicated key: aabbccdd"), ("0100", "Response allowed: no"),
        ("01FF", "Quality of service: -1")))),
    "AARE that accepts": ACCEPTED,
    "AARE of a provider": aare(2, "rejected-transient", (
        "A305A203020102", "Diagnostic of the service provider: no-common-acse-version (2)")),
    "RLRQ": RELEASE,
    "RLRQ that is urgent": association(0x62, "RLRQ", ("800101", "Reason: urgent (1)"),
                                       *initiate_request(0x001E19, 64)),
    "RLRQ without fields": association(0x62, "RLRQ"),
    "RLRE": RELEASED,
    "RLRE that is not finished": association(0x63, "RLRE", ("800101", "Reason: not-finished (1)")),
}
ASSOCIATIONS |= {f"AARE with the diagnostic {it}": aare(1, "rejected-permanent",
                                                        user_diagnostic(it))
                 for it in DIAGNOSTICS if it}
ASSOCIATIONS |= {f"AARE with the error {it}": initiate_error(it) for it in INITIATE_ERRORS}

# ---- services


def get(form, name, *parts):
    return [*service(0xC0, "GET-Request", form, name), *parts]


def set_(form, name, *parts):
    return [*service(0xC1, "SET-Request", form, name), *parts]


def action(form, name, *parts):
    return [*service(0xC3, "ACTION-Request", form, name), *parts]


def get_response(form, name, *parts):
    return [*service(0xC4, "GET-Response", form, name), *parts]


def set_response(form, name, *parts):
    return [*service(0xC5, "SET-Response", form, name), *parts]


def action_response(form, name, *parts):
    return [*service(0xC7, "ACTION-Response", form, name), *parts]


def number(n):
    return (f"{n:08X}", f"Block number: {n}")


def parameter(text):
    return [("01", "Parameter: yes"), *indent(data(text))] if text else [("00", "Parameter: no")]


def exception(state, service_error, names):
    return [("D8", "APDU: Exception-Response (0xd8)"),
            (f"{state:02X}", f"State error: {names[0]} ({state})"),
            (f"{service_error:02X}", f"Service error: {names[1]} ({service_error})")]


NOT_ALLOWED = exception(1, 1, ("service-not-allowed", "operation-not-possible"))
UNSUPPORTED = exception(2, 2, ("service-unknown", "service-not-supported"))
UNREADABLE = exception(1, 3, ("service-not-allowed", "other-reason"))
NO_RETURN = ("00", "Return parameter: no")
RAW_BLOCK = [("00", "Choice: 0 (raw-data)"), *indent([raw_data("060000")])]

# Each service and form. The forms after the first three of a request, and those with lists of
# results, are not spoken by the meter.
FORMS = {
    "GET": get(1, "normal", *attribute(*STATE)),
    "GET with selective access": get(1, "normal", *attribute(*OBJECT_LIST, (2, SCRIPT))),
    "GET of an unknown class": get(1, "normal", *attribute(*UNKNOWN)),
    "GET-next": get(2, "next", number(7)),
    "GET of a list": get(3, "with-list", *list_of(attribute(*STATE), attribute(*NORMAL))),
    "GET of an empty list": get(3, "with-list", *list_of()),
    "SET": set_(1, "normal", *attribute(*MODE), *data("1604")),
    "SET, first block": set_(2, "with-first-datablock", *attribute(*NORMAL),
                             *block(False, 1, "0600")),
    "SET, next block": set_(3, "with-datablock", *block(True, 9, "0011")),
    "SET of a list": set_(4, "with-list", *list_of(attribute(*MODE), attribute(*NORMAL)),
                          *list_of(data("1604"), data("0600001B58"))),
    "SET of a list, first block": set_(5, "with-list-and-first-datablock",
                                       *list_of(attribute(*MODE)), *block(False, 1, "0116")),
    "ACTION": action(1, "normal", *method(*DISCONNECT), *parameter("0F00")),
    "ACTION without a parameter": action(1, "normal", *method(*RECONNECT), *parameter("")),
    "ACTION of a script": action(1, "normal", *method(9, "00000A006AFF", 1), *parameter("120001")),
    "ACTION-next": action(2, "next-pblock", number(3)),
    "ACTION of a list": action(3, "with-list", *list_of(method(*DISCONNECT), method(*RECONNECT)),
                               *list_of(data("0F00"), data("00"))),
    "ACTION, first block": action(4, "with-first-pblock", *method(*DISCONNECT),
                                  *block(False, 1, "0F")),
    "ACTION of a list, first block": action(5, "with-list-and-first-pblock",
                                            *list_of(method(*DISCONNECT)), *block(False, 1, "01")),
    "ACTION, next block": action(6, "with-pblock", *block(True, 9, "00")),
    "GET's answer": get_response(1, "normal", *get_result(data=data("1601"))),
    "GET's result": get_response(1, "normal", *get_result(3)),
    "GET's block": get_response(2, "with-datablock", ("00", "Last block: no"), number(1),
                                *RAW_BLOCK),
    "GET's refused block": get_response(2, "with-datablock", ("01", "Last block: yes"), number(1),
                                        *get_result(16)),
    "GET's list": get_response(3, "with-list",
                               *list_of(get_result(data=data("1601")), get_result(4))),
    "SET's block": set_response(2, "datablock", number(1)),
    "SET's last block": set_response(3, "last-datablock", access_result(0), number(2)),
    "SET's last block with a list": set_response(4, "last-datablock-with-list",
                                                 *list_of([access_result(0)], [access_result(3)]),
                                                 number(2)),
    "SET's list": set_response(5, "with-list", *list_of([access_result(0)], [access_result(12)])),
    "ACTION's return": action_response(1, "normal", action_result(0),
                                       ("01", "Return parameter: yes"),
                                       *indent(get_result(data=data("1200FF")))),
    "ACTION's answer in blocks": action_response(2, "with-pblock", *block(True, 1, "00")),
    "ACTION's list": action_response(3, "with-list", *list_of([action_result(0), NO_RETURN],
                                                              [action_result(2), NO_RETURN])),
    "ACTION's block": action_response(4, "next-pblock", number(1)),
    "a service that is not allowed": NOT_ALLOWED,
    "an unknown service": UNSUPPORTED,
    "an unreadable request": UNREADABLE,
    "an invocation counter": [*exception(1, 6, ("service-not-allowed",
                                                "invocation-counter-error")),
                              ("00000009", "Invocation counter: 9")],
}
FORMS |= {f"SET's result {it}": set_response(1, "normal", access_result(it)) for it in RESULTS}
FORMS |= {f"ACTION's result {it}": action_response(1, "normal", action_result(it), NO_RETURN)
          for it in RESULTS if it < 16 or it == 250}
# APDUs that are named and not dissected.
OTHERS = {
    "a ciphered GET": [("C8", "APDU: glo-GET-Request (0xc8)"), ("0301", "Undissected: 0301")],
    "a notification": [("0F", "APDU: Data-Notification (0x0f)"), ("00AA", "Undissected: 00aa")],
    "an unknown APDU": [("7A", "APDU: Unknown (0x7a)"), ("01", "Undissected: 01")],
}

# A value of each type, and those at the limits of their range.
VALUES = ("00", "0100", "0200", "0300", "0301", "03FF", "0400", "0405A8", "0408A8", "0409A880",
          "05FFFFFFFE", "0580000000", "06FFFFFFFF", "0900", "0906000060030AFF",
          "090652454C415931", "09050001020304", "0A00", "0A0361625A", "0C03C3A461", "0F80", "0F7F",
          "108000", "1180", "12FFFF", "148000000000000000", "1500000000000000FF",
          "15FFFFFFFFFFFFFFFF", "1601", "1907EA0B1B0507000000000000", "1907EA0B1B050700003CFFC480",
          "19FFFFFFFFFFFFFFFFFF8000FF", "1A07EA0B1B05", "1AFFFFFFFFFF", "1B070000FF", "1B173B3B63",
          "01020202090252451200010101110A", "09818002" + "AB" * 127, "0204" + "0201" * 4 + "00" * 4,
          "02010201020102010201020102010201" + "1605")

# ---- checks

passed = failed = 0


def check(name, found, wanted):
    """Counts a check. If it fails, prints the first line that differs."""
    global passed, failed
    if found == wanted:
        passed += 1
        return
    failed += 1
    print(f"FAILED wireshark: {name}")
    if isinstance(found, list) and isinstance(wanted, list):
        at = next((i for i, pair in enumerate(zip(found, wanted)) if pair[0] != pair[1]),
                  min(len(found), len(wanted)))
        found, wanted = found[at:at + 2], wanted[at:at + 2]
        print(f"    at line {at + 1}:")
    print(f"    found    {found}\n    expected {wanted}")


def test(function):
    """Runs one test, and counts an error as a failed check."""
    global failed
    try:
        function()
    except (AssertionError, LookupError, OSError, ParseError,
            subprocess.SubprocessError) as error:
        failed += 1
        print(f"FAILED wireshark: {function.__name__.replace('_', ' ')}: "
              f"{type(error).__name__} {error}")


def is_request(parts):
    return bytes_of(parts)[0] in (0x60, 0x62, 0xC0, 0xC1, 0xC3)


def frame_and_lines(parts, client=PUBLIC):
    """A frame of these parts: its bytes, its lines, and whether the client sends it."""
    by_client = is_request(parts)
    frame = frame_of(parts, client, by_client)
    return bytes_of(frame), lines_of_parts(frame), by_client


def compare(cases, *options):
    """Compares each frame, in a connection of its own."""
    capture, wanted = Capture(), {}
    for name, parts in cases.items():
        text, lines, by_client = frame_and_lines(parts)
        wanted[capture.connection().send(text, by_client)] = name, lines
    found = frames_of(capture, *options)
    for packet, (name, lines) in wanted.items():
        check(f"{name}: one frame", len(found[packet]), 1)
        check(name, found[packet][0], lines)


def all_forms():
    compare(ASSOCIATIONS | FORMS | OTHERS)
    check("the names of the conformance bits",
          {bit: CONFORMANCE[bit] for bit in OFFERED}, OFFERED)


def all_values():
    compare({f"Data {it[:40]}": get_response(1, "normal", *get_result(data=data(it)))
             for it in VALUES})


def all_objects():
    """Each attribute and method of each object of the meter's table."""
    cases = {}
    for name, (kind, words) in OBJECTS.items():
        for what, members in MEMBERS.items():
            for (of_class, n), member in members.items():
                if of_class == kind:
                    parts = (get(1, "normal", *attribute(kind, name.hex(), n))
                             if what == "attribute"
                             else action(1, "normal", *method(kind, name.hex(), n),
                                         *parameter("")))
                    cases[f"{CLASS_NAMES[kind]}, {words}: {member}"] = parts
    check("the table has objects", (len(OBJECTS), len(cases) > len(OBJECTS)), (12, True))
    compare(cases)


# ---- a session with the meter

# The requests of a client whose PDU size is 64 bytes, each with the parts of its answer, or with
# the reader of the bytes that its blocks contain, or with nothing.
SESSION = [
    (get(1, "normal", *attribute(*STATE)), NOT_ALLOWED),
    (aarq(*LOW_LEVEL, *initiate_request(0x001E19, 64)),
     aare(0, "accepted", user_diagnostic(0), *initiate_response(0x001E19, 1024))),
    (get(1, "normal", *attribute(*STATE)),
     get_response(1, "normal", *get_result(data=data("1601")))),
    (get(1, "normal", *attribute(*UNKNOWN)), get_response(1, "normal", *get_result(4))),
    (get(1, "normal", *attribute(*STATE, (1, data("00")))),
     get_response(1, "normal", *get_result(13))),
    (set_(1, "normal", *attribute(*MODE), *data("1604")),
     set_response(1, "normal", access_result(0))),
    (set_(1, "normal", *attribute(*MODE), *data("1104")),
     set_response(1, "normal", access_result(12))),
    (action(1, "normal", *method(*DISCONNECT), *parameter("0F00")), None),
    (get(3, "with-list", *list_of(attribute(*STATE), attribute(*UNKNOWN))), None),
    (action(1, "normal", *method(*RECONNECT), *parameter("")), None),
    (set_(2, "with-first-datablock", *attribute(*NORMAL), *block(False, 1, "0600")), None),
    (set_(3, "with-datablock", *block(False, 2, "001B")), None),
    (set_(3, "with-datablock", *block(True, 3, "58"), *joined_blocks(3, data("0600001B58"))), None),
    (get(1, "normal", *attribute(*NORMAL)),
     get_response(1, "normal", *get_result(data=data("0600001B58")))),
    (action(4, "with-first-pblock", *method(*DISCONNECT), *block(False, 1, "0F")), None),
    (action(6, "with-pblock", *block(True, 2, "00"), *joined_blocks(2, data("0F00"))), None),
    (set_(3, "with-datablock", *block(False, 4, "00")), None),
    (get(2, "next", number(1)),
     get_response(2, "with-datablock", ("01", "Last block: yes"), number(1), *get_result(16))),
    (get(1, "normal", *attribute(*OBJECT_LIST)), None),
    *[(get(2, "next", number(n)), None) for n in range(1, 13)],
    (get(3, "with-list", *list_of(attribute(*STATE), attribute(*OBJECT_LIST))), results_lines),
    *[(get(2, "next", number(n)), results_lines) for n in range(1, 13)],
    (set_(4, "with-list", *list_of(attribute(*MODE)), *list_of(data("1604"))), UNSUPPORTED),
    (RELEASE, RELEASED),
    (get(1, "normal", *attribute(*STATE)), NOT_ALLOWED),
]


def answers_of(requests):
    """What the meter answers to a client's frames, each with its header."""
    stream = b"".join(requests).hex().upper().encode()
    words = [str(SERVER), "hex", "--password", PASSWORD]
    ran = subprocess.run(words, input=stream, capture_output=True, timeout=PATIENCE, check=True)
    return [bytes.fromhex(line.decode()) for line in ran.stdout.split()]


def answer_lines(reader, text, wanted):
    """The lines of an answer, from its parts or read from its bytes."""
    payload = text[8:]
    head = lines_of_parts([header(1, MANAGEMENT, len(payload), False)])
    if isinstance(wanted, list):
        assert payload == bytes_of(wanted), payload.hex()
        return head + lines_of_parts(wanted)
    return head + list(reader.lines(payload, *([wanted] if wanted else [])))


def a_session():
    requests = [frame_and_lines(parts, MANAGEMENT) for parts, _ in SESSION]
    answers = answers_of([text for text, *_ in requests])
    check("a session: each request is answered", len(answers), len(requests))
    capture, wanted, reader = Capture(), [], Answers()
    connection = capture.connection()
    for (text, lines, _), answer, (_, expected) in zip(requests, answers, SESSION):
        packet = connection.send(text)
        connection.send(answer, is_client=False)
        wanted += [lines, [*answer_lines(reader, answer, expected), f"Request in: {packet}"]]
    for options in ((), ("-2",)):
        found = frames_of(capture, *options)
        for packet, lines in enumerate(wanted, 1):
            name = f"a session{' read twice' if options else ''}: packet {packet}"
            check(name, found[packet], [lines])
    check("a session: blocks are joined", sum("Joined blocks" in line for lines in wanted
                                              for line in lines), 4)


def answers_name_their_requests():
    """Answers in other packets than their requests, requests without an answer, and answers without
    a request."""
    capture = Capture()
    connection, silent, by_id = (capture.connection() for _ in range(3))
    texts = {name: frame_and_lines(FORMS[name])[0]
             for name in ("GET", "GET's answer", "SET's result 0", "ACTION", "an unknown service")}
    connection.send(texts["ACTION"] + texts["GET"])
    connection.send(texts["GET"])
    connection.send(texts["GET's answer"] + texts["SET's result 0"], is_client=False)
    connection.send(texts["GET's answer"] * 2, is_client=False)
    connection.send(texts["GET"])
    connection.send(texts["an unknown service"], is_client=False)
    silent.send(texts["an unknown service"], is_client=False)
    by_id.send(texts["GET"].replace(b"\xc0\x01\xc1", b"\xc0\x01\xc2") + texts["GET"])
    by_id.send(texts["GET"])
    by_id.send(texts["GET's answer"], is_client=False)
    by_id.send(texts["GET's answer"].replace(b"\xc1", b"\xc2"), is_client=False)
    wanted = [[None, None], [None], [1, None], [2, None], [None], [5], [None],
              [None, None], [None], [8], [None]]
    for options in ((), ("-2",)):
        frames = frames_of(capture, *options)
        found = [[next((int(line[12:]) for line in frame if line.startswith("Request in: ")), None)
                  for frame in frames[packet]] for packet in sorted(frames)]
        check("answers name their requests", found, wanted)


def get_block(is_last, n, raw):
    """A block of a GET's answer."""
    return get_response(2, "with-datablock", (f"{is_last:02X}", "Last block"), number(n),
                        ("00", "Choice"), raw_data(raw))


def only_whole_transfers_are_joined():
    """Transfers with a block too few, twice, in another connection, or after another request; and a
    whole one that is sent again."""
    capture, joined_at = Capture(), []
    first, last = get_block(False, 1, "0600"), get_block(True, 2, "001B58")
    get_one, get_list = FORMS["GET"], FORMS["GET of a list"]
    runs = {"whole": ((get_one, first, last), True), "no first block": ((get_one, last), False),
            "the first block twice": ((get_one, first, first, last), False),
            "another number": ((get_one, first, get_block(True, 3, "001B58")), False),
            "no request": ((first, last), False),
            "another request": ((get_one, first, get_one, last), False),
            "whole after a part": ((get_one, first, get_one, first, last), True),
            "a list as a value": ((get_list, first, last), False)}
    for name, (frames, is_joined) in runs.items():
        connection = capture.connection()
        packets = [connection.send(*(frame_and_lines(it)[0::2])) for it in frames]
        joined_at.append((name, packets[-1], is_joined))
    found = frames_of(capture)
    for name, packet, is_joined in joined_at:
        check(f"joined blocks: {name}",
              "    double-long-unsigned: 7000" in found[packet][0], is_joined)


# ---- packets and frames

STREAM = [aarq(*LOW_LEVEL, *initiate_request(0x001C19, 1024)),
          get(1, "normal", *attribute(*STATE)),
          set_(1, "normal", *attribute(*MODE), *data("1604")), RELEASE]


def stream_and_lines():
    """The bytes and the lines of several frames."""
    frames = [frame_and_lines(parts, MANAGEMENT) for parts in STREAM]
    return [text for text, *_ in frames], [lines for _, lines, _ in frames]


def frames_are_split():
    """Frames that end at each byte of a packet, and frames of packets of one byte."""
    texts, lines = stream_and_lines()
    stream = b"".join(texts)
    capture, runs = Capture(), {}
    pieces = [(stream[:at], stream[at:]) for at in range(1, len(stream))]
    for parts in (*pieces, tuple(stream[at:at + 1] for at in range(len(stream)))):
        connection = capture.connection()
        runs[f"{len(parts)} packets, {len(parts[0])} bytes first"] = [
            connection.send(part) for part in parts]
    found = frames_of(capture)
    for name, packets in runs.items():
        check(f"split frames: {name}", [it for packet in packets for it in found[packet]], lines)


def frames_are_together():
    """Several frames in a packet, the last of them whole, cut or at its end."""
    texts, lines = stream_and_lines()
    capture = Capture()
    one, other = capture.connection(), capture.connection()
    one.send(b"".join(texts))
    other.send(texts[0] + texts[1] + texts[2][:11])
    other.send(texts[2][11:] + texts[3] + texts[1])
    other.send(texts[0][:9])
    found = frames_of(capture)
    check("four frames in a packet", found[1], lines)
    check("two frames and a part", found[2], lines[:2])
    check("the rest and two frames", found[3], [lines[2], lines[3], lines[1]])
    check("a part alone", found[4], [])
    summaries = summaries_of(capture)
    check("the summary of several frames", summaries[0],
          "DLMS/COSEM AARQ: low-level security; GET-Request normal: "
          "disconnect control.control_state; SET-Request normal: disconnect control.control_mode, "
          "enum 4; RLRQ")
    check("the summary of a frame of two packets", summaries[2],
          "DLMS/COSEM SET-Request normal: disconnect control.control_mode, enum 4; RLRQ; "
          "GET-Request normal: disconnect control.control_state")


# ---- faults

FAULT = "Expert Info (Error/Malformed): "


def every_frame():
    return {name: (bytes_of(parts), is_request(parts))
            for name, parts in (ASSOCIATIONS | FORMS).items()}


def wrap(payload, by_client=True, client=PUBLIC):
    ports = (client, 1) if by_client else (1, client)
    return b"".join(it.to_bytes(2, "big") for it in (1, *ports, len(payload))) + payload


def has_fault(frames):
    return len(frames) == 1 and any(line.startswith(FAULT) for line in frames[0])


def cut_apdus_are_malformed():
    """Each APDU without its last bytes, for each number of bytes, and with a byte too many."""
    capture, names = Capture(), {}
    for name, (payload, by_client) in every_frame().items():
        for piece in (*(payload[:size] for size in range(len(payload))), payload + b"\0"):
            packet = capture.connection().send(wrap(piece, by_client), by_client)
            names[packet] = f"{name}: {len(piece)} of {len(payload)} bytes"
    found = frames_of(capture)
    check("cut APDUs", [names[it] for it in names if not has_fault(found[it])], [])


WRONG = {
    "a wrong version": ("0002001000010000", "wrapper: expected version 1, found 2"),
    "another protocol": (b"GET / HTTP/1.1\r\n\r\n".hex(),
                         "wrapper: expected version 1, found 18245"),
    "no APDU": ("0001001000010000", "an APDU: expected 1 byte, found 0"),
    "an unknown form": (wrap(bytes.fromhex("C004C1")).hex(), "4 is no form of a GET-Request"),
    "bytes that are left": (wrap(bytes.fromhex("C501C10000"), False).hex(),
                            "1 byte after the SET-Response"),
    "an unknown type": (wrap(bytes.fromhex("C401C1001300"), False).hex(),
                        "0x13 is no known type of Data"),
    "too many items": (wrap(bytes.fromhex("C401C10001840FFFFFFF00"), False).hex(),
                       "the type of a Data: expected 1 byte, found 0"),
    "a long length": (wrap(bytes.fromhex("C401C1000984FFFFFFFF00"), False).hex(),
                      "octet-string: expected 4294967295 bytes, found 1"),
    "no length": (wrap(bytes.fromhex("C401C1000985"), False).hex(),
                  "octet-string: 0x85 is no length"),
    "nested too deep": (wrap(bytes.fromhex("C401C100" + "0201" * 33 + "00"), False).hex(),
                        "more than 32 nested lists"),
    "no result": (wrap(bytes.fromhex("C401C102"), False).hex(),
                  "Get-Data-Result: expected 0 or 1, found 2"),
    "a field twice": (wrap(bytes.fromhex("6206800100800100")).hex(),
                      "the field 80 occurs twice"),
    "no context": (wrap(bytes.fromhex("6000")).hex(), "the field A1 is missing"),
}


def wrong_bytes_are_malformed():
    capture, wanted = Capture(), {}
    for name, (text, fault) in WRONG.items():
        wanted[capture.connection().send(bytes.fromhex(text))] = name, fault
    found = frames_of(capture)
    for packet, (name, fault) in wanted.items():
        faults = [line[len(FAULT):] for it in found[packet] for line in it
                  if line.startswith(FAULT)]
        check(name, faults, [fault])
    marked = tshark(capture, "-Y", "dlms_cosem.malformed", "-T", "fields", "-e", "frame.number")
    check("the filter dlms_cosem.malformed", marked.split(), [str(it) for it in wanted])


def mutate(payload, chance):
    """An APDU with one to three bytes changed, dropped or added."""
    text = bytearray(payload)
    for _ in range(chance.randrange(1, 4)):
        at = chance.randrange(len(text) + 1)
        text[at:at + chance.randrange(3)] = chance.randbytes(chance.randrange(3))
    return bytes(text)


def values_are_limited():
    """Frames with 60,000 values are shown, and 120,000 joined values are malformed."""
    nulls = "00" * 60_000
    head = [frame_and_lines(FORMS["GET"])[0],
            wrap(bytes.fromhex("C401C1000182EA60" + nulls), False)]
    blocks = [wrap(bytes.fromhex(f"C402C1{last:02X}{n:08X}0082{len(raw) // 2:04X}{raw}"), False)
              for n, last, raw in ((1, 0, "018301D4C0" + nulls), (2, 1, nulls))]
    capture = Capture()
    connection = capture.connection()
    connection.send(head[0])
    for text in (head[1], *blocks):
        for at in range(0, len(text), 60_000):
            last = connection.send(text[at:at + 60_000], is_client=False)
    marked = tshark(capture, "-Y", "dlms_cosem.malformed", "-T", "fields", "-e", "frame.number",
                    "-e", "_ws.expert.message")
    check("too many values", marked.split("\t"), [str(last), "more than 100000 values\n"])


def mutated_apdus_raise_no_error():
    """Changed APDUs in two connections, so that blocks of wrong transfers are joined as well: each
    gives one frame, and no error of Lua (`tshark` looks for them)."""
    chance, capture = random.Random(4059), Capture()
    connections = [capture.connection(), capture.connection()]
    frames = list(every_frame().values())
    for _ in range(MUTATIONS):
        payload, by_client = chance.choice(frames)
        chance.choice(connections).send(wrap(mutate(payload, chance), by_client), by_client)
    found = frames_of(capture)
    check("mutated APDUs: one frame each", [it for it in found if len(found[it]) != 1], [])


def a_short_capture_is_cut_off():
    capture = Capture(limit=40 + 8 + 5)
    text, lines, _ = frame_and_lines(get(1, "normal", *attribute(*STATE)))
    capture.connection().send(text)
    check("a capture of the first bytes", frames_of(capture)[1],
          [lines[:12] + ["Expert Info (Warning/Undecoded): The capture has 13 of 21 bytes"]])


# ---- preferences and filters


def preferences_are_obeyed():
    capture = Capture(port=4060)
    text, lines, _ = frame_and_lines(STREAM[0], MANAGEMENT)
    capture.connection().send(text)
    check("another port", frames_of(capture)[1], [])
    check("the preference of the port",
          frames_of(capture, "-o", "dlms_cosem.port:4060")[1], [lines])
    usual = Capture()
    usual.connection().send(text)
    check("the preference replaces the usual port",
          [frames_of(usual)[1], frames_of(usual, "-o", "dlms_cosem.port:4060")[1]], [[lines], []])
    check("decoded as", frames_of(capture, "-d", "tcp.port==4060,dlms_cosem")[1], [lines])
    options = ["-o", "dlms_cosem.port:4060", "-o", "dlms_cosem.show_password:TRUE"]
    with_password = [it.replace("hidden, 8 bytes", PASSWORD) for it in lines]
    check("the preference of the password", frames_of(capture, *options)[1], [with_password])


def fields_are_filters():
    """Display filters by numbers, names and logical names."""
    capture = Capture()
    packets = {}
    for name in ("GET", "SET", "ACTION", "GET's result", "SET's result 2"):
        text, _, by_client = frame_and_lines(FORMS[name])
        packets[name] = capture.connection().send(text, by_client)
    for words, names in (
            ("dlms_cosem.tag == 0xc0", ["GET"]),
            ('dlms_cosem.name == "0.0.96.3.10.255"', ["GET", "SET", "ACTION"]),
            ("dlms_cosem.class == 70 && dlms_cosem.method == 1", ["ACTION"]),
            ('dlms_cosem.access_result == "temporary-failure"', ["SET's result 2"]),
            ("dlms_cosem.data.enum == 4", ["SET"]),
            ("dlms_cosem.source == 16", ["GET", "SET", "ACTION"])):
        found = tshark(capture, "-Y", words, "-T", "fields", "-e", "frame.number").split()
        check(f"the filter {words}", found, [str(packets[it]) for it in names])


TESTS = (all_forms, all_values, all_objects, a_session, answers_name_their_requests,
         only_whole_transfers_are_joined, frames_are_split, frames_are_together,
         cut_apdus_are_malformed, wrong_bytes_are_malformed, values_are_limited,
         mutated_apdus_raise_no_error, a_short_capture_is_cut_off, preferences_are_obeyed,
         fields_are_filters)


def main(words):
    if words:
        print(__doc__.strip(), file=sys.stdout if words[0] in ("-h", "--help") else sys.stderr)
        return 0 if words[0] in ("-h", "--help") else 2
    if not shutil.which("tshark"):
        print("SKIPPED wireshark: tshark is not installed (Debian: apt-get install tshark)")
        print("0 passed, 0 failed")
        return 0
    if not os.access(SERVER, os.X_OK):
        print(f"{SERVER} is missing: run bin/test, or `rt run` in its crate")
        print("0 passed, 1 failed")
        return 1
    for function in TESTS:
        test(function)
    print(f"{passed} passed, {failed} failed")
    return 1 if failed else 0


if __name__ == "__main__":
    sys.exit(main(sys.argv[1:]))
