#!/usr/bin/env python3
"""Plays sessions with a new meter: by `meter_server hex`, and over TCP in one piece and byte by
byte. Each must have the expected frames as its answers, and over TCP the expected end. Requests
without frames are played by `meter_server apdu`, and texts with wrong digits by `meter_server hex`.

The expected bytes are those of the standard (IEC 62056-5-3 and IEC 62056-4-7); none comes from the
program's output.

usage: tests/sessions.py
"""
import contextlib
import re
import socket
import subprocess
import sys

sys.dont_write_bytecode = True  # importing the modules of tests/ leaves no files

import serving
from serving import MANAGEMENT, PASSWORD, PATIENCE, PUBLIC, SERVER, Server, check

# The AARQ of each client, in its frame, and the AARE. The public client calls from port 16, the
# management client from port 1 with the password 12345678.
PUBLIC_AARQ = "000100100001001F601DA109060760857405080101BE10040E01000000065F1F0400007E1F04B0"
PUBLIC_AARE = "000100010010002B6129A109060760857405080101A203020100A305A103020100BE10040E0800065F1F0400001E1904000007"
MANAGEMENT_AARQ = ("00010001000100386036A1090607608574050801018A0207808B0760857405080201AC0A80083132333435363738"
                   "BE10040E01000000065F1F0400001C190400")
MANAGEMENT_AARE = "000100010001002B6129A109060760857405080101A203020100A305A103020100BE10040E0800065F1F0400001C1904000007"
OPENINGS = {PUBLIC: (PUBLIC_AARQ, PUBLIC_AARE), MANAGEMENT: (MANAGEMENT_AARQ, MANAGEMENT_AARE)}
# The AARQ of a public client whose PDU size is 64; the AARE is the same.
SMALL = (PUBLIC_AARQ[:-4] + "0040", PUBLIC_AARE)
# A public client that proposes only GET, in PDUs of 64 bytes, and its AARE.
ONLY_GET = ("000100100001001F601DA109060760857405080101BE10040E01000000065F1F04000000100040",
            "000100010010002B6129A109060760857405080101A203020100A305A103020100BE10040E0800065F1F040000001004000007")

# The GET of the state of the switch, and the response of a connected one; the public client's, in
# frames.
GET_STATE = ("C001C10046000060030AFF0300", "C401C1001601")
PUBLIC_GET = "000100100001000DC001C10046000060030AFF0300"
PUBLIC_STATE = "0001000100100006C401C1001601"

# How the server reports the end of a session.
CLOSED = "the client closed the connection"
CUT = "the client closed the connection within a frame"
BAD_VERSION = "a frame has the wrong version: expected 1"
TOO_LONG = "a frame is too long: expected a payload of at most 1,024 bytes"

# Short sessions, each for one rule: what it shows, the frames of the client and of the meter, and
# the end.
SESSIONS = [
    ("nothing is sent", "", "", CLOSED),
    ("a public client associates", PUBLIC_AARQ, PUBLIC_AARE, CLOSED),
    ("a request before an association is refused", PUBLIC_GET, "0001000100100003D80101", CLOSED),
    ("a header of another version ends the session", "0002001000010000", "", BAD_VERSION),
    ("a header of version 257 ends the session", "0101001000010000", "", BAD_VERSION),
    ("the version is judged before the length", "000200100001FFFF", "", BAD_VERSION),
    ("a header that announces 1,025 bytes ends the session", "0001001000010401", "", TOO_LONG),
    ("a header that announces 65,535 bytes ends the session", "000100100001FFFF", "", TOO_LONG),
    ("after a header of another version nothing is answered", "0001001000010001CA0002001000010000" + PUBLIC_GET,
     "0001000100100003D80202", BAD_VERSION),
    ("an AARQ is refused because of its version", PUBLIC_AARQ.replace("01000000065F", "01000000055F"),
     "0001000100100021611FA109060760857405080101A203020101A305A103020101BE0604040E010601", CLOSED),
    ("an AARQ is refused because of its PDU size", PUBLIC_AARQ[:-4] + "003F",
     "0001000100100021611FA109060760857405080101A203020101A305A103020101BE0604040E010603", CLOSED),
    ("a frame to another port is not answered", "0001001000020001C0", "", CLOSED),
    ("an unknown tag has an exception", "0001001000010001CA", "0001000100100003D80202", CLOSED),
    ("an empty payload has an exception", "0001001000010000", "0001000100100003D80202", CLOSED),
    # No call is allowed before an association, also from the ports 65534 and 32768.
    ("answers go to ports above 32767", "0001FFFE0001000DC001C10046000060030AFF0300" "0001800000010001CA",
     "00010001FFFE0003D80101" "0001000180000003D80202", CLOSED),
    # The calling AP title is an OCTET STRING of 496 bytes.
    ("an AARQ of 537 bytes is answered", "000100100001021960820215A109060760857405080101A68201F4048201F0" + 496 * "00"
     + "BE10040E01000000065F1F0400007E1F04B0" + PUBLIC_GET, PUBLIC_AARE + PUBLIC_STATE, CLOSED),
    ("a client of the management's port without a password is refused", "000100010001001F601DA109060760857405080101BE10040E01000000065F1F0400007E1F04B0",
     "00010001000100196117A109060760857405080101A203020101A305A10302010E", CLOSED),
    ("a wrong password and none are refused", MANAGEMENT_AARQ.replace("3738BE", "3739BE") + "000100010001001F601DA109060760857405080101BE10040E01000000065F1F0400007E1F04B0",
     "00010001000100196117A109060760857405080101A203020101A305A10302010D" "00010001000100196117A109060760857405080101A203020101A305A10302010E", CLOSED),
    ("other frames between those of a public client", PUBLIC_AARQ + "000100010001000DC001C10046000060030AFF0300" "0001001000020001C0" "0001001000010001CA"
     "0001001000010000" + PUBLIC_GET, PUBLIC_AARE + "0001000100010003D80101" "0001000100100003D80202" "0001000100100003D80202" + PUBLIC_STATE, CLOSED),
    ("a session ends in its first byte", "00", "", CUT),
    ("a session ends within an AARQ", "000100100001001F601DA109", "", CUT),
    ("a session ends within a header", "0001001000010001CA00010010", "0001000100100003D80202", CUT),
    ("a session ends within a payload", "000100100001000DC001C1", "", CUT),
    # After the public client's AARQ come a request from port 1 and one from port 16.
    ("another port has no association", PUBLIC_AARQ + "000100010001000DC001C10046000060030AFF0300" + PUBLIC_GET,
     PUBLIC_AARE + "0001000100010003D80101" + PUBLIC_STATE, CLOSED),
    ("101 frames are answered", PUBLIC_AARQ + 100 * PUBLIC_GET, PUBLIC_AARE + 100 * PUBLIC_STATE, CLOSED),
]

# A GET with list of ten logical names of the switch, and the blocks of its response.
TEN_NAMES = "C003C10A" + 10 * "0046000060030AFF0100"
FIRST_BLOCK = "C402C1000000000100340A" + 5 * "000906000060030AFF" + "000906000060"
SECOND_BLOCK = "C402C101000000020027030AFF" + 4 * "000906000060030AFF"

# Talks: what each shows, the client, and the payloads of its requests and of the responses.
TALKS = [
    ("a public client reads", PUBLIC, [GET_STATE]),
    ("the public client does not write the mode", PUBLIC, [("C101C10046000060030AFF04001602", "C501C103")]),
    ("the management client writes the mode", MANAGEMENT, [("C101C10046000060030AFF04001602", "C501C100")]),
    ("a body that nests too deep is unreadable", PUBLIC, [("C101C10046000060030AFF040002010201020102010201020102010201020100", "D80103")]),
    ("the public client reads, and does not write", PUBLIC, [GET_STATE, ("C101C10046000060030AFF04001602", "C501C103")]),
    ("a release ends the association", MANAGEMENT, [("6203800100", "6303800100"), (GET_STATE[0], "D80101")]),
    ("a SET arrives in blocks", MANAGEMENT, [
        ("C102C10046000060030AFF040000000000010116", "C502C100000001"), ("C103C101000000020105", "C503C10000000002"),
        ("C001C10046000060030AFF0400", "C401C1001605"), ("C103C101000000030105", "C503C11200000003")]),
    ("an ACTION arrives in blocks", MANAGEMENT, [
        ("C101C10046000060030AFF04001601", "C501C100"), ("C304C10046000060030AFF010000000001010F", "C704C100000001"),
        ("C306C101000000020100", "C701C10000"), ("C001C10046000060030AFF0300", "C401C1001600"),
        ("C306C101000000020100", "C701C11000")]),
    ("several attributes are read at once", PUBLIC, [
        ("C003C1020046000060030AFF03000046000060030BFF0300", "C403C1020016010104"), ("C003C100", "C403C100")]),
    ("a GET with an empty list has an exception", MANAGEMENT, [("C003C100", "D80202")]),
    ("a long answer is sent in blocks", SMALL, [
        (TEN_NAMES, FIRST_BLOCK), ("C002C100000001", SECOND_BLOCK), ("C002C100000002", "C402C101000000020110"),
        (TEN_NAMES, FIRST_BLOCK), ("C002C100000007", "C402C101000000070113"), ("C002C100000001", "C402C101000000010110"),
        GET_STATE]),
    ("a client without block transfer reads no long list", ONLY_GET, [
        ("C001C1000F0000280000FF0200", "C401C101FA"), ("C002C100000001", "D80202"), ("C003C100", "D80202"), GET_STATE]),
    # Blocks whose joined bytes are not one Data within the limits.
    ("joined bytes that are no value are refused", MANAGEMENT, [
        # Nine structures in one another, nine arrays, and nine arrays as the parameter of a method.
        ("C102C10046000060030AFF040001000000011302010201020102010201020102010201020100", "C503C1FA00000001"),
        ("C102C10046000060030AFF040001000000011301010101010101010101010101010101010100", "C503C1FA00000001"),
        ("C304C10046000060030AFF0101000000011301010101010101010101010101010101010100", "C701C1FA00"),
        # A byte after the value.
        ("C102C10046000060030AFF0400010000000103160200", "C503C1FA00000001"),
        # Each refusal has ended its transfer.
        ("C103C101000000020116", "C503C11200000002"),
        # A value that is not complete.
        ("C304C10046000060030AFF010100000001020600", "C701C1FA00")]),
]
# The management client writes a threshold and disconnects, both in blocks, and reads after each.
IN_BLOCKS = [
    ("C102C100470000110000FF0400000000000103060000", "C502C100000001"), ("C103C10100000002021B58", "C503C10000000002"),
    ("C001C100470000110000FF0300", "C401C1000600001B58"), ("C103C10100000003021B58", "C503C11200000003"),
    ("C101C10046000060030AFF04001601", "C501C100"), ("C304C10046000060030AFF010000000001010F", "C704C100000001"),
    ("C306C101000000020100", "C701C10000"), ("C001C10046000060030AFF0300", "C401C1001600"),
    ("C306C101000000020100", "C701C11000"),
]
# The management client executes remote_disconnect in one piece, in mode 1, and reads the state.
DISCONNECTION = [
    ("C101C10046000060030AFF04001601", "C501C100"), ("C301C10046000060030AFF01010F00", "C701C10000"),
    ("C001C10046000060030AFF0300", "C401C1001600"),
]

# Requests that make a meter as good as new after these talks: mode 4 and a reconnection, mode 0, and
# the threshold and the script table of a new meter. Then it has the values of a new meter.
RENEWAL = [
    "C101C10046000060030AFF04001604", "C301C10046000060030AFF0200", "C101C10046000060030AFF04001600",
    "C101C100470000110000FF040006FFFFFFFF", "C101C1000900000A006AFF02000100",
]
NEW = [
    GET_STATE, ("C001C10046000060030AFF0400", "C401C1001600"), ("C001C100470000110000FF0400", "C401C10006FFFFFFFF"),
    ("C001C1000900000A006AFF0200", "C401C1000100"),
]

# The object list of a public client, 650 bytes: for each object its class, version, logical name,
# attributes and methods, with the rights to them.
SCHEDULE = "0F0001FF0202010402030F0116010002030F0216000002030F0316000002030F041600000100"
REGISTER = "0700FF0202010302030F0116010002030F0216010002030F031601000100"
LIMITER_OBJECT = ("110000FF0202010B02030F0116010002030F0216000002030F0316000002030F0416000002030F0516000002030F06160000"
                  "02030F0716000002030F0816000002030F0916000002030F0A16000002030F0B1600000100")
OBJECT_LIST = "010C" + "".join([
    "020412000F110109060000280000FF0202010202030F0116010002030F021601000100",
    "02041200011100090600002A0000FF0202010202030F0116010002030F021601000100",
    *[f"0204120003110009060100{flow:02X}{REGISTER}" for flow in (1, 2)],
    "02041200091100090600000A006AFF0202010202030F0116010002030F02160000010102020F011600",
    *[f"02041200161100090600{group:02X}{SCHEDULE}" for group in range(4)],
    "020412004611000906000060030AFF0202010402030F0116010002030F0216010002030F0316010002030F04160100010202020F01160002020F021600",
    *[f"02041200471100090600{flow:02X}{LIMITER_OBJECT}" for flow in (0, 1)],
])
GET_LIST = "C001C1000F0000280000FF0200"
GET_TWO_LISTS = "C003C102000F0000280000FF0200000F0000280000FF0200"

# Eight steps of a script: writes of the mode, of thresholds and durations of both limiters and of
# an emergency profile, and both methods of the switch.
STEPS = [
    "020516011200460906000060030AFF0F041605", "0205160112004709060000110000FF0F040600002328",
    "0205160112004709060000110000FF0F050600001388", "0205160112004709060001110000FF0F06060000000A",
    "0205160112004709060001110000FF0F070600000019",
    "0205160112004709060000110000FF0F080203120007090C07D00101FF00012800800000060000000A",
    "020516021200460906000060030AFF0F010F00", "020516021200460906000060030AFF0F020F00",
]
# The largest table: 16 scripts of these steps, 3,090 bytes.
FULL_TABLE = "0110" + "".join(f"02021200{number:02X}0108{''.join(STEPS)}" for number in range(1, 17))

# Requests without frames, each list to a new meter, with the responses.
REQUESTS = [
    ("attributes are read", [
        ("C001C10046000060030AFF0300", "C401C1001601"), ("C001C10046000060030AFF0200", "C401C1000301"),
        ("C001C10046000060030AFF0100", "C401C1000906000060030AFF"), ("C001C1000100002A0000FF0200", "C401C100090652454C415931"),
        ("C00105000100002A0000FF0200", "C4010500090652454C415931")]),
    ("reads are refused in this meter's order", [
        ("C001C10046000060030BFF0200", "C401C10104"), ("C001C10047000060030AFF0200", "C401C10109"),
        ("C001C10046000060030AFF0500", "C401C10103"), ("C001C10046000060030AFF03010100", "C401C1010D")]),
    ("the mode is written", [
        ("C101C10046000060030AFF04001102", "C501C10C"), ("C101C10046000060030AFF04001607", "C501C1FA"),
        ("C101C10046000060030AFF04001602", "C501C100"), ("C001C10046000060030AFF0400", "C401C1001602")]),
    ("a client disconnects and reconnects", [
        ("C301C10046000060030AFF0100", "C701C10200"), ("C101C10046000060030AFF04001602", "C501C100"),
        ("C301C10046000060030AFF01010F00", "C701C10000"), ("C001C10046000060030AFF0300", "C401C1001600"),
        ("C101C10046000060030AFF04001600", "C501C102"), ("C301C10046000060030AFF0200", "C701C10000"),
        ("C001C10046000060030AFF0300", "C401C1001601")]),
    ("a payload that is not a request has an exception", [
        ("CA", "D80202"), ("60", "D80202"), ("62", "D80202"), ("C0", "D80103"), ("C1", "D80103"), ("C3", "D80103"),
        ("C002C100000001", "D80202"), ("C00200", "D80202"), ("C102C1", "D80202"), ("C304C1", "D80202"), ("C0FF", "D80202"),
        ("C001C10046000060030AFF0300FF", "D80103"), ("C101C10046000060030AFF040016", "D80103")]),
    ("a list is read", [
        ("C003C1020046000060030AFF03000046000060030BFF0300", "C403C1020016010104"), ("C003C100", "C403C100"), ("C003C101", "D80103")]),
    ("a request of 404 bytes is answered", [("C003C128" + 40 * "0046000060030AFF0100", "C403C128" + 40 * "000906000060030AFF")]),
]

# Texts of a session in hexadecimal, the lines that are written, and whether the text is accepted.
# An empty payload of an unknown tag is answered.
TEXTS = [
    # Digits may be of either case and have blanks between them.
    (" 0001 0010 0001\r\n000 1cA\n\n", "0001000100100003D80202\n", True),
    ("", "", True), (" \r\n", "", True),
    # A session that is cut off is not a fault, nor is one with a wrong header.
    ("0001001000010001CA00010010", "0001000100100003D80202\n", True),
    ("0001001000010001CA0002001000010000", "0001000100100003D80202\n", True), ("0001001000010401", "", True),
    # Other characters are not digits.
    ("0", "", False), ("0001001000010001CA0", "", False), ("0001001000010001CA0G", "", False), ("0001001000010001CA\t", "", False),
]


def frame(payload, source, destination):
    """A payload in hexadecimal, in its frame."""
    return f"0001{source:04X}{destination:04X}{len(payload) // 2:04X}{payload}"


class Talk:
    """The frames of a client and of the meter, in hexadecimal: an AARQ and its AARE, and requests
    with their responses. The client is that of a port, or of an opening from port 16."""

    def __init__(self, client, pairs):
        self.port = client if client in OPENINGS else PUBLIC
        asked, answered = OPENINGS.get(client, client)
        self.asked, self.answered = [asked], [answered]
        for pair in pairs:
            self.add(*pair)

    def add(self, request, response):
        self.asked.append(frame(request, self.port, 1))
        self.answered.append(frame(response, 1, self.port))

    def whole(self):
        return "".join(self.asked), "".join(self.answered)

    def cuts(self):
        """The first bytes of the client for each number of them, with the answers to its whole
        frames and the end of the session."""
        text, ends = bytes.fromhex("".join(self.asked)), [0]
        for one in self.asked:
            ends.append(ends[-1] + len(one) // 2)
        for size in range(len(text) + 1):
            whole = sum(end <= size for end in ends[1:])
            yield text[:size].hex().upper(), "".join(self.answered[:whole]), CLOSED if size in ends else CUT


def length_of(raw):
    """The length of some bytes, as A-XDR writes it."""
    size = len(raw) // 2
    return f"{size:02X}" if size < 128 else f"81{size:02X}" if size < 256 else f"82{size:04X}"


def pieces(raw, size):
    """The bytes in pieces of a size: the number of each from 1, whether it is the last, and the
    piece."""
    found = [raw[at:at + 2 * size] for at in range(0, len(raw), 2 * size)]
    return [(number, number == len(found), piece) for number, piece in enumerate(found, 1)]


def blocks_read(request, raw, size):
    """A GET whose value is sent in blocks of a size, and the GET-next of each later block, with the
    blocks."""
    for number, is_last, piece in pieces(raw, size):
        asked = request if number == 1 else f"C002C1{number - 1:08X}"
        yield asked, f"C402C1{is_last:02X}{number:08X}00{length_of(piece)}{piece}"


def blocks_written(raw, size):
    """A SET of the script table in blocks of a size, with the responses."""
    for number, is_last, piece in pieces(raw, size):
        head = f"C102C1000900000A006AFF0200{is_last:02X}" if number == 1 else f"C103C1{is_last:02X}"
        response = ("C503C100" if is_last else "C502C1") + f"{number:08X}"
        yield f"{head}{number:08X}{length_of(piece)}{piece}", response


def lines_of(answered):
    """The frames of some text, each as a line: the last two bytes of a header are the length of the
    payload."""
    lines, at = [], 0
    while at < len(answered):
        end = at + 16 + 2 * int(answered[at + 12:at + 16], 16)
        lines.append(answered[at:end] + "\n")
        at = end
    return "".join(lines)


def by_hex(text, password=PASSWORD):
    """The status and the lines that `hex` prints for a session."""
    ran = subprocess.run([SERVER, "hex", "--password", password], input=text, capture_output=True,
                         text=True, timeout=PATIENCE)
    return ran.returncode, ran.stdout


def in_pieces(port, text, size):
    """What a server sends to a client that sends its bytes in pieces and then ends its side."""
    received = b""
    with socket.create_connection(("127.0.0.1", port), timeout=PATIENCE) as client:
        client.setsockopt(socket.IPPROTO_TCP, socket.TCP_NODELAY, 1)
        # (a server that ends the session resets the connection once it gets more)
        with contextlib.suppress(ConnectionError):
            for at in range(0, len(text), size):
                client.sendall(text[at:at + size])
            client.shutdown(socket.SHUT_WR)
        with contextlib.suppress(ConnectionError):
            while piece := client.recv(65_536):
                received += piece
    return received


class Meter:
    """A server that plays sessions, one after the other."""

    def __init__(self, password=PASSWORD):
        self.server = Server("--stop-with-input", password=password)
        self.ends = []

    def play(self, text, size, end=None):
        """Plays a session in pieces of a size and notes the expected end, a title and a text.
        Returns the answers."""
        self.ends.append(end)
        return in_pieces(self.server.port, text, size)

    def renew(self):
        """Makes the meter as good as new, and returns whether it is."""
        talk = Talk(MANAGEMENT, [(request, "") for request in RENEWAL] + NEW)
        received = self.play(bytes.fromhex("".join(talk.asked)), 1_024)
        return received.hex().upper().endswith("".join(talk.answered[-len(NEW):]))

    def check(self, name, session, *, changes):
        """Plays a session in one piece and byte by byte. `changes` says whether it may change the
        meter."""
        asked, answered, end = session
        text = bytes.fromhex(asked)
        for what, size in (("in one piece", max(len(text), 1)), ("byte by byte", 1)):
            received = self.play(text, size, (f"{name}: {what}", end)).hex().upper()
            check(f"{name}: {what}", received == answered, received)
            check(f"{name}: {what}: the next has a new meter", not changes or self.renew())

    def end(self, name):
        """Ends the server, and compares the ends that it reports for its sessions."""
        status, _, errors = self.server.end()
        check(f"{name}: no fault", status == 0 and "fault" not in errors, status, errors[-500:])
        found = {int(number): end for number, end in re.findall(r"client (\d+), .*: session ended: ([^;]*);", errors)}
        for number, wanted in enumerate(self.ends, 1):
            if wanted:
                check(f"{wanted[0]}: its end", found.get(number) == wanted[1], found.get(number))


def check_by_hex(name, asked, answered, password=PASSWORD):
    """Plays a session by `hex`, which prints each answer as a line."""
    found = by_hex(asked, password)
    check(f"{name}: by hex", found == (0, lines_of(answered)), found)


def play_all(name, sessions, *, changes=False, password=PASSWORD):
    """Plays sessions, each a title, the client's frames, the answers and the end."""
    meter = Meter(password)
    for title, *session in sessions:
        check_by_hex(f"{name}: {title}", *session[:2], password)
        meter.check(f"{name}: {title}", session, changes=changes)
    meter.end(name)


def sessions_are_answered_to_their_end(name):
    play_all(name, SESSIONS)
    refused = "00010001000100196117A109060760857405080101A203020101A305A10302010D"
    play_all(name, [("a wrong password is refused", MANAGEMENT_AARQ, refused, CLOSED)], password="12345679")


def talks_are_answered(name):
    play_all(name, [(title, *Talk(client, pairs).whole(), CLOSED) for title, client, pairs in TALKS], changes=True)


def long_values_go_in_blocks(name):
    read = [*blocks_read(GET_LIST, OBJECT_LIST, 52)]
    check(f"{name}: 650 bytes in 13 blocks", len(OBJECT_LIST) == 2 * 650 and len(read) == 13 and read[-1][1].endswith(
        "C402C1010000000D001A16000002030F0916000002030F0A16000002030F0B1600000100"), read)
    # A GET-next with a wrong block number ends the transfer; the right number comes too late.
    wrong = [read[0], ("C002C100000007", "C402C101000000070113"), ("C002C100000001", "C402C101000000010110"), GET_STATE]
    two = [*blocks_read(GET_TWO_LISTS, f"0200{OBJECT_LIST}00{OBJECT_LIST}", 52)]
    check(f"{name}: 1,303 bytes in 26 blocks", len(two) == 26 and two[-1][1] == "C402C1010000001A0003000100", two)
    talks = [("the object list", SMALL, read), ("a wrong block number", SMALL, wrong), ("two object lists", SMALL, two)]
    # Small blocks give the same result. The PDUs of the response have 1,024 bytes, 12 of which are
    # the header.
    check(f"{name}: a full table has 3,090 bytes", len(FULL_TABLE) == 2 * 3_090)
    for size, count in ((1_000, 4), (100, 31)):
        pairs = [*blocks_written(FULL_TABLE, size), *blocks_read("C001C1000900000A006AFF0200", FULL_TABLE, 1_012)]
        check(f"{name}: a full table in {count} blocks", len(pairs) == count + 4, len(pairs))
        talks.append((f"a full table in blocks of {size}", MANAGEMENT, pairs))
    play_all(name, [(title, *Talk(client, pairs).whole(), CLOSED) for title, client, pairs in talks], changes=True)


def cut_talks_are_answered_so_far(name):
    """Each talk is cut after each number of its bytes. A new meter answers its whole frames."""
    for title, client, pairs in (("an opening", PUBLIC, []), ("a talk in blocks", MANAGEMENT, IN_BLOCKS), ("a disconnection", MANAGEMENT, DISCONNECTION)):
        cuts = [(f"{title} after {len(cut[0]) // 2} bytes", *cut) for cut in Talk(client, pairs).cuts()]
        play_all(name, cuts, changes=bool(pairs))


def changed_openings(at):
    """The public client's AARQ with the byte at a place changed, in each way."""
    for change in range(1, 256):
        text = bytearray.fromhex(PUBLIC_AARQ)
        text[at] ^= change
        yield change, bytes(text)


def an_opening_with_a_changed_byte_has_one_answer(name):
    """Each byte of the AARQ after its header is changed in each way. The answer, at least one
    frame, is the same in one piece and byte by byte, and the session ends with its input."""
    for at in range(8, 39):
        meter = Meter()
        for change, text in changed_openings(at):
            title = f"{name}: byte {at} by {change}"
            whole, by_bytes = (meter.play(text, size, (title, CLOSED)) for size in (len(text), 1))
            check(title, whole and whole == by_bytes, whole, by_bytes)
        meter.end(f"{name}: byte {at}")


def requests_without_frames_are_answered(name):
    for title, pairs in REQUESTS:
        ran = subprocess.run([SERVER, "apdu"], input="".join(f"{pair[0]}\n" for pair in pairs), capture_output=True, text=True, timeout=PATIENCE)
        found = ran.returncode, ran.stdout.split(), ran.stderr
        check(f"{name}: {title}", found == (0, [pair[1] for pair in pairs], ""), found)


def texts_in_hexadecimal_are_judged(name):
    for text, lines, is_accepted in TEXTS:
        found = by_hex(text)
        check(f"{name}: {text!r}", found == (0 if is_accepted else 2, lines), found)


def main():
    if not serving.are_built(SERVER):
        return 1
    return serving.run_tests((sessions_are_answered_to_their_end, talks_are_answered, long_values_go_in_blocks, cut_talks_are_answered_so_far,
                              an_opening_with_a_changed_byte_has_one_answer, requests_without_frames_are_answered, texts_in_hexadecimal_are_judged))


if __name__ == "__main__":
    sys.exit(main())
