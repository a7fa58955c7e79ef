#!/usr/bin/env python3
"""Runs command lines of the proved executables that the gate left, and compares output, standard
error and status."""

import os
import pathlib
import re
import subprocess
import sys
import tempfile

sys.dont_write_bytecode = True  # importing the modules of tests/ leaves no files

from programs import TOP, are_built, executable

# The time at the head of a line of a server's log.
TIME = re.compile(rb"^\d{4}-\d\d-\d\dT\d\d:\d\d:\d\d\.\d{3}Z ", re.M)

# The environment without a password.
ENVIRONMENT = {name: value for name, value in os.environ.items() if name != "METER_PASSWORD"}

FAULT_INPUT = b"fault: input\n"
FAULT_LISTEN = b"fault: listen\n"
FAULT_READ = b"fault: read\n"
# The lines before these faults for a password of a wrong length, and for the address `nowhere`.
WRONG_PASSWORD = b"password: must be 1 to 32 bytes\n" + FAULT_INPUT
NOWHERE = b"nowhere: expected HOST:PORT with a port of at most 65535\n" + FAULT_LISTEN

# What is printed if a command that needs a password has none: clap's text, and how it is given.
NO_PASSWORD = (b"error: the following required arguments were not provided:\n  --password <TEXT>\n\n"
               b"Usage: %s\n\nFor more information, try '--help'.\n"
               b"password: expected --password, --password-file or the variable METER_PASSWORD\n")
# What clap prints if a file follows a command that reads standard input.
NOT_A_FILE = (b"error: unexpected argument 'jobs' found\n\nUsage: %s\n\n"
              b"For more information, try '--help'.\n")

# Files of passwords.
FOLDER = tempfile.TemporaryDirectory(prefix="passwords-")


def password_file(name, text, mode=0o600):
    path = pathlib.Path(FOLDER.name) / name
    path.touch(0o600)
    path.write_bytes(text)
    path.chmod(mode)
    return str(path)


ENDED_FILE = password_file("ended", b"12345678\n")
WHOLE_FILE = password_file("whole", b"12345678")
MISSING_FILE = str(pathlib.Path(FOLDER.name) / "missing")
# Each file that gives no password, with the end of the line on standard error and the fault.
EXPOSED = b"expected a file that only its owner may read, as chmod 600 makes it\n" + FAULT_INPUT
NO_LINE = b"expected one line of text\n" + FAULT_INPUT
WRONG_FILES = [
    ("is missing", MISSING_FILE, b"the file can't be read\n" + FAULT_READ, 3),
    ("is a folder of its owner", FOLDER.name, b"the file can't be read\n" + FAULT_READ, 3),
    ("all may read", password_file("all", b"12345678\n", 0o644), EXPOSED, 2),
    ("its group may read", password_file("group", b"12345678\n", 0o640), EXPOSED, 2),
    ("others may write", password_file("others", b"12345678\n", 0o602), EXPOSED, 2),
    ("others may read, of two lines", password_file("order", b"1234\n5678\n", 0o604), EXPOSED, 2),
    ("has two lines", password_file("lines", b"1234\n5678\n"), NO_LINE, 2),
    ("has an empty line after its line", password_file("empty line", b"12345678\n\n"), NO_LINE, 2),
    ("is not UTF-8", password_file("bytes", b"1234567\xFF\n"), NO_LINE, 2),
    ("has 1,025 bytes", password_file("long", b"p" * 1025), NO_LINE, 2),
]
# Each file that gives a password of a wrong length.
WRONG_LENGTHS = [
    ("is empty", password_file("empty", b"")),
    ("is a line end", password_file("end", b"\n")),
    ("has 33 bytes", password_file("33", b"p" * 33)),
    ("has 33 bytes and a line end", password_file("33 ended", b"p" * 33 + b"\n")),
    ("has 1,024 bytes", password_file("1024", b"p" * 1024)),
]

HEX = ["hex", "--password", "12345678"]
SERVE = ["serve", "--password", "12345678"]

# Frames of a session: the public client's AARQ and GET of the control state, the management
# client's AARQ, and the responses.
AARQ = b"000100100001001F601DA109060760857405080101BE10040E01000000065F1F0400007E1F04B0"
AARE = b"000100010010002B6129A109060760857405080101A203020100A305A103020100BE10040E0800065F1F0400001E1904000007\n"
GET_STATE = b"000100100001000DC001C10046000060030AFF0300"
GOT_STATE = b"0001000100100006C401C1001601\n"
MANAGEMENT_AARQ = (b"00010001000100386036A1090607608574050801018A0207808B0760857405080201AC0A80083132333435363738"
                   b"BE10040E01000000065F1F0400001C190400")
MANAGEMENT_AARE = b"000100010001002B6129A109060760857405080101A203020100A305A103020100BE10040E0800065F1F0400001C1904000007\n"

# A trace of nine events in version 1 and its run; the lines of a limiter.
TRACE_FILE = str(TOP / "crates" / "trace_player_cli" / "stdin")
PLAYED_FILE = str(TOP / "crates" / "trace_player_cli" / "stdout")
TRACE = pathlib.Path(TRACE_FILE).read_bytes()
PLAYED = pathlib.Path(PLAYED_FILE).read_bytes()
# The run of the trace of nine events, with the event at the end of each line.
WITH_EVENTS = [
    b"1: code 0; state 1; supply on; event set 1 70 000060030AFF 4 0 1601\n",
    b"2: code 0; state 0; supply off; event execute 1 70 000060030AFF 1 0F00\n",
    b"3: code 2; state 0; supply off; event button\n",
    b"4: code 0; state 2; supply off; event execute 1 70 000060030AFF 2 -\n",
    b"5: code 0; state 1; supply on; event button\n",
    b"6: value 0301; state 1; supply on; event get 16 70 000060030AFF 2 0\n",
    b"7: sampled 0 1; state 1; supply on; event samples 10 20\n",
    b"8: ran 0; state 1; supply on; event moment 5\n",
    b"9: stale 5; state 1; supply on; event moment 4\n",
]
# The events of that trace as comma-separated values: each line of docs/TRACE.md split into its
# columns, with the clock, whose first moment is that of event 8.
CSV_HEAD = b"number,reply,state,supply,moment,time\n"
CSV = [
    b"1,code 0,1,on,,\n",
    b"2,code 0,0,off,,\n",
    b"3,code 2,0,off,,\n",
    b"4,code 0,2,off,,\n",
    b"5,code 0,1,on,,\n",
    b"6,value 0301,1,on,,\n",
    b"7,sampled 0 1,1,on,,\n",
    b"8,ran 0,1,on,5,2000-01-01T00:00:05\n",
    b"9,stale 5,1,on,5,2000-01-01T00:00:05\n",
]
# The events of that trace as JSON.
NO_MOMENT = b'{"moment":null,"number":%d,"reply":"%s","state":%d,"supply":"%s","time":null}\n'
AT_MOMENT = b'{"moment":%d,"number":%d,"reply":"%s","state":1,"supply":"on","time":"%s"}\n'
JSON = [
    NO_MOMENT % (1, b"code 0", 1, b"on"), NO_MOMENT % (2, b"code 0", 0, b"off"), NO_MOMENT % (3, b"code 2", 0, b"off"),
    NO_MOMENT % (4, b"code 0", 2, b"off"), NO_MOMENT % (5, b"code 0", 1, b"on"), NO_MOMENT % (6, b"value 0301", 1, b"on"),
    NO_MOMENT % (7, b"sampled 0 1", 1, b"on"),
    AT_MOMENT % (5, 8, b"ran 0", b"2000-01-01T00:00:05"), AT_MOMENT % (5, 9, b"stale 5", b"2000-01-01T00:00:05"),
]
# Moments of the clock and their civil dates and times.
MOMENTS = [
    (0, b"2000-01-01T00:00:00"), (5183999, b"2000-02-29T23:59:59"), (31622399, b"2000-12-31T23:59:59"),
    (830961000, b"2026-05-01T14:30:00"), (3160857599, b"2100-02-28T23:59:59"), (3160857600, b"2100-03-01T00:00:00"),
    (4294967295, b"2136-02-07T06:28:15"),
]
OPENING = TRACE.split(b"events ")[0]
LIMITER = (b"normal 4294967295\nemergency 4294967295\nminover 0\nminunder 0\nprofile 0 FFFFFFFFFFFFFFFFFF8000FF 0\n"
           b"groups\nactions 0 0\nover 0 0\nunder 0 0\n")
EXPORT = b"xvalue 0\n" + b"".join(b"x" + line + b"\n" for line in LIMITER.splitlines())
OPENING_2 = OPENING.replace(b"RELAYTRACE 1", b"RELAYTRACE 2").replace(b"scripts ", EXPORT + b"scripts ")
# The trace of a meter with another name.
OTHER_TRACE = TRACE.replace(b"device 52454C415931\n", b"device 4D31\n")
# The journal with the events of that trace.
JOURNAL = OPENING_2 + b"events -\n" + TRACE.split(b"events 9\n")[1]
LEFT_OUT = b"standard input: bytes after the last whole line that were left out: %d\n"
LONG_RUN = OPENING.replace(b"value 0", b"value 5001").replace(b"normal 4294967295", b"normal 5000").replace(
    b"minover 0", b"minover 4294967295")


def with_events(opening, *lines):
    return opening + b"events %d\n" % len(lines) + b"".join(line + b"\n" for line in lines)


def largest_trace():
    """A trace of 33,554,432 bytes and its run: samples at the threshold, and one or two below it at
    the end."""
    value = b" 4294967295"
    for full in (11_881, 11_880):
        head = OPENING + b"events %d\n" % (full + 2)
        rest = 33_554_432 - len(head) - full * (8 + 256 * len(value))
        many = (rest - 18) // len(value)
        if 0 <= many <= 256:
            break
    left = rest - 8 - many * len(value)
    below = {20: b" 5 123456789"}.get(left, b" " + b"1" * (left - 9))
    lines = [b"samples" + value * 256] * full + [b"samples" + value * many, b"samples" + below]
    trace = with_events(OPENING, *lines)
    assert len(trace) == 33_554_432
    quiet, fired = b"sampled 0 0; state 1; supply on", b"sampled 0 1; state 1; supply on"
    return trace, player_output(*[quiet] * (full + 1), fired)


def player_output(*replies):
    return b"".join(b"%d: %s\n" % (n, reply) for n, reply in enumerate(replies, 1))

LARGEST, LARGEST_PLAYED = largest_trace()

# A case: name, program, arguments, standard input, and the expected standard output, standard error
# and status. None is any text that is not empty.
CASES = [
    ("a request", "meter_server_cli", ["apdu"], b"C001C10046000060030AFF0300\n", b"C401C1001601\n", b"", 0),
    ("lower case", "meter_server_cli", ["apdu"], b"c001c10046000060030aff0300\n", b"C401C1001601\n", b"", 0),
    ("no line", "meter_server_cli", ["apdu"], b"", b"", b"", 0),
    ("an empty line is skipped", "meter_server_cli", ["apdu"],
     b"\nC001C10046000060030AFF0300\n\n", b"C401C1001601\n", b"", 0),
    ("a last line without its end", "meter_server_cli", ["apdu"], b"C001C10046000060030AFF0300", b"C401C1001601\n", b"", 0),
    ("one core answers all lines", "meter_server_cli", ["apdu"],
     b"C101C10046000060030AFF04001602\nC301C10046000060030AFF0100\nC001C10046000060030AFF0300\n",
     b"C501C100\nC701C10000\nC401C1001600\n", b"", 0),
    ("mode 0 is refused while the supply is cut", "meter_server_cli", ["apdu"],
     b"C101C10046000060030AFF04001601\nC301C10046000060030AFF0100\nC101C10046000060030AFF04001600\nC001C10046000060030AFF0400\n",
     b"C501C100\nC701C10000\nC501C102\nC401C1001601\n", b"", 0),
    ("the device name", "meter_server_cli", ["apdu"], b"C001C1000100002A0000FF0200\n", b"C401C100090652454C415931\n", b"", 0),
    ("a limiter's threshold, and not the other's", "meter_server_cli", ["apdu"],
     b"C101C100470000110000FF04000600001B58\nC001C100470000110000FF0300\nC001C100470001110000FF0300\n",
     b"C501C100\nC401C1000600001B58\nC401C10006FFFFFFFF\n", b"", 0),
    ("what the limiters monitor", "meter_server_cli", ["apdu"],
     b"C001C100470000110000FF0200\nC001C100470001110000FF0200\n",
     b"C401C100020312000309060100010700FF0F02\nC401C100020312000309060100020700FF0F02\n", b"", 0),
    ("a register before the first sample, and its unit", "meter_server_cli", ["apdu"],
     b"C001C100030100010700FF0200\nC001C100030100010700FF0300\n",
     b"C401C1000600000000\nC401C10002020F00161B\n", b"", 0),
    ("an unknown name", "meter_server_cli", ["apdu"], b"C001C10046000060030BFF0200\n", b"C401C10104\n", b"", 0),
    ("a class that is not the object's", "meter_server_cli", ["apdu"], b"C001C10047000060030AFF0200\n", b"C401C10109\n", b"", 0),
    ("an attribute that is not there", "meter_server_cli", ["apdu"], b"C001C10046000060030AFF0500\n", b"C401C10103\n", b"", 0),
    ("selective access", "meter_server_cli", ["apdu"], b"C001C10046000060030AFF03010100\n", b"C401C1010D\n", b"", 0),
    ("a mode that is no enum", "meter_server_cli", ["apdu"], b"C101C10046000060030AFF04001102\n", b"C501C10C\n", b"", 0),
    ("a mode above 6", "meter_server_cli", ["apdu"], b"C101C10046000060030AFF04001607\n", b"C501C1FA\n", b"", 0),
    ("a tag alone", "meter_server_cli", ["apdu"], b"C0\nC1\nC3\n", b"D80103\nD80103\nD80103\n", b"", 0),
    ("an unknown tag", "meter_server_cli", ["apdu"], b"CA\n60\n62\n", b"D80202\nD80202\nD80202\n", b"", 0),
    ("a list is read", "meter_server_cli", ["apdu"],
     b"C003C1020046000060030AFF03000046000060030BFF0300\nC003C100\n", b"C403C1020016010104\nC403C100\n", b"", 0),
    ("scripts are written and executed", "meter_server_cli", ["apdu"],
     b"C101C1000900000A006AFF0200010102021200030102020516011200460906000060030AFF0F041600020516021200460906000060030AFF0F010F00\n"
     b"C301C1000900000A006AFF0101120000\nC301C1000900000A006AFF0101120009\nC301C1000900000A006AFF0101120003\n",
     b"C501C100\nC701C10000\nC701C1FA00\nC701C10200\n", b"", 0),
    ("forms that need a session", "meter_server_cli", ["apdu"],
     b"C002C100000001\nC102\nC306C1\n", b"D80202\nD80202\nD80202\n", b"", 0),
    ("bytes left over", "meter_server_cli", ["apdu"], b"C001C10046000060030AFF030000\n", b"D80103\n", b"", 0),
    ("an odd digit", "meter_server_cli", ["apdu"], b"C001C10046000060030AFF0300\nC00\n", b"",
     b"line 2: expected pairs of hexadecimal digits, found an odd number of characters\n" + FAULT_INPUT, 2),
    ("a letter that is no digit", "meter_server_cli", ["apdu"], b"C001C10046000060030AFF0300\nC00G\n", b"",
     b"line 2: byte 4: expected a hexadecimal digit\n" + FAULT_INPUT, 2),
    ("a carriage return", "meter_server_cli", ["apdu"], b"C001C10046000060030AFF0300\r\n", b"",
     b"line 1: expected a line feed at the end, found a carriage return before it\n" + FAULT_INPUT, 2),
    ("a blank", "meter_server_cli", ["apdu"], b"C0 01\n", b"", b"line 1: byte 3: expected a hexadecimal digit, found a blank\n" + FAULT_INPUT, 2),
    ("1,048,576 bytes", "meter_server_cli", ["apdu"], b"\n" * 1048576, b"", b"", 0),
    ("1,048,577 bytes", "meter_server_cli", ["apdu"], b"\n" * 1048577, b"",
     b"byte 1048577: the input has more than 1,048,576 bytes\n" + FAULT_INPUT, 2),
    ("too many bytes are found before a wrong line", "meter_server_cli", ["apdu"], b"G\n" + b"\n" * 1048576, b"",
     b"byte 1048577: the input has more than 1,048,576 bytes\n" + FAULT_INPUT, 2),
    ("where a digit is odd", "meter_server_cli", ["apdu", "--verbose"], b"C001C10046000060030AFF0300\nC00\n", b"",
     b"line 2: expected pairs of hexadecimal digits, found an odd number of characters\n" + FAULT_INPUT, 2),
    ("where a letter is no digit", "meter_server_cli", ["apdu", "--verbose"], b"\nC001C10046000060030AFF0300\nC00G\n", b"",
     b"line 3: byte 4: expected a hexadecimal digit\n" + FAULT_INPUT, 2),
    ("where a line has a blank", "meter_server_cli", ["apdu", "--verbose"], b"\nC0 01\n", b"",
     b"line 2: byte 3: expected a hexadecimal digit, found a blank\n" + FAULT_INPUT, 2),
    ("where a line of an even length has a blank", "meter_server_cli", ["apdu", "--verbose"], b"C0 01 C1\n", b"",
     b"line 1: byte 3: expected a hexadecimal digit, found a blank\n" + FAULT_INPUT, 2),
    ("where a line ends with a carriage return", "meter_server_cli", ["apdu", "--verbose"], b"C001C10046000060030AFF0300\r\n", b"",
     b"line 1: expected a line feed at the end, found a carriage return before it\n" + FAULT_INPUT, 2),
    ("where an odd line ends with a carriage return", "meter_server_cli", ["apdu", "--verbose"], b"C00\r\n", b"",
     b"line 1: expected a line feed at the end, found a carriage return before it\n" + FAULT_INPUT, 2),
    ("where an empty line ends with a carriage return", "meter_server_cli", ["apdu", "--verbose"], b"\r\n", b"",
     b"line 1: expected a line feed at the end, found a carriage return before it\n" + FAULT_INPUT, 2),
    ("where a carriage return is inside a line", "meter_server_cli", ["apdu", "--verbose"], b"C0\r01\n", b"",
     b"line 1: byte 3: expected a hexadecimal digit\n" + FAULT_INPUT, 2),
    ("where requests are too long", "meter_server_cli", ["apdu", "--verbose"], b"G\n" + b"\n" * 1048576, b"",
     b"byte 1048577: the input has more than 1,048,576 bytes\n" + FAULT_INPUT, 2),
    ("requests that are right have no message", "meter_server_cli", ["apdu", "--verbose"], b"C001C10046000060030AFF0300\n", b"C401C1001601\n", b"", 0),
    ("where a character of a session is no digit", "meter_server_cli", HEX + ["--verbose"], b"00 01\r\n0G", b"", b"byte 9: expected a hexadecimal digit, a blank or a line end\n" + FAULT_INPUT, 2),
    ("that the digits of a session are odd", "meter_server_cli", HEX + ["--verbose"], b"00 01\n0", b"", b"standard input: expected pairs of hexadecimal digits, found an odd number of digits\n" + FAULT_INPUT, 2),
    ("where a session is too long", "meter_server_cli", HEX + ["--verbose"], b" " * 1048577, b"",
     b"byte 1048577: the input has more than 1,048,576 bytes\n" + FAULT_INPUT, 2),
    ("that a password is empty", "meter_server_cli", ["hex", "--verbose", "--password", ""], b"", b"", WRONG_PASSWORD, 2),
    ("that a device name is too long", "meter_server_cli", HEX + ["--verbose", "--device", "d" * 17], b"", b"",
     b"device: must be 1 to 16 bytes\n" + FAULT_INPUT, 2),
    ("a session that is right has no message", "meter_server_cli", HEX + ["--verbose"], AARQ + GET_STATE, AARE + GOT_STATE, b"", 0),
    ("a session of the public client", "meter_server_cli", HEX, AARQ + b"\n" + GET_STATE, AARE + GOT_STATE, b"", 0),
    ("a session in lower case with blanks and line ends", "meter_server_cli", HEX,
     AARQ.lower() + b" \r\n" + b" ".join(bytes([digit]) for digit in GET_STATE), AARE + GOT_STATE, b"", 0),
    ("a call before an association", "meter_server_cli", HEX, GET_STATE, b"0001000100100003D80101\n", b"", 0),
    ("the password is right", "meter_server_cli", HEX, MANAGEMENT_AARQ, MANAGEMENT_AARE, b"", 0),
    ("the password is wrong", "meter_server_cli", ["hex", "--password", "12345679"], MANAGEMENT_AARQ,
     b"00010001000100196117A109060760857405080101A203020101A305A10302010D\n", b"", 0),
    ("the device name of a session", "meter_server_cli", HEX + ["--device", "M"],
     AARQ + b"000100100001000DC001C1000100002A0000FF0200", AARE + b"0001000100100007C401C10009014D\n", b"", 0),
    ("no input", "meter_server_cli", HEX, b"", b"", b"", 0),
    ("a session that is cut", "meter_server_cli", HEX, AARQ + b"0001", AARE, b"", 0),
    ("a wrong version", "meter_server_cli", HEX, AARQ + b"0002001000010000" + GET_STATE, AARE, b"", 0),
    ("too long a payload", "meter_server_cli", HEX, AARQ + b"0001001000010401" + GET_STATE, AARE, b"", 0),
    ("an odd digit in a session", "meter_server_cli", HEX, AARQ + b"0", b"",
     b"standard input: expected pairs of hexadecimal digits, found an odd number of digits\n" + FAULT_INPUT, 2),
    ("a letter that is no digit in a session", "meter_server_cli", HEX, AARQ + b"0G", b"",
     b"byte 80: expected a hexadecimal digit, a blank or a line end\n" + FAULT_INPUT, 2),
    ("a tab in a session", "meter_server_cli", HEX, AARQ + b"\t", b"",
     b"byte 79: expected a hexadecimal digit, a blank or a line end\n" + FAULT_INPUT, 2),
    ("1,048,576 characters", "meter_server_cli", HEX, b" " * 1048576, b"", b"", 0),
    ("1,048,577 characters", "meter_server_cli", HEX, b" " * 1048577, b"",
     b"byte 1048577: the input has more than 1,048,576 bytes\n" + FAULT_INPUT, 2),
    ("a session without a password", "meter_server_cli", ["hex"], b"", b"", NO_PASSWORD % b"meter_server hex --password <TEXT>", 2),
    ("an empty password", "meter_server_cli", ["hex", "--password", ""], b"", b"", WRONG_PASSWORD, 2),
    ("a password of 32 bytes", "meter_server_cli", ["hex", "--password", "p" * 32], b"", b"", b"", 0),
    ("a password of 33 bytes", "meter_server_cli", ["hex", "--password", "p" * 33], b"", b"", WRONG_PASSWORD, 2),
    ("an empty device name", "meter_server_cli", HEX + ["--device", ""], b"", b"", b"device: must be 1 to 16 bytes\n" + FAULT_INPUT, 2),
    ("a device name of 17 bytes", "meter_server_cli", HEX + ["--device", "d" * 17], b"", b"", b"device: must be 1 to 16 bytes\n" + FAULT_INPUT, 2),
    ("a server without a password", "meter_server_cli", ["serve"], b"", b"", NO_PASSWORD % b"meter_server serve --password <TEXT>", 2),
    ("a server without a password, with other options", "meter_server_cli", ["serve", "--verbose", "--listen", "nowhere"], b"", b"",
     NO_PASSWORD % b"meter_server serve --password <TEXT> --verbose --listen <ADDRESS>", 2),
    ("a server's password of 33 bytes", "meter_server_cli", ["serve", "--password", "p" * 33], b"", b"", WRONG_PASSWORD, 2),
    ("a server's empty device name", "meter_server_cli", SERVE + ["--device", ""], b"", b"", b"device: must be 1 to 16 bytes\n" + FAULT_INPUT, 2),
    ("a server's device name of 17 bytes", "meter_server_cli", SERVE + ["--device", "d" * 17], b"", b"",
     b"device: must be 1 to 16 bytes\n" + FAULT_INPUT, 2),
    ("a trace of no event", "meter_server_cli", SERVE + ["--depth", "0"], b"", b"", None, 2),
    ("a trace of 1,025 events", "meter_server_cli", SERVE + ["--depth", "1025"], b"", b"", None, 2),
    ("connections that are no number", "meter_server_cli", SERVE + ["--connections", "-1"], b"", b"", None, 2),
    ("a session of no number of seconds", "meter_server_cli", SERVE + ["--session", "long"], b"", b"", None, 2),
    ("a text that is no address", "meter_server_cli", SERVE + ["--listen", "nowhere"], b"", b"", NOWHERE, 3),
    ("a password is looked at before the address", "meter_server_cli", ["serve", "--password", "", "--listen", "nowhere"], b"", b"", WRONG_PASSWORD, 2),
    ("no trace to resume from", "meter_server_cli", SERVE + ["--resume", "--listen", "nowhere"], b"", b"",
     b"standard input: line 1: not a line of a trace (trace_player says why)\n" + FAULT_INPUT, 2),
    ("why a server does not listen", "meter_server_cli", SERVE + ["--verbose", "--listen", "nowhere"], b"", b"", NOWHERE, 3),
    ("why a server does not listen without a host", "meter_server_cli", SERVE + ["--verbose", "--listen", ":4059"], b"", b"",
     b":4059: expected HOST:PORT, found no host (0.0.0.0:PORT listens on all addresses)\n" + FAULT_LISTEN, 3),
    ("a name that the trace does not have", "meter_server_cli", SERVE + ["--resume", "--device", "OTHER", "--listen", "nowhere"], TRACE, b"",
     b"warning: --device OTHER is not used: --resume takes the name of the trace's meter\n" + NOWHERE, 3),
    ("the default name, which the trace does not have", "meter_server_cli", SERVE + ["--resume", "--listen", "nowhere"], OTHER_TRACE, b"", NOWHERE, 3),
    ("the default name, if it is given", "meter_server_cli", SERVE + ["--resume", "--device", "RELAY1", "--listen", "nowhere"], OTHER_TRACE, b"",
     b"warning: --device RELAY1 is not used: --resume takes the name of the trace's meter\n" + NOWHERE, 3),
    ("the name that the trace has", "meter_server_cli", SERVE + ["--resume", "--device", "RELAY1", "--listen", "nowhere"], TRACE, b"", NOWHERE, 3),
    ("that a server's password is empty", "meter_server_cli", ["serve", "--verbose", "--password", ""], b"", b"", WRONG_PASSWORD, 2),
    ("that a server's device name is too long", "meter_server_cli", SERVE + ["--verbose", "--device", "d" * 17], b"", b"",
     b"device: must be 1 to 16 bytes\n" + FAULT_INPUT, 2),
    ("that a server cannot resume", "meter_server_cli", SERVE + ["--verbose", "--resume", "--listen", "nowhere"], b"button\n", b"",
     b"standard input: line 1: not a line of a trace (trace_player says why)\n" + FAULT_INPUT, 2),
    ("the wrong line of a trace to resume from", "meter_server_cli", SERVE + ["--verbose", "--resume", "--listen", "nowhere"],
     TRACE.replace(b"mode 0", b"mode 7"), b"",
     b"standard input: line 4: not a line of a trace (trace_player says why)\n" + FAULT_INPUT, 2),
    ("the missing event of a trace to resume from", "meter_server_cli", SERVE + ["--verbose", "--resume", "--listen", "nowhere"],
     TRACE.replace(b"moment 4\n", b""), b"",
     b"standard input: line 30: not a line of a trace (trace_player says why)\n" + FAULT_INPUT, 2),
    ("that a server cannot resume from a journal", "meter_server_cli", SERVE + ["--verbose", "--resume", "--listen", "nowhere"], JOURNAL, b"",
     b"standard input: expected a trace, found a journal, which --journal FILE resumes\n" + FAULT_INPUT, 2),
    ("no subcommand", "meter_server_cli", [], b"", b"", None, 2),
    ("an unknown subcommand", "meter_server_cli", ["apud"], b"", b"", None, 2),
    ("an argument too many", "meter_server_cli", ["apdu", "now"], b"", b"", None, 2),
    ("help", "meter_server_cli", ["--help"], b"", None, b"", 0),
    ("help of apdu", "meter_server_cli", ["apdu", "--help"], b"", None, b"", 0),
    ("help of hex", "meter_server_cli", ["hex", "--help"], b"", None, b"", 0),
    ("help of serve", "meter_server_cli", ["serve", "--help"], b"", None, b"", 0),
    ("a relay that can't be opened", "meter_server_cli", [*SERVE, "--listen", "127.0.0.1:0", "--relay", "none/relay"], b"", b"",
     b"none/relay: the relay can't be opened for reading and writing: No such file or directory (os error 2)\nfault: write\n", 3),
    ("a relay that can't be written", "meter_server_cli", [*SERVE, "--listen", "127.0.0.1:0", "--relay", "/dev/full"], b"", b"",
     b"/dev/full: the relay failed: the output can't be written\nfault: write\n", 3),
    ("a relay after the address", "meter_server_cli", [*SERVE, "--listen", "nowhere", "--relay", "none/relay"], b"", b"", NOWHERE, 3),
    ("a journal to resume from", "meter_server_cli", SERVE + ["--resume", "--listen", "nowhere"], JOURNAL, b"",
     b"standard input: expected a trace, found a journal, which --journal FILE resumes\n" + FAULT_INPUT, 2),
    ("a trace", "trace_player_cli", [], TRACE, PLAYED, b"", 0),
    ("the same in version 2", "trace_player_cli", [], OPENING_2 + TRACE[len(OPENING):], PLAYED, b"", 0),
    ("no event", "trace_player_cli", [], with_events(OPENING), b"", b"", 0),
    ("a run of the greatest need but one", "trace_player_cli", [],
     with_events(LONG_RUN.replace(b"\nover 0 0", b"\nover 42949672949 0"), b"samples 5001 5001"),
     player_output(b"sampled 1 0; state 1; supply on"), b"", 0),
    ("a run that has fired", "trace_player_cli", [],
     with_events(LONG_RUN.replace(b"\nover 0 0", b"\nover 42949672950 1"), b"samples 5001"),
     player_output(b"sampled 0 0; state 1; supply on"), b"", 0),
    ("a run that must have fired", "trace_player_cli", [],
     with_events(LONG_RUN.replace(b"\nover 0 0", b"\nover 42949672950 0"), b"samples 5001"), b"",
     b"line 14: expected `over RUN FIRED`: a value is not valid here\n" + FAULT_INPUT, 2),
    ("the export limiter opens the switch", "trace_player_cli", [],
     with_events(OPENING_2.replace(b"mode 0", b"mode 5").replace(b"xnormal 4294967295", b"xnormal 5000").replace(
         b"xminover 0", b"xminover 1").replace(b"xactions 0 0", b"xactions 1 0").replace(
             b"scripts 0100", b"scripts 010102021200010101020516021200460906000060030AFF0F010F00"),
         b"pairs" + b" 0 5001" * 10, b"button", b"pairs 0 5001"),
     player_output(b"sampled 0 1 1 0; state 2; supply off", b"code 0; state 1; supply on", b"sampled 0 1 0 0; state 1; supply on"), b"", 0),
    ("a list of two attributes", "trace_player_cli", [],
     with_events(OPENING, b"getlist 1 2 70 000060030AFF 3 0 70 000060030BFF 3 0", b"getlist 1 0"),
     player_output(b"values 2 value 1601 code 4; state 1; supply on", b"values 0; state 1; supply on"), b"", 0),
    ("pairs in version 1", "trace_player_cli", [], with_events(OPENING, b"pairs"), b"",
     b"line 22: expected `pairs ..`: a value is not valid here\n" + FAULT_INPUT, 2),
    ("no trace", "trace_player_cli", [], b"", b"", b"line 1: expected a whole line, found the end of the trace\n" + FAULT_INPUT, 2),
    ("a last line that isn't ended", "trace_player_cli", [], TRACE[:-1], b"",
     b"line 30: expected a whole line, found the end of the trace\n" + FAULT_INPUT, 2),
    ("a line too many", "trace_player_cli", [], TRACE + b"button\n", b"",
     b"line 31: unexpected line: `events COUNT` counts fewer events\n" + FAULT_INPUT, 2),
    ("a line too few", "trace_player_cli", [], TRACE.replace(b"moment 4\n", b""), b"",
     b"line 30: expected a whole line, found the end of the trace\n" + FAULT_INPUT, 2),
    ("a trace with carriage returns", "trace_player_cli", [], TRACE.replace(b"\n", b"\r\n"), b"",
     b"line 1: expected a line feed at the end, found a carriage return before it\n" + FAULT_INPUT, 2),
    ("a wrong last event prints nothing", "trace_player_cli", [], TRACE.replace(b"moment 4", b"moment 04"), b"",
     b"line 30: expected `moment SECONDS`: a value is not valid here\n" + FAULT_INPUT, 2),
    ("65,536 events", "trace_player_cli", [], with_events(OPENING, *[b"button"] * 65536),
     player_output(*[b"code 2; state 1; supply on"] * 65536), b"", 0),
    ("65,537 events", "trace_player_cli", [], with_events(OPENING, *[b"button"] * 65537), b"",
     b"line 21: expected `events COUNT`: a value is not valid here\n" + FAULT_INPUT, 2),
    ("33,554,432 bytes", "trace_player_cli", [], LARGEST, LARGEST_PLAYED, b"", 0),
    ("a byte more than the largest trace", "trace_player_cli", [], LARGEST + b"\n", b"",
     b"byte 33554433: the trace has more than 33,554,432 bytes\n" + FAULT_INPUT, 2),
    ("a played trace has no message", "trace_player_cli", ["--verbose"], TRACE, PLAYED, b"", 0),
    ("where there is no trace", "trace_player_cli", ["--verbose"], b"", b"", b"line 1: expected a whole line, found the end of the trace\n" + FAULT_INPUT, 2),
    ("where the mode is none", "trace_player_cli", ["--verbose"], TRACE.replace(b"mode 0", b"mode 7"), b"", b"line 4: expected `mode MODE`: a value is not valid here\n" + FAULT_INPUT, 2),
    ("where a run must have fired", "trace_player_cli", ["--verbose"],
     with_events(LONG_RUN.replace(b"\nover 0 0", b"\nover 42949672950 0"), b"samples 5001"), b"", b"line 14: expected `over RUN FIRED`: a value is not valid here\n" + FAULT_INPUT, 2),
    ("where an event is wrong", "trace_player_cli", ["--verbose"], with_events(OPENING, b"button", b"press"), b"",
     b"line 23: unknown event `press`\n" + FAULT_INPUT, 2),
    ("where a word is no number", "trace_player_cli", ["--verbose"], TRACE.replace(b"schedule 2 0 5 0100", b"schedule 2 0 x 0100"), b"",
     b"line 19: expected `schedule 2 SELECTOR TYPE ENTRIES`: TYPE must be a decimal number\n" + FAULT_INPUT, 2),
    ("where bytes are odd", "trace_player_cli", ["--verbose"], TRACE.replace(b"device 52454C415931", b"device 52454C41593"), b"",
     b"line 2: expected `device HEX`: HEX must be pairs of the digits 0 to 9 and A to F\n" + FAULT_INPUT, 2),
    ("where another line is wanted", "trace_player_cli", ["--verbose"], TRACE.replace(b"RELAYTRACE 1", b"RELAYTRACE 2"), b"",
     b"line 16: expected `xvalue WATTS`: xvalue is missing\n" + FAULT_INPUT, 2),
    ("where an event has a word too many", "trace_player_cli", ["--verbose"], TRACE.replace(b"moment 5\n", b"moment 5 6\n"), b"",
     b"line 29: expected `moment SECONDS`: unexpected extra word\n" + FAULT_INPUT, 2),
    ("where a line is too many", "trace_player_cli", ["--verbose"], with_events(OPENING_2, b"button") + b"button\n", b"",
     b"line 33: unexpected line: `events COUNT` counts fewer events\n" + FAULT_INPUT, 2),
    ("where a word is missing", "trace_player_cli", ["--verbose"], with_events(OPENING, b"get 1 70"), b"",
     b"line 22: expected `get L C NAME A S`: NAME is missing\n" + FAULT_INPUT, 2),
    ("where a line ends with a carriage return", "trace_player_cli", ["--verbose"], TRACE.replace(b"\n", b"\r\n"), b"",
     b"line 1: expected a line feed at the end, found a carriage return before it\n" + FAULT_INPUT, 2),
    ("where an event is not shown", "trace_player_cli", ["--verbose"], with_events(OPENING, b"pre\x1bss"), b"",
     b"line 22: unknown event\n" + FAULT_INPUT, 2),
    ("where a trace is too long", "trace_player_cli", ["--verbose"], LARGEST + b"\n", b"",
     b"byte 33554433: the trace has more than 33,554,432 bytes\n" + FAULT_INPUT, 2),
    ("a journal", "trace_player_cli", [], JOURNAL, PLAYED, b"", 0),
    ("a journal in version 1", "trace_player_cli", [], TRACE.replace(b"events 9", b"events -"), PLAYED, b"", 0),
    ("a journal with a torn line", "trace_player_cli", [], JOURNAL + b"moment 9", PLAYED, LEFT_OUT % 8, 0),
    ("a journal with zeros after its last line", "trace_player_cli", [], JOURNAL + b"\0" * 4096 + b"button\n", PLAYED, LEFT_OUT % 4103, 0),
    ("a journal with a zero in its last line", "trace_player_cli", [], JOURNAL + b"mom\0nt 9\nbutton\n", PLAYED, LEFT_OUT % 16, 0),
    ("a journal of no event", "trace_player_cli", [], OPENING_2 + b"events -\n", b"", b"", 0),
    ("a journal of a torn line alone", "trace_player_cli", [], OPENING_2 + b"events -\nbut", b"", LEFT_OUT % 3, 0),
    ("a journal of 65,537 events", "trace_player_cli", [], OPENING + b"events -\n" + b"button\n" * 65537,
     b"".join(b"%d: code 2; state 1; supply on\n" % number for number in range(1, 65538)), b"", 0),
    ("a journal of a byte more than the largest trace", "trace_player_cli", [], JOURNAL + b"\0" * (33_554_433 - len(JOURNAL)), b"",
     b"byte 33554433: the trace has more than 33,554,432 bytes\n" + FAULT_INPUT, 2),
    ("a wrong line in a journal", "trace_player_cli", ["--verbose"], JOURNAL.replace(b"button\n", b"press\n", 1), b"",
     b"line 34: unknown event `press`\n" + FAULT_INPUT, 2),
    ("the lines before a wrong one in a journal", "trace_player_cli", ["--partial"], JOURNAL.replace(b"button\n", b"press\n", 1),
     b"".join(PLAYED.splitlines(keepends=True)[:2]), b"line 34: unknown event `press`\n" + FAULT_INPUT, 2),
    ("an empty line in a journal", "trace_player_cli", ["--verbose"], JOURNAL + b"\nbutton\n", b"",
     b"line 41: unknown event\n" + FAULT_INPUT, 2),
    ("a word after the hyphen of a journal", "trace_player_cli", ["--verbose"], JOURNAL.replace(b"events -", b"events - 9"), b"",
     b"line 31: expected `events COUNT`: unexpected extra word\n" + FAULT_INPUT, 2),
    ("a whole journal has no message", "trace_player_cli", ["--verbose"], JOURNAL, PLAYED, b"", 0),
    ("a torn line is reported", "trace_player_cli", ["--verbose"], JOURNAL + b"moment 9", PLAYED, LEFT_OUT % 8, 0),
    ("zeros after the last line are reported", "trace_player_cli", ["--verbose"], JOURNAL + b"\0\0\0button\n", PLAYED, LEFT_OUT % 10, 0),
    ("what follows a counted trace is wrong", "trace_player_cli", ["--verbose"], TRACE + b"moment 9", b"",
     b"line 31: expected a whole line, found the end of the trace\n" + FAULT_INPUT, 2),
    ("a trace of a file", "trace_player_cli", [TRACE_FILE], b"", PLAYED, b"", 0),
    ("a trace of a file, with messages", "trace_player_cli", ["--verbose", TRACE_FILE], TRACE[:-1], PLAYED, b"", 0),
    ("a trace of standard input by its name", "trace_player_cli", ["-"], TRACE, PLAYED, b"", 0),
    ("a file that is no trace", "trace_player_cli", ["--verbose", PLAYED_FILE], TRACE, b"",
     b"line 1: expected `RELAYTRACE VERSION`: RELAYTRACE is missing\n" + FAULT_INPUT, 2),
    ("a file that is missing", "trace_player_cli", ["no/such/trace"], TRACE, b"", b"no/such/trace: no such file\n" + FAULT_READ, 3),
    ("why a file is missing", "trace_player_cli", ["--verbose", "no/such/trace"], TRACE, b"", b"no/such/trace: no such file\n" + FAULT_READ, 3),
    ("a path through a file", "trace_player_cli", [TRACE_FILE + "/trace", "--verbose"], TRACE, b"",
     TRACE_FILE.encode() + b"/trace: a part of the path is no folder\n" + FAULT_READ, 3),
    ("a name of 256 bytes", "trace_player_cli", ["--verbose", "n" * 256], TRACE, b"", b"n" * 256 + b": the name is too long\n" + FAULT_READ, 3),
    ("a folder", "trace_player_cli", ["/"], TRACE, b"", b"/: a read failed\n" + FAULT_READ, 3),
    ("a folder can't be read", "trace_player_cli", ["--verbose", "/"], TRACE, b"", b"/: a read failed\n" + FAULT_READ, 3),
    ("two files", "trace_player_cli", [TRACE_FILE, TRACE_FILE], b"", b"", None, 2),
    ("each line with its event", "trace_player_cli", ["--events"], TRACE, b"".join(WITH_EVENTS), b"", 0),
    ("each line of version 2 with its event", "trace_player_cli", ["--events", "-"],
     with_events(OPENING_2, b"pairs 10 0 20 0", b"getlist 16 1 70 000060030AFF 3 0", b"samples"),
     b"1: sampled 0 1 0 1; state 1; supply on; event pairs 10 0 20 0\n"
     b"2: values 1 value 1601; state 1; supply on; event getlist 16 1 70 000060030AFF 3 0\n"
     b"3: sampled 0 0; state 1; supply on; event samples\n", b"", 0),
    ("events 3 to 5", "trace_player_cli", ["--from", "3", "--to", "5"], TRACE,
     b"3: code 2; state 0; supply off\n4: code 0; state 2; supply off\n5: code 0; state 1; supply on\n", b"", 0),
    ("events from 8", "trace_player_cli", ["--from", "8"], TRACE, b"8: ran 0; state 1; supply on\n9: stale 5; state 1; supply on\n", b"", 0),
    ("events to 2", "trace_player_cli", ["--to=2"], TRACE, b"1: code 0; state 1; supply on\n2: code 0; state 0; supply off\n", b"", 0),
    ("one event and its text", "trace_player_cli", ["--from", "4", "--to", "4", "--events"], TRACE, WITH_EVENTS[3], b"", 0),
    ("all events by their numbers", "trace_player_cli", ["--from", "1", "--to", "9"], TRACE, PLAYED, b"", 0),
    ("events after the last", "trace_player_cli", ["--from", "10"], TRACE, b"", b"", 0),
    ("events up to the greatest number", "trace_player_cli", ["--from", "9", "--to", "4294967295"], TRACE, b"9: stale 5; state 1; supply on\n", b"", 0),
    ("a wrong event outside the range", "trace_player_cli", ["--to", "2"], TRACE.replace(b"moment 4", b"moment 04"), b"",
     b"line 30: expected `moment SECONDS`: a value is not valid here\n" + FAULT_INPUT, 2),
    ("from event 0", "trace_player_cli", ["--from", "0"], TRACE, b"", None, 2),
    ("to event 0", "trace_player_cli", ["--to", "0"], TRACE, b"", None, 2),
    ("to an event with a number of 33 bits", "trace_player_cli", ["--to", "4294967296"], TRACE, b"", None, 2),
    ("from no number", "trace_player_cli", ["--from", "two"], TRACE, b"", None, 2),
    ("from without a number", "trace_player_cli", ["--from"], TRACE, b"", None, 2),
    ("events 5 to 3", "trace_player_cli", ["--from", "5", "--to", "3", "no/such/trace"], TRACE, b"",
     b"error: invalid value for '--to <N>': it must not be less than the value of '--from <N>'\n\n"
     b"Usage: trace_player [OPTIONS] [FILE]\n\nFor more information, try '--help'.\n", 2),
    ("changes", "trace_player_cli", ["--changes"], TRACE,
     b"2: code 0; state 0; supply off\n4: code 0; state 2; supply off\n5: code 0; state 1; supply on\n", b"", 0),
    ("changes and their events", "trace_player_cli", ["--changes", "--events"], TRACE, WITH_EVENTS[1] + WITH_EVENTS[3] + WITH_EVENTS[4], b"", 0),
    ("changes of a range", "trace_player_cli", ["--changes", "--from", "3", "--to", "4"], TRACE, b"4: code 0; state 2; supply off\n", b"", 0),
    ("no change", "trace_player_cli", ["--changes", "--from", "6"], TRACE, b"", b"", 0),
    ("a change of the first event", "trace_player_cli", ["--changes"],
     with_events(OPENING.replace(b"mode 0", b"mode 1"), b"execute 1 70 000060030AFF 1 0F00", b"button"),
     b"1: code 0; state 0; supply off\n", b"", 0),
    ("no change of the first event", "trace_player_cli", ["--changes"],
     with_events(OPENING.replace(b"state 1", b"state 0").replace(b"mode 0", b"mode 1"), b"button", b"execute 1 70 000060030AFF 2 -", b"button"),
     b"2: code 0; state 2; supply off\n3: code 0; state 1; supply on\n", b"", 0),
    ("a damaged trace that is whole", "trace_player_cli", ["--partial"], TRACE, PLAYED, b"", 0),
    ("a last line that isn't ended is damaged", "trace_player_cli", ["--partial"], TRACE[:-1], b"".join(PLAYED.splitlines(True)[:8]),
     b"line 30: expected a whole line, found the end of the trace\n" + FAULT_INPUT, 2),
    ("a trace that is cut off in its third event", "trace_player_cli", ["--partial"], TRACE[:TRACE.index(b"button") + 3],
     b"1: code 0; state 1; supply on\n2: code 0; state 0; supply off\n",
     b"line 24: expected a whole line, found the end of the trace\n" + FAULT_INPUT, 2),
    ("a trace that is cut off before its events", "trace_player_cli", ["--partial"], TRACE[:TRACE.index(b"set 1")], b"",
     b"line 22: expected a whole line, found the end of the trace\n" + FAULT_INPUT, 2),
    ("a wrong event before others", "trace_player_cli", ["--partial"], TRACE.replace(b"moment 5\n", b"moment 5 6\n"),
     b"".join(PLAYED.splitlines(True)[:7]), b"line 29: expected `moment SECONDS`: unexpected extra word\n" + FAULT_INPUT, 2),
    ("a line after the last event", "trace_player_cli", ["--partial"], TRACE + b"button\n", PLAYED,
     b"line 31: unexpected line: `events COUNT` counts fewer events\n" + FAULT_INPUT, 2),
    ("a damaged opening", "trace_player_cli", ["--partial"], TRACE.replace(b"mode 0", b"mode 7"), b"",
     b"line 4: expected `mode MODE`: a value is not valid here\n" + FAULT_INPUT, 2),
    ("a damaged number of events", "trace_player_cli", ["--partial"], TRACE.replace(b"events 9", b"events nine"), b"",
     b"line 21: expected `events COUNT`: COUNT must be a decimal number\n" + FAULT_INPUT, 2),
    ("the changes of a damaged trace", "trace_player_cli", ["--partial", "--changes", "--events", "--from", "3"], TRACE[:-1],
     WITH_EVENTS[3] + WITH_EVENTS[4], b"line 30: expected a whole line, found the end of the trace\n" + FAULT_INPUT, 2),
    ("a damaged trace that is too long", "trace_player_cli", ["--partial"], LARGEST + b"\n", b"",
     b"byte 33554433: the trace has more than 33,554,432 bytes\n" + FAULT_INPUT, 2),
    ("a damaged trace that is missing", "trace_player_cli", ["--partial", "no/such/trace"], b"", b"", b"no/such/trace: no such file\n" + FAULT_READ, 3),
    ("events of no trace", "trace_player_cli", ["--events", "--verbose"], TRACE[:-1], b"",
     b"line 30: expected a whole line, found the end of the trace\n" + FAULT_INPUT, 2),
    ("events of no trace, without --verbose", "trace_player_cli", ["--events"], TRACE + b"button\n", b"",
     b"line 31: unexpected line: `events COUNT` counts fewer events\n" + FAULT_INPUT, 2),
    ("comma-separated values", "trace_player_cli", ["--format", "csv"], TRACE, CSV_HEAD + b"".join(CSV), b"", 0),
    ("comma-separated values of a file", "trace_player_cli", ["--format=csv", TRACE_FILE], b"", CSV_HEAD + b"".join(CSV), b"", 0),
    ("comma-separated values with events", "trace_player_cli", ["--format", "csv", "--events", "--from", "4", "--to", "5"], TRACE,
     b"number,reply,state,supply,moment,time,event\n4,code 0,2,off,,,execute 1 70 000060030AFF 2 -\n5,code 0,1,on,,,button\n", b"", 0),
    ("the changes as comma-separated values", "trace_player_cli", ["--format", "csv", "--changes"], TRACE,
     CSV_HEAD + CSV[1] + CSV[3] + CSV[4], b"", 0),
    ("no change as comma-separated values", "trace_player_cli", ["--format", "csv", "--changes", "--from", "6"], TRACE, CSV_HEAD, b"", 0),
    ("comma-separated values of no event", "trace_player_cli", ["--format", "csv"], with_events(OPENING), CSV_HEAD, b"", 0),
    ("comma-separated values of a damaged trace", "trace_player_cli", ["--format", "csv", "--partial", "--from", "7"], TRACE[:-1],
     CSV_HEAD + CSV[6] + CSV[7], b"line 30: expected a whole line, found the end of the trace\n" + FAULT_INPUT, 2),
    ("comma-separated values of a damaged opening", "trace_player_cli", ["--format", "csv", "--partial"], TRACE.replace(b"mode 0", b"mode 7"), b"",
     b"line 4: expected `mode MODE`: a value is not valid here\n" + FAULT_INPUT, 2),
    ("comma-separated values of no trace", "trace_player_cli", ["--format", "csv"], TRACE[:-1], b"",
     b"line 30: expected a whole line, found the end of the trace\n" + FAULT_INPUT, 2),
    ("comma-separated values of a list", "trace_player_cli", ["--format", "csv", "--events"],
     with_events(OPENING, b"getlist 1 2 70 000060030AFF 3 0 70 000060030BFF 3 0"),
     b"number,reply,state,supply,moment,time,event\n"
     b"1,values 2 value 1601 code 4,1,on,,,getlist 1 2 70 000060030AFF 3 0 70 000060030BFF 3 0\n", b"", 0),
    ("JSON", "trace_player_cli", ["--format", "json"], TRACE, b"".join(JSON), b"", 0),
    ("JSON with events", "trace_player_cli", ["--format", "json", "--events", "--from", "8", "--to", "8"], TRACE,
     b'{"event":"moment 5","moment":5,"number":8,"reply":"ran 0","state":1,"supply":"on","time":"2000-01-01T00:00:05"}\n', b"", 0),
    ("the changes as JSON", "trace_player_cli", ["--changes", "--format", "json"], TRACE, JSON[1] + JSON[3] + JSON[4], b"", 0),
    ("JSON of a damaged trace", "trace_player_cli", ["--partial", "--format", "json", "--to", "2"], TRACE[:-1], JSON[0] + JSON[1],
     b"line 30: expected a whole line, found the end of the trace\n" + FAULT_INPUT, 2),
    ("JSON of no event", "trace_player_cli", ["--format", "json"], with_events(OPENING), b"", b"", 0),
    ("JSON of a journal", "trace_player_cli", ["--format", "json", "--verbose"], JOURNAL + b"moment 9", b"".join(JSON), LEFT_OUT % 8, 0),
    ("moments as civil dates", "trace_player_cli", ["--format", "csv"], with_events(OPENING, *[b"moment %d" % at for at, _ in MOMENTS]),
     CSV_HEAD + b"".join(b"%d,ran 0,1,on,%d,%s\n" % (number, at, civil) for number, (at, civil) in enumerate(MOMENTS, 1)), b"", 0),
    ("moments as civil dates in JSON", "trace_player_cli", ["--format", "json"], with_events(OPENING, *[b"moment %d" % at for at, _ in MOMENTS]),
     b"".join(AT_MOMENT % (at, number, b"ran 0", civil) for number, (at, civil) in enumerate(MOMENTS, 1)), b"", 0),
    ("the moment of the opening", "trace_player_cli", ["--format", "csv"], with_events(OPENING.replace(b"now -", b"now 830961000"), b"button"),
     CSV_HEAD + b"1,code 2,1,on,830961000,2026-05-01T14:30:00\n", b"", 0),
    ("another format", "trace_player_cli", ["--format", "xml"], TRACE, b"", None, 2),
    ("a format without its name", "trace_player_cli", ["--format"], TRACE, b"", None, 2),
    ("two formats", "trace_player_cli", ["--format", "csv", "--format", "json"], TRACE, b"", None, 2),
    ("help of the player", "trace_player_cli", ["--help"], b"", None, b"", 0),
    ("jobs are counted", "head_end_cli", ["check"], b"m1 127.0.0.1:4059 disconnect\nm2 127.0.0.1:4060 state\n", b"jobs 2\n", b"", 0),
    ("no jobs", "head_end_cli", ["check"], b"", b"jobs 0\n", b"", 0),
    ("empty lines are skipped, and the last job may lack its end", "head_end_cli", ["check"],
     b"\nm1 127.0.0.1:4059 reconnect\n\nm2 127.0.0.1:4060 state", b"jobs 2\n", b"", 0),
    ("another verb", "head_end_cli", ["check"], b"m1 127.0.0.1:4059 close\n", b"",
     b"line 1: expected `NAME ADDRESS VERB`: VERB must be disconnect, reconnect or state\n" + FAULT_INPUT, 2),
    ("two blanks in a job", "head_end_cli", ["check"], b"m1  127.0.0.1:4059 state\n", b"",
     b"line 1: expected `NAME ADDRESS VERB`: ADDRESS is empty (one blank separates two words)\n" + FAULT_INPUT, 2),
    ("a blank at the end of a job", "head_end_cli", ["check"], b"m1 127.0.0.1:4059 state \n", b"",
     b"line 1: expected `NAME ADDRESS VERB`: unexpected extra word\n" + FAULT_INPUT, 2),
    ("a tab in a job", "head_end_cli", ["check"], b"m1 127.0.0.1:4059\tstate\n", b"",
     b"line 1: expected `NAME ADDRESS VERB`: ADDRESS has the byte 0x09, which is not visible ASCII\n" + FAULT_INPUT, 2),
    ("a name of 33 bytes", "head_end_cli", ["check"], b"n" * 33 + b" 127.0.0.1:4059 state\n", b"",
     b"line 1: expected `NAME ADDRESS VERB`: NAME has more than 32 bytes\n" + FAULT_INPUT, 2),
    ("1,000 jobs", "head_end_cli", ["check"], b"m 127.0.0.1:4059 state\n" * 1000, b"jobs 1000\n", None, 0),
    ("1,001 jobs", "head_end_cli", ["check"], b"m 127.0.0.1:4059 state\n" * 1001, b"",
     b"job 1001: the list has more than 1,000 jobs\n" + FAULT_INPUT, 2),
    ("1,048,577 bytes of jobs", "head_end_cli", ["check"], b"\n" * 1048577, b"",
     b"byte 1048577: the list has more than 1,048,576 bytes\n" + FAULT_INPUT, 2),
    ("where a verb is wrong", "head_end_cli", ["check", "--verbose"], b"m1 127.0.0.1:4059 state\n\nm2 127.0.0.1:4059 close\n", b"",
     b"line 3: expected `NAME ADDRESS VERB`: VERB must be disconnect, reconnect or state\n"
     b"line 3: note: line 1 has the same address\nfindings: 1\n" + FAULT_INPUT, 2),
    ("where an address is missing", "head_end_cli", ["check", "--verbose"], b"m1  127.0.0.1:4059 state\n", b"",
     b"line 1: byte 3: doubled blank: one blank separates two words\nfindings: 1\n" + FAULT_INPUT, 2),
    ("where a name is too long", "head_end_cli", ["check", "--verbose"], b"n" * 33 + b" 127.0.0.1:4059 state\n", b"",
     b"line 1: expected `NAME ADDRESS VERB`: NAME has more than 32 bytes\nfindings: 1\n" + FAULT_INPUT, 2),
    ("where a word is too many", "head_end_cli", ["run", "--verbose", "--password", "12345678"], b"m1 127.0.0.1:4059 state now", b"",
     b"line 1: expected `NAME ADDRESS VERB`: unexpected extra word\n" + FAULT_INPUT, 2),
    ("where a verb is missing", "head_end_cli", ["check", "--verbose"], b"m1 127.0.0.1:4059\n", b"",
     b"line 1: expected `NAME ADDRESS VERB`: VERB is missing\nfindings: 1\n" + FAULT_INPUT, 2),
    ("where a job ends with a carriage return", "head_end_cli", ["check", "--verbose"], b"m1 127.0.0.1:4059 state\r\n", b"",
     b"line 1: byte 24: carriage return (0D): lines end with 0A alone\nfindings: 1\n" + FAULT_INPUT, 2),
    ("where a campaign's job ends with a carriage return", "head_end_cli", ["run", "--verbose", "--password", "12345678"], b"m1 127.0.0.1:4059 state\r\n", b"",
     b"line 1: expected `NAME ADDRESS VERB`: VERB has the byte 0x0D, which is not visible ASCII\n" + FAULT_INPUT, 2),
    ("all findings of a list", "head_end_cli", ["check", "--verbose"],
     b"\xEF\xBB\xBFm1 127.0.0.1:4059 state\r\nm2\t127.0.0.1:4060 state\n\nm3  127.0.0.1:4061 close\n m4 127.0.0.1:4062 state \nm5 127.0.0.1:4063 close\n"
     b"m5 127.0.0.1:4063 state\nm6 127.0.0.1:4064 state now\n", b"",
     b"line 1: byte 1: byte order mark (EF BB BF)\n"
     b"line 1: byte 27: carriage return (0D): lines end with 0A alone\n"
     b"line 2: byte 3: tab (09): one blank separates two words\n"
     b"line 4: byte 3: doubled blank: one blank separates two words\n"
     b"line 5: byte 1: blank at the start of the line\n"
     b"line 5: byte 25: blank at the end of the line\n"
     b"line 6: expected `NAME ADDRESS VERB`: VERB must be disconnect, reconnect or state\n"
     b"line 7: note: line 6 has the same name\n"
     b"line 7: note: line 6 has the same address\n"
     b"line 8: expected `NAME ADDRESS VERB`: unexpected extra word\n"
     b"findings: 8\n" + FAULT_INPUT, 2),
    ("where a letter begins as a byte order mark does", "head_end_cli", ["check", "--verbose"], b"\xEF\xBD\x8D1 127.0.0.1:4059 state\n", b"",
     b"line 1: expected `NAME ADDRESS VERB`: NAME has the byte 0xEF, which is not visible ASCII\nfindings: 1\n" + FAULT_INPUT, 2),
    ("the first finding without --verbose", "head_end_cli", ["check"], b"m1\t127.0.0.1:4059 state\r\n", b"",
     b"line 1: expected `NAME ADDRESS VERB`: NAME has the byte 0x09, which is not visible ASCII\n" + FAULT_INPUT, 2),
    ("where an address is too long", "head_end_cli", ["check", "--verbose"], b"m1 " + b"a" * 65 + b" state\n", b"",
     b"line 1: expected `NAME ADDRESS VERB`: ADDRESS has more than 64 bytes\nfindings: 1\n" + FAULT_INPUT, 2),
    ("where jobs are too many", "head_end_cli", ["check", "--verbose"], b"m 127.0.0.1:4059 state\n" * 1001, b"",
     b"job 1001: the list has more than 1,000 jobs\n" + FAULT_INPUT, 2),
    ("the first wrong line of a campaign", "head_end_cli", ["run", "--verbose", "--password", "12345678"], b"\nm1 a:1 state\nm2 b:1 stat\nm3 c:1 stat\n", b"",
     b"line 3: expected `NAME ADDRESS VERB`: VERB must be disconnect, reconnect or state\n" + FAULT_INPUT, 2),
    ("a wrong line after 1,001 jobs", "head_end_cli", ["run", "--verbose", "--password", "12345678"], b"m a:1 state\n" * 1001 + b"m a:1\n", b"",
     b"line 1002: expected `NAME ADDRESS VERB`: VERB is missing\n" + FAULT_INPUT, 2),
    ("where jobs are too long", "head_end_cli", ["check", "--verbose"], b"\n" * 1048577, b"", b"byte 1048577: the list has more than 1,048,576 bytes\n" + FAULT_INPUT, 2),
    ("where a campaign has no password", "head_end_cli", ["run", "--verbose"], b"", b"", None, 2),
    ("jobs that are right have no message", "head_end_cli", ["check", "--verbose"], b"m1 127.0.0.1:4059 state\n", b"jobs 1\n", b"", 0),
    ("jobs that may be mistakes", "head_end_cli", ["check"],
     b"#m1 127.0.0.1:4059 disconnect\n\nm2 127.77.0.1 state\nm3 127.77.0.999:4059 state\nm4 [::1]:4059 state\nm5 ::1:4059 state\nm2 meter.example:4059 state\n"
     b"m6 [::1]:4059 reconnect\nm7 10.0.0.1:0 state\nm8 10.0.0.2:65536 state\nm9 :4059 state\n", b"jobs 10\n",
     b"line 1: warning: `#` begins a name, not a comment: this job is run\n"
     b"line 3: warning: the address has no port (expected HOST:PORT)\n"
     b"line 4: warning: the host of the address is not valid (expected HOST:PORT)\n"
     b"line 6: warning: the host of the address is not valid (expected HOST:PORT)\n"
     b"line 7: warning: line 3 has the same name\n"
     b"line 8: warning: line 5 has the same address: the two run in the order of the list\n"
     b"line 9: warning: the port of the address must be 1 to 65535 (expected HOST:PORT)\n"
     b"line 10: warning: the port of the address must be 1 to 65535 (expected HOST:PORT)\n"
     b"line 11: warning: the host of the address is not valid (expected HOST:PORT)\n", 0),
    ("a campaign without jobs", "head_end_cli", ["run", "--password", "12345678"], b"", b"", b"", 0),
    ("a closed port and a text that is no address", "head_end_cli", ["run", "--password", "12345678", "--connect-timeout", "2"],
     b"m1 127.0.0.1:1 disconnect\nm2 nowhere state\n", b"m1 unknown\nm2 unknown\n",
     b"line 2: warning: the address has no port (expected HOST:PORT)\n", 0),
    ("a ledger in a folder that is missing", "head_end_cli", ["run", "--password", "12345678", "--ledger", f"{MISSING_FILE}/ledger"],
     b"m1 127.0.0.1:1 state\n", b"", b"ledger: can't open the file\nfault: write\n", 3),
    ("a folder instead of a ledger", "head_end_cli", ["run", "--password", "12345678", "--ledger", FOLDER.name],
     b"m1 127.0.0.1:1 state\n", b"", b"ledger: can't open the file\nfault: write\n", 3),
    ("a ledger without its file", "head_end_cli", ["run", "--password", "12345678", "--ledger"], b"", b"", None, 2),
    ("no worker", "head_end_cli", ["run", "--password", "12345678", "--workers", "0"], b"", b"", None, 2),
    ("17 workers", "head_end_cli", ["run", "--password", "12345678", "--workers", "17"], b"", b"", None, 2),
    ("a campaign without a password", "head_end_cli", ["run"], b"", b"", NO_PASSWORD % b"head_end run [OPTIONS] --password <TEXT> < FILE", 2),
    ("a campaign without a password, with other options", "head_end_cli", ["run", "--progress", "--workers", "2"], b"", b"",
     NO_PASSWORD % b"head_end run [OPTIONS] --password <TEXT> < FILE", 2),
    ("a campaign of a file", "head_end_cli", ["run", "--password-file", ENDED_FILE, "jobs"], b"", b"", NOT_A_FILE % b"head_end run [OPTIONS] < FILE", 2),
    ("a campaign of a file without a password", "head_end_cli", ["run", "jobs"], b"", b"", NOT_A_FILE % b"head_end run [OPTIONS] --password <TEXT> < FILE", 2),
    ("a check of a file", "head_end_cli", ["check", "jobs"], b"", b"", NOT_A_FILE % b"head_end check [OPTIONS] < FILE", 2),
    ("a campaign's password of 33 bytes", "head_end_cli", ["run", "--password", "p" * 33], b"", b"", WRONG_PASSWORD, 2),
    ("help of the head end", "head_end_cli", ["--help"], b"", None, b"", 0),
    ("help of a campaign", "head_end_cli", ["run", "--help"], b"", None, b"", 0),
    ("help of questions", "head_end_cli", ["ask", "--help"], b"", None, b"", 0),
    ("questions without a ledger", "head_end_cli", ["ask", "--password", "12345678"], b"", b"", None, 2),
    ("questions without a password", "head_end_cli", ["ask", "--ledger", MISSING_FILE], b"", b"", None, 2),
    ("questions by 17 workers", "head_end_cli", ["ask", "--ledger", MISSING_FILE, "--password", "12345678", "--workers", "17"], b"", b"", None, 2),
    ("questions of a file", "head_end_cli", ["ask", "--ledger", MISSING_FILE, "--password", "12345678", "jobs"], b"", b"", None, 2),
    ("the version of the meter", "meter_server_cli", ["--version"], b"", b"meter_server 0.1.0\n", b"", 0),
    ("the version of the meter", "meter_server_cli", ["-V"], b"", b"meter_server 0.1.0\n", b"", 0),
    ("the version of the player", "trace_player_cli", ["--version"], b"", b"trace_player 0.1.0\n", b"", 0),
    ("the version of the player", "trace_player_cli", ["-V"], b"", b"trace_player 0.1.0\n", b"", 0),
    ("the version of the head end", "head_end_cli", ["--version"], b"", b"head_end 0.1.0\n", b"", 0),
    ("the version of the head end", "head_end_cli", ["-V"], b"", b"head_end 0.1.0\n", b"", 0),
]
# The programs that read a file of a password, with words for which a server ends at once.
READERS = [("a server", "meter_server_cli", ["serve", "--listen", "nowhere"], NOWHERE, 3),
           ("a session", "meter_server_cli", ["hex"], b"", 0), ("a campaign", "head_end_cli", ["run"], b"", 0)]
for reader, crate, words, stderr, status in READERS:
    for what, path in (("with a line end", ENDED_FILE), ("without a line end", WHOLE_FILE),
                       ("of 32 bytes", password_file("32", b"p" * 32 + b"\n"))):
        CASES.append((f"{reader}: a password file {what}", crate, [*words, "--password-file", path], b"", b"", stderr, status))
    CASES.append((f"{reader}: the file after =", crate, [*words, f"--password-file={ENDED_FILE}"], b"", b"", stderr, status))
    CASES.append((f"{reader}: the file after the password", crate, [*words, "--password", "12345678", "--password-file", MISSING_FILE], b"", b"", stderr, status))
    CASES.append((f"{reader}: the file before the password", crate, [*words, "--password-file", MISSING_FILE, "--password", "12345678"], b"", b"", stderr, status))
    CASES.append((f"{reader}: a wrong password goes before the file", crate, [*words, "--password-file", ENDED_FILE, "--password", "p" * 33], b"", b"", WRONG_PASSWORD, 2))
    CASES.append((f"{reader}: no file", crate, [*words, "--password-file"], b"", b"", None, 2))
    for what, path, line, fault_status in WRONG_FILES:
        for also in ([], ["--verbose"]):
            CASES.append((f"{reader}: a password file that {what}", crate, [*words, *also, "--password-file", path], b"", b"",
                          path.encode() + b": " + line, fault_status))
    for what, path in WRONG_LENGTHS:
        CASES.append((f"{reader}: a password file that {what}", crate, [*words, "--password-file", path], b"", b"", WRONG_PASSWORD, 2))
        CASES.append((f"{reader}: a password file that {what}, with --verbose", crate, [*words, "--verbose", "--password-file", path], b"", b"",
                      WRONG_PASSWORD, 2))
# Files of meters' passwords.
UNKNOWN_BOTH = b"m1 unknown\nm2 unknown\n"
PASSWORDS = ["run", "--connect-timeout", "2", "--passwords"]
BOTH_FILE = password_file("both", b"m2 22222222\n\nm9 9\nm1 1")
ONE_FILE = password_file("one", b"m2 22222222\n")
TWO_METERS = b"m1 127.0.0.1:1 state\nm2 127.0.0.2:1 state\n"
CASES += [
    ("passwords of all meters", "head_end_cli", [*PASSWORDS, BOTH_FILE], TWO_METERS, UNKNOWN_BOTH, b"", 0),
    ("a common password for the others", "head_end_cli", [*PASSWORDS, ONE_FILE, "--password", "12345678"], TWO_METERS, UNKNOWN_BOTH, b"", 0),
    ("a common password of a file", "head_end_cli", [*PASSWORDS, ONE_FILE, "--password-file", ENDED_FILE], TWO_METERS, UNKNOWN_BOTH, b"", 0),
    ("a meter without a password", "head_end_cli", [*PASSWORDS, ONE_FILE], TWO_METERS, b"",
     b"job m1: it has no line in the file of --passwords, and there is no common password\n" + FAULT_INPUT, 2),
    ("the second meter without a password", "head_end_cli", [*PASSWORDS, password_file("third", b"m1 1\nm3 3\n")], TWO_METERS, b"",
     b"job m2: it has no line in the file of --passwords, and there is no common password\n" + FAULT_INPUT, 2),
    ("a meter's password of 32 bytes", "head_end_cli", [*PASSWORDS, password_file("of 32", b"m2 1\nm1 " + b"p" * 32)], TWO_METERS, UNKNOWN_BOTH, b"", 0),
    ("a wrong common password", "head_end_cli", [*PASSWORDS, BOTH_FILE, "--password", ""], TWO_METERS, b"", WRONG_PASSWORD, 2),
    ("no file of passwords", "head_end_cli", PASSWORDS, b"", b"", None, 2),
    ("no jobs, and no passwords", "head_end_cli", [*PASSWORDS, password_file("none", b"")], b"", b"", b"", 0),
]
for what, text, line in (
        ("a word is missing", b"m1 1\nm2\n", b"line 2: expected `NAME PASSWORD`: PASSWORD is missing\n"),
        ("blanks are doubled", b"m1  1\n", b"line 1: expected `NAME PASSWORD`: PASSWORD is empty (one blank separates two words)\n"),
        ("a word is too many", b"m1 1\n\nm2 2 2\n", b"line 3: expected `NAME PASSWORD`: unexpected extra word\n"),
        ("lines end with a carriage return", b"m1 1\r\n", b"line 1: expected `NAME PASSWORD`: PASSWORD has a byte that is not visible ASCII\n"),
        ("the last line ends with a carriage return", b"m1 1\n\nm2 2\r", b"line 3: expected `NAME PASSWORD`: PASSWORD has a byte that is not visible ASCII\n"),
        ("the second line has doubled blanks", b"m1 1\nm2  2\n", b"line 2: expected `NAME PASSWORD`: PASSWORD is empty (one blank separates two words)\n"),
        ("a password has 33 bytes", b"m1 " + b"p" * 33, b"line 1: expected `NAME PASSWORD`: PASSWORD has more than 32 bytes\n"),
        ("a name has 33 bytes", b"n" * 33 + b" 1", b"line 1: expected `NAME PASSWORD`: NAME has more than 32 bytes\n"),
        ("a name comes twice", b"m1 1\nm2 2\nm1 1\n", b"line 3: line 1 has the same name\n"),
        ("there are 1,048,577 bytes", b"\n" * 1048577, b"the file has more than 1,048,576 bytes\n")):
    path = password_file(what, text)
    CASES.append((f"passwords: {what}", "head_end_cli", [*PASSWORDS, path, "--password", "12345678"], TWO_METERS, b"", path.encode() + b": " + line + FAULT_INPUT, 2))
for what, path, line, fault_status in WRONG_FILES[:6]:
    CASES.append((f"passwords: a file that {what}", "head_end_cli", [*PASSWORDS, path], TWO_METERS, b"", path.encode() + b": " + line, fault_status))


# An environment whose variable METER_PASSWORD is not UTF-8, and what the programs report of it.
WRONG_VARIABLE = {**ENVIRONMENT, "METER_PASSWORD": "\udcff"}
NOT_UTF_8 = b"METER_PASSWORD: expected UTF-8 text\n"
VARIABLE_CASES = [
    (f"a variable that is not UTF-8: {what}", program, words, stdin, b"", NOT_UTF_8 + FAULT_INPUT, 2)
    for what, program, words, stdin in (
        ("hex", "meter_server_cli", ["hex"], b""), ("run", "head_end_cli", ["run"], TWO_METERS))
    for words in (words, [*words, "--verbose"])
]


def differs(want, got):
    return got == b"" if want is None else want != got


def main():
    passed = failed = 0
    for crate in sorted({case[1] for case in CASES}):
        if not are_built(executable(crate.removesuffix("_cli"))):
            return 1
    cases = [*((case, ENVIRONMENT) for case in CASES), *((case, WRONG_VARIABLE) for case in VARIABLE_CASES)]
    for (name, crate, words, stdin, stdout, stderr, status), environment in cases:
        program = executable(crate.removesuffix("_cli"))
        try:
            run = subprocess.run([program, *words], input=stdin, capture_output=True, timeout=60, env=environment)
        except (OSError, subprocess.TimeoutExpired) as error:
            print(f"FAILED {crate}: {name}: {error}")
            failed += 1
            continue
        wrong = [
            f"{what}: expected {want!r}, found {got[:200]!r}"
            for what, want, got in [("standard output", stdout, run.stdout), ("standard error", stderr, TIME.sub(b"", run.stderr))]
            if differs(want, got)
        ]
        if run.returncode != status:
            wrong.append(f"status: expected {status}, found {run.returncode}")
        if wrong:
            print(f"FAILED {crate}: {name}: " + "; ".join(wrong))
            failed += 1
        else:
            passed += 1
    print(f"{passed} passed, {failed} failed")
    return 1 if failed else 0


if __name__ == "__main__":
    sys.exit(main())
