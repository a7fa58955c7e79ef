#!/usr/bin/env python3
"""Plays docs/CLIENTS.md: each exchange of the page, byte by byte, by `meter_server hex` and over
TCP; its tables against a meter and the specs; and examples/client/read_and_switch.py.

usage: tests/clients.py

- An exchange is an indented line `> BYTES` and a line `< BYTES`, each with the lines below it that
  are indented by two more blanks. After two blanks in a line comes a text. All exchanges, in their
  order, are one connection to a new meter.
- A line `$ COMMAND` is run, and the indented lines below it are its output.
"""
import contextlib
import os
import re
import shlex
import socket
import subprocess
import sys
import threading

from serving import AARE, PASSWORD, PATIENCE, PUBLIC, SERVER, TOP, Client, Server, Vanished
from serving import free_port

PAGE = TOP / "docs" / "CLIENTS.md"
EXAMPLE = TOP / "examples" / "client" / "read_and_switch.py"
WORKED_TRACE = TOP / "crates" / "trace_player_cli" / "stdin"
FRAME = "00010001"  # a wrapper of version 1, from port 1

# The AARQ fields, and the changes of an AARQ that give each diagnostic.
NAMING, CIPHERED = "A109060760857405080101", "A109060760857405080103"
LOW, HIGH = "8A0207808B0760857405080201", "8A0207808B0760857405080202"
SECRET = "AC0A80083132333435363738"
INITIATE = "BE10040E01000000{version}5F1F0400{bits}{size}"
DIAGNOSTICS = {
    "1": {"port": 2},
    "2": {"naming": CIPHERED},
    "11": {"mechanism": HIGH},
    "14": {"mechanism": "", "secret": ""},
    "13": {"secret": SECRET[:-2] + "39"},
    "Initiate 1": {"version": "05"},
    "Initiate 2": {"bits": "000004"},
    "Initiate 3": {"size": "003F"},
}

# Requests: GET control_state, remote_disconnect, remote_reconnect, and SET control_mode without the
# mode.
GET_STATE = "C001C10046000060030AFF0300"
CUT, JOIN = "C301C10046000060030AFF01010F00", "C301C10046000060030AFF02010F00"
SET_MODE = "C101C10046000060030AFF040016"

passed = failed = 0


def check(name, holds, *found):
    """Counts a check. If it fails, prints its name and what was found."""
    global passed, failed
    passed, failed = passed + bool(holds), failed + (not holds)
    if not holds:
        print(f"FAILED clients: {name}" + "".join(f"\n    {it}" for it in found))


def bytes_of_line(text):
    """The bytes of a line, before two blanks and the text."""
    return "".join(re.split(r"\s{2,}", text.strip())[0].split())


def messages(page):
    """The messages of the exchanges: the number of the line, `>` or `<`, and the bytes."""
    found, is_open = [], False
    for number, line in enumerate(page.split("\n"), 1):
        first = re.fullmatch(r"    ([<>]) (.*)", line)
        if first:
            found.append([number, first[1], bytes_of_line(first[2])])
        elif is_open and line.startswith(" " * 6):
            found[-1][2] += bytes_of_line(line)
        is_open = bool(first) or is_open and line.startswith(" " * 6)
    return found


def exchanges(page):
    """The exchanges of a page: the number of the line, the request and the answer."""
    found = messages(page)
    return [(a[0], a[2], b[2]) for a, b in zip(found[::2], found[1::2])]


def frames_are_whole(page):
    found = messages(page)
    marks = "".join(it[1] for it in found)
    check("each request has its answer", re.fullmatch("(><)+", marks), marks)
    for number, _, text in found:
        is_frame = re.fullmatch(r"0001([0-9A-F]{2}){6,}", text)
        check(f"line {number}: a frame with its length",
              is_frame and int(text[12:16], 16) == len(text) // 2 - 8, text)


def answers_of(requests, password=PASSWORD):
    """The answers of a new meter to the frames of one connection."""
    ran = subprocess.run([SERVER, "hex", "--password", password], input="\n".join(requests),
                         capture_output=True, text=True, timeout=PATIENCE)
    assert ran.returncode == 0, ran.stderr
    return ran.stdout.split()


def the_page_is_played(page):
    rows = exchanges(page)
    answers = answers_of([request for _, request, _ in rows])
    check("hex answers each frame once", len(answers) == len(rows), len(answers), len(rows))
    for (number, request, expected), answer in zip(rows, answers):
        check(f"line {number}: {request}", answer == expected, f"page  {expected}",
              f"meter {answer}")


@contextlib.contextmanager
def running_server(*options, **more):
    """A server, which is stopped at the end in any case."""
    server = Server(*options, **more)
    try:
        yield server
    finally:
        server.stop()


def the_page_is_played_over_tcp(page):
    rows = exchanges(page)
    with running_server("--connections", "1", "--stop-with-input") as server:
        client = Client(server.port)
        for number, request, expected in rows:
            client.send_bytes(bytes.fromhex(request))
            answer = client.receive_exactly(len(expected) // 2).hex().upper()
            check(f"line {number} over TCP: {request}", answer == expected, expected, answer)
        client.send_bytes(bytes.fromhex("0002000100010000"))
        check("another version ends the session without an answer", client.is_closed())
        client.close()
        status, trace, _ = server.end()
    check("the server ends, and its trace has the page's ACTION in blocks",
          status == 0 and "execute 1 9 00000A006AFF 1 120001\n" in trace, status, trace)


def commands_are_run(page):
    found = re.findall(r"(?m)^    \$ (.*)\n((?:    (?!\$).*\n)*)", page)
    check("the page has a command", found)
    for command, output in found:
        command = command.replace("bin/meter_server", shlex.quote(str(SERVER)))
        ran = subprocess.run(command, shell=True, capture_output=True, text=True, timeout=PATIENCE)
        expected = "".join(line[4:] + "\n" for line in output.splitlines())
        check(f"$ {command}", ran.stdout == expected, ran.stdout, ran.stderr)


def table(page, heading, head):
    """The rows of the table with this head, below this heading."""
    part = page.partition(f"\n## {heading}\n")[2].partition("\n## ")[0]
    text = part.partition(f"\n| {' | '.join(head)} |\n")[2].partition("\n\n")[0]
    lines = text.strip("\n").split("\n")[1:]
    rows = [[it.strip() for it in re.split(r"(?<!\\)\|", line)[1:-1]] for line in lines]
    assert rows, f"no table {head} under {heading}"
    return rows


def code(cell):
    """The bytes in a cell."""
    return cell.strip("`").replace(" ", "")


def frame_of(payload, port=1):
    return f"0001{port:04X}0001{len(payload) // 2:04X}{payload}"


def aarq(port=1, naming=NAMING, mechanism=LOW, secret=SECRET, version="06", bits="001E19",
         size="0400"):
    fields = naming + mechanism + secret + INITIATE.format(version=version, bits=bits, size=size)
    return frame_of(f"60{len(fields) // 2:02X}{fields}", port)


PUBLIC_AARQ = aarq(PUBLIC, mechanism="", secret="")


def payloads(requests, port=1):
    """The payloads of a new meter's answers to requests after the AARQ of a port."""
    first = aarq() if port == 1 else PUBLIC_AARQ
    answers = answers_of([first, *(frame_of(it, port) for it in requests)])
    assert len(answers) == len(requests) + 1 and answers[0][16:18] == "61", answers[:1]
    return [it[16:] for it in answers[1:]]


def objects_and_rights(page):
    """The class, bytes of the name, kind, number and rights of both clients, for each attribute and
    method of each object."""
    heading = "Objects, attributes and rights"
    objects = table(page, heading, ("Object", "Class", "Version", "Logical name", "Bytes"))
    rows = table(page, heading, ("Class", "", "Name", "Public client", "Management client"))
    for _, kind, _, name, text in objects:
        for about, what, _, public, management in rows:
            if about.split()[0] == kind:
                yield (int(kind), code(text), *what.split(), public, management)


def rights_are_those_of_the_meter(page):
    """A GET, a SET of null-data, and an ACTION without a parameter in mode 0 are denied (3) to a
    client without the right, and to no other."""
    rows = [*objects_and_rights(page)]
    for port, place in ((PUBLIC, 4), (1, 5)):
        for service, word in (("C001C1{}00", "read"), ("C101C1{}0000", "write"),
                              ("C301C1{}00", "execute")):
            what = "method" if word == "execute" else "attribute"
            chosen = [it for it in rows if it[2] == what]
            asked = [service.format(f"{it[0]:04X}{it[1]}{int(it[3]):02X}") for it in chosen]
            denied = [re.fullmatch(r"C401C10103|C501C103|C701C10300", it) is not None
                      for it in payloads(asked, port)]
            expected = [word not in it[place].split(", ") for it in chosen]
            check(f"port {port}, {word}", denied == expected, *(
                it for it, a, b in zip(chosen, denied, expected) if a != b))


def data_at(text):
    """The value of a Data at the front of hexadecimal digits, and the digits after it."""
    tag, text = text[:2], text[2:]
    if tag in ("01", "02"):
        items, count, text = [], int(text[:2], 16), text[2:]
        for _ in range(count):
            item, text = data_at(text)
            items.append(item)
        return items, text
    if tag == "09":
        end = 2 + 2 * int(text[:2], 16)
        return text[2:end], text[end:]
    size = 2 * {"00": 0, "0F": 1, "11": 1, "12": 2, "16": 1}[tag]
    return int(text[:size] or "0", 16), text[size:]


def rights_are_those_of_the_object_list(page):
    """The object_list of each client has the objects, attributes and methods of the page, with
    their versions and access modes."""
    heading, modes = "Objects, attributes and rights", {"none": 0, "read": 1, "read, write": 3,
                                                        "execute": 1}
    versions = {code(it[4]): int(it[2]) for it in table(
        page, heading, ("Object", "Class", "Version", "Logical name", "Bytes"))}
    for port, place in ((PUBLIC, 4), (1, 5)):
        answer = payloads(["C001C1000F0000280000FF0200"], port)[0]
        objects, rest = data_at(answer[8:])
        found = [(kind, name, version, what, row[0], row[1])
                 for kind, version, name, rights in objects
                 for what, rows in zip(("attribute", "method"), rights) for row in rows]
        expected = [(it[0], it[1], versions[it[1]], it[2], int(it[3]), modes[it[place]])
                    for it in objects_and_rights(page)]
        check(f"object_list of port {port}", found == expected and not rest,
              *({*found} ^ {*expected}))


def first_names(page):
    """The bytes of the name of the first object of each class."""
    names = {}
    for kind, name, *_ in objects_and_rights(page):
        names.setdefault(str(kind), name)
    return names


def values_are_those_of_a_new_meter(page):
    rows = table(page, "Values", ("Class", "Attribute", "New meter", "To write", "What it is"))
    names, rights = first_names(page), {}
    for kind, _, what, number, _, management in objects_and_rights(page):
        if what == "attribute" and number != "1":
            rights[str(kind), number] = management
    check("the page has each value", [(*it[:2],) for it in rows] == [*rights], [*rights])
    places = [f"{int(it[0]):04X}{names[it[0]]}{int(it[1]):02X}00" for it in rows]
    for row, answer in zip(rows, payloads([f"C001C1{it}" for it in places])):
        value, dots, _ = code(row[2]).partition("..")
        data = answer[:len(value) + 8] if dots else answer
        check(f"class {row[0]}, attribute {row[1]}, read", data == "C401C100" + value, answer)
    for row, place in zip(rows, places):
        is_written = "write" in rights[row[0], row[1]]
        check(f"class {row[0]}, attribute {row[1]}: a value to write", is_written == bool(row[3]))
        for value in (code(row[2]), code(row[3])) if is_written else ():
            found = payloads([f"C101C1{place}{value}", f"C001C1{place}"])
            check(f"class {row[0]}, attribute {row[1]}, written",
                  found == ["C501C100", "C401C100" + value], found)


def logical_names_are_read(page):
    rows = {it[:2] for it in objects_and_rights(page)}
    asked = [f"C001C1{kind:04X}{name}0100" for kind, name in sorted(rows)]
    expected = [f"C401C1000906{name}" for _, name in sorted(rows)]
    check("attribute 1 is the logical name", payloads(asked, PUBLIC) == expected)


def diagnostics_are_sent(page):
    rows = table(page, "Diagnostics", ("Number", "Name", "When"))
    specs = (TOP / "crates/acse_ber/specs/Diagnostics.antt").read_text()
    _, user, initiate = re.split(r"(?m)^-- ---- .*$", specs)
    named = {number: name for name, number in re.findall(r"(?m)^(\w+) = (\d+)$", user)}
    named |= {f"Initiate {number}": name
              for name, number in re.findall(r"(?m)^(\w+) = (\d+)$", initiate)}
    check("diagnostics as in the specs",
          {it[0]: it[1].replace("-", "_") for it in rows} == named, rows, named)
    check("diagnostics in the order of the checks", [it[0] for it in rows] == [*DIAGNOSTICS])
    for number, change in DIAGNOSTICS.items():
        answer = answers_of([aarq(**change)])[0][16:]
        is_initiate, last = "Initiate" in number, int(number.split()[-1])
        expected = (f"61{'1F' if is_initiate else '17'}{NAMING}A203020101A305A1030201"
                    + (f"01BE0604040E0106{last:02X}" if is_initiate else f"{last:02X}"))
        check(f"diagnostic {number}", answer == expected, answer, expected)


def exceptions_are_those_of_the_specs(page):
    specs = (TOP / "crates/xdlms_apdu/specs/Parts.antt").read_text()
    errors = [dict(re.findall(r"([\w-]+) \((\d)\)", part)) for part in re.findall(
        r"error ENUMERATED \{(.*?)\}", specs, re.S)]
    rows = table(page, "Refusals", ("Answer", "Name", "When"))
    for answer, names, _ in rows:
        numbers = [each[name] for each, name in zip(errors, names.split(", "))]
        check(f"exception {answer}", code(answer) == "D80" + "0".join(numbers), numbers)
    found = {code(it[0]) for it in rows}
    sent = {answer[16:] for _, _, answer in exchanges(page) if answer[16:18] == "D8"}
    check("an exchange for each exception", found == sent, found, sent)


def modes_are_those_of_the_meter(page):
    """A disconnection and a reconnection by a client in each mode lead where the page says."""
    head = ("Mode", "Remote disconnect", "Remote reconnect", "Manual disconnect",
            "Manual reconnect", "Local disconnect", "Local reconnect")
    rows = table(page, "Modes", head)
    check("seven modes", [it[0] for it in rows] == [*"0123456"])
    for mode, disconnected, connected, *_ in rows:
        found = payloads([f"{SET_MODE}0{mode}", CUT, GET_STATE, JOIN, GET_STATE])
        refused = "C701C10200" if disconnected == "no" else "C701C10000"
        states = [f"C401C100160{it[0] if it != 'no' else 1}" for it in (disconnected, connected)]
        check(f"mode {mode}", found == ["C501C100", refused, states[0], "C701C10000", states[1]],
              found)


def types_are_those_of_the_specs(page):
    specs = (TOP / "crates/cosem_axdr/specs/Spelling.antt").read_text()
    tags = {tag: name.replace("_", "-").replace("enumerated", "enum").replace("null", "null-data")
            for name, tag in re.findall(r"(?m)^tag_of \(?(\w+).* = 0x(\w\w)$", specs)}
    rows = table(page, "Types of Data", ("Tag", "Type", "Contents"))
    for tag, name, _ in rows:
        check(f"type {tag}", tags.get(code(tag)) == name, name, tags.get(code(tag)))


def limits_are_those_of_the_specs(page):
    for number, what, link in table(page, "Limits", ("Limit", "Of", "Definition")):
        name, path = re.fullmatch(r"\[`(\w+)`\]\(\.\./(.*)\)", link).groups()
        found = re.findall(rf"(?m)^{name} = (\d+)$", (TOP / path).read_text())
        check(f"limit of {what}", found == [number.replace(",", "")], number, found)


GET_OBJECTS, SCRIPTS = "C001C1000F0000280000FF0200", "0009 00000A006AFF 02 00".replace(" ", "")
ENTRIES = "0016 00000F0001FF 04 00".replace(" ", "")
# What the page says besides its exchanges: requests after the management client's AARQ, and the
# answers.
STATED = {
    "selective access": ([GET_STATE[:-2] + "010100"], ["C401C1010D"]),
    "any invoke-id": ([f"C00142{GET_STATE[6:]}"], ["C40142001601"]),
    "102 items": ([f"C003C166{GET_STATE[6:] * 102}"], [f"C403C166{'001601' * 102}"]),
    "no list of a SET or an ACTION": (["C104C100", "C303C100"], ["D80202", "D80202"]),
    "no parameter of execute": (["C301C1000900000A006AFF0100"], ["C701C10C00"]),
    "a disconnection is repeated": ([f"{SET_MODE}01", CUT, CUT],
                                    ["C501C100", "C701C10000", "C701C10000"]),
    "mode 2 has no remote reconnection of a switch that is ready": (
        [f"{SET_MODE}01", CUT, JOIN, f"{SET_MODE}02", JOIN],
        ["C501C100", "C701C10000", "C701C10000", "C501C100", "C701C10200"]),
    "times and dates as their own types": (
        [f"C101C1{ENTRIES}01010202" "1B06000000" "1AFFFFFFFFFF", f"C001C1{ENTRIES}"],
        ["C501C100", "C401C100" "01010202" "090406000000" "0905FFFFFFFFFF"]),
    "a SET's block without a transfer": (["C103C1010000000100"], ["C503C11200000001"]),
    "an ACTION's block without a transfer": (["C306C1010000000100"], ["C701C11000"]),
    "a block with another number": ([f"C102C1{SCRIPTS}00000000010101", "C103C1010000000300"],
                                    ["C502C100000001", "C503C11300000003"]),
    "another request ends a transfer": (
        [f"C102C1{SCRIPTS}00000000010101", GET_STATE, "C103C101000000020100"],
        ["C502C100000001", "C401C1001601", "C503C11200000002"]),
}


def statements_hold(_):
    for name, (requests, expected) in STATED.items():
        found = payloads(requests)
        check(name, found == expected, found, expected)


def statements_of_associations_hold(_):
    skipped = f"{FRAME}0002000D{GET_STATE}"
    answers = answers_of([aarq(), skipped, frame_of(GET_STATE)])
    check("a frame to another port has no answer", len(answers) == 2, answers)
    answers = answers_of([aarq(), PUBLIC_AARQ[:-4] + "003F", frame_of(GET_STATE)])
    check("a refused AARQ ends the association", answers[2][16:] == "D80101", answers)
    answers = answers_of([aarq(), frame_of(GET_STATE, PUBLIC)])
    check("a request from another port", answers[1][16:] == "D80101", answers)
    answers = answers_of([frame_of("6000"), frame_of("6200")])
    check("an AARQ without fields", answers[0][16:] == "D80103", answers)
    answers = answers_of([aarq(naming=f"{NAMING}A60A04084D4D4D0000BC614E")])
    check("a client's title is skipped", answers[0][16:20] == "6129", answers)
    answers = answers_of([aarq(PUBLIC, secret=SECRET[:-2] + "39")])
    check("port 16 with another password", answers[0][16:20] == "6129", answers)
    for size in ("0000", "FFFF"):
        answers = answers_of([aarq(size=size), frame_of(GET_OBJECTS)])
        check(f"size {size} is 1,024 bytes", answers[1][16:].startswith("C401C100010C"), answers)
    answers = answers_of([aarq(size="0040", bits="000010"), frame_of(GET_OBJECTS)])
    check("a long value without its bit", answers[1][16:] == "C401C101FA", answers)
    for n in (1, 32):
        text = "78" * n
        frame = (f"{FRAME}0001{48 + n:04X}60{46 + n:02X}{NAMING}{LOW}AC{2 + n:02X}80{n:02X}{text}"
                 + INITIATE.format(version="06", bits="001E19", size="0400"))
        answers = answers_of([frame], password="x" * n)
        check(f"a password of {n} bytes", answers[0][16:20] == "6129", answers)


def run_example(*words, password=PASSWORD):
    ran = subprocess.run([sys.executable, EXAMPLE, *words], capture_output=True, text=True,
                         timeout=2 * PATIENCE, env={**os.environ, "METER_PASSWORD": password})
    return ran.returncode, ran.stdout, ran.stderr


def the_example_switches(_):
    console = WORKED_TRACE.read_bytes()
    with running_server("--connections", "2", "--resume", console=console) as server:
        address = f"127.0.0.1:{server.port}"
        found = run_example(address, "disconnect")
        check("the example disconnects",
              found == (0, "before: Connected\nafter: Disconnected\n", ""), found)
        found = run_example(address, "reconnect")
        check("the example reconnects", found == (
            0, "before: Disconnected\nafter: Ready for reconnection\n", ""), found)
        status, trace, errors = server.end()
    events = trace.partition("\nevents ")[2].splitlines()[1:]
    read = "get 1 70 000060030AFF 3 0"
    check("the trace has the example's requests", status == 0 and events == [
        read, "execute 1 70 000060030AFF 1 0F00", read,
        read, "execute 1 70 000060030AFF 2 0F00", read], trace, errors)


def the_example_reports_refusals(_):
    with running_server("--connections", "2") as server:
        address = f"127.0.0.1:{server.port}"
        found = run_example(address, "disconnect")
        check("mode 0", found == (1, "before: Connected\n", f"{address}: disconnect: result 2 "
                                  "(2 is temporary-failure: look at control_mode)\n"), found)
        found = run_example(address, "disconnect", password="87654321")
        check("a wrong password", found == (1, "", f"{address}: the association: diagnostic 13 "
                                            "(13 is a wrong password)\n"), found)
        check("the server ends", server.end()[0] == 0)
    status, output, errors = run_example(f"127.0.0.1:{free_port()}", "disconnect")
    check("nothing listens", (status, output) == (1, "") and "Connection refused" in errors
          and errors.count("\n") == 1, errors)


def the_example_loses_its_answer(_):
    """A meter that closes the connection after the ACTION has arrived."""
    with socket.create_server(("127.0.0.1", 0)) as listener:
        meter = threading.Thread(target=answer_until_the_action, args=(listener,), daemon=True)
        meter.start()
        found = run_example(f"127.0.0.1:{listener.getsockname()[1]}", "disconnect")
        meter.join(PATIENCE)
    check("an answer that is lost", found[:2] == (1, "before: Connected\n")
          and found[2].endswith("; the meter may have carried it out\n"), found)


def answer_until_the_action(listener):
    stream, _ = listener.accept()
    with stream:
        for answer in (f"{AARE}0000110400" "0007", "C401C1001601"):
            stream.recv(1024)
            stream.sendall(bytes.fromhex(frame_of(answer)))
        stream.recv(1024)


def the_example_refuses_command_lines(_):
    for words, password, part in (([], PASSWORD, "usage:"), (["127.0.0.1:1"], PASSWORD, "usage:"),
                                  (["127.0.0.1", "disconnect"], PASSWORD, "usage:"),
                                  (["127.0.0.1:1", "state"], PASSWORD, "usage:"),
                                  (["127.0.0.1:1", "disconnect"], "", "METER_PASSWORD"),
                                  (["127.0.0.1:1", "disconnect"], "x" * 33, "METER_PASSWORD")):
        status, output, errors = run_example(*words, password=password)
        check(f"command line {words}", (status, output) == (2, "") and part in errors, errors)


TESTS = (frames_are_whole, the_page_is_played, the_page_is_played_over_tcp, commands_are_run,
         rights_are_those_of_the_meter, rights_are_those_of_the_object_list,
         values_are_those_of_a_new_meter, logical_names_are_read, modes_are_those_of_the_meter,
         diagnostics_are_sent, exceptions_are_those_of_the_specs, types_are_those_of_the_specs,
         limits_are_those_of_the_specs, statements_hold, statements_of_associations_hold,
         the_example_switches, the_example_reports_refusals, the_example_loses_its_answer,
         the_example_refuses_command_lines)


def main(words):
    if words:
        print(__doc__.strip(), file=sys.stdout if words == ["--help"] else sys.stderr)
        return 0 if words == ["--help"] else 2
    if not os.access(SERVER, os.X_OK):
        print(f"{SERVER} is missing: run bin/test, or bin/build")
        return 1
    page = PAGE.read_text()
    for function in TESTS:
        name = function.__name__.replace("_", " ")
        try:
            function(page)
        except (AssertionError, AttributeError, LookupError, ValueError, OSError, Vanished,
                subprocess.TimeoutExpired) as error:
            check(name, False, f"{type(error).__name__} {error}")
    print(f"{passed} passed, {failed} failed")
    return 1 if failed else 0


if __name__ == "__main__":
    sys.exit(main(sys.argv[1:]))
