#!/usr/bin/env python3
"""Tests `meter_server serve` with clients over TCP on a free port of the loopback interface, also
with a log that nobody reads and with wrong moments of the clock. The client is written here (AARQ,
GET, SET, ACTION, blocks, lists and release over the TCP wrapper), and trace_player plays the traces
that the server prints. Every wait has a time limit."""

import os
import pathlib
import re
import resource
import select
import socket
import subprocess
import sys
import tempfile
import threading
import time
import traceback

sys.dont_write_bytecode = True  # importing the modules of tests/ leaves no files

from programs import PLAYER, SERVER, TOP, are_built

PASSWORD = "12345678"
PATIENCE = 60  # the time limit of each wait, in seconds
SHORT, SHORT_END = 2, 5  # those of an answer and of an end that must not wait for the log
MANAGEMENT, PUBLIC = 1, 16
SESSIONS = 8
# The time at the head of a line of the log.
TIME = r"\d{4}-\d\d-\d\dT\d\d:\d\d:\d\d\.\d{3}Z"
SIZE_OF_PASSWORD = "password: must be 1 to 32 bytes\n"
NO_CLIENT = b"Z no client can be accepted, trying again: "

# Attributes and methods: class, logical name and number (IEC 62056-6-2).
SWITCH = (70, "000060030AFF")
STATE, MODE = (*SWITCH, 3), (*SWITCH, 4)
DISCONNECT, RECONNECT = (*SWITCH, 1), (*SWITCH, 2)
LIMITER = (71, "0000110000FF")
ACTIVE, NORMAL = (*LIMITER, 3), (*LIMITER, 4)
REGISTER = (3, "0100010700FF", 2)
OBJECTS = (15, "0000280000FF", 2)
DEVICE = (1, "00002A0000FF", 2)
OVER_DURATION, ACTIONS = (*LIMITER, 6), (*LIMITER, 11)
SCRIPTS = (9, "00000A006AFF", 2)
SCHEDULE_SCRIPT, SCHEDULE_TYPE, SCHEDULE_TIMES = ((22, "00000F0001FF", it) for it in (2, 3, 4))

# Script 1 disconnects; a limiter and a schedule run it, the schedule each day at 06:00.
SCRIPT_TABLE = "010102021200010101020516021200460906000060030AFF0F010F00"
SCRIPT_1 = "0202090600000A006AFF120001"
NO_SCRIPT = "0202090600000A006AFF120000"
AT_SIX = "010102020904060000000905FFFFFFFFFF"

NAMING = "A109060760857405080101"  # application context: logical names, no ciphering
AARE = "6129" + NAMING + "A203020100A305A103020100BE10040E0800065F1F0400"
REFUSED = "6117" + NAMING + "A203020101A305A1030201"
RELEASED = "6303800100"
REFUSED_LENGTH = 8 + len(REFUSED + "0D") // 2  # of a whole frame


def wait_until(holds, seconds=PATIENCE, pause=0.01):
    """Waits until a condition holds, and returns whether it does. The limit is a number of pauses,
    not a time: the clock of a virtual machine that stood still for a while jumps."""
    for _ in range(round(seconds / pause)):
        if holds():
            return True
        time.sleep(pause)
    return holds()


class Vanished(Exception):
    """The server closed the connection or sent nothing within the time limit."""


def descriptor(place):
    kind, name, number = place
    return f"{kind:04X}{name}{number:02X}"


class Client:
    """A client of the meter. It records each request that the server's trace must hold, as the line
    of the trace, and the reply."""

    def __init__(self, port, source=MANAGEMENT):
        self.source = source
        self.seen = []
        self.socket = socket.create_connection(("127.0.0.1", port), timeout=PATIENCE)

    def frame(self, payload):
        return bytes.fromhex(f"0001{self.source:04X}0001{len(payload) // 2:04X}{payload}")

    def send(self, payload):
        self.send_bytes(self.frame(payload))

    def send_bytes(self, text):
        self.socket.sendall(text)

    def receive_exactly(self, count):
        text = b""
        while len(text) < count:
            try:
                piece = self.socket.recv(count - len(text))
            except OSError as error:
                raise Vanished from error
            if not piece:
                raise Vanished
            text += piece
        return text

    def receive(self):
        head = self.receive_exactly(8)
        version, source, destination, length = (int.from_bytes(head[i:i + 2], "big") for i in (0, 2, 4, 6))
        assert (version, source, destination) == (1, 1, self.source), head.hex()
        return self.receive_exactly(length).hex().upper()

    def ask(self, payload):
        self.send(payload)
        return self.receive()

    def answers_soon(self, call, *words):
        """The reply to a request, or None if there is none within a short time."""
        self.socket.settimeout(SHORT)
        try:
            return call(*words)
        except (AssertionError, Vanished, OSError):
            return None
        finally:
            self.socket.settimeout(PATIENCE)

    def is_closed(self):
        """Whether the server closed the connection without sending a byte."""
        try:
            return self.socket.recv(1) == b""
        except ConnectionResetError:
            return True
        except OSError:
            return False

    def close(self):
        self.socket.close()

    def opening(self, password=PASSWORD, size="04B0", bits="00FEFF"):
        """An AARQ, for the management client with the password."""
        secret = ""
        if self.source == MANAGEMENT:
            text = password.encode().hex().upper()
            secret = f"8A0207808B0760857405080201AC{len(text) // 2 + 2:02X}80{len(text) // 2:02X}{text}"
        fields = f"{NAMING}{secret}BE10040E01000000065F1F0400{bits}{size}"
        return f"60{len(fields) // 2:02X}{fields}"

    def associate(self, *words, **named):
        """Sends an AARQ and returns the response."""
        return self.ask(self.opening(*words, **named))

    def release(self):
        return self.ask("6203800100")

    def record(self, event, reply):
        self.seen.append((event, reply))
        return reply

    def line(self, place):
        kind, name, number = place
        return f"{self.source} {kind} {name} {number}"

    def get(self, place):
        """Reads an attribute and returns its Data or the result code."""
        answer = self.ask(f"C001C1{descriptor(place)}00")
        if answer.startswith("C402C1"):
            data = self.rest_of_blocks(answer)
        elif answer.startswith("C401C100"):
            data = answer[8:]
        else:
            assert answer.startswith("C401C101") and len(answer) == 10, answer
            return self.record(f"get {self.line(place)} 0", f"code {int(answer[8:], 16)}")
        return self.record(f"get {self.line(place)} 0", f"value {data}")

    def rest_of_blocks(self, answer):
        """Reads the remaining blocks of a response and returns its Data."""
        data, number = "", 1
        while True:
            is_last, block, length = answer[6:8], int(answer[8:16], 16), int(answer[18:20], 16)
            assert answer[16:18] == "00" and block == number and len(answer) == 20 + 2 * length, answer
            data += answer[20:]
            if is_last == "01":
                return data
            answer = self.ask(f"C002C1{number:08X}")
            number += 1

    def get_list(self, *places):
        answer = self.ask(f"C003C1{len(places):02X}" + "".join(descriptor(place) + "00" for place in places))
        assert answer.startswith(f"C403C1{len(places):02X}"), answer
        return answer[8:]

    def set(self, place, data):
        answer = self.ask(f"C101C1{descriptor(place)}00{data}")
        assert answer.startswith("C501C1") and len(answer) == 8, answer
        return self.record(f"set {self.line(place)} 0 {data}", f"code {int(answer[6:], 16)}")

    def set_in_blocks(self, place, *pieces):
        """Sends a SET whose Data is in blocks of these pieces."""
        for number, piece in enumerate(pieces, 1):
            last = f"{number == len(pieces):02X}"
            raw = f"{last}{number:08X}{len(piece) // 2:02X}{piece}"
            answer = self.ask(f"C102C1{descriptor(place)}00{raw}" if number == 1
                              else f"C103C1{raw}")
            if number < len(pieces):
                assert answer == f"C502C1{number:08X}", answer
        assert answer[:6] == "C503C1" and answer[8:] == f"{len(pieces):08X}", answer
        return self.record(f"set {self.line(place)} 0 {''.join(pieces)}", f"code {int(answer[6:8], 16)}")

    def execute(self, place, parameter="0F00"):
        answer = self.ask(f"C301C1{descriptor(place)}" + (f"01{parameter}" if parameter else "00"))
        assert answer.startswith("C701C1") and answer.endswith("00") and len(answer) == 10, answer
        return self.record(f"execute {self.line(place)} {parameter or '-'}", f"code {int(answer[6:8], 16)}")


servers = []  # that the test which runs has started


class Server:
    """A running `meter_server serve` and its console."""

    def __init__(self, *options, password=PASSWORD, environment=None, port=None, console=b"", console_file=subprocess.PIPE):
        self.port = port or free_port()
        words = [str(SERVER), "serve", "--listen", f"127.0.0.1:{self.port}", "--verbose", *options]
        if password is not None:
            words += ["--password", password]
        self.start(words, environment, console_file)
        if console:
            self.say_bytes(console)
        self.wait_for(b"listening on")

    def start(self, words, environment=None, console=subprocess.PIPE, **more):
        self.process = subprocess.Popen(words, stdin=console, stdout=subprocess.PIPE, stderr=subprocess.PIPE,
                                        env={**os.environ, **(environment or {})}, **more)
        servers.append(self)
        self.errors = b""
        self.reader = threading.Thread(target=self.read_errors, daemon=True)
        self.reader.start()

    def read_errors(self):
        """Reads standard error all the time, so that the server never blocks on it."""
        while piece := self.process.stderr.read1():
            self.errors += piece

    def wait_for(self, words, times=1):
        """Waits until standard error has these words `count` times, or has ended."""
        wait_until(lambda: self.errors.count(words) >= times or not self.reader.is_alive())
        return self.errors.count(words) >= times

    def says_soon(self, words):
        """Whether standard error has these words within a short time."""
        return wait_until(lambda: words in self.errors, SHORT)

    def say(self, *lines):
        self.say_bytes("".join(line + "\n" for line in lines).encode())

    def say_bytes(self, text):
        self.process.stdin.write(text)
        self.process.stdin.flush()

    def client(self, source=MANAGEMENT):
        """A client with an open association."""
        client = Client(self.port, source)
        answer = client.associate()
        assert answer.startswith(AARE), answer
        return client

    def end_input(self):
        self.process.stdin.close()

    def end(self):
        """Closes the console, waits for the server to end, and returns its status, standard output
        and standard error."""
        try:
            if self.process.stdin and not self.process.stdin.closed:
                self.end_input()
            pieces = []
            os.set_blocking(self.process.stdout.fileno(), False)

            def has_ended():
                is_over = self.process.poll() is not None
                pieces.append(self.process.stdout.read() or b"")
                return is_over

            status = "does not end"
            if wait_until(has_ended):
                self.reader.join(PATIENCE)
                status = self.process.returncode
            return status, b"".join(pieces).decode(), self.errors.decode()
        finally:
            self.stop()

    def stop(self):
        if self.process.poll() is None:
            self.process.kill()
        self.process.wait()


class Unread:
    """Mixed into a server: nobody reads its standard error past the line that it listens until
    `is_read` is set."""

    def start(self, *words, **more):
        self.is_read = threading.Event()
        super().start(*words, **more)

    def read_errors(self):
        while b"listening on" not in self.errors and (piece := self.process.stderr.read1()):
            self.errors += piece
        self.is_read.wait()
        super().read_errors()

    def is_full(self):
        """Whether the pipe of standard error takes no further byte."""
        path = f"/proc/self/fd/{self.process.stderr.fileno()}"
        its_end = os.open(path, os.O_WRONLY | os.O_NONBLOCK)
        try:
            return not select.select([], [its_end], [], 0)[1]
        finally:
            os.close(its_end)

    def fill_log(self):
        """Sends wrong passwords until the pipe has been full for a while."""
        for _ in range(WRONG_CONNECTIONS):
            send_wrong_passwords(self.port, WRONG_PASSWORDS // WRONG_CONNECTIONS)

    def has_ended(self):
        """Whether the process ends soon, though its log is not read. Afterwards the log is read."""
        is_over = wait_until(lambda: self.process.poll() is not None, SHORT_END)
        is_still_full = self.is_full()
        self.is_read.set()
        return is_over and is_still_full


class UnreadServer(Unread, Server):
    """A running `meter_server serve` whose log nobody reads."""


WRONG_PASSWORDS, WRONG_CONNECTIONS = 3_000, 3


def send_wrong_passwords(port, count):
    """Sends AARQs with a wrong password on one connection, without waiting for an answer, and then
    reads the answers. Returns how many came within a short time."""
    received = b""
    client = Client(port)
    client.socket.settimeout(SHORT)
    try:
        client.send_bytes(client.frame(client.opening("wrong password")) * count)
        while len(received) < count * REFUSED_LENGTH:
            received += client.receive_exactly(REFUSED_LENGTH)
    except (OSError, Vanished):
        pass
    finally:
        client.close()
    return len(received) // REFUSED_LENGTH


def free_port():
    with socket.socket() as taken:
        taken.bind(("127.0.0.1", 0))
        return taken.getsockname()[1]


def run_with(*words, environment=None, console=b""):
    """Runs a server that must end at once; returns its status, standard output and standard
    error."""
    made = subprocess.run([str(SERVER), "serve", *words], input=console, capture_output=True, timeout=PATIENCE, env={**os.environ, **(environment or {})})
    return made.returncode, made.stdout.decode(), made.stderr.decode()


def play_trace(trace):
    """The events of a trace, each with the reply that trace_player prints."""
    made = subprocess.run([str(PLAYER)], input=trace.encode(), capture_output=True, timeout=PATIENCE)
    assert made.returncode == 0, made.stderr
    lines = trace.splitlines()
    count = next(i for i, line in enumerate(lines) if line.startswith("events "))
    events = lines[count + 1:]
    replies = [re.fullmatch(r"\d+: (.*); state (\d); supply (on|off)", line) for line in made.stdout.decode().splitlines()]
    assert len(events) == len(replies) == int(lines[count].split()[1]), trace
    return [(event, reply[1]) for event, reply in zip(events, replies)]


def is_part_of(seen, all_events):
    """Whether the history has these events with these replies, in this order."""
    rest = iter(all_events)
    return all(event in rest for event in seen)


passed = failed = 0


def check(name, holds, *found):
    """Counts a check. If it fails, prints its name and what was found."""
    global passed, failed
    if holds:
        passed += 1
    else:
        failed += 1
        print(f"FAILED {name}" + (f": found {', '.join(map(str, found))}" if found else ""))


def test(function):
    """Runs one test, counts an error as a failed check, and stops the servers that the test left."""
    global failed
    name = function.__name__.replace("_", " ")
    try:
        function(name)
    except Exception as error:
        failed += 1
        place = traceback.extract_tb(error.__traceback__)[-1]
        print(f"FAILED {name}: {type(error).__name__} {error} ({place.filename}:{place.lineno})")
    finally:
        while servers:
            servers.pop().stop()


def run_tests(tests):
    """Runs tests, prints how many checks passed, and returns the exit status."""
    for function in tests:
        test(function)
    print(f"{passed} passed, {failed} failed")
    return 1 if failed else 0


def requests_of_every_kind(name):
    server = Server("--connections", "2")
    public, client = server.client(PUBLIC), server.client()
    check(f"{name}: state", public.get(STATE) == "value 1601")
    check(f"{name}: a public client's write", public.set(MODE, "1601") == "code 3")
    check(f"{name}: mode", client.set(MODE, "1604") == "code 0")
    check(f"{name}: disconnect", client.execute(DISCONNECT) == "code 0" and client.get(STATE) == "value 1600")
    check(f"{name}: reconnect", client.execute(RECONNECT, "") == "code 0" and public.get(STATE) == "value 1601")
    check(f"{name}: blocks", client.set_in_blocks(NORMAL, "0600", "001B", "58") == "code 0" and client.get(ACTIVE) == "value 0600001B58")
    listed = client.get_list(STATE, DEVICE, (70, "0000600000FF", 2))
    check(f"{name}: list", listed == "001601" + "000906" + "RELAY1".encode().hex().upper() + "0104", listed)
    objects = client.get(OBJECTS)
    check(f"{name}: object list", objects.startswith("value 010C0204") and len(objects) == 6 + 2 * 650, objects)
    check(f"{name}: release", public.release() == RELEASED and client.release() == RELEASED)
    check(f"{name}: after the release", client.ask("C001C1" + descriptor(STATE) + "00") == "D80101")
    public.close()
    client.close()
    status, trace, errors = server.end()
    check(f"{name}: end", status == 0 and "fault" not in errors, status, errors)
    history = play_trace(trace)
    check(f"{name}: public replies", is_part_of(public.seen, history))
    check(f"{name}: management replies", is_part_of(client.seen, history))
    check(f"{name}: nothing else", len(history) == len(public.seen) + len(client.seen) + 1, trace)


def a_long_answer_comes_in_blocks(name):
    server = Server("--connections", "1")
    client = Client(server.port)
    check(f"{name}: associated", client.associate(size="0040").startswith(AARE))
    objects = client.get(OBJECTS)
    check(f"{name}: all blocks", objects.startswith("value 010C0204") and len(objects) == 6 + 2 * 650)
    check(f"{name}: then others", client.get(STATE) == "value 1601")
    client.close()
    status, trace, _ = server.end()
    check(f"{name}: played", status == 0 and is_part_of(client.seen, play_trace(trace)))


def clients_interleave(name):
    server = Server("--connections", "2", "--depth", "1024")
    one, other = server.client(), server.client()
    one.set(MODE, "1604")
    for turn in range(20):
        one.execute(DISCONNECT)
        check(f"{name}: cut", other.get(STATE) == "value 1600", turn)
        other.execute(RECONNECT)
        check(f"{name}: connected", one.get(STATE) == "value 1601", turn)
    for client in (one, other):  # both send before either reads
        client.send("C001C1" + descriptor(MODE) + "00")
    check(f"{name}: asked at once", one.receive() == other.receive() == "C401C1001604")
    one.close()
    other.close()
    status, trace, _ = server.end()
    history = play_trace(trace)
    check(f"{name}: played", status == 0 and is_part_of(one.seen, history) and is_part_of(other.seen, history))
    check(f"{name}: the whole history", len(history) == len(one.seen) + len(other.seen) + 2)


def a_ninth_client_is_turned_away(name):
    server = Server("--connections", "10", "--stop-with-input")
    clients = [server.client() for _ in range(SESSIONS)]
    ninth = Client(server.port)
    check(f"{name}: closed without a byte", ninth.is_closed())
    check(f"{name}: reported", server.wait_for(b"turned away"))
    check(f"{name}: the eight go on", all(client.get(STATE) == "value 1601" for client in clients))
    clients[3].close()
    check(f"{name}: one ends", server.wait_for(b"session ended: the client closed the connection"))
    later = connect_again(server)
    check(f"{name}: then another is served", later.get(STATE) == "value 1601")
    for client in (*clients, later, ninth):
        client.close()
    status, trace, _ = server.end()
    check(f"{name}: end", status == 0)
    check(f"{name}: played", is_part_of(later.seen, play_trace(trace)))


def a_client_whose_stream_cannot_be_set_up_is_turned_away(name):
    server = Server("--connections", "2")
    # One descriptor is left: the server accepts a client, and can't duplicate its stream.
    process = server.process.pid
    taken = {int(number) for number in os.listdir(f"/proc/{process}/fd")}
    free = next(number for number in range(len(taken) + 1) if number not in taken)
    limits = resource.prlimit(process, resource.RLIMIT_NOFILE)
    resource.prlimit(process, resource.RLIMIT_NOFILE, (free + 1, limits[1]))
    client = Client(server.port)
    check(f"{name}: closed without a byte", client.is_closed())
    check(f"{name}: told", server.wait_for(b"turned away: its stream could not be set up"), server.errors)
    resource.prlimit(process, resource.RLIMIT_NOFILE, limits)
    client.close()
    later = server.client()
    check(f"{name}: the next is served", later.get(STATE) == "value 1601")
    later.close()
    # (both count as connections, so the server ends)
    status, trace, errors = server.end()
    check(f"{name}: end", status == 0 and "fault" not in errors, status, errors)
    check(f"{name}: one is turned away", errors.count("turned away") == 1, errors)
    check(f"{name}: played", is_part_of(later.seen, play_trace(trace)))


def wait_without_descriptors(server):
    """Leaves no descriptor free for a server, and waits until it can't accept a client. Returns the
    limits that it had."""
    times = server.errors.count(NO_CLIENT)
    limits = resource.prlimit(server.process.pid, resource.RLIMIT_NOFILE)
    resource.prlimit(server.process.pid, resource.RLIMIT_NOFILE, (0, limits[1]))
    # (an `accept` that waits may have its descriptor already: the next one has none)
    Client(server.port).close()
    assert server.wait_for(NO_CLIENT, times + 1), server.errors
    return limits


def a_lack_of_descriptors_passes(name):
    server = Server("--stop-with-input")
    client = server.client()
    limits = wait_without_descriptors(server)
    check(f"{name}: an open session continues", client.get(STATE) == "value 1601")
    waiting = Client(server.port)
    time.sleep(1)
    check(f"{name}: reported once, with the reason", server.errors.count(NO_CLIENT) == 1 and b"Too many open files" in server.errors, server.errors)
    resource.prlimit(server.process.pid, resource.RLIMIT_NOFILE, limits)
    check(f"{name}: the client that waited is served", waiting.associate().startswith(AARE) and waiting.get(STATE) == "value 1601")
    check(f"{name}: reported", server.wait_for(b"Z clients are accepted again\n"), server.errors)
    waiting.close()
    wait_without_descriptors(server)
    client.close()
    status, trace, errors = server.end()
    check(f"{name}: the end of input ends the server", status == 0 and "fault" not in errors, status, errors)
    check(f"{name}: played", is_part_of(client.seen, play_trace(trace)))


def connect_again(server):
    """Connects a client once a session is free: the server frees ended sessions when it accepts the
    next client."""
    found = []

    def is_served():
        try:
            found.append(server.client())
        except (Vanished, OSError):
            return False
        return True

    if not wait_until(is_served, pause=0.02):
        raise Vanished
    return found[0]


# What the server reports of the lines of the test below: the first one of each reason.
SKIPPED = [
    "console: line 2: skipped: expected button, samples, pairs or moment, found `nonsense`",
    "console: line 7: skipped: expected the line of an event as a trace has it, found `button 2`",
    "console: line 8: skipped: expected a line that ends with LF alone, found `moment 100\\x0D`",
    "console: line 9: skipped: expected at most 8,191 bytes, found `" + "x" * 60 + "..`",
    "console: line 12: skipped: expected a line end, found `moment 300`",
    "console: skipped 6 lines in all",
]


def console_lines_act_beside_clients(name):
    server = Server("--connections", "1")
    client = server.client()
    client.set(MODE, "1604")
    client.execute(DISCONNECT)
    server.say("moment 100", "nonsense", "samples 10 20", "set 1 70 000060030AFF 4 0 1600", "pairs 30 40", "button", "button 2", "moment 100\r", "x" * 20_000, "samples")
    has_last = wait_until(lambda: client.get(REGISTER) == "value 060000001E")
    check(f"{name}: the last sample", has_last)
    client.close()
    server.say_bytes(b"moment 200\nmoment 300")  # the last line has no line end
    status, trace, errors = server.end()
    skipped = [line for line in errors.splitlines() if "console: " in line]
    check(f"{name}: what was skipped", skipped == SKIPPED, skipped)
    history = play_trace(trace)
    own = [event for event, _ in history if event.split()[0] in ("samples", "pairs", "moment", "button")]
    check(f"{name}: each good line once", sorted(own) == sorted(["moment 100", "samples 10 20", "pairs 30 40", "button", "samples", "moment 200"]), own)
    samples = [event for event in own if event.split()[0] in ("samples", "pairs")]
    check(f"{name}: samples in order", samples == ["samples 10 20", "pairs 30 40", "samples"], own)
    check(f"{name}: moments in order", own.index("moment 100") < own.index("moment 200"))
    check(f"{name}: the sampler reads the thresholds first",
          next(event for event, _ in history if event.startswith(("getlist", "samples"))).startswith("getlist 1 2 71 0000110000FF 3 0 71 0001110000FF 3 0"))
    check(f"{name}: played", status == 0 and is_part_of(client.seen, history))


def a_console_that_is_not_read_is_a_fault(name):
    """With a folder as standard input each read fails; clients are served anyway, and the trace is
    printed."""
    folder = os.open(TOP, os.O_RDONLY)
    try:
        server = Server("--connections", "1", console_file=folder)
    finally:
        os.close(folder)
    reported = server.wait_for(b"console: reading failed, no further line is read\n")
    check(f"{name}: reported as it happens", reported, server.errors)
    client = server.client(PUBLIC)
    client.get(STATE)
    client.close()
    status, trace, errors = server.end()
    check(f"{name}", status == 3 and errors.endswith("fault: read\n") and errors.count("console:") == 1, status, errors)
    check(f"{name}: the trace is printed", is_part_of(client.seen, play_trace(trace)), trace)


def a_limit_of_connections_ends_the_server(name):
    server = Server("--connections", "2")
    server.end_input()
    for _ in range(2):
        client = server.client(PUBLIC)
        client.get(STATE)
        client.close()
    status, trace, errors = server.end()
    check(f"{name}", status == 0 and len(play_trace(trace)) == 2 and "fault" not in errors, status, errors)


def the_end_of_input_ends_the_server(name):
    server = Server("--stop-with-input")
    client = server.client()
    client.get(STATE)
    server.say("button")
    server.end_input()
    end = time.monotonic() + PATIENCE
    is_open = True
    while is_open and time.monotonic() < end:  # no client is served after this
        late = None
        try:
            late = Client(server.port, PUBLIC)
            late.socket.settimeout(0.5)
            late.associate()
        except (Vanished, OSError):
            is_open = False
        finally:
            if late:
                late.close()
    check(f"{name}: no further client", not is_open)
    check(f"{name}: an open session continues", client.set(MODE, "1601") == "code 0" and server.process.poll() is None)
    client.close()
    status, trace, errors = server.end()
    check(f"{name}: end", status == 0 and "fault" not in errors, status, errors)
    # (the button may be pressed before or after the mode is set)
    events = [event for event, _ in play_trace(trace)]
    check(f"{name}: played",
          is_part_of(client.seen, play_trace(trace)) and "button" in events, events)


def an_address_in_use_is_a_fault(name):
    with socket.socket() as taken:
        taken.bind(("127.0.0.1", 0))
        taken.listen()
        address = "127.0.0.1:%d" % taken.getsockname()[1]
        status, output, errors = run_with("--password", PASSWORD, "--listen", address)
    wanted = f"{TIME} {re.escape(address)}: the address is in use\nfault: listen\n"
    is_told = re.fullmatch(wanted, errors)
    check(f"{name}", (status, output) == (3, "") and is_told, status, output, errors)
    status, output, errors = run_with("--password", PASSWORD, "--listen", "nowhere")
    wanted = f"{TIME} nowhere: expected HOST:PORT with a port of at most 65535\nfault: listen\n"
    is_told = re.fullmatch(wanted, errors)
    check(f"{name}: no address", (status, output) == (3, "") and is_told, status, output, errors)


def a_meter_goes_on_from_its_trace(name):
    server = Server("--connections", "1", "--device", "METER7", "--depth", "4")
    first = server.client()
    first.set(MODE, "1604")
    first.set(NORMAL, "0600001B58")
    first.set((*LIMITER, 6), "0600000002")
    first.execute(DISCONNECT)
    first.close()
    server.say("moment 500", "samples 8000 8000 8000")
    status, trace, _ = server.end()
    check(f"{name}: a first run", status == 0 and "events 4\n" in trace, trace)
    server = Server("--connections", "1", "--resume", console=trace.encode() + b"moment 400\n")
    then = server.client()
    check(f"{name}: device", then.get(DEVICE) == "value 0906" + "METER7".encode().hex().upper())
    check(f"{name}: state", then.get(STATE) == "value 1600")
    check(f"{name}: threshold", then.get(NORMAL) == "value 0600001B58")
    check(f"{name}: last sample", then.get(REGISTER) == "value 0600001F40")
    check(f"{name}: reconnect", then.execute(RECONNECT) == "code 0")
    then.close()
    status, trace, errors = server.end()
    history = play_trace(trace)
    check(f"{name}: the time too", status == 0 and ("moment 400", "stale 500") in history, history)
    check(f"{name}: it is reported", f"{STALE.format(400, 500)}\n" in errors, errors)
    check(f"{name}: no event of the first run", is_part_of(then.seen, history) and len(history) == len(then.seen) + 1, history)


def a_wrong_trace_is_not_gone_on_from(name):
    good = Server("--connections", "1")
    client = good.client(PUBLIC)
    client.get(STATE)
    client.close()
    trace = good.end()[1].encode()
    last = trace.count(b"\n")
    for what, line, text in (
            ("no trace", 1, b"button\n"), ("nothing", 1, b""), ("cut", last, trace[:-1]),
            ("an unfit state", 3, trace.replace(b"state 1", b"state 3")),
            ("another version", 1, trace.replace(b"RELAYTRACE 2", b"RELAYTRACE 3")),
            ("too few events", last + 1, trace.replace(b"events 1", b"events 2")),
            ("a wrong event", last, trace.replace(b"get 16", b"get 17"))):
        made = run_with("--password", PASSWORD, "--resume", "--listen", f"127.0.0.1:{free_port()}", console=text)
        why = f"standard input: line {line}: not a line of a trace (trace_player says why)"
        check(f"{name}: {what}", made == (2, "", f"{why}\nfault: input\n"), made)


def wrong_passwords_are_refused(name):
    server = Server("--connections", "3")
    for password, diagnostic in (("1234567", "0D"), ("87654321", "0D")):
        client = Client(server.port)
        check(f"{name}: {password}", client.associate(password) == REFUSED + diagnostic)
        check(f"{name}: no association",
              client.ask("C001C1" + descriptor(STATE) + "00") == "D80101")
        client.close()
    client = server.client()
    check(f"{name}: the right one", client.get(STATE) == "value 1601")
    client.close()
    check(f"{name}: end", server.end()[0] == 0)
    size_of_device = "device: must be 1 to 16 bytes\n"
    for words, line in ((["--password", ""], SIZE_OF_PASSWORD),
                        (["--password", "x" * 33], SIZE_OF_PASSWORD),
                        (["--password", "x", "--device", ""], size_of_device),
                        (["--password", "x", "--device", "x" * 17], size_of_device)):
        made = run_with(*words)
        check(f"{name}: length", made == (2, "", line + "fault: input\n"), words, made)


NO_JOURNAL = "no journal: if the server is killed, its trace and the meter's state are lost"


def the_log_reports_each_client(name):
    server = Server("--connections", "3")
    client = Client(server.port)
    check(f"{name}: refused", client.associate("1234567") == REFUSED + "0D")
    client.close()
    check(f"{name}: one has ended", server.wait_for(b"client 1, ") and server.wait_for(b"session ended", 1))
    client = server.client()
    found = client.get(STATE), client.set(MODE, "1607"), client.set(MODE, "1601")
    check(f"{name}: served, refused, served", found == ("value 1601", "code 250", "code 0"), found)
    client.close()
    check(f"{name}: two have ended", server.wait_for(b"session ended", 2))
    client = server.client(PUBLIC)
    check(f"{name}: the public client is refused", client.set(MODE, "1602") == "code 3")
    client.release()
    client.close()
    status, _, errors = server.end()
    reasons = ("connected", "association refused: wrong password (diagnostic 13)", "session ended: the client closed the connection; 0 requests, 0 refused",
               "connected", "associated as the management client", "session ended: the client closed the connection; 3 requests, 1 refused",
               "connected", "associated as the public client", "session ended: the client closed the connection; 1 requests, 1 refused")
    wanted = [f"{TIME} listening on 127\\.0\\.0\\.1:\\d+", f"{TIME} {NO_JOURNAL}"]
    wanted += [f"{TIME} client {i // 3 + 1}, 127\\.0\\.0\\.1:\\d+: {re.escape(reason)}" for i, reason in enumerate(reasons)]
    lines = errors.splitlines()
    check(f"{name}: lines", status == 0 and len(lines) == len(wanted) and all(map(re.fullmatch, wanted, lines)), errors)


def the_environment_has_the_password(name):
    server = Server("--connections", "1", password=None, environment={"METER_PASSWORD": "of the environment"})
    client = Client(server.port)
    check(f"{name}: taken", client.associate("of the environment").startswith(AARE))
    client.close()
    check(f"{name}: end", server.end()[0] == 0)
    server = Server("--connections", "1", environment={"METER_PASSWORD": "of the environment"})
    client = Client(server.port)
    check(f"{name}: the command line comes first", client.associate().startswith(AARE))
    client.close()
    check(f"{name}: its end", server.end()[0] == 0)
    made = run_with("--listen", "127.0.0.1:0", environment={"METER_PASSWORD": ""})
    check(f"{name}: empty", made == (2, "", SIZE_OF_PASSWORD + "fault: input\n"), made)
    status, output, errors = run_with("--listen", "127.0.0.1:0")
    check(f"{name}: neither", status == 2 and output == "" and "--password <TEXT>" in errors, errors)


def process_text(process):
    """The command line and the environment that /proc shows of a process. They are empty until its
    program has begun."""
    files = [pathlib.Path(f"/proc/{process.pid}/{it}") for it in ("cmdline", "environ")]
    wait_until(lambda: all(it.read_bytes() for it in files))
    return b"".join(it.read_bytes() for it in files)


def a_file_has_the_password(name):
    with tempfile.TemporaryDirectory(prefix="passwords-") as folder:
        path = pathlib.Path(folder) / "password"
        path.touch(0o600)
        path.write_text("of the file\n")
        server = Server("--connections", "1", "--password-file", str(path), password=None, environment={"METER_PASSWORD": "of the environment"})
        client = Client(server.port)
        check(f"{name}: taken before that of the environment", client.associate("of the file").startswith(AARE))
        shown = process_text(server.process)
        check(f"{name}: not shown", b"--password-file" in shown and b"of the environment" in shown and b"of the file" not in shown, shown)
        client.close()
        check(f"{name}: end", server.end()[0] == 0)
        server = Server("--connections", "1", "--password-file", str(path))
        client = Client(server.port)
        check(f"{name}: the command line comes first", client.associate().startswith(AARE))
        client.close()
        check(f"{name}: its end", server.end()[0] == 0)


def a_client_may_vanish_in_mid_frame(name):
    server = Server("--connections", "3")
    cut = server.client()
    cut.send_bytes(bytes.fromhex("000100010001000DC001C1"))
    cut.close()
    check(f"{name}: reported", server.wait_for(b"within a frame"))
    other = Client(server.port)
    other.send_bytes(bytes.fromhex("0002001000010000"))
    check(f"{name}: another version", other.is_closed())
    client = server.client()
    check(f"{name}: other clients are served", client.get(STATE) == "value 1601")
    client.close()
    other.close()
    status, trace, errors = server.end()
    check(f"{name}: end", status == 0 and len(play_trace(trace)) == 1 and "a frame has the wrong version: expected 1" in errors, status, errors)


def a_silent_client_is_closed(name):
    server = Server("--connections", "1", "--inactivity", "1", "--stop-with-input")
    client = server.client()
    client.get(STATE)
    begun = time.monotonic()
    check(f"{name}: closed", client.is_closed() and 0.8 <= time.monotonic() - begun < 10)
    client.close()
    status, trace, errors = server.end()
    check(f"{name}: end", status == 0 and len(play_trace(trace)) == 1 and "session ended: a read failed or timed out" in errors, status, errors)


def lines_on_a_terminal(*words):
    """The lines that a server without clients prints on a terminal."""
    ours, theirs = os.openpty()
    try:
        made = subprocess.run([str(SERVER), "serve", "--listen", "127.0.0.1:0", "--password", PASSWORD, "--stop-with-input",
                               *words], input=b"", stdout=subprocess.PIPE, stderr=theirs, timeout=PATIENCE)
        os.set_blocking(ours, False)
        text = b""
        try:
            while more := os.read(ours, 65_536):
                text += more
        except BlockingIOError:
            pass
    finally:
        os.close(theirs)
        os.close(ours)
    return made.returncode, text.decode().splitlines()


def a_server_without_a_journal_says_so(name):
    status, lines = lines_on_a_terminal()
    check(f"{name}: on a terminal", status == 0 and len(lines) == 1 and re.fullmatch(f"{TIME} {NO_JOURNAL}", lines[0]), lines)
    with tempfile.TemporaryDirectory() as folder:
        made = lines_on_a_terminal("--journal", f"{folder}/journal")
    check(f"{name}: not with a journal", made == (0, []), made)
    status, _, errors = run_with("--listen", "127.0.0.1:0", "--password", PASSWORD, "--stop-with-input")
    check(f"{name}: not into a file", (status, errors) == (0, ""), errors)


DROPPED = r"log: (\d+) lines were dropped: the log is not read in time"


def prepare_switching(client):
    """Mode 1 and a limiter that disconnects above 5,000 W after a second; whether all was taken."""
    replies = [client.set(SCRIPTS, SCRIPT_TABLE), client.set(MODE, "1601"),
               client.set(ACTIONS, "0202" + SCRIPT_1 + NO_SCRIPT), client.set(NORMAL, "0600001388"),
               client.set(OVER_DURATION, "0600000001")]
    return set(replies) == {"code 0"}


def check_switching(name, client, press, relay):
    """A remote disconnection, a press of the button and the limiter act at once, though the log is
    not read. `press` writes lines to the console."""
    def is_given(text):
        return wait_until(lambda: relay.read_text() == text, SHORT)

    answer = client.answers_soon(client.execute, DISCONNECT)
    check(f"{name}: a disconnection is answered", answer == "code 0", answer)
    check(f"{name}: the relay after it", is_given("1\n0\n"), relay.read_text())
    answer = client.answers_soon(client.execute, RECONNECT)
    check(f"{name}: a reconnection is answered", answer == "code 0", answer)
    press("button")
    check(f"{name}: the relay after the button", is_given("1\n0\n1\n"), relay.read_text())
    press("samples" + 50 * " 9000")
    check(f"{name}: the relay after the limiter", is_given("1\n0\n1\n0\n"), relay.read_text())


def a_log_that_is_not_read_stops_nothing(name):
    with tempfile.TemporaryDirectory(prefix="unread-") as folder:
        relay = pathlib.Path(folder, "relay")
        server = UnreadServer("--stop-with-input", "--relay", str(relay))
        client = server.client()
        check(f"{name}: prepared", prepare_switching(client))
        server.fill_log()
        check(f"{name}: the pipe is full", wait_until(server.is_full, SHORT))
        check_switching(name, client, server.say, relay)
        check(f"{name}: the pipe is still full", server.is_full())
        later = Client(server.port, PUBLIC)
        answer = later.answers_soon(later.associate)
        check(f"{name}: a later client is served", (answer or "").startswith(AARE), answer)
        later.close()
        client.close()
        server.end_input()
        check(f"{name}: the end, with the pipe full", server.has_ended())
        status, trace, errors = server.end()
        check(f"{name}: in order", status == 0 and "fault" not in errors, status, errors[-300:])
        events = [event for event, _ in play_trace(trace)]
        check(f"{name}: its trace",
              is_part_of(client.seen, play_trace(trace)) and "button" in events, events)


def dropped_lines_are_counted(name):
    server = UnreadServer("--stop-with-input")
    server.fill_log()
    check(f"{name}: the pipe is full", wait_until(server.is_full, SHORT))
    server.is_read.set()

    def counts():
        return [int(it) for it in re.findall(f"(?m)^{DROPPED}$", server.errors.decode())]

    check(f"{name}: once it is read", wait_until(counts, SHORT), server.errors[-300:])
    client = server.client()
    client.close()
    status, _, errors = server.end()
    check(f"{name}: the end", status == 0 and "fault" not in errors, status, errors[-300:])
    lines = errors.splitlines()
    whole = [it for it in lines if re.fullmatch(f"{TIME} .*|{DROPPED}", it)]
    check(f"{name}: whole lines", lines == whole, [it for it in lines if it not in whole][:3])
    # (each connection has its line at both ends, too)
    found, all_lines = len(lines) - len(counts()) + sum(counts()), WRONG_PASSWORDS
    all_lines += 2 * WRONG_CONNECTIONS + 5  # those of the last client, of the start and no journal
    check(f"{name}: each line or its count", found == all_lines, found, all_lines, counts())


def a_public_client_is_served_once(name):
    """The AARQ of the public client, and then its GET of the control state, over TCP."""
    server = Server("--connections", "1", "--stop-with-input")
    asked = {"000100100001001F601DA109060760857405080101BE10040E01000000065F1F0400007E1F04B0":
             "000100010010002B6129A109060760857405080101A203020100A305A103020100BE10040E0800065F1F0400001E1904000007",
             "000100100001000DC001C10046000060030AFF0300": "0001000100100006C401C1001601"}
    with socket.create_connection(("127.0.0.1", server.port), PATIENCE) as client:
        for request, answer in asked.items():
            client.sendall(bytes.fromhex(request))
            found = b""
            while len(found) < len(answer) // 2 and (more := client.recv(100)):
                found += more
            check(f"{name}: {request[:20]}", found == bytes.fromhex(answer), found)
    status, trace, errors = server.end()
    check(f"{name}: the end", status == 0 and len(play_trace(trace)) == 1, status, trace, errors)


def closed_streams_stay_closed(name):
    """No file and no socket gets the number of a standard stream that is closed at the start."""
    for number, status in ((1, 3), (2, 0)):
        words = [str(SERVER), "serve", "--listen", "127.0.0.1:0", "--password", PASSWORD, "--stop-with-input", "--verbose"]
        process = subprocess.Popen(words, stdin=subprocess.PIPE, stdout=subprocess.PIPE, stderr=subprocess.PIPE,
                                   preexec_fn=lambda number=number: os.close(number))
        time.sleep(1)
        with open(f"/proc/{process.pid}/stat", encoding="ascii") as file:
            ticks = sum(map(int, file.read().rpartition(")")[2].split()[11:13]))
        check(f"{name}: {number}: waits", ticks < os.sysconf("SC_CLK_TCK") / 2, ticks)
        output, errors = process.communicate(b"", timeout=PATIENCE)
        check(f"{name}: {number}: the end", process.returncode == status, process.returncode, errors)
        is_so = output.startswith(b"RELAYTRACE") if number == 2 else b"RELAYTRACE" not in errors and b"fault: write" in errors
        check(f"{name}: {number}: what is written", is_so, output, errors)


FIRST_MOMENT = 946_684_800  # the moment 0, in seconds since 1970
DAY = 86_400
HELD_BACK = ("console: moment {} held back: more than a day ahead of the last one or of this "
             "machine; --accept-clock-step lets it pass")
PASSED = "console: {} moments were held back"
STALE = "console: moment {} is stale: the last one is {}"
RAN = "console: moment {} ran 1 schedule"


def six_of(moment):
    """06:00 of the day of a moment."""
    return moment - moment % DAY + 6 * 3_600


def server_with_schedule(*options):
    """A server that disconnects each day at 06:00, and a client."""
    server = Server("--stop-with-input", *options)
    client = server.client()
    replies = [client.set(SCRIPTS, SCRIPT_TABLE), client.set(MODE, "1604"),
               client.set(SCHEDULE_SCRIPT, SCRIPT_1), client.set(SCHEDULE_TYPE, "1601"),
               client.set(SCHEDULE_TIMES, AT_SIX)]
    assert set(replies) == {"code 0"}, replies
    return server, client


def console_of(server):
    """What a server has logged of its console."""
    return [it for it in server.errors.decode().splitlines() if it.startswith("console: ")]


def end_with_moments(server, client):
    """Ends a server; returns its status and the moments of its trace with their replies."""
    client.close()
    status, trace, _ = server.end()
    return status, [it for it in play_trace(trace) if it[0].startswith("moment ")]


def a_moment_far_ahead_is_held_back(name):
    """Of a last moment ten days ago, at noon: a schedule of 06:00 would run at the next day's."""
    begun = six_of(int(time.time()) - FIRST_MOMENT - 10 * DAY) + 6 * 3_600
    far, next_day = begun + DAY + 1, begun + DAY
    server, client = server_with_schedule()
    server.say(f"moment {begun}", f"moment {far}", f"moment {far + 1}", "samples 7")
    wait_until(lambda: client.get(REGISTER) == "value 0600000007", SHORT)
    check(f"{name}: reported once", server.says_soon(HELD_BACK.format(far).encode() + b"\n")
          and len(console_of(server)) == 1, console_of(server))
    check(f"{name}: the schedule does not run", client.get(STATE) == "value 1601")
    server.say(f"moment {begun + 60}", f"moment {begun + 30}", "samples 8")
    wait_until(lambda: client.get(REGISTER) == "value 0600000008", SHORT)
    stale = STALE.format(begun + 30, begun + 60)
    wanted = [HELD_BACK.format(far), PASSED.format(2), stale]
    check(f"{name}: the next right one passes",
          server.says_soon(stale.encode()) and console_of(server) == wanted, console_of(server))
    server.say(f"moment {next_day}")
    check(f"{name}: the schedule of the next day",
          wait_until(lambda: client.get(STATE) == "value 1600", SHORT))
    ran = f"{RAN.format(next_day)}\n".encode()
    check(f"{name}: that it ran is reported", server.says_soon(ran), console_of(server))
    status, moments = end_with_moments(server, client)
    wanted = [(f"moment {begun}", "ran 0"), (f"moment {begun + 60}", "ran 0"),
              (f"moment {begun + 30}", f"stale {begun + 60}"), (f"moment {next_day}", "ran 1")]
    check(f"{name}: the trace", status == 0 and moments == wanted, status, moments)


def a_new_meter_has_the_clock_of_the_machine(name):
    now = int(time.time()) - FIRST_MOMENT
    far = six_of(now) + 3 * DAY
    server, client = server_with_schedule()
    server.say(f"moment {far}", "moment 2000000000", "samples 7")
    wait_until(lambda: client.get(REGISTER) == "value 0600000007", SHORT)
    check(f"{name}: reported", server.says_soon(HELD_BACK.format(far).encode() + b"\n")
          and len(console_of(server)) == 1, console_of(server))
    check(f"{name}: the schedule does not run", client.get(STATE) == "value 1601")
    server.say(f"moment {now}")
    check(f"{name}: the right one passes",
          server.says_soon(f"{PASSED.format(2)}\n".encode()), console_of(server))
    status, moments = end_with_moments(server, client)
    check(f"{name}: the trace",
          status == 0 and [it for it, _ in moments] == [f"moment {now}"], status, moments)


def a_step_of_the_clock_may_be_accepted(name):
    now = int(time.time()) - FIRST_MOMENT
    far = six_of(now) + 10 * DAY
    server, client = server_with_schedule("--accept-clock-step")
    server.say(f"moment {now}", f"moment {far}")
    check(f"{name}: the schedule runs",
          wait_until(lambda: client.get(STATE) == "value 1600", SHORT))
    status, moments = end_with_moments(server, client)
    check(f"{name}: the trace", status == 0 and moments[1:] == [(f"moment {far}", "ran 1")],
          status, moments)
    check(f"{name}: only that it ran is reported", console_of(server) == [RAN.format(far)],
          console_of(server))


def moments_of_a_run(*moments, options=(), trace=None):
    """The moments that a server takes from its console, what it reports of them, and its trace."""
    resumed = ["--resume"] if trace else []
    server = Server("--stop-with-input", *resumed, *options, console=(trace or "").encode())
    server.say(*(f"moment {it}" for it in moments))
    status, trace, errors = server.end()
    assert status == 0, errors
    taken = [int(it.split()[1]) for it, _ in play_trace(trace) if it.startswith("moment ")]
    return taken, console_of(server), trace


def moments_are_judged_by_the_trace_or_the_machine(name):
    """Up to a day after the last moment of a trace, or after the clock without one."""
    far = 101 + 2 * DAY
    taken, told, trace = moments_of_a_run(100, 101 + DAY, 102 + DAY, 100 + DAY, 100, far)
    check(f"{name}: a last one", taken == [100, 100 + DAY, 100], taken)
    wanted = [HELD_BACK.format(101 + DAY), PASSED.format(2), STALE.format(100, 100 + DAY),
              HELD_BACK.format(far)]
    check(f"{name}: a further row is reported", told == wanted, told)
    taken, told, _ = moments_of_a_run(far, far - 1, trace=trace)
    wanted = [HELD_BACK.format(far), PASSED.format(1)]
    check(f"{name}: the trace's last one", (taken, told) == ([far - 1], wanted), taken, told)
    ahead = int(time.time()) - FIRST_MOMENT + DAY + 600
    taken, told, _ = moments_of_a_run(ahead, ahead - 1_200)
    wanted = [HELD_BACK.format(ahead), PASSED.format(1)]
    check(f"{name}: the machine", (taken, told) == ([ahead - 1_200], wanted), taken, told)
    both = (100, 4_294_967_295)
    taken, told, _ = moments_of_a_run(*both, options=("--accept-clock-step",))
    check(f"{name}: the last moment may be accepted", (taken, told) == ([*both], []), taken, told)


def main():
    if not are_built(SERVER, PLAYER):
        return 1
    return run_tests((requests_of_every_kind, a_long_answer_comes_in_blocks, clients_interleave, a_ninth_client_is_turned_away,
                      a_client_whose_stream_cannot_be_set_up_is_turned_away, a_lack_of_descriptors_passes,
                      console_lines_act_beside_clients, a_console_that_is_not_read_is_a_fault, a_limit_of_connections_ends_the_server, the_end_of_input_ends_the_server,
                      an_address_in_use_is_a_fault, a_meter_goes_on_from_its_trace, a_wrong_trace_is_not_gone_on_from, wrong_passwords_are_refused,
                      the_log_reports_each_client, a_server_without_a_journal_says_so,
                      a_log_that_is_not_read_stops_nothing, dropped_lines_are_counted, closed_streams_stay_closed, a_public_client_is_served_once,
                      a_moment_far_ahead_is_held_back, a_new_meter_has_the_clock_of_the_machine,
                      a_step_of_the_clock_may_be_accepted,
                      moments_are_judged_by_the_trace_or_the_machine,
                      the_environment_has_the_password, a_file_has_the_password, a_client_may_vanish_in_mid_frame, a_silent_client_is_closed))


if __name__ == "__main__":
    sys.exit(main())
