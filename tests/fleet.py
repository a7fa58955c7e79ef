#!/usr/bin/env python3
"""Tests `meter_fleet serve` with clients over TCP at addresses 127.a.b.c. 300 meters are switched
and asked by hand-written frames, by hostile clients while a good one asks, and by a campaign of
`head_end` if that is built. Another fleet resumes from a trace. The lines of the console give
events to meters, whose traces `trace_player` plays if that is built. Meters have faults, which a
client and a campaign of `bin/campaign` see. A fleet runs out of descriptors. Every wait has a time
limit."""

import concurrent.futures
import functools
import os
import pathlib
import random
import re
import resource
import shutil
import socket
import subprocess
import sys
import tempfile
import threading
import time

sys.dont_write_bytecode = True  # importing the modules of tests/ leaves no files

import serving
from programs import FLEET, HEAD_END, PLAYER, TOP
from serving import check, wait_until

CAMPAIGN = TOP / "bin" / "campaign"

PASSWORD = "12345678"
PATIENCE = 60  # the time limit of each wait, in seconds
METERS = 300

# Frames of the management client at port 1 and their answers (IEC 62056-4-7, IEC 62056-5-3; class
# 70, attribute 3 and method 1).
AARQ = bytes.fromhex("00010001000100386036A1090607608574050801018A0207808B0760857405080201AC0A80083132333435363738BE10040E01000000065F1F0400001C190400")
AARE = bytes.fromhex("000100010001002B6129A109060760857405080101A203020100A305A103020100BE10040E0800065F1F0400001C1904000007")
DISCONNECT = bytes.fromhex("000100010001000FC301C10046000060030AFF01010F00")
DONE = bytes.fromhex("0001000100010005C701C10000")
# The AARE that rejects a wrong password (authentication-failure, 13), and the answer to a method in
# control mode 0 (temporary-failure, 2).
REJECTED = bytes.fromhex("00010001000100196117A109060760857405080101A203020101A305A10302010D")
REFUSED = bytes.fromhex("0001000100010005C701C10200")
STATE = bytes.fromhex("000100010001000DC001C10046000060030AFF0300")
RECONNECT = bytes.fromhex("000100010001000FC301C10046000060030AFF02010F00")
DISCONNECTED, CONNECTED, READY = (
    bytes.fromhex(f"0001000100010006C401C10016{state}") for state in ("00", "01", "02"))
SET_MODE_1 = bytes.fromhex("000100010001000FC101C10046000060030AFF04001601")
SET_DONE = bytes.fromhex("0001000100010004C501C100")
WRONG_VERSION = bytes.fromhex("0002000100010000")
# GET of the object list (class 15), which is answered in blocks; and blocks that follow none.
OBJECTS = bytes.fromhex("000100010001000DC001C1000F0000280000FF0200")
WRONG_BLOCKS = [bytes.fromhex(f"000100010001{len(it) // 2:04X}{it}") for it in (
    "C002C100000005", "C103C1010000000201AA", "C103C10100000009020000", "C306C10100000007020100")]
ATTACKS = 40  # of each kind
DELAY = 2  # the time by which a slow meter answers late, in seconds
ROUNDING = 0.01  # the fleet counts whole milliseconds
SILENCE = 8  # the time after which a client takes a meter for silent, in seconds
# What a campaign reports of meters with these faults; the others are unknown.
ROWS = {None: "done 0", "slow": "done 0", "wrong-password": "rejected 13", "refuses": "refused 2"}
JOBS = 20_000  # of the campaign over meters with faults

# The trace of a meter in mode 1 that was disconnected (docs/TRACE.md).
OPENING = """RELAYTRACE 1
device 52454C415931
state 1
mode 1
value 0
now -
normal 4294967295
emergency 4294967295
minover 0
minunder 0
profile 0 FFFFFFFFFFFFFFFFFF8000FF 0
groups
actions 0 0
over 0 0
under 0 0
scripts 0100
schedule 0 0 5 0100
schedule 1 0 5 0100
schedule 2 0 5 0100
schedule 3 0 5 0100
"""
# A meter in mode 1 whose script 1 disconnects (class 9), and which executes it after ten samples
# above 1,000 watts, one second (class 71).
LIMITED = (OPENING.replace("normal 4294967295", "normal 1000").replace("minover 0", "minover 1")
           .replace("actions 0 0", "actions 1 0")
           .replace("scripts 0100",
                    "scripts 010102021200010101020516021200460906000060030AFF0F010F00")
           + "events 0\n")
# The modes in which the button disconnects (IEC 62056-6-2, class 70, control_mode).
BUTTON_DISCONNECTS = (1, 2, 5)
TRACE = OPENING + "events 1\nexecute 1 70 000060030AFF 1 0F00\n"

def environment(password):
    """The environment of a fleet, with this password or without one."""
    rest = {name: value for name, value in os.environ.items() if name != "METER_PASSWORD"}
    return rest if password is None else rest | {"METER_PASSWORD": password}


def address_of(meter):
    """The address of a meter: the three bytes of its number."""
    return "127." + ".".join(str(byte) for byte in meter.to_bytes(3, "big"))


class Fleet:
    """A running `meter_fleet serve` of METERS meters or as many as are given, on a free port: in
    mode 1, or with other options. `variable` is the password of the environment, `console` a file
    with the lines of the console."""

    def __init__(self, *options, password=("--password", PASSWORD), variable=None, console=None,
                 meters=METERS):
        self.options = ("--meters", str(meters), *password, *(options or ("--mode", "1")))
        self.environment = environment(variable)
        self.console = console

    def __enter__(self):
        words = ["serve", *self.options,
                 "--listen", "0.0.0.0", "--port", "0", "--verbose"]
        self.process = subprocess.Popen([str(FLEET), *words], stdin=self.console or subprocess.PIPE,
                                        stdout=subprocess.PIPE, stderr=subprocess.PIPE, text=True,
                                        env=self.environment)
        line = self.read_line(self.process.stderr)
        self.port = int(re.search(r":(\d+)$", line.strip()).group(1))
        return self

    def __exit__(self, *_):
        self.process.kill()
        self.process.wait()
        for stream in (self.process.stdin, self.process.stdout, self.process.stderr):
            if stream:
                stream.close()

    def read_line(self, stream):
        """The next line that the fleet writes, which it has PATIENCE for."""
        guard = threading.Timer(PATIENCE, self.process.kill)
        guard.start()
        line = stream.readline()
        guard.cancel()
        return line.removesuffix("\n")

    def write(self, text):
        """Writes a text to the console."""
        self.process.stdin.write(text)
        self.process.stdin.flush()

    def answers(self, line, count=1):
        """Writes a line to the console, and returns this many lines of the answer."""
        self.write(line + "\n")
        return [self.read_line(self.process.stdout) for _ in range(count)]

    def check(self, name, line, wanted):
        """Checks the lines with which the console answers one."""
        found = self.answers(line, len(wanted))
        wrong = [it for it in zip(found, wanted) if it[0] != it[1]]
        check(name, found == wanted, *wrong[:5])

    def connect(self, meter):
        """Connects to a meter of the fleet."""
        return socket.create_connection((address_of(meter), self.port), timeout=PATIENCE)


def receive(client, count):
    """The next bytes that a client receives, at most `count`."""
    text = b""
    while len(text) < count:
        piece = client.recv(count - len(text))
        if not piece:
            break
        text += piece
    return text


def aarq_with(password):
    """The AARQ of the management client with this password, in its frame."""
    before, after = AARQ[8:].split(b"\xac\x0a\x80\x08" + PASSWORD.encode())
    field = bytes([0xAC, len(password) + 2, 0x80, len(password)]) + password
    body = before[2:] + field + after
    apdu = bytes([0x60, len(body)]) + body
    return AARQ[:6] + len(apdu).to_bytes(2, "big") + apdu


def ask(client, request, answer):
    """Whether a request has exactly this answer."""
    client.sendall(request)
    return receive(client, len(answer)) == answer


def is_closed(client):
    """Whether a connection was closed without a byte."""
    try:
        return client.recv(1) == b""
    except ConnectionResetError:
        return True


def can_associate(fleet, meter):
    """Whether a new connection to a meter can associate."""
    with fleet.connect(meter) as client:
        try:
            return ask(client, AARQ, AARE)
        except (ConnectionResetError, BrokenPipeError):
            return False


def talk(fleet, meter, *exchanges):
    """Whether a new association with a meter has these answers."""
    with fleet.connect(meter) as client:
        return all(ask(client, *exchange) for exchange in ((AARQ, AARE), *exchanges))


def meters_are_apart(fleet):
    """Disconnects the meters with odd numbers, and asks all for their states."""
    done = all(talk(fleet, meter, (DISCONNECT, DONE)) for meter in range(1, METERS + 1, 2))
    check("the odd meters are disconnected", done)
    wanted = {meter: DISCONNECTED if meter % 2 else CONNECTED for meter in range(1, METERS + 1)}
    agree = all(talk(fleet, meter, (STATE, state)) for meter, state in wanted.items())
    check("two meters share no state", agree)


def a_ninth_is_closed(fleet):
    clients = [fleet.connect(5) for _ in range(8)]
    check("eight connections to a meter associate", all(ask(it, AARQ, AARE) for it in clients))
    with fleet.connect(5) as ninth:
        check("a ninth is closed with no byte sent", is_closed(ninth))
    check("the eight go on", all(ask(it, STATE, DISCONNECTED) for it in clients))
    clients.pop().close()
    # The fleet may accept the next connection before it has seen this end.
    check("a place that is free is taken", wait_until(lambda: can_associate(fleet, 5)))
    for client in clients:
        client.close()


def others_are_closed(fleet):
    for meter in (0, METERS + 1, 65_536):
        with fleet.connect(meter) as client:
            check(f"a connection to {address_of(meter)} is closed", is_closed(client))


def frames_are_cut(fleet):
    with fleet.connect(7) as client:
        client.setsockopt(socket.IPPROTO_TCP, socket.TCP_NODELAY, 1)
        for byte in AARQ:
            client.sendall(bytes([byte]))
        check("a frame of single bytes is answered", receive(client, len(AARE)) == AARE)
        client.sendall(STATE * 5_000)
        answers = receive(client, 5_000 * len(DISCONNECTED))
        check("5,000 requests at once are answered", answers == 5_000 * DISCONNECTED)
        client.sendall(AARQ[:20])
    check("a client that goes in a frame disturbs nobody", talk(fleet, 7, (STATE, DISCONNECTED)))


def connections_end(fleet):
    with fleet.connect(9) as client:
        opened = ask(client, AARQ, AARE)
        client.sendall(WRONG_VERSION)
        check("a wrong version ends the connection", opened and is_closed(client))
    with fleet.connect(9) as client:
        client.sendall(AARQ)
        client.shutdown(socket.SHUT_WR)
        answered = receive(client, len(AARE)) == AARE
        check("a client that has ended its side is answered", answered and is_closed(client))


def stops_in_a_frame(client, choose):
    """A client that stops within a frame."""
    client.sendall(AARQ[:choose.randrange(1, len(AARQ))])


def resets(client, choose):
    """A client that resets its connection after a request."""
    client.sendall(AARQ + STATE)
    client.setsockopt(socket.SOL_SOCKET, socket.SO_LINGER, b"\1\0\0\0\0\0\0\0")


def never_reads(client, choose):
    """Asks for the object list until its requests are not taken any more."""
    client.sendall(AARQ)
    client.settimeout(0.5)
    while True:
        client.sendall(OBJECTS * 100)


def babbles(client, choose):
    """A client that sends random bytes."""
    client.sendall(choose.randbytes(choose.randrange(1, 4_000)))
    client.settimeout(0.2)
    client.recv(4_096)


def sends_wrong_blocks(client, choose):
    """A client that sends blocks of transfers that were not begun."""
    client.sendall(AARQ + b"".join(WRONG_BLOCKS))
    client.settimeout(0.2)
    receive(client, 4_096)


def has_a_wrong_password(client, choose):
    """A client with a wrong password."""
    client.sendall(AARQ.replace(PASSWORD.encode(), b"87654321") + DISCONNECT)
    client.settimeout(0.2)
    client.recv(4_096)


HOSTILE = (stops_in_a_frame, resets, never_reads, babbles, sends_wrong_blocks, has_a_wrong_password)


def attack(fleet, meter, script):
    """Attacks a meter; a connection that it closes, or does not serve in time, ends the attack."""
    choose = random.Random(script.__name__)
    for _ in range(4 if script is never_reads else ATTACKS):
        try:
            with fleet.connect(meter) as client:
                script(client, choose)
        except OSError:
            pass


def memory_of(process):
    """The resident memory of a process in KiB."""
    status = pathlib.Path(f"/proc/{process}/status").read_text()
    return int(re.search(r"VmRSS:\s+(\d+)", status)[1])


def files_of(process):
    """The number of open files of a process."""
    return len(os.listdir(f"/proc/{process}/fd"))


def hostile_clients_disturb_nobody(fleet):
    """Each kind of hostile client attacks a meter of its own while a good client asks another
    meter, and one asks an attacked one."""
    process, before = fleet.process.pid, files_of(fleet.process.pid)
    attackers = [threading.Thread(target=attack, args=(fleet, 20 + place, script), daemon=True)
                 for place, script in enumerate(HOSTILE)]
    slowest, answers, most = 0.0, 0, 0
    with fleet.connect(30) as good, fleet.connect(20) as attacked:
        opened = ask(good, AARQ, AARE) and ask(attacked, AARQ, AARE)
        check("good clients associate", opened)
        for it in attackers:
            it.start()
        end, are_right = time.monotonic() + 6 * PATIENCE, True
        while any(it.is_alive() for it in attackers) and time.monotonic() < end:
            for client in (good, attacked):
                begun = time.monotonic()
                are_right &= ask(client, STATE, CONNECTED)
                slowest, answers = max(slowest, time.monotonic() - begun), answers + 1
            most = max(most, memory_of(process))
            time.sleep(0.002)
    check("good clients are answered meanwhile", are_right)
    check("the attacks end", not any(it.is_alive() for it in attackers))
    # (meters_are_apart has disconnected those with odd numbers)
    switched = [meter for meter in range(20, 31)
                if not talk(fleet, meter, (STATE, DISCONNECTED if meter % 2 else CONNECTED))]
    check(f"no attacked meter is switched: {switched}", not switched)
    clients = [fleet.connect(22) for _ in range(8)]
    check("all sessions are free again", all(ask(it, AARQ, AARE) for it in clients))
    for client in clients:
        client.close()
    check("no descriptor is leaked", wait_until(lambda: files_of(process) <= before))
    print(f"hostile clients: {answers} answers to the good ones, the slowest in {slowest:.3f} s, "
          f"resident at most {most} KiB")


def run_head_end(fleet, verb):
    """The rows of a campaign over all meters."""
    jobs = "".join(f"m{meter} {address_of(meter)}:{fleet.port} {verb}\n" for meter in range(1, METERS + 1))
    ran = subprocess.run([str(HEAD_END), "run", "--password", PASSWORD, "--workers", "16"], input=jobs,
                         capture_output=True, text=True, timeout=6 * PATIENCE, check=False)
    return ran.stdout.splitlines()


def campaigns_agree(fleet):
    wanted = [f"m{meter} done 0" for meter in range(1, METERS + 1)]
    check("a campaign disconnects every meter", run_head_end(fleet, "disconnect") == wanted)
    check("a campaign finds every meter disconnected", run_head_end(fleet, "state") == wanted)


def wrong_words_are_refused():
    for words in (["--meters", "0"], ["--meters", "16777216"], ["--meters", "3", "--mode", "7"],
                  ["--meters", "3", "--depth", "0"], ["--meters", "3", "--depth", "1025"],
                  ["--meters", "3", "--listen", "nowhere"]):
        ran = subprocess.run([str(FLEET), "serve", "--password", PASSWORD, *words], capture_output=True,
                             timeout=PATIENCE, check=False)
        check(f"{' '.join(words)} is refused", ran.returncode == 2)
    ran = subprocess.run([str(FLEET), "serve", "--password", "", "--meters", "3"], capture_output=True,
                         text=True, timeout=PATIENCE, check=False)
    check("an empty password is refused",
          (ran.returncode, ran.stderr) == (2, "password: must be 1 to 32 bytes\nfault: input\n"))


def reasons_are_reported():
    """A line before the fault says why, with --verbose and without."""
    with socket.create_server(("127.0.0.1", 0)) as taken:
        address = f"127.0.0.1:{taken.getsockname()[1]}"
        port = address.split(":")[1]
        for words, status, lines in (
                (["--password", ""], 2, "password: must be 1 to 32 bytes\nfault: input\n"),
                (["--password", PASSWORD, "--listen", "nowhere"], 2,
                 "listen: expected an IP address\nfault: input\n"),
                (["--password", PASSWORD, "--port", port], 3,
                 f"{address}: the address is in use\nfault: listen\n")):
            for also in ([], ["--verbose"]):
                ran = subprocess.run([str(FLEET), "serve", "--meters", "3", *also, *words],
                                     capture_output=True, text=True, timeout=PATIENCE, check=False)
                check(f"{words[-1]!r} {also}: why", (ran.returncode, ran.stderr) == (status, lines))


def passwords_are_found():
    """The password is that of the command line, else that of its file, else that of the
    environment."""
    with tempfile.TemporaryDirectory() as folder:
        path = pathlib.Path(folder, "password")
        path.write_text(PASSWORD + "\n")
        path.chmod(0o600)
        for name, words, variable in (
                ("the environment", (), PASSWORD),
                ("a file", ("--password-file", str(path)), "of the environment"),
                ("the command line", ("--password", PASSWORD, "--password-file", str(path) + "x"),
                 "of the environment")):
            with Fleet("--mode", "1", "--depth", "16", password=words, variable=variable) as fleet:
                check(f"the password of {name}", talk(fleet, 3, (DISCONNECT, DONE)))
        path.chmod(0o644)
        missing = "password: expected --password, --password-file or the variable METER_PASSWORD\n"
        exposed = f"{path}: expected a file that only its owner may read, as chmod 600 makes it\n"
        length = "password: must be 1 to 32 bytes\n"
        for words, variable, line in (((), None, missing), ((), "", length), ((), "x" * 33, length),
                                      (("--password-file", str(path)), None, exposed)):
            ran = subprocess.run([str(FLEET), "serve", "--meters", "3", "--port", "0", *words],
                                 capture_output=True, text=True, timeout=PATIENCE, check=False,
                                 env=environment(variable))
            check(f"no password: {words} {variable}",
                  (ran.returncode, ran.stderr) == (2, line + "fault: input\n"))


def idle_connections_are_closed():
    """A client that sends nothing for the limit is closed, and one that sends in time is not."""
    limit = 2
    with Fleet("--mode", "1", "--inactivity", str(limit)) as fleet:
        with fleet.connect(2) as idle, fleet.connect(2) as active:
            begun = time.monotonic()
            check("two clients associate", ask(idle, AARQ, AARE) and ask(active, AARQ, AARE))
            are_right = True
            while time.monotonic() < begun + 2.5 * limit:
                are_right &= ask(active, STATE, CONNECTED)
                time.sleep(limit / 4)
            check("a client that sends in time is answered", are_right)
            check("an idle client is closed", is_closed(idle))
        begun = time.monotonic()
        with fleet.connect(3) as client:
            closed = is_closed(client)
            check("a client that sends nothing is closed", closed)
            passed_time = time.monotonic() - begun
            check(f"it is closed in time: {passed_time:.1f} s", limit <= passed_time < limit + 10)
        clients = [fleet.connect(2) for _ in range(8)]
        check("the sessions are free", all(ask(it, AARQ, AARE) for it in clients))
        for client in clients:
            client.close()


def long_sessions_are_closed():
    """A client that sends in time is closed when its session has lasted for the limit."""
    limit = 2
    with Fleet("--mode", "1", "--session", str(limit), "--inactivity", "0") as fleet:
        begun = time.monotonic()
        with fleet.connect(2) as client:
            check("a client associates", ask(client, AARQ, AARE))
            while time.monotonic() < begun + 10 * limit and is_answered(client):
                time.sleep(limit / 10)
            lasted = time.monotonic() - begun
            check(f"its session is closed in time: {lasted:.1f} s", limit <= lasted < limit + 10)
        with fleet.connect(2) as first:
            check("another client associates", ask(first, AARQ, AARE))
            check("and is answered", ask(first, STATE, CONNECTED))


def is_answered(client):
    """Whether a client that is associated gets an answer."""
    try:
        return ask(client, STATE, CONNECTED)
    except (ConnectionResetError, BrokenPipeError):
        return False


def result_of_resuming(path):
    """The status and standard error of a fleet that is refused the trace in a file."""
    words = ["serve", "--meters", "3", "--password", PASSWORD, "--port", "0", "--resume", str(path)]
    ran = subprocess.run([str(FLEET), *words], capture_output=True, text=True, timeout=PATIENCE,
                         check=False)
    return ran.returncode, ran.stderr


def meters_resume():
    """Each meter resumes from a trace that ends disconnected, and then has a state of its own."""
    with tempfile.TemporaryDirectory() as folder:
        path = pathlib.Path(folder, "meter.trace")
        for text in (TRACE, TRACE.replace("events 1", "events -")):
            path.write_text(text)
            with Fleet("--resume", str(path)) as fleet:
                check("a meter that resumes is reconnected",
                      talk(fleet, 2, (STATE, DISCONNECTED), (RECONNECT, DONE), (STATE, READY)))
                agree = all(talk(fleet, meter, (STATE, DISCONNECTED)) for meter in (1, 3, METERS))
                check("the others resume where the trace ends", agree)
                check("its state is kept", talk(fleet, 2, (STATE, READY)))
        for text, fault in (("", "line 1 of the trace is wrong"),
                            (OPENING, "line 21 of the trace is wrong"),
                            (TRACE + "button\n", "line 23 of the trace is wrong"),
                            ("x" * 33_554_433, "a trace of more than 33,554,432 bytes")):
            path.write_text(text)
            check(f"a file is refused: {fault}",
                  result_of_resuming(path) == (2, f"{path}: {fault}\nfault: input\n"))
        path.unlink()
        check("a missing file is reported",
              result_of_resuming(path) == (3, f"{path}: the file can't be read\nfault: read\n"))


def buttons_are_pressed():
    """A press of the button in each mode, and another: a meter that was disconnected by hand is
    ready for reconnection, and the button reconnects it."""
    for mode in range(7):
        state = "ready" if mode in BUTTON_DISCONNECTS else "connected"
        with Fleet("--mode", str(mode)) as fleet:
            fleet.check(f"mode {mode}: a button is pressed", "7 button", ["1"])
            fleet.check(f"mode {mode}: its meter is {state}", "7 state", [f"7 {state}"])
            if state == "ready":
                seen = talk(fleet, 7, (STATE, READY))
                check(f"mode {mode}: a client finds it ready", seen)
                fleet.answers("7 button")
            fleet.check(f"mode {mode}: it is connected", "7 state", ["7 connected"])


def events_reach_their_meters(fleet):
    """Each meter of a range is given an event, and no other; clients and the console see the
    same."""
    fleet.check("no meter is ready", "count ready", ["0"])
    fleet.check("a range is counted", "100-199 button", ["100"])
    fleet.check("its meters are ready", "count ready", ["100"])
    edges = ["99 connected", "100 ready", "101 ready"]
    fleet.check("those below it are connected", "99-101 state", edges)
    edges = ["199 ready", "200 connected"]
    fleet.check("those above it are connected", "199-200 state", edges)
    agree = all(talk(fleet, meter, (STATE, READY if 100 <= meter < 200 else CONNECTED))
                for meter in (1, 99, 100, 150, 199, 200, METERS))
    check("clients find the same states", agree)
    with fleet.connect(150) as client:
        ask(client, AARQ, AARE)
        before = ask(client, STATE, READY)
        fleet.answers("150 button")
        check("a client sees an event of the console", before and ask(client, STATE, CONNECTED))
    check("a client disconnects", talk(fleet, 150, (DISCONNECT, DONE)))
    fleet.check("the console finds it", "count disconnected", ["1"])
    fleet.check("a range ends with the fleet", "299-5000 state", ["299 connected", "300 connected"])
    for event in ("moment 5", "samples", "samples 10 20", "pairs 1 2 3 4"):
        fleet.check(f"all have {event}", f"all {event}", [str(METERS)])


def limiters_act():
    """Ten samples above the threshold disconnect a meter, nine do not."""
    with tempfile.TemporaryDirectory() as folder:
        path = pathlib.Path(folder, "limited.trace")
        path.write_text(LIMITED)
        with Fleet("--resume", str(path)) as fleet:
            fleet.answers("8 samples" + 10 * " 1001")
            fleet.answers("9 samples" + 9 * " 1001" + " 1000")
            states = ["7 connected", "8 ready", "9 connected"]
            fleet.check("a limiter disconnects its meter", "7-9 state", states)


def traces_are_written():
    """The trace of a meter has its events, and trace_player plays it."""
    with tempfile.TemporaryDirectory() as folder, Fleet("--mode", "1", "--depth", "16") as fleet:
        path = pathlib.Path(folder, "a meter.trace")
        fleet.answers("17 button")
        fleet.answers("all moment 5")
        fleet.check("a trace is written", f"17 trace {path}", [f"17 {path}"])
        events = path.read_text().split("events ")[1]
        check("it has the events of its meter", events == "2\nbutton\nmoment 5\n")
        if os.path.exists(PLAYER):
            ran = subprocess.run([str(PLAYER), str(path)], capture_output=True, text=True,
                                 timeout=PATIENCE, check=False)
            check("trace_player plays it", ran.stdout ==
                  "1: code 0; state 2; supply off\n2: ran 0; state 2; supply off\n", ran)
        else:
            print(f"SKIPPED a trace of a fleet in trace_player: {PLAYER} is not built")
        fleet.answers(f"18 trace {path}")
        events = path.read_text().split("events ")[1]
        check("the trace of another meter has its own", events == "1\nmoment 5\n")
        fleet.write(f"17 trace {folder}/none/x\n")
        check("a file that can't be written is reported", fleet.read_line(fleet.process.stderr)
              == "console: line 5: the answer can't be written")


def wrong_lines_change_nothing():
    """A wrong line is named with its number; the lines after it are carried out."""
    meters = "expected N, N-M, all or count"
    request = "expected button, samples, pairs, moment, state or trace FILE"
    lines = (("button", meters), ("0 button", meters), ("5-4 button", meters),
             ("5", request), ("5 press", request), ("5 button now", request),
             ("5 execute 1 70 000060030AFF 1 0F00", request),
             ("5 trace", "trace: expected one meter and a file"),
             ("all trace x", "trace: expected one meter and a file"),
             ("count open", "count: expected disconnected, connected or ready"),
             (f"{METERS + 1} button", "the fleet has no such meter"),
             ("5 samples" + 4_100 * " 1", "a line of more than 8,192 bytes"))
    with Fleet() as fleet:
        for number, (line, reason) in enumerate(lines, 1):
            fleet.write(line + "\n")
            found = fleet.read_line(fleet.process.stderr)
            check(f"{line[:20]!r} is wrong", found == f"console: line {number}: {reason}")
        fleet.check("no meter has changed", "count connected", [str(METERS)])
        fleet.write("5 but")
        time.sleep(0.1)
        fleet.check("a line may arrive in pieces", "ton", ["1"])
        fleet.write("5 state\n" * 2_000)
        read = [fleet.read_line(fleet.process.stdout) for _ in range(2_000)]
        check("many lines at once are answered", read == 2_000 * ["5 ready"])
        fleet.process.stdin.close()
        check("the fleet outlives its console", talk(fleet, 5, (STATE, READY)))


def a_console_may_be_a_file():
    """The console may be a file or closed at the start."""
    with tempfile.TemporaryFile("w+") as lines:
        lines.write("3 button\n" + "4 state\n" * 2_000 + "3 state\nnot a whole line")
        lines.seek(0)
        with Fleet(console=lines) as fleet:
            read = [fleet.read_line(fleet.process.stdout) for _ in range(2_002)]
            wanted = ["1", *(2_000 * ["4 connected"]), "3 ready"]
            check("the lines of a file are answered", read == wanted)
            check("a client finds the state", talk(fleet, 3, (STATE, READY)))
    with Fleet(console=subprocess.DEVNULL) as fleet:
        check("a fleet without a console serves", talk(fleet, 3, (STATE, CONNECTED)))
        used = cpu_seconds(fleet.process.pid)
        time.sleep(1)
        check("it waits", cpu_seconds(fleet.process.pid) - used < 0.5)


def clients_wait_for_descriptors():
    """Two descriptors are left: further clients wait, and are served once some are free, although
    no client connects then."""
    with Fleet() as fleet:
        process = fleet.process.pid
        limits = resource.prlimit(process, resource.RLIMIT_NOFILE)
        first_free = max(int(number) for number in os.listdir(f"/proc/{process}/fd")) + 1
        resource.prlimit(process, resource.RLIMIT_NOFILE, (first_free + 2, limits[1]))
        served = [fleet.connect(meter) for meter in (1, 2)]
        check("clients with a descriptor associate", all(ask(it, AARQ, AARE) for it in served))
        waiting = [fleet.connect(meter) for meter in (3, 4, 5)]
        line = fleet.read_line(fleet.process.stderr)
        check("the lack of descriptors is reported", line.startswith(
            "no client can be accepted, trying again: Too many open files"), line)
        check("open connections go on", ask(served[0], STATE, CONNECTED))
        for client in served:
            client.close()
        check("clients that wait are served", all(ask(it, AARQ, AARE) for it in waiting[:2]))
        line = fleet.read_line(fleet.process.stderr)
        check("that is reported", line == "clients are accepted again", line)
        resource.prlimit(process, resource.RLIMIT_NOFILE, limits)
        check("and so are all others", ask(waiting[2], AARQ, AARE))
        for client in waiting:
            client.close()


def many_meters_are_reached():
    """Commands for more than the 1,000 meters that are reached at a time."""
    with Fleet(meters=2_500) as fleet:
        fleet.check("all buttons are pressed", "all button", ["2500"])
        fleet.check("all meters are ready", "count ready", ["2500"])
        fleet.check("1,001 buttons are pressed", "700-1700 button", ["1001"])
        fleet.check("1,000 buttons are pressed", "1701-2700 button", ["800"])
        states = [f"{it} {'connected' if it >= 700 else 'ready'}" for it in range(1, 2_501)]
        fleet.check("all states are shown", "all state", states)
        fleet.check("a later command has its answer", "2500-9000 state", ["2500 connected"])


def clients_are_answered_meanwhile():
    """While a command reaches 40,000 meters, a client of one of them is answered."""
    with Fleet(meters=40_000) as fleet, fleet.connect(1) as client:
        check("a client associates", ask(client, AARQ, AARE))
        lines, answers = [], 0
        reader = threading.Thread(target=lambda: lines.extend(fleet.answers("all moment 5")))
        reader.start()
        while reader.is_alive() and ask(client, STATE, CONNECTED):
            answers += 1
        reader.join(PATIENCE)
        check("the command is carried out", lines == ["40000"])
        check("the client is answered meanwhile", answers >= 10)


def draw_of(seed, meter):
    """The draw of a meter, 0 to 99: the first word of SplitMix64 (Steele, Lea and Flood), started
    at the seed and the number of the meter."""
    mask = 2 ** 64 - 1
    word = ((seed << 32) + meter + 0x9E3779B97F4A7C15) & mask
    word = ((word ^ word >> 30) * 0xBF58476D1CE4E5B9) & mask
    word = ((word ^ word >> 27) * 0x94D049BB133111EB) & mask
    return (word ^ word >> 31) % 100


def fault_of(seed, meter, shares):
    """The name of the fault of a meter, or None, where the shares are in the order of the draws."""
    draw, end = draw_of(seed, meter), 0
    for name, percent in shares:
        end += percent
        if draw < end:
            return name
    return None


def with_faults(seed, shares, **words):
    """A fleet in mode 1 with these shares of faults."""
    options = [word for name, percent in shares for word in ("--fault", f"{name}={percent}")]
    return Fleet("--mode", "1", *options, "--seed", str(seed), **words)


def receive_frame(client):
    """The next frame that a client receives, or what the meter sends of it (IEC 62056-4-7)."""
    header = receive(client, 8)
    return header + receive(client, int.from_bytes(header[6:8], "big") if len(header) == 8 else 0)


def fault_seen(fleet, meter):
    """The fault that a client sees at a meter, whose answers are all right and late, or None."""
    with fleet.connect(meter) as client:
        client.settimeout(SILENCE)
        try:
            begun = time.monotonic()
            client.sendall(AARQ)
            opening = receive_frame(client)
            if opening == REJECTED:
                return "wrong-password"
            client.sendall(DISCONNECT)
            answer = receive_frame(client)
            are_late = time.monotonic() - begun >= 2 * DELAY - ROUNDING
            if (opening, answer) == (AARE, DONE):
                return "slow" if are_late else None
            if (opening, answer) == (AARE, REFUSED):
                return "refuses"
            if (opening, answer) == (AARE, DONE[:len(DONE) // 2]) and is_closed(client):
                return "vanishes"
        except TimeoutError:
            return "silent"
        except (ConnectionResetError, BrokenPipeError):
            return "closes"
    return "closes" if opening == b"" else "another"


def faults_seen(fleet):
    """The fault that a client sees at each meter of a fleet."""
    with concurrent.futures.ThreadPoolExecutor(METERS) as clients:
        return list(clients.map(lambda meter: fault_seen(fleet, meter), range(1, METERS + 1)))


def state_after(fault):
    """The control state of a meter with this fault after a client asked to disconnect it, if the
    client waited for each answer."""
    unchanged = ("silent", "closes", "wrong-password", "refuses")
    return "connected" if fault in unchanged else "disconnected"


def faults_are_drawn():
    """Each client sees the fault that the seed and the shares give its meter, and no other."""
    shares = (("silent", 10), ("slow", 15), ("vanishes", 20), ("closes", 15),
              ("wrong-password", 10), ("refuses", 15))
    for seed, given in ((0, shares), (7, shares), (4_294_967_295, shares[::2])):
        with with_faults(seed, given) as fleet:
            wanted = [fault_of(seed, meter, given) for meter in range(1, METERS + 1)]
            seen = faults_seen(fleet)
            others = [it for it in enumerate(zip(wanted, seen), 1) if it[1][0] != it[1][1]]
            check(f"seed {seed}: each meter has its fault: {others[:5]}", not others)
            states = [f"{meter} {state_after(fault)}" for meter, fault in enumerate(wanted, 1)]
            found = fleet.answers("all state", METERS)
            check(f"seed {seed}: what was answered was carried out", found == states)


def faults_are_whole():
    """With a share of 100 percent all meters have the fault; a share of 0 percent is none."""
    for name, words in (("silent", ("--fault", "silent=100")),
                        ("vanishes", ("--fault", "vanishes=30", "--fault", "vanishes=100")),
                        ("closes", ("--fault", "closes=100", "--fault", "slow=0")),
                        ("wrong-password", ("--fault", "wrong-password=100")),
                        ("refuses", ("--fault", "refuses=100", "--seed", "9")),
                        (None, ("--fault", "silent=0", "--fault", "closes=0", "--seed", "3"))):
        with Fleet("--mode", "1", *words) as fleet:
            check(f"all meters: {name}", faults_seen(fleet) == METERS * [name])


def silent_meters_act():
    """A silent meter carries out what a client sends that does not wait."""
    with with_faults(0, [("silent", 100)]) as fleet, fleet.connect(4) as client:
        client.sendall(AARQ + DISCONNECT)
        done = wait_until(lambda: fleet.answers("4 state") == ["4 disconnected"])
        check("a silent meter is disconnected", done)
        client.settimeout(0.5)
        try:
            check("it sends nothing", client.recv(1) is None)
        except TimeoutError:
            check("it sends nothing", True)


def slow_meters_answer_late():
    """Each answer of a slow meter comes after the delay, and its idle client is closed."""
    with Fleet("--mode", "1", "--fault", "slow=100", "--inactivity", "6") as fleet:
        with fleet.connect(9) as client:
            for request, answer in ((AARQ, AARE), (DISCONNECT, DONE), (STATE, DISCONNECTED)):
                begun = time.monotonic()
                is_right = ask(client, request, answer)
                taken = time.monotonic() - begun
                in_time = DELAY - ROUNDING <= taken < DELAY + 5
                check(f"a slow meter answers: {taken:.2f} s", is_right and in_time)
            check("its idle client is closed", is_closed(client))
        used = cpu_seconds(fleet.process.pid)
        time.sleep(1)
        check("a fleet of slow meters waits", cpu_seconds(fleet.process.pid) - used < 0.5)


def passwords_are_other_ones():
    """A meter with another password opens an association for that alone: its first byte is 0, or 1
    instead of 0."""
    fleets = ((PASSWORD, "02345678"), ("0", "1"), ("é" * 16, b"0\xa9" + "é".encode() * 15))
    for password, other in fleets:
        other = other if isinstance(other, bytes) else other.encode()
        with Fleet("--mode", "1", "--fault", "wrong-password=100",
                   password=("--password", password)) as fleet:
            for given, answer in ((password.encode(), REJECTED), (other, AARE)):
                with fleet.connect(3) as client:
                    is_so = ask(client, aarq_with(given), answer)
                    check(f"{given} at a meter with another password than {password}", is_so)


def meters_that_refuse_may_be_set():
    """A meter that refuses is in control mode 0: in another mode it can be switched, also by its
    button, and a meter without the fault has the mode of the command line."""
    with with_faults(0, [("refuses", 100)]) as fleet:
        check("it refuses, and is connected already",
              talk(fleet, 4, (DISCONNECT, REFUSED), (STATE, CONNECTED), (RECONNECT, DONE)))
        fleet.check("its button does nothing", "4 button", ["1"])
        fleet.check("it is connected", "4 state", ["4 connected"])
        fleet.check("all are connected", "count connected", [str(METERS)])
        check("it is set to mode 1, and switched",
              talk(fleet, 4, (SET_MODE_1, SET_DONE), (DISCONNECT, DONE), (STATE, DISCONNECTED)))


def meters_with_faults_resume():
    """A meter with another password resumes too; one that refuses is an error."""
    with tempfile.TemporaryDirectory() as folder:
        path = pathlib.Path(folder, "trace")
        path.write_text(TRACE)
        words = ("--resume", str(path), "--fault", "wrong-password=100")
        with Fleet(*words) as fleet, fleet.connect(2) as client:
            check("a meter with another password resumes", fleet.answers("2 state")
                  == ["2 disconnected"] and ask(client, AARQ, REJECTED))
        ran = subprocess.run([str(FLEET), "serve", "--meters", "3", "--password", PASSWORD,
                              "--port", "0", "--resume", str(path), "--fault",
                              "refuses=1"], capture_output=True, text=True, timeout=PATIENCE,
                             check=False)
        wanted = "fault refuses: must not be combined with --resume\nfault: input\n"
        check("meters that resume can't refuse", (ran.returncode, ran.stderr) == (2, wanted))


def wrong_faults_are_refused():
    for words, line in (
            (["mute=5"], "fault mute=5: expected silent, slow, vanishes, closes, wrong-password "
                         "or refuses"),
            (["silent"], "fault silent: expected NAME=PERCENT with 0 to 100 percent"),
            (["slow=101"], "fault slow=101: expected NAME=PERCENT with 0 to 100 percent"),
            (["silent=60", "slow=41"],
             "fault slow=41: the shares are more than 100 percent together")):
        options = [word for it in words for word in ("--fault", it)]
        command = [str(FLEET), "serve", "--meters", "3", "--password", PASSWORD, "--port", "0"]
        ran = subprocess.run([*command, *options], capture_output=True, text=True,
                             timeout=PATIENCE, check=False)
        check(f"{words} are refused", (ran.returncode, ran.stderr) == (2, f"{line}\nfault: input\n"))
    ran = subprocess.run([*command, "--seed", "4294967296"], capture_output=True, timeout=PATIENCE,
                         check=False)
    check("a seed of 2^32 is refused", ran.returncode == 2)


def campaigns_report_faults():
    """The rows of a campaign over meters with faults: those that are silent, vanish or close are
    unknown, those with another password reject, those in mode 0 refuse, and all others are done.
    The console finds which meters were switched."""
    missing = [f"{HEAD_END} is not built"] * (not os.path.exists(HEAD_END))
    missing += ["GNU parallel is not installed"] * (not shutil.which("parallel"))
    if missing:
        print(f"SKIPPED the campaign over meters with faults: {', '.join(missing)}")
        return
    seed, shares = 11, (("silent", 1), ("slow", 1), ("vanishes", 3), ("closes", 4),
                        ("wrong-password", 5), ("refuses", 6))
    faults = [fault_of(seed, meter, shares) for meter in range(1, JOBS + 1)]
    with tempfile.TemporaryDirectory() as folder, \
            with_faults(seed, shares, meters=JOBS) as fleet:
        path = pathlib.Path(folder, "jobs")
        path.write_text("".join(f"m{meter} {address_of(meter)}:{fleet.port} disconnect\n"
                                for meter in range(1, JOBS + 1)))
        # (20 parts, of which each talks to 16 meters at once: silent meters wait for their limit)
        words = ["--program", str(HEAD_END), "--jobs", "20", "--workers", "16", "--timeout", "15"]
        ran = subprocess.run([str(CAMPAIGN), *words, str(path)], stdin=subprocess.DEVNULL,
                             capture_output=True, text=True, timeout=6 * PATIENCE, check=False,
                             env=environment(PASSWORD) | {"PARALLEL_HOME": folder})
        rows = [f"m{meter} {ROWS.get(fault, 'unknown')}" for meter, fault in enumerate(faults, 1)]
        wrong = [it for it in zip(ran.stdout.splitlines(), rows) if it[0] != it[1]]
        check("a campaign reports the faults", ran.stdout.splitlines() == rows, ran.returncode,
              wrong[:5], ran.stderr[-500:])
        states = [f"{meter} {state_after(fault)}" for meter, fault in enumerate(faults, 1)]
        fleet.check("the console finds what was switched", "all state", states)


def cpu_seconds(process):
    """The processor time of a process."""
    words = pathlib.Path(f"/proc/{process}/stat").read_text().rsplit(")", 1)[1].split()
    return (int(words[11]) + int(words[12])) / os.sysconf("SC_CLK_TCK")


def a_range_of_meters_has_events():
    with Fleet() as fleet:
        events_reach_their_meters(fleet)


def meters_of_one_fleet():
    """Tests that follow each other at the meters of one fleet."""
    with Fleet() as fleet:
        meters_are_apart(fleet)
        a_ninth_is_closed(fleet)
        others_are_closed(fleet)
        frames_are_cut(fleet)
        connections_end(fleet)
        hostile_clients_disturb_nobody(fleet)
        if os.path.exists(HEAD_END):
            campaigns_agree(fleet)
        else:
            print(f"SKIPPED the campaigns over a fleet: {HEAD_END} is not built")


TESTS = (wrong_words_are_refused, reasons_are_reported, passwords_are_found,
         idle_connections_are_closed, long_sessions_are_closed, meters_resume, buttons_are_pressed,
         limiters_act, traces_are_written, wrong_lines_change_nothing, a_console_may_be_a_file,
         clients_wait_for_descriptors,
         many_meters_are_reached, clients_are_answered_meanwhile, wrong_faults_are_refused,
         faults_are_drawn, faults_are_whole, silent_meters_act, slow_meters_answer_late,
         passwords_are_other_ones, meters_that_refuse_may_be_set, meters_with_faults_resume,
         campaigns_report_faults, a_range_of_meters_has_events, meters_of_one_fleet)


def without_name(function):
    """A test as `run_tests` calls it, with its name: those of a fleet need none."""
    @functools.wraps(function)
    def run_test(_):
        function()
    return run_test


def main():
    if not serving.are_built(FLEET):
        return 1
    return serving.run_tests(map(without_name, TESTS))


if __name__ == "__main__":
    sys.exit(main())
