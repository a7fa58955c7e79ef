"""Meters that follow a script, for tests of the head end. Each records what its clients sent."""

import multiprocessing
import os
import random
import select
import socket
import struct
import threading
import time

from serving import AARE, PATIENCE, REFUSED, wait_until

# The frames of the head end, from port 1 to port 1, with the password 12345678 (IEC 62056-4-7, IEC
# 62056-5-3).
AARQ = bytes.fromhex("00010001000100386036A1090607608574050801018A0207808B0760857405080201AC0A80083132333435363738BE10040E01000000065F1F0400001C190400")
REQUESTS = {
    "disconnect": bytes.fromhex("000100010001000FC301C10046000060030AFF01010F00"),
    "reconnect": bytes.fromhex("000100010001000FC301C10046000060030AFF02010F00"),
    "state": bytes.fromhex("000100010001000DC001C10046000060030AFF0300"),
}
RELEASE = bytes.fromhex("00010001000100056203800100")

OPENED = AARE + "001C1904000007"  # conformance: get, set and action
WITHOUT_SERVICE = AARE + "00000804000007"  # conformance: only set
WITHOUT_GET = AARE + "001E0104000007"  # conformance: action, and neither get nor set


def frame_of(payload, source=1, destination=1):
    return bytes.fromhex(f"0001{source:04X}{destination:04X}{len(payload) // 2:04X}{payload}")


class Left(Exception):
    """The client closed the connection."""


class Talk:
    """A connection of a client: the frames received, and the bytes after the last of them."""

    def __init__(self, stream):
        self.stream = stream
        self.frames = []
        self.text = b""
        stream.settimeout(PATIENCE)
        stream.setsockopt(socket.IPPROTO_TCP, socket.TCP_NODELAY, 1)

    def receive_more(self):
        try:
            piece = self.stream.recv(4096)
        except OSError as error:
            raise Left from error
        if not piece:
            raise Left
        self.text += piece

    def take(self):
        """Receives the next frame."""
        while len(self.text) < 8 or len(self.text) < self.length():
            self.receive_more()
        length = self.length()
        self.frames.append(self.text[:length])
        self.text = self.text[length:]
        return self.frames[-1]

    def length(self):
        return 8 + int.from_bytes(self.text[6:8], "big")

    def send_bytes(self, text):
        try:
            self.stream.sendall(text)
        except OSError as error:
            raise Left from error

    def send(self, *payloads):
        self.send_bytes(b"".join(frame_of(payload) for payload in payloads))

    def reset(self):
        """Makes the close a reset of the connection."""
        self.stream.setsockopt(socket.SOL_SOCKET, socket.SO_LINGER, struct.pack("ii", 1, 0))

    def open(self, payload=OPENED):
        """Answers the AARQ and returns the request that follows."""
        self.take()
        self.send(payload)
        return self.take()

    def to_the_end(self):
        """Receives until the client closes the connection."""
        while True:
            self.take()


class ScriptedMeter:
    """Plays a script with each client, one after the other, and keeps each Talk. If the script
    returns True, the meter closes the connection; else it waits for the client to close it."""

    def __init__(self, script):
        self.script = script
        self.talks = []
        self.listener = socket.create_server(("127.0.0.1", 0), backlog=16)
        self.port = self.listener.getsockname()[1]
        self.thread = threading.Thread(target=self.serve, daemon=True)
        self.thread.start()

    def serve(self):
        while True:
            try:
                stream, _ = self.listener.accept()
            except OSError:
                return
            with stream:
                talk = Talk(stream)
                try:
                    if not self.script(talk):
                        talk.to_the_end()
                except Left:
                    pass
            self.talks.append(talk)

    def wait_for_talks(self, times):
        """Waits until there are `times` talks; returns them."""
        wait_until(lambda: len(self.talks) >= times)
        return self.talks

    def stop(self):
        try:
            self.listener.shutdown(socket.SHUT_RDWR)  # wakes the thread
        except OSError:
            pass
        self.listener.close()
        self.thread.join(PATIENCE)


def answer_to(request, code="00", state="00"):
    """The response to a request: the result of an action, or a control state."""
    return f"C401C10016{state}" if request == REQUESTS["state"] else f"C701C1{code}00"


def does_it(talk):
    talk.send(answer_to(talk.open()))


def answers_slowly(talk):
    request = talk.open()
    time.sleep(0.05)
    talk.send(answer_to(request))


def answers_the_release(talk):
    """Answers the release a little later, then looks how the client's side ended."""
    talk.send(answer_to(talk.open()))
    talk.take()
    time.sleep(0.1)
    talk.send("6303800100")
    time.sleep(0.1)
    fault = talk.stream.getsockopt(socket.SOL_SOCKET, socket.SO_ERROR)  # of a reset, also after the end
    talk.ending = os.strerror(fault) if fault else "end" if talk.stream.recv(1) == b"" else "more"
    return True


def is_silent(talk):
    talk.take()


def is_silent_later(talk):
    talk.open()


def closes_at_once(talk):
    return True


def closes_without_aare(talk):
    talk.take()
    return True


def closes_in_mid_aare(talk):
    talk.take()
    talk.send_bytes(frame_of(OPENED)[:20])
    return True


def closes_without_answer(talk):
    talk.open()
    return True


def closes_in_mid_answer(talk):
    talk.send_bytes(frame_of(answer_to(talk.open()))[:11])
    return True


def resets_the_connection(talk):
    talk.open()
    talk.reset()
    return True


def babbles(talk):
    talk.take()
    talk.send_bytes(b"\xB5" + random.Random(7).randbytes(4000))


def babbles_in_a_frame(talk):
    talk.take()
    talk.send(random.Random(8).randbytes(300).hex())


def babbles_instead_of_an_answer(talk):
    talk.open()
    talk.send_bytes(b"\xB5" + random.Random(9).randbytes(4000))


def says_too_long_a_frame(talk):
    talk.open()
    talk.send_bytes(bytes.fromhex("0001000100010401") + bytes(1025))


def speaks_to_others_first(talk):
    """Sends frames of other ports, which would be valid answers from port 1, before the right
    ones."""
    others = b"".join(frame_of("C701C10200", *ports) for ports in ((16, 1), (1, 16), (2, 2), (0, 1))) + frame_of("00" * 1024, 1, 16)
    talk.take()
    talk.send_bytes(others + frame_of(REFUSED + "0D", 16, 1) + frame_of(OPENED))
    request = talk.take()
    talk.send_bytes(others + frame_of(answer_to(request)))


def says_byte_by_byte(talk):
    talk.take()
    for byte in frame_of(OPENED):
        talk.send_bytes(bytes([byte]))
    for byte in frame_of(answer_to(talk.take())):
        talk.send_bytes(bytes([byte]))
        time.sleep(0.002)


def says_more_than_asked(talk):
    talk.send(answer_to(talk.open()), "C701C10200", "C701C10200")


def drips(talk):
    talk.take()
    for byte in frame_of("00" * 1024, 16, 1):
        talk.send_bytes(bytes([byte]))
        time.sleep(0.1)


def floods(talk):
    talk.take()
    piece = frame_of("00" * 1024, 16, 1) * 64
    while True:
        talk.send_bytes(piece)


def rejects(talk):
    talk.take()
    talk.send(REFUSED + "01")


def opens_without_the_service(talk):
    talk.take()
    talk.send(WITHOUT_SERVICE)


def refuses(talk):
    request = talk.open()
    talk.send("C401C1010C" if request == REQUESTS["state"] else "C701C1FA00")


def says_an_unknown_state(talk):
    talk.send(answer_to(talk.open(), state="03").replace("C701C1", "C701C2"))  # the response to another invocation of the action


def refuses_without_parameters(talk):
    """Refuses without the byte for return parameters, byte by byte."""
    request = talk.open()
    for byte in frame_of("C401C10103" if request == REQUESTS["state"] else "C701C102"):
        talk.send_bytes(bytes([byte]))


def answers_another_request(talk):
    """Answers an action as a read of the state, and a read as an action."""
    talk.send("C701C10000" if talk.open() == REQUESTS["state"] else "C401C1001602")


def opens_without_get(talk):
    talk.send(answer_to(talk.open(WITHOUT_GET)))


def says_another_version(talk):
    talk.open()
    talk.send_bytes(bytes.fromhex("0002000100010000"))


def says_an_exception(talk):
    talk.open()
    talk.send("D80101")


# A script, the outcomes of disconnect, reconnect and state, and the numbers of frames that one
# client may send it.
DONE, UNKNOWN = ("done 0",) * 3, ("unknown",) * 3
SCRIPTS = [
    (does_it, DONE, (3,)),
    (is_silent, UNKNOWN, (1,)),
    (is_silent_later, UNKNOWN, (2,)),
    (closes_at_once, UNKNOWN, (0,)),
    (closes_without_aare, UNKNOWN, (1,)),
    (closes_in_mid_aare, UNKNOWN, (1,)),
    (closes_without_answer, UNKNOWN, (2,)),
    (closes_in_mid_answer, UNKNOWN, (2,)),
    (resets_the_connection, UNKNOWN, (2,)),
    (babbles, UNKNOWN, (1,)),
    (babbles_in_a_frame, UNKNOWN, (1,)),
    (babbles_instead_of_an_answer, UNKNOWN, (2,)),
    (says_too_long_a_frame, UNKNOWN, (2,)),
    (speaks_to_others_first, DONE, (3,)),
    (says_byte_by_byte, DONE, (3,)),
    (says_more_than_asked, DONE, (2, 3)),  # the client may close with unread bytes, so the release may be lost
    (drips, UNKNOWN, (1,)),
    (floods, UNKNOWN, (1,)),
    (rejects, ("rejected 1",) * 3, (1,)),
    (opens_without_the_service, ("rejected 0",) * 3, (1,)),
    (refuses, ("refused 250", "refused 250", "refused 12"), (3,)),
    (says_an_unknown_state, UNKNOWN, (2,)),
    (refuses_without_parameters, ("refused 2", "refused 2", "refused 3"), (3,)),
    (answers_another_request, UNKNOWN, (2,)),
    (opens_without_get, ("done 0", "done 0", "rejected 0"), (1, 3)),
    (says_another_version, UNKNOWN, (2,)),
    (says_an_exception, UNKNOWN, (2,)),
]

HOLDING = (is_silent, is_silent_later, drips, floods)  # these block a client up to its time limit


class Unheard:
    """Addresses where nothing answers: a port without a listener, and one whose queue of
    connections is full."""

    def __init__(self):
        self.taken = socket.socket()
        self.taken.bind(("127.0.0.1", 0))
        self.closed_port = self.taken.getsockname()[1]
        self.full = socket.create_server(("127.0.0.1", 0), backlog=0)
        self.full_port = self.full.getsockname()[1]
        self.waiting = [socket.socket() for _ in range(4)]
        for one in self.waiting:
            one.setblocking(False)
            one.connect_ex(("127.0.0.1", self.full_port))
        time.sleep(0.05)

    def stop(self):
        for one in (self.taken, self.full, *self.waiting):
            one.close()


def kind(opening, disconnect=None, reconnect=None, state=None):
    """A kind of meter: its answers to an AARQ and to each request; an empty one closes the
    connection."""
    answers = {"disconnect": disconnect, "reconnect": reconnect, "state": state}
    return opening, {verb: answer for verb, answer in answers.items() if answer}


# The kinds of meters in a crowd, and the outcome of a job of each verb.
CROWD = [
    (*kind(OPENED, "C701C10000", "C701C10000", "C401C1001600"), {"disconnect": "done 0", "reconnect": "done 0", "state": "done 0"}),
    (*kind(OPENED, "C701C10200", "C701C10300", "C401C10103"), {"disconnect": "refused 2", "reconnect": "refused 3", "state": "refused 3"}),
    (*kind(OPENED, "C701C10000", "C701C1FA00", "C401C1001602"), {"disconnect": "done 0", "reconnect": "refused 250", "state": "done 2"}),
    (*kind(REFUSED + "0D"), dict.fromkeys(REQUESTS, "rejected 13")),
    (*kind(OPENED), dict.fromkeys(REQUESTS, "unknown")),
    (*kind(None), dict.fromkeys(REQUESTS, "unknown")),
]


def loopback_address(number):
    """A loopback address of its own for each number."""
    return f"127.{number // 65_536 + 1}.{number // 256 % 256}.{number % 256}"


class Crowd:
    """A process that answers any number of clients at once, on a port for each kind of `CROWD`, and
    counts what they send."""

    def __init__(self):
        # (at every loopback address, so that each job can have one of its own)
        listeners = [socket.create_server(("0.0.0.0", 0), backlog=1024) for _ in CROWD]
        self.ports = [listener.getsockname()[1] for listener in listeners]
        self.pipe, theirs = multiprocessing.Pipe()
        self.process = multiprocessing.get_context("fork").Process(target=answer_all, args=(listeners, self.pipe, theirs), daemon=True)
        self.process.start()
        theirs.close()
        for listener in listeners:
            listener.close()

    def counts(self):
        """For each kind, the numbers of connections, AARQs, requests of each verb, releases and
        unexpected frames since the last call. None if the process does not answer."""
        self.pipe.send("counts")
        return self.pipe.recv() if self.pipe.poll(PATIENCE) else None

    def stop(self):
        self.process.kill()
        self.process.join(PATIENCE)


class Answering:
    """A client of the crowd."""

    def __init__(self, stream, kind):
        self.stream = stream
        self.kind = kind
        self.text = b""
        self.stage = 0


NAMES = {AARQ: "aarq", RELEASE: "release", **{text: verb for verb, text in REQUESTS.items()}}
STAGES = {"aarq": 0, "disconnect": 1, "reconnect": 1, "state": 1, "release": 2}


def text_for(kind, name):
    """The answer to a frame: bytes, none for a release, False to close the connection."""
    opening, answers, _ = CROWD[kind]
    if name == "release":
        return b""
    payload = opening if name == "aarq" else answers.get(name)
    return frame_of(payload) if payload else False


TEXTS = {(kind, name): text_for(kind, name) for kind in range(len(CROWD)) for name in STAGES}


def fresh_counts():
    return [dict.fromkeys(("connections", *STAGES, "strange"), 0) for _ in CROWD]


def answer_more(client, count):
    """Reads from a client of the crowd and answers it. False if the client has closed the
    connection."""
    piece = client.stream.recv(4096)
    client.text += piece
    while len(client.text) >= 8 and len(client.text) >= (length := 8 + int.from_bytes(client.text[6:8], "big")):
        frame, client.text = client.text[:length], client.text[length:]
        name = NAMES.get(frame, "strange")
        count[name] += 1
        if name == "strange" or STAGES[name] != client.stage:
            count["strange"] += 1
            return False
        client.stage += 1
        text = TEXTS[client.kind, name]
        if text is False:
            return False
        if text:
            client.stream.send(text)
    return bool(piece)


def answer_all(listeners, others, pipe):
    """The main function of the crowd's process, which ends when its parent does."""
    others.close()
    poll = select.epoll()
    clients, counts, is_asked = {}, fresh_counts(), False
    by_number = {listener.fileno(): (kind, listener) for kind, listener in enumerate(listeners)}
    for number in (*by_number, pipe.fileno()):
        poll.register(number, select.EPOLLIN)
    while True:
        for number, _ in poll.poll():
            if number in clients:
                client = clients[number]
                try:
                    goes_on = answer_more(client, counts[client.kind])
                except OSError:
                    goes_on = False
                if not goes_on:
                    del clients[number]
                    client.stream.close()
            elif number in by_number:
                kind, listener = by_number[number]
                stream, _ = listener.accept()
                counts[kind]["connections"] += 1
                stream.setsockopt(socket.IPPROTO_TCP, socket.TCP_NODELAY, 1)
                clients[stream.fileno()] = Answering(stream, kind)
                poll.register(stream.fileno(), select.EPOLLIN)
            else:
                is_asked = pipe.recv() == "counts"
        if is_asked and not clients:
            pipe.send(counts)
            counts, is_asked = fresh_counts(), False
