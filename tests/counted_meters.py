"""Meters in a process of their own, each on a port of its own, that count what they receive and
answer after short random times. They are for tests that kill the head end."""

import collections
import heapq
import multiprocessing
import random
import select
import socket
import time

from scripted_meters import CROWD, NAMES, STAGES, TEXTS, loopback_address
from serving import PATIENCE, wait_until

DELAYS = (0, 0, 0.001, 0.004, 0.012)  # the times before an answer, in seconds
COMMANDS = ("disconnect", "reconnect")


def kind_of(number):
    """The kind of a meter, an index of CROWD."""
    return number % len(CROWD)


class CountedMeters:
    """A process with `count` meters, each on a port of its own, or if `is_wide` each at a loopback
    address of its own, on the port of its kind. It ends when its parent does."""

    def __init__(self, count, is_wide=False):
        listeners = [socket.create_server(("0.0.0.0", 0), backlog=1024) for _ in CROWD] \
            if is_wide else [socket.create_server(("127.0.0.1", 0), backlog=16) for _ in range(count)]
        ports = [listener.getsockname()[1] for listener in listeners]
        self.addresses = [f"{loopback_address(it)}:{ports[kind_of(it)]}" for it in range(count)] \
            if is_wide else [f"127.0.0.1:{port}" for port in ports]
        self.pipe, theirs = multiprocessing.Pipe()
        places = {loopback_address(it): it for it in range(count)} if is_wide else None
        given = {"target": serve, "args": (listeners, places, self.pipe, theirs), "daemon": True}
        self.process = multiprocessing.get_context("fork").Process(**given)
        self.process.start()
        theirs.close()
        for listener in listeners:
            listener.close()

    def take_counts(self):
        """For each meter the frames that it received since the last call, counted by name, once no
        client is connected. Fails if clients stay connected, and shows which."""
        self.pipe.send("counts")
        if wait_until(self.pipe.poll, 5 * PATIENCE):
            return self.pipe.recv()
        self.pipe.send("clients")
        found = "the meters do not answer"
        while wait_until(self.pipe.poll):
            found = self.pipe.recv()
        raise AssertionError(f"clients stay connected: {found}")

    def stop(self):
        """Ends the process of the meters."""
        self.process.kill()
        self.process.join(PATIENCE)


class Answered:
    """A client, the meter that it called, and the bytes that are no whole frame yet."""

    def __init__(self, stream, meter):
        self.stream, self.meter = stream, meter
        self.text, self.stage = b"", 0

    def frames(self):
        """Reads what has arrived; returns the names of the whole frames, and None after them if the
        client has closed the connection."""
        try:
            piece = self.stream.recv(4096)
        except BlockingIOError:
            return []
        except OSError:
            piece = b""
        self.text += piece
        names = []
        while len(self.text) >= 8:
            length = 8 + int.from_bytes(self.text[6:8], "big")
            if len(self.text) < length:
                break
            names.append(NAMES.get(self.text[:length], "strange"))
            self.text = self.text[length:]
        return names if piece else [*names, None]


class Process:
    """The process of the meters: its clients, what they sent, and the answers that are pending."""

    def __init__(self, listeners, places, pipe):
        self.poll, self.pipe, self.places = select.epoll(), pipe, places
        self.listeners = {it.fileno(): (meter, it) for meter, it in enumerate(listeners)}
        self.counts = [collections.Counter() for _ in places or listeners]
        self.clients, self.pending, self.number = {}, [], 0
        self.choose, self.is_asked = random.Random(), False
        for _, listener in self.listeners.values():
            listener.setblocking(False)
        for one in (*self.listeners, pipe.fileno()):
            self.poll.register(one, select.EPOLLIN)

    def accept(self, number):
        """Accepts a client of the meter with this listener."""
        meter, listener = self.listeners[number]
        try:
            stream, _ = listener.accept()
        except OSError:  # the client has gone
            return
        stream.setblocking(False)
        if self.places:
            meter = self.places[stream.getsockname()[0]]
        stream.setsockopt(socket.IPPROTO_TCP, socket.TCP_NODELAY, 1)
        self.counts[meter]["connections"] += 1
        self.clients[stream.fileno()] = Answered(stream, meter)
        self.poll.register(stream.fileno(), select.EPOLLIN)

    def close(self, client):
        """Closes the connection of a client."""
        if self.clients.pop(client.stream.fileno(), None):
            client.stream.close()

    def hear(self, client):
        """Counts the frames that arrived from a client, and answers them."""
        for name in client.frames():
            if name is None:
                self.close(client)
                return
            self.counts[client.meter][name] += 1
            if name == "strange" or STAGES[name] != client.stage:
                self.counts[client.meter]["strange"] += 1
            client.stage += 1
            self.number += 1
            text = TEXTS.get((kind_of(client.meter), name), False)
            at = time.monotonic() + self.choose.choice(DELAYS)
            heapq.heappush(self.pending, (at, self.number, client, text))

    def answer(self):
        """Sends the answers whose time has come; returns the seconds until the next."""
        while self.pending and self.pending[0][0] <= time.monotonic():
            _, _, client, text = heapq.heappop(self.pending)
            try:
                if text is False:
                    self.close(client)
                elif text:
                    client.stream.send(text)
            except OSError:
                self.close(client)
        return max(0, self.pending[0][0] - time.monotonic()) if self.pending else -1

    def obey(self, command):
        """Does what the test asks for: the counts, or the clients that are connected."""
        if command == "counts":
            self.is_asked = True
        else:  # the clients that are connected: the meter of each, and its TCP state
            self.is_asked = False
            self.pipe.send([(it.meter, it.stage, it.text, tcp_state(it.stream))
                            for it in self.clients.values()])

    def run(self):
        """Serves clients and the test's commands until the process is ended."""
        while True:
            pause = self.answer()
            if self.is_asked and not self.clients:
                self.pipe.send(self.counts)
                self.counts = [collections.Counter() for _ in self.counts]
                self.is_asked = False
            for number, _ in self.poll.poll(pause):
                if number in self.listeners:
                    self.accept(number)
                elif number in self.clients:
                    self.hear(self.clients[number])
                elif number == self.pipe.fileno():
                    self.obey(self.pipe.recv())


def tcp_state(stream):
    """The state of a connection by the numbers of Linux (1 is established, 8 is close wait)."""
    return stream.getsockopt(socket.IPPROTO_TCP, socket.TCP_INFO, 1)[0]


def serve(listeners, places, others, pipe):
    """The main function of the process."""
    others.close()
    Process(listeners, places, pipe).run()
