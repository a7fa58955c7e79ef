"""A journal of `meter_server serve` for tests/journal.py: the file with the lines that it must keep
and a model of the switch that runs over them, clients and a console that change the meter at
random, and the question whether the journal explains what they saw."""

import collections
import pathlib
import re
import subprocess
import threading
import time

from serving import (DISCONNECT, MODE, PATIENCE, PLAYER, RECONNECT, REGISTER, STATE, SWITCH,
                     Server, Vanished)
from switch_model import SwitchModel

SUPPLY = (*SWITCH, 2)
SHOWN = (STATE, SUPPLY, MODE, REGISTER)
OPEN_COUNT = "events -"
GONE = (Vanished, OSError)
# The lines of a server about the bytes that it cut, and that of trace_player about those that it
# leaves out.
CUT = ("{0}: cut {1} bytes of an interrupted write\n"
       "{0}: the bytes that were cut are in {0}.cut\n")
LEFT_OUT = "{}: bytes after the last whole line that were left out: "


def whole_lines(held):
    """The bytes of a journal up to the end of its last whole line before its first byte 0."""
    front = held.partition(b"\0")[0]
    return front[:front.rfind(b"\n") + 1]


class Journal:
    """The file of a journal, the lines that it must keep, and the model after them."""

    def __init__(self, path):
        self.path, self.text = pathlib.Path(path), b""
        self.count, self.model = 0, None

    def new_lines(self):
        """The lines of the events since the last call. Fails if a line that was there is lost."""
        held = whole_lines(self.path.read_bytes())
        assert held.startswith(self.text), f"lines are lost: {self.text!r}, now {held!r}"
        lines = held[len(self.text):].decode().splitlines()
        self.text = held
        if self.model is None:
            assert OPEN_COUNT in lines, f"a journal without `{OPEN_COUNT}`: {held!r}"
            opening = lines.index(OPEN_COUNT)
            self.model, lines = SwitchModel(lines[:opening]), lines[opening + 1:]
        return lines

    def apply(self, line):
        """Runs the model over a line. Returns its reply, and what trace_player must print."""
        self.count += 1
        reply = self.model.apply(line)
        return reply, self.model.line(self.count, reply)

    def follow(self):
        """Runs the model over all new lines, and returns them."""
        lines = self.new_lines()
        for line in lines:
            self.apply(line)
        return lines

    def tail(self):
        """The bytes after the whole lines; none if there is no journal yet."""
        return self.path.read_bytes()[len(self.text):] if self.model else b""

    def is_shown_by(self, client):
        """Whether the meter answers as the model."""
        return all(client.get(place) == self.model.read(f"get {client.line(place)} 0")
                   for place in SHOWN)


def left_out_of(path):
    """What trace_player must report of the bytes of a file after its whole lines."""
    held = path.read_bytes()
    count = len(held) - len(whole_lines(held))
    return f"{LEFT_OUT.format(path)}{count}\n" if count else ""


def lines_played(path, skip=0, is_written=False):
    """The lines that trace_player prints of a file after the first ones, without the counts of
    firings. While the file is written (`is_written`), the end that was left out has any length."""
    made = subprocess.run([str(PLAYER), str(path)], capture_output=True, timeout=PATIENCE)
    errors = made.stderr.decode()
    if is_written:
        is_told = re.fullmatch(f"({re.escape(LEFT_OUT.format(path))}[1-9]\\d*\n)?", errors)
    else:
        is_told = errors == left_out_of(path)
    assert made.returncode == 0 and is_told, (made.returncode, errors)
    count = made.stdout.count(b"\n")
    assert count >= skip, f"{count} lines were played, {skip} before"
    lines = (b"\n" + made.stdout).rsplit(b"\n", count - skip + 1)[1:-1]
    return [re.sub(r"sampled[ \d]*;", "sampled;", line.decode()) for line in lines]


def model_lines(text):
    """What trace_player must print of the text of a journal, without the counts of firings."""
    lines = whole_lines(text).decode().splitlines()
    opening = lines.index(OPEN_COUNT)
    model = SwitchModel(lines[:opening])
    return [model.line(number, model.apply(line))
            for number, line in enumerate(lines[opening + 1:], 1)]


def start_server(path, *options, limit=16_777_216, **how):
    """A server on a journal, which is renewed after `limit` bytes."""
    return Server("--journal", str(path), "--journal-limit", str(limit), "--stop-with-input",
                  *options, **how)


def restart(journal, *options, **how):
    """Starts a server on a journal that another left or none. Returns it and a client that has read
    the state of the meter. Fails if they do not fit the lines of the journal."""
    tail, server = journal.tail(), start_server(journal.path, *options, **how)
    try:
        return server, check_restart(journal, server, tail)
    except (AssertionError, *GONE):
        server.stop()
        raise


def check_restart(journal, server, tail):
    """Checks a restarted server: its journal, what it cut, and the state of its meter."""
    errors = server.errors.decode()
    assert "listening on" in errors, f"no restart: {errors}"
    if journal.model is None:
        assert journal.new_lines() == [], "a new journal has events"
    held = journal.path.read_bytes()
    assert held == journal.text, f"after the restart: {held[-80:]!r}"
    told = CUT.format(journal.path, len(tail))
    assert errors.count("interrupted write") == errors.count(told) == (tail != b""), errors
    if tail:
        check_cut_bytes(journal.path, tail)
    client = server.client()
    is_shown = journal.is_shown_by(client)
    assert is_shown, f"not as the model: {client.seen}, {vars(journal.model)}"
    client.seen = []
    return client


def check_cut_bytes(path, tail):
    """Fails if the file next to a journal does not have the bytes that were cut, for its owner
    alone."""
    cut = path.with_name(f"{path.name}.cut")
    held, mode = cut.read_bytes(), cut.stat().st_mode & 0o777
    assert (held, mode) == (tail, 0o600), f"{cut}: {held!r}, not {tail!r}, mode {mode:o}"


def end_of_a_run(journal):
    """Whether a server starts on a journal, answers as the model and ends in order."""
    server, client = restart(journal)
    client.close()
    return server.end()[0] == 0


def journal_with_events(path):
    """A journal of a run that ended in order: mode 4, disconnected, 70 W, second 500."""
    journal = Journal(path)
    server = start_server(path)
    client = server.client()
    replies = [client.set(MODE, "1604")]
    replies += [client.execute(place) for place in (DISCONNECT, RECONNECT, DISCONNECT)]
    assert set(replies) == {"code 0"}, replies
    client.close()
    server.say("samples 10 70", "moment 500")
    status, _, errors = server.end()
    assert status == 0, errors
    lines = journal.follow()
    assert lines[:4] == [event for event, _ in client.seen], lines
    assert sorted(lines[4:]) == ["moment 500", "samples 10 70"], lines
    return journal


def torn_tail(choose):
    """What a crash of the machine may leave of lines that were not synced: a front of their bytes,
    in which some are 0. At most one line of it ends, so that a server cuts it."""
    line = choose.choice((b"set 1 70 000060030AFF 4 0 1604", b"button", b"samples 10 20 30"))
    half = line[:choose.randrange(1, len(line) + 1)]
    at = choose.randrange(len(line))
    holed = line[:at] + b"\0" + line[at + 1:]
    zeros = bytes(choose.randrange(1, 600))
    return choose.choice((half, zeros, holed, holed + b"\n", holed + b"\n" + half))


class Talker(threading.Thread):
    """A client that sends random requests until its server is gone, with a pause of at most `pace`
    seconds before each. `sent` is the event of the request that has no answer yet."""

    MODES = (0, 1, 1, 2, 2, 3, 4, 4, 5, 6)

    def __init__(self, client, choose, tag=0, answered=None, pace=0):
        super().__init__(daemon=True)
        self.client, self.choose, self.tag = client, choose, tag
        self.answered, self.pace = answered, pace
        self.sent, self.fault = None, None

    def run(self):
        try:
            while True:
                time.sleep(self.choose.uniform(0, self.pace))
                self.ask()
                self.answered.set()
        except GONE:
            pass
        except AssertionError as error:
            self.fault = error
        self.answered.set()

    def ask(self):
        """Sends one request, chosen by chance."""
        what = self.choose.random()
        if what < 0.3:
            self.client.get(self.choose.choice((STATE, MODE)))
        elif what < 0.6:
            data = f"16{self.choose.choice(self.MODES):02X}"
            self.sent = f"set {self.client.line(MODE)} 0 {data}"
            self.client.set(MODE, data)
        else:
            # (the switch ignores the parameter: each ACTION of a journal has its own)
            self.tag += 1
            place, parameter = self.choose.choice((DISCONNECT, RECONNECT)), f"06{self.tag:08X}"
            self.sent = f"execute {self.client.line(place)} {parameter}"
            self.client.execute(place, parameter)
        self.sent = None


class Console(threading.Thread):
    """Writes random lines to a server's console until it is gone. Lines of one channel reach the
    meter in their order."""

    CHANNELS = {"button": "button", "samples": "power", "pairs": "power", "moment": "clock"}

    def __init__(self, server, choose, now):
        super().__init__(daemon=True)
        self.server, self.choose, self.now = server, choose, now
        self.lines = {channel: [] for channel in self.CHANNELS.values()}

    def run(self):
        try:
            while True:
                chosen = [self.line() for _ in range(self.choose.randrange(1, 4))]
                for line in chosen:
                    self.lines[self.channel(line)].append(line)
                self.server.say(*chosen)
                time.sleep(self.choose.uniform(0, 0.015))
        except OSError:
            pass

    def channel(self, line):
        """The source of an event of the console."""
        return self.CHANNELS[line.split()[0]]

    def line(self):
        """A line of the console, chosen by chance."""
        kind = self.choose.choice(("button", "button", "samples", "pairs", "moment"))
        if kind == "button":
            return kind
        if kind == "moment":
            self.now = max(0, self.now + self.choose.choice((1, 1, 60, -2)))
            return f"moment {self.now}"
        count = self.choose.randrange(0, 4) * (2 if kind == "pairs" else 1)
        return " ".join([kind, *(str(self.choose.randrange(100_000)) for _ in range(count))])


class Explanation:
    """Whether one history explains the new lines of a journal and the answers that clients got:
    each line is the next one of its channel of the console, the next answered event of a client
    with this reply, or the event of a client that got no answer; each GET shows the meter between
    two lines. Several clients may have sent the same line, so all assignments are followed: a place
    is the number of events and GETs of each client that are explained."""

    def __init__(self, journal, talkers, console):
        self.journal, self.console = journal, console
        self.talkers = [(talker.client.seen, talker.sent) for talker in talkers]
        self.heard = collections.Counter()
        self.places = {tuple(0 for _ in talkers)}

    def skip_reads(self, place):
        """The place after the GETs that the meter answers now as they were answered."""
        after = list(place)
        for number, (seen, _) in enumerate(self.talkers):
            while after[number] < len(seen) and seen[after[number]][0].startswith("get "):
                event, reply = seen[after[number]]
                if self.journal.model.read(event) != reply:
                    break
                after[number] += 1
        return tuple(after)

    def steps(self, line, reply):
        """The places after a client's line."""
        for place in self.places:
            for number, (seen, sent) in enumerate(self.talkers):
                at = place[number]
                is_answered = at < len(seen) and seen[at] == (line, reply)
                if is_answered or (at == len(seen) and sent == line):
                    yield place[:number] + (at + 1,) + place[number + 1:]

    def take(self, line):
        """Follows a line. Returns what trace_player must print of it."""
        self.places = {self.skip_reads(place) for place in self.places}
        reply, printed = self.journal.apply(line)
        if line.split()[0] in Console.CHANNELS:
            channel = self.console.channel(line)
            sent, at = self.console.lines[channel], self.heard[channel]
            is_next = at < len(sent) and sent[at] == line
            assert is_next, f"`{line}` is not line {at} of {channel}: {sent}"
            self.heard[channel] += 1
        else:
            self.places = set(self.steps(line, reply))
            assert self.places, f"no client explains `{line}`, {reply}: {self.talkers}"
        return printed

    def end(self):
        """Fails if an answer is not explained. Returns the number of events without an answer."""
        ends = [len(seen) for seen, _ in self.talkers]
        places = [self.skip_reads(place) for place in self.places]
        whole = [place for place in places if all(at >= end for at, end in zip(place, ends))]
        assert whole, f"answers are not in the journal: {self.talkers}, explained {places}"
        return sum(whole[0]) - sum(ends)
