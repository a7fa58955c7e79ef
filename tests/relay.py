#!/usr/bin/env python3
"""Tests `meter_server serve --relay FILE` over TCP: what FILE is given at the start and at each
change of the supply, before the client gets its answer; a named pipe without a reader; what a
journal has when a change is written; a FILE or a journal that fails; a FILE that is one of the
journal's; and a FILE that is replaced or not read while the server runs.

usage: tests/relay.py"""

import os
import pathlib
import resource
import subprocess
import sys
import tempfile

sys.dont_write_bytecode = True  # importing the modules of tests/ leaves no files

import serving
from serving import (DISCONNECT, MODE, PASSWORD, RECONNECT, SERVER, SHORT, STATE, Server, check,
                     run_with, wait_until)

OFF = " supply off\n"
NOT_OPENED = "the relay can't be opened for reading and writing"
ON = " supply on\n"


class RelayedServer(Server):
    """A server that gets an error, and not a signal, from a write past its limit of a file."""

    def __init__(self, *options, console=b""):
        self.port = serving.free_port()
        words = [str(SERVER), "serve", "--listen", f"127.0.0.1:{self.port}", "--verbose", "--password", PASSWORD, *options]
        self.start(words, restore_signals=False)
        if console:
            self.say_bytes(console)
        self.wait_for(b"at the start, relay")

    def limit(self, path):
        """Lets no file of the server grow past the present length of this one."""
        length = os.path.getsize(path)
        resource.prlimit(self.process.pid, resource.RLIMIT_FSIZE, (length, length))


class QuietServer(Server):
    """A server without --verbose that has taken a client and is in mode 4."""

    def __init__(self, *options):
        self.port = serving.free_port()
        words = [str(SERVER), "serve", "--listen", f"127.0.0.1:{self.port}", "--password", PASSWORD,
                 "--stop-with-input", *options]
        self.start(words)
        wait_until(self.has_client)
        assert self.first.set(MODE, "1604") == "code 0"

    def has_client(self):
        try:
            self.first = self.client()
        except (serving.Vanished, OSError):
            return False
        return True

    def end_in_order(self, name):
        self.first.close()
        status, _, errors = self.end()
        check(f"{name}: the end", status == 0 and "fault" not in errors, status, errors)


def text_when(path, wanted):
    """The text of a file once it is this one, or when the time limit has passed."""
    wait_until(lambda: path.read_text() == wanted)
    return path.read_text()


def a_file_is_given_each_change(name):
    with tempfile.TemporaryDirectory() as folder:
        relay = pathlib.Path(folder, "relay")
        server = RelayedServer("--connections", "1", "--relay", str(relay))
        check(f"{name}: the start", relay.read_text() == "1\n", relay.read_text())
        client = server.client()
        client.set(MODE, "1604")
        check(f"{name}: no change", relay.read_text() == "1\n", relay.read_text())
        for number in range(3):
            client.execute(DISCONNECT)
            check(f"{name}: off, before the answer", relay.read_text() == "1\n" + number * "0\n1\n" + "0\n", relay.read_text())
            client.execute(DISCONNECT)
            client.execute(RECONNECT)
            check(f"{name}: on, before the answer", relay.read_text() == "1\n" + (number + 1) * "0\n1\n", relay.read_text())
        client.execute(DISCONNECT)
        client.close()
        status, trace, errors = server.end()
        check(f"{name}: the end", status == 0 and "fault" not in errors, status, errors)
        check(f"{name}: the log", errors.count(OFF) == 4 and errors.count(ON) == 3, errors)
        server = RelayedServer("--connections", "1", "--resume", "--relay", str(relay), console=trace.encode())
        check(f"{name}: what is there stays", relay.read_text() == "1\n" + 3 * "0\n1\n" + "0\n0\n", relay.read_text())
        client = server.client()
        client.close()
        check(f"{name}: resumed", server.end()[0] == 0)


def the_meter_itself_moves_the_relay(name):
    """The button of the meter, after a client has allowed the reconnection."""
    with tempfile.TemporaryDirectory() as folder:
        relay = pathlib.Path(folder, "relay")
        server = RelayedServer("--connections", "1", "--stop-with-input", "--relay", str(relay))
        client = server.client()
        client.set(MODE, "1604")
        client.execute(DISCONNECT)
        client.execute(RECONNECT)
        client.set(MODE, "1601")
        client.execute(DISCONNECT)
        client.execute(RECONNECT)
        check(f"{name}: ready is off", relay.read_text() == "1\n0\n1\n0\n", relay.read_text())
        server.say("button")
        check(f"{name}: the button", text_when(relay, "1\n0\n1\n0\n1\n") == "1\n0\n1\n0\n1\n", relay.read_text())
        client.close()
        status, _, errors = server.end()
        check(f"{name}: the end", status == 0 and errors.count(ON) == 2, status, errors)


def a_pipe_keeps_what_is_written(name):
    """A named pipe that nobody has opened does not hold up the server."""
    with tempfile.TemporaryDirectory() as folder:
        relay = pathlib.Path(folder, "relay")
        os.mkfifo(relay)
        server = RelayedServer("--connections", "1", "--relay", str(relay))
        client = server.client()
        client.set(MODE, "1604")
        client.execute(DISCONNECT)
        with open(relay, "rb", buffering=0) as reader:
            check(f"{name}: so far", reader.read(100) == b"1\n0\n")
            client.execute(RECONNECT)
            check(f"{name}: later", reader.read(100) == b"1\n")
            client.close()
            status, _, errors = server.end()
            check(f"{name}: the end", status == 0, status, errors)
            check(f"{name}: nothing more", reader.read(100) == b"")


def a_file_that_cannot_be_written_is_a_fault(name):
    with tempfile.TemporaryDirectory() as folder:
        for path, why in (
                ("/dev/full", "the relay failed: the output can't be written"),
                (f"{folder}/none/relay", f"{NOT_OPENED}: No such file or directory (os error 2)")):
            status, output, errors = run_with("--password", PASSWORD, "--listen", "127.0.0.1:0", "--relay", path)
            check(f"{name}: {path}", (status, output, errors) == (3, "", f"{path}: {why}\nfault: write\n"), status, output, errors)


def a_relay_that_fails_ends_the_server(name):
    """A change that could not be written is not answered."""
    with tempfile.TemporaryDirectory() as folder:
        relay = pathlib.Path(folder, "relay")
        server = RelayedServer("--relay", str(relay))
        client = server.client()
        client.set(MODE, "1604")
        server.limit(relay)
        try:
            answer = client.execute(DISCONNECT)
        except serving.Vanished:
            answer = None
        check(f"{name}: no answer", answer is None, answer)
        check(f"{name}: told at once", server.wait_for(b"the relay failed: the output can't be written"), server.errors)
        status, trace, errors = server.end()
        check(f"{name}: the end", status == 3 and errors.endswith("fault: write\n"), status, errors)
        check(f"{name}: the trace", "execute 1 70 000060030AFF 1 0F00" in trace, trace)
        check(f"{name}: the relay", relay.read_text() == "1\n", relay.read_text())


def a_change_is_written_after_its_event_is_on_the_disk(name):
    with tempfile.TemporaryDirectory() as folder:
        relay, journal = pathlib.Path(folder, "relay"), pathlib.Path(folder, "journal")
        server = RelayedServer("--relay", str(relay), "--journal", str(journal))
        client = server.client()
        client.set(MODE, "1604")
        client.execute(DISCONNECT)
        client.execute(RECONNECT)
        check(f"{name}: both", relay.read_text() == "1\n0\n1\n" and "execute 1 70 000060030AFF 2 0F00\n" in journal.read_text(), relay.read_text())
        server.limit(journal)
        try:
            answer = client.execute(DISCONNECT)
        except serving.Vanished:
            answer = None
        check(f"{name}: no answer", answer is None, answer)
        status, _, errors = server.end()
        check(f"{name}: the end", status == 3 and "the journal failed" in errors, status, errors)
        check(f"{name}: no change", relay.read_text() == "1\n0\n1\n", relay.read_text())
        server = RelayedServer("--connections", "1", "--relay", str(relay), "--journal", str(journal))
        client = server.client()
        check(f"{name}: as the journal says", client.get(STATE) == "value 1601" and relay.read_text() == "1\n0\n1\n1\n", relay.read_text())
        client.close()
        check(f"{name}: started again", server.end()[0] == 0)


def a_failed_journal_ends_a_server_whose_input_is_open(name):
    with tempfile.TemporaryDirectory() as folder:
        relay, journal = pathlib.Path(folder, "relay"), pathlib.Path(folder, "journal")
        server = RelayedServer("--relay", str(relay), "--journal", str(journal))
        server.limit(journal)
        server.say("button")
        try:
            status = server.process.wait(serving.PATIENCE)
        except subprocess.TimeoutExpired:
            status = None
        check(f"{name}: it ends by itself", status == 3, status, server.errors)
        check(f"{name}: why", b"the journal failed" in server.errors, server.errors)
        check(f"{name}: no change", relay.read_text() == "1\n", relay.read_text())
        server.stop()


OPENED_AGAIN = "the relay's file was replaced or removed, and is opened again"
UNREAD = "nobody has read the last change yet"


def lines_with(server, path, words):
    """The number of lines of the log on a relay with these words."""
    return server.errors.decode().count(f" {path}: {words}\n")


def is_logged(server, path, words, times=1):
    """Whether the log has a line on a relay this many times within a short time, and no more."""
    wait_until(lambda: lines_with(server, path, words) >= times, SHORT)
    return lines_with(server, path, words) == times


def journal_of_a_run(path):
    """Makes a journal of a meter that is disconnected, and returns its bytes."""
    server = Server("--journal", str(path), "--stop-with-input")
    client = server.client()
    client.set(MODE, "1604")
    client.execute(DISCONNECT)
    client.close()
    assert server.end()[0] == 0
    return path.read_bytes()


def a_file_of_the_journal_is_refused(name):
    """As FILE, also by another spelling and by a hard link."""
    with tempfile.TemporaryDirectory() as folder:
        folder = pathlib.Path(folder, "inner")
        folder.mkdir()
        path, link = folder / "journal", folder / "link"
        held = journal_of_a_run(path)
        os.link(path, link)
        for it in ("journal.cut", "journal.1", "journal.99"):
            (folder / it).touch()
        for relay in (path, *(f"{path}.{it}" for it in ("lock", "new", "cut", "1", "3", "99")),
                      f"{folder}/./journal", f"{folder}/../inner/journal", link):
            made = run_with("--password", PASSWORD, "--listen", "127.0.0.1:0", "--stop-with-input",
                            "--journal", str(path), "--relay", str(relay))
            what = str(relay).removeprefix(f"{folder}/")
            told = f"{relay}: the relay's file is one of the journal {path}\nfault: input\n"
            check(f"{name}: {what}", made == (2, "", told), made)
            check(f"{name}: {what}: the journal", path.read_bytes() == held)
            path.write_bytes(held)
        other = folder / "begun"
        made = run_with("--password", PASSWORD, "--listen", "127.0.0.1:0", "--stop-with-input",
                        "--journal", str(other), "--relay", str(other))
        told = f"{other}: the relay's file is one of the journal {other}\nfault: input\n"
        check(f"{name}: a journal that is begun", made == (2, "", told), made)
        check(f"{name}: nothing is written to it", other.read_text().endswith("\nevents -\n"))
        made = run_with("--password", PASSWORD, "--listen", "127.0.0.1:0", "--stop-with-input",
                        "--journal", str(path), "--relay", f"{folder}/relay")
        check(f"{name}: another file", made[0] == 0 and made[2] == "", made)


def a_pipe_that_is_made_anew_is_given_changes(name):
    with tempfile.TemporaryDirectory() as folder:
        relay = pathlib.Path(folder, "relay")
        os.mkfifo(relay)
        server = QuietServer("--relay", str(relay))
        relay.unlink()
        os.mkfifo(relay)
        with open(os.open(relay, os.O_RDONLY | os.O_NONBLOCK), "rb", buffering=0) as reader:
            replies = server.first.execute(DISCONNECT), reader.read(100)
            check(f"{name}: the next change", replies == ("code 0", b"0\n"), replies)
            check(f"{name}: the log", is_logged(server, relay, OPENED_AGAIN), server.errors)
            replies = server.first.execute(RECONNECT), reader.read(100)
            check(f"{name}: later changes", replies == ("code 0", b"1\n"), replies)
            check(f"{name}: logged once", is_logged(server, relay, OPENED_AGAIN), server.errors)
        server.end_in_order(name)


def a_pipe_that_is_removed_ends_the_server(name):
    """A regular file in its place would keep the reader from making the pipe again, and no further
    change would reach it. So the client is not answered."""
    with tempfile.TemporaryDirectory() as folder:
        relay = pathlib.Path(folder, "relay")
        os.mkfifo(relay)
        server = QuietServer("--relay", str(relay))
        relay.unlink()
        try:
            answer = server.first.execute(DISCONNECT)
        except serving.Vanished:
            answer = None
        check(f"{name}: no answer", answer is None, answer)
        check(f"{name}: the log", is_logged(server, relay, OPENED_AGAIN), server.errors)
        status, _, errors = server.end()
        told = f"{relay}: the relay failed: the output can't be written\n"
        check(f"{name}: the end", status == 3 and told in errors, status, errors)
        check(f"{name}: no file is made", not relay.exists())


def a_file_that_is_removed_is_made_again(name):
    with tempfile.TemporaryDirectory() as folder:
        relay = pathlib.Path(folder, "relay")
        server = QuietServer("--relay", str(relay))
        check(f"{name}: at the start", relay.read_text() == "1\n", relay.read_text())
        relay.unlink()
        reply = server.first.execute(DISCONNECT)
        found = relay.read_text() if relay.exists() else None
        check(f"{name}: the present state", (reply, found) == ("code 0", "0\n"), reply, found)
        check(f"{name}: the log", is_logged(server, relay, OPENED_AGAIN), server.errors)
        server.end_in_order(name)


def a_file_that_is_renamed_keeps_its_text(name):
    """Its successor is made for its owner, and may itself be replaced, by a named pipe."""
    with tempfile.TemporaryDirectory() as folder:
        relay, older = pathlib.Path(folder, "relay"), pathlib.Path(folder, "older")
        server = QuietServer("--relay", str(relay))
        relay.rename(older)
        reply = server.first.execute(DISCONNECT)
        found = older.read_text(), relay.read_text() if relay.exists() else None
        check(f"{name}: renamed", (reply, found) == ("code 0", ("1\n", "0\n")), reply, found)
        mode = relay.stat().st_mode & 0o777 if relay.exists() else None
        check(f"{name}: its mode", mode == 0o600, mode)
        relay.unlink(missing_ok=True)
        os.mkfifo(relay)
        with open(os.open(relay, os.O_RDONLY | os.O_NONBLOCK), "rb", buffering=0) as reader:
            replies = server.first.execute(RECONNECT), reader.read(100)
            check(f"{name}: a pipe instead", replies == ("code 0", b"1\n"), replies)
        check(f"{name}: the log", is_logged(server, relay, OPENED_AGAIN, 2), server.errors)
        server.end_in_order(name)


def a_file_that_is_there_keeps_its_mode(name):
    """(tests/journal.py has the modes of a file that is made.)"""
    with tempfile.TemporaryDirectory() as folder:
        path = pathlib.Path(folder, "relay")
        path.touch()
        path.chmod(0o644)
        server = QuietServer("--relay", str(path))
        server.end_in_order(name)
        check(name, path.stat().st_mode & 0o777 == 0o644, oct(path.stat().st_mode))


def a_reader_that_is_gone_is_reported(name):
    """Once, until the pipe has been read; nothing is reported of one that is read in time."""
    with tempfile.TemporaryDirectory() as folder:
        relay = pathlib.Path(folder, "relay")
        os.mkfifo(relay)
        with open(os.open(relay, os.O_RDONLY | os.O_NONBLOCK), "rb", buffering=0) as reader:
            server = QuietServer("--relay", str(relay))
            change = server.first.execute
            replies = reader.read(100), change(DISCONNECT), reader.read(100), change(RECONNECT)
            check(f"{name}: read in time", replies == (b"1\n", "code 0", b"0\n", "code 0"), replies)
            check(f"{name}: is not reported", lines_with(server, relay, UNREAD) == 0, server.errors)
        replies = change(DISCONNECT), change(RECONNECT)
        check(f"{name}: without a reader", replies == ("code 0", "code 0"), replies)
        check(f"{name}: is reported once", is_logged(server, relay, UNREAD), server.errors)
        with open(relay, "rb", buffering=0) as reader:
            check(f"{name}: all is kept", reader.read(100) == b"1\n0\n1\n")
            change(DISCONNECT)
            check(f"{name}: is read again", reader.read(100) == b"0\n")
        change(RECONNECT)
        check(f"{name}: once so far", is_logged(server, relay, UNREAD), server.errors)
        change(DISCONNECT)
        check(f"{name}: is reported again", is_logged(server, relay, UNREAD, 2), server.errors)
        server.end_in_order(name)


def main():
    if not serving.are_built(SERVER):
        return 1
    return serving.run_tests((
        a_file_is_given_each_change,
        the_meter_itself_moves_the_relay,
        a_pipe_keeps_what_is_written,
        a_file_that_cannot_be_written_is_a_fault,
        a_relay_that_fails_ends_the_server,
        a_change_is_written_after_its_event_is_on_the_disk,
        a_failed_journal_ends_a_server_whose_input_is_open,
        a_file_of_the_journal_is_refused,
        a_pipe_that_is_made_anew_is_given_changes,
        a_pipe_that_is_removed_ends_the_server,
        a_file_that_is_removed_is_made_again,
        a_file_that_is_renamed_keeps_its_text,
        a_file_that_is_there_keeps_its_mode,
        a_reader_that_is_gone_is_reported,
    ))


if __name__ == "__main__":
    sys.exit(main())
