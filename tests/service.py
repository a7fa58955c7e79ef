#!/usr/bin/env python3
"""Tests bin/meter_service over the proved executables that the gate left, with clients on the
loopback interface: what is stored when it ends, what the next run resumes from, which journals it
refuses, what is known after a kill, and a log that nobody reads. The service files of share/ are
tested with runit's runsv and with systemd-analyze; each is skipped with a message if it is not
installed (Debian: apt-get install runit systemd).

usage: tests/service.py
"""
import os
import re
import shutil
import signal
import socket
import subprocess
import sys
import tempfile
import time
from pathlib import Path

sys.dont_write_bytecode = True
sys.path.insert(0, str(Path(__file__).resolve().parent))
import serving
from serving import (DISCONNECT, MODE, PASSWORD, PATIENCE, RECONNECT, SHORT, SHORT_END, STATE,
                     check, wait_until)

TOP = Path(__file__).resolve().parent.parent
SERVICE = TOP / "bin" / "meter_service"
UNIT = TOP / "share" / "systemd" / "meter_server.service"
RUNIT = TOP / "share" / "runit" / "meter_server"
ENVIRONMENT = {**os.environ, "METER_PASSWORD": PASSWORD}
UNREAD_ROUNDS = 2  # of wrong passwords: they fill the pipes of the server and of the service


class Service(serving.Server):
    """A running meter_service and its folder."""

    def __init__(self, folder, *options, port=None, server=serving.SERVER, **more):
        self.folder, self.port = folder, port or serving.free_port()
        words = [SERVICE, "--server", str(server), folder, "--listen", f"127.0.0.1:{self.port}"]
        self.start([*words, *options], ENVIRONMENT, subprocess.DEVNULL, **more)
        self.wait_for(b"listening on")

    def write(self, text):
        """Writes to the console as any program does: opens it, writes and closes it."""
        with open(self.folder / "console", "w", encoding="ascii") as console:
            console.write(text)

    def ends(self, number=signal.SIGTERM):
        """Sends a signal and returns the status and standard error."""
        self.process.send_signal(number)
        status, _, errors = self.end()
        return status, errors

    def trace(self, number):
        return (self.folder / "traces" / f"{number:06}.trace").read_text()

    def stop(self):
        """Ends the service of a failed test, and so its server."""
        if self.process.poll() is None:
            self.process.terminate()
            try:
                self.process.wait(PATIENCE)
            except subprocess.TimeoutExpired:
                self.process.kill()


class UnreadService(serving.Unread, Service):
    """A running meter_service whose log nobody reads."""


def in_folder(function):
    """A test with an empty folder."""
    def run_test(name):
        with tempfile.TemporaryDirectory(prefix="service-") as folder:
            function(name, Path(folder) / "meter")
    run_test.__name__ = function.__name__
    return run_test


def server_of(service):
    """The process of a service's server."""
    words = ["ps", "-o", "pid=", "--ppid", str(service.process.pid)]
    return int(subprocess.run(words, capture_output=True, text=True).stdout.split()[0])


def stored_in(folder):
    """The last trace and the journal of its run, a line each, as the folder has them."""
    return (folder / "stored").read_text()


def names_of(folder):
    """What is in a folder of a service, but for the lock."""
    names = sorted(str(it.relative_to(folder)) for it in folder.rglob("*"))
    return [it for it in names if it != "lock"]


@in_folder
def a_run_is_stored_and_resumed(name, folder):
    service = Service(folder)
    check(f"{name}: the marker of a run", (folder / "running").exists())
    client = service.client()
    check(f"{name}: mode and disconnect",
          (client.set(MODE, "1601"), client.execute(DISCONNECT)) == ("code 0", "code 0"))
    client.close()
    status, errors = service.ends()
    check(f"{name}: ends", status == 0 and "stored" in errors, status, errors)
    check(f"{name}: what the folder has",
          names_of(folder) == ["console", "stored", "traces", "traces/000001.trace"],
          names_of(folder))
    check(f"{name}: the trace that is stored", stored_in(folder) == "000001.trace\n\n")
    check(f"{name}: the trace",
          serving.is_part_of(client.seen, serving.play_trace(service.trace(1))))
    for number, sent in ((2, signal.SIGINT), (3, signal.SIGHUP)):
        service = Service(folder, port=service.port)
        client = service.client()
        check(f"{name}: still disconnected", client.get(STATE) == "value 1600")
        client.close()
        status, errors = service.ends(sent)
        check(f"{name}: ends by {sent.name}", status == 0, status, errors)
        check(f"{name}: trace {number}",
              serving.play_trace(service.trace(number)) == client.seen, service.trace(number))


@in_folder
def the_console_stays_open(name, folder):
    service = Service(folder, "--depth", "1024")
    for number in range(20):
        service.write(f"moment {number}\n")
    service.write("samples 1 2\n")
    service.write("button\n" * 300)
    status, errors = service.ends()
    check(f"{name}: ends", status == 0, status, errors)
    events = [event for event, _ in serving.play_trace(service.trace(1))]
    moments = [it for it in events if it.startswith("moment ")]
    check(f"{name}: all moments", moments == [f"moment {it}" for it in range(20)], events)
    check(f"{name}: what was written just before the signal",
          events.count("button") == 300, events.count("button"))
    check(f"{name}: samples", "samples 1 2" in events)


@in_folder
def open_sessions_end_first(name, folder):
    service = Service(folder, "--inactivity", "15")
    client = service.client()
    check(f"{name}: mode", client.set(MODE, "1601") == "code 0")
    service.process.send_signal(signal.SIGTERM)
    check(f"{name}: the signal is taken", service.wait_for(b"SIGTERM"))
    check(f"{name}: the session continues", client.execute(DISCONNECT) == "code 0")
    os.kill(server_of(service), signal.SIGTERM)
    service.process.send_signal(signal.SIGTERM)
    check(f"{name}: further signals change nothing", client.get(STATE) == "value 1600")
    client.close()
    status, _, errors = service.end()
    check(f"{name}: ends", status == 0, status, errors)
    check(f"{name}: the trace has the session",
          serving.is_part_of(client.seen, serving.play_trace(service.trace(1))))


@in_folder
def a_silent_client_delays_the_end(name, folder):
    service = Service(folder, "--inactivity", "1")
    client = service.client()
    began = time.monotonic()
    status, errors = service.ends()
    check(f"{name}: until --inactivity",
          status == 0 and time.monotonic() - began < 10, status, errors)
    client.close()


@in_folder
def a_killed_server_is_not_resumed(name, folder):
    service = Service(folder)
    status, _ = service.ends()
    service = Service(folder)
    os.kill(server_of(service), signal.SIGKILL)
    status, _, errors = service.end()
    check(f"{name}: status", status == 128 + 9 and "stays" in errors, status, errors)
    service = Service(folder)
    status, _, errors = service.end()
    check(f"{name}: refused", status == 2 and "listening" not in errors, status, errors)
    check(f"{name}: one line",
          errors.count("\n") == 1 and "000001.trace" in errors and "running" in errors, errors)
    (folder / "running").unlink()
    service = Service(folder)
    status, errors = service.ends()
    check(f"{name}: resumed by a person's decision",
          status == 0 and (folder / "traces/000002.trace").exists(), errors)


@in_folder
def a_killed_server_has_its_journal(name, folder):
    """A journal begins from the last trace. After a kill the meter resumes from it, and not from
    the trace; without it, and with another one, it does not start."""
    journal = ("--journal", str(folder / "journal"))
    service = Service(folder)
    client = service.client()
    check(f"{name}: mode", client.set(MODE, "1601") == "code 0")
    client.close()
    check(f"{name}: a trace", service.ends()[0] == 0)
    service = Service(folder, *journal)
    client = service.client()
    check(f"{name}: from the trace",
          (client.get(MODE), client.execute(DISCONNECT)) == ("value 1601", "code 0"))
    os.kill(server_of(service), signal.SIGKILL)
    status, _, errors = service.end()
    check(f"{name}: status", status == 128 + 9 and "stays" in errors, status, errors)
    client.close()
    for others in ((), ("--journal", str(folder / "other"))):
        status, _, errors = Service(folder, *others).end()
        check(f"{name}: refused with {others}", status == 2 and journal[1] in errors
              and errors.count("\n") == 1 and "listening" not in errors, status, errors)
    service = Service(folder, "--journal=" + journal[1])
    client = service.client()
    check(f"{name}: from the journal", client.get(STATE) == "value 1600")
    client.close()
    status, errors = service.ends()
    check(f"{name}: ends", status == 0 and "stored" in errors, status, errors)


@in_folder
def files_are_for_the_user_or_the_group(name, folder):
    cases = [(mask, *case) for mask in (0o022, 0o077)
             for case in (((), 0o600), (("--group-readable",), 0o640))]
    for mask, options, mode in cases:
        here = folder.with_name(f"meter {mask:o} {mode:o}")
        service = Service(here, "--journal", str(here / "journal"), "--relay", str(here / "supply"),
                          *options, umask=mask)
        client = service.client()
        check(f"{name}: mode {mode:o}", client.set(MODE, "1601") == "code 0")
        client.close()
        modes = modes_of(here)
        check(f"{name}: the console", modes.pop("console", None) == 0o620)
        locks = {modes.pop(it, None) for it in ("journal.lock", "lock")}
        check(f"{name}: {mode:o} of a run",
              set(modes.values()) == {mode} and locks == {0o600}, modes)
        check(f"{name}: ends", service.ends()[0] == 0)
        modes = modes_of(here)
        stored = {modes.get(it) for it in ("stored", "traces/000001.trace")}
        check(f"{name}: {mode:o} of what is stored", stored == {mode}, modes)


@in_folder
def a_killed_service_is_recovered(name, folder):
    service = Service(folder)
    client = service.client()
    check(f"{name}: mode and disconnect",
          (client.set(MODE, "1601"), client.execute(DISCONNECT)) == ("code 0", "code 0"))
    service.process.kill()
    service.process.wait()
    client.close()
    check(f"{name}: the server ends in order",
          wait_until(lambda: (folder / "next.trace").read_text().endswith("\n")))
    service = Service(folder)
    client = service.client()
    check(f"{name}: the next run resumes from its trace", client.get(STATE) == "value 1600")
    client.close()
    status, errors = service.ends()
    check(f"{name}: both traces",
          status == 0 and names_of(folder / "traces") == ["000001.trace", "000002.trace"], errors)


@in_folder
def a_start_that_fails_keeps_what_a_killed_run_left(name, folder):
    """After a kill only the journal has the state of the meter. A start that serves nobody does not
    change that: without the journal the meter is not resumed."""
    path = str(folder / "journal")
    check(f"{name}: a first run",
          state_and_end(name, Service(folder, "--journal", path)) == "value 1601")
    service = Service(folder, "--journal", path)
    client = service.client()
    replies = client.set(MODE, "1604"), client.execute(DISCONNECT)
    check(f"{name}: is disconnected", replies == ("code 0", "code 0"), replies)
    os.kill(server_of(service), signal.SIGKILL)
    client.close()
    check(f"{name}: killed", service.end()[0] == 128 + 9)
    status, _, errors = Service(folder, "--journal", path, "--depth", "0").end()
    check(f"{name}: a start that fails", status == 2 and "--depth" in errors, status, errors)
    status, _, errors = Service(folder).end()
    check(f"{name}: without the journal", status == 2 and path in errors, status, errors)
    check(f"{name}: with it",
          state_and_end(name, Service(folder, "--journal", path)) == "value 1600")


@in_folder
def a_start_beside_a_server_that_ends_keeps_its_trace(name, folder):
    """The service alone is killed while its server has an open session; the next start finds the
    journal locked. What the server prints at its end is stored by a later start."""
    path = str(folder / "journal")
    service = Service(folder, "--journal", path)
    client = service.client()
    replies = client.set(MODE, "1604"), client.execute(DISCONNECT)
    check(f"{name}: is disconnected", replies == ("code 0", "code 0"), replies)
    service.process.kill()
    service.process.wait()
    status, _, errors = Service(folder, "--journal", path).end()
    check(f"{name}: the journal is locked",
          status == 3 and "another server has this journal" in errors, status, errors)
    client.close()
    check(f"{name}: the server ends in order",
          wait_until(lambda: (folder / "next.trace").read_text().endswith("\n")))
    check(f"{name}: the next start",
          state_and_end(name, Service(folder, "--journal", path)) == "value 1600")
    check(f"{name}: both traces", names_of(folder / "traces") == ["000001.trace", "000002.trace"])


@in_folder
def what_serves_nothing_loses_nothing(name, folder):
    service = Service(folder)
    second = Service(folder)
    status, _, errors = second.end()
    check(f"{name}: a second service",
          status == 2 and errors.count("\n") == 1 and "another" in errors, status, errors)
    other = Service(folder.with_name("other"), port=service.port)
    status, _, errors = other.end()
    check(f"{name}: a port in use", status == 3 and "fault: listen" in errors, status, errors)
    check(f"{name}: no marker stays",
          names_of(other.folder) == ["console", "traces"], names_of(other.folder))
    check(f"{name}: the first one serves", service.ends()[0] == 0)
    wrong = Service(folder, "--depth", "0")
    status, _, errors = wrong.end()
    check(f"{name}: a wrong option",
          status == 2 and "--depth" in errors and not (folder / "running").exists(), status, errors)
    (folder / "traces/000002.trace").write_text("RELAYTRACE 3\n")
    wrong = Service(folder)
    status, _, errors = wrong.end()
    check(f"{name}: a wrong trace", status == 2 and "fault: input" in errors, status, errors)


@in_folder
def a_full_disk_keeps_the_marker(name, folder):
    server = folder.with_name("server")
    server.write_text(f'#!/bin/sh\nexec {serving.SERVER} "$@" > /dev/full\n')
    server.chmod(0o755)
    service = Service(folder, server=server)
    status, errors = service.ends()
    check(f"{name}: reported",
          status == 3 and "fault: write" in errors and "stays" in errors, status, errors)
    check(f"{name}: the marker",
          (folder / "running").exists() and not list((folder / "traces").iterdir()))


@in_folder
def a_log_that_is_not_read_stops_nothing(name, folder):
    relay = folder.with_name("relay")
    service = UnreadService(folder, "--relay", str(relay))
    client = service.client()
    check(f"{name}: prepared", serving.prepare_switching(client))
    for _ in range(UNREAD_ROUNDS):
        service.fill_log()
    check(f"{name}: the pipe is full", wait_until(service.is_full, SHORT))
    serving.check_switching(name, client, lambda line: service.write(f"{line}\n"), relay)
    client.close()
    service.process.send_signal(signal.SIGTERM)
    check(f"{name}: the end, with the pipe full", service.has_ended())
    status, _, errors = service.end()
    check(f"{name}: in order", status == 0 and "fault" not in errors, status, errors[-300:])
    names = names_of(folder)
    check(f"{name}: what the folder has", "traces/000001.trace" in names and "running" not in names,
          names)
    if "traces/000001.trace" in names:
        history = serving.play_trace(service.trace(1))
        check(f"{name}: the trace", serving.is_part_of(client.seen, history), history)


def state_and_end(name, service):
    """The state of the meter of a service, which is then ended in order."""
    client = service.client()
    state = client.get(STATE)
    client.close()
    status, errors = service.ends()
    check(f"{name}: ends in order", status == 0, status, errors)
    return state


def disconnect_and_end(name, service):
    """Disconnects the meter of a service, and ends that in order."""
    client = service.client()
    replies = client.set(MODE, "1604"), client.execute(DISCONNECT)
    check(f"{name}: is disconnected", replies == ("code 0", "code 0"), replies)
    client.close()
    status, errors = service.ends()
    check(f"{name}: ends in order", status == 0, status, errors)


def not_of_one_run(folder, number):
    """The line of a start that is refused because of FOLDER/journal and this trace."""
    return (f"meter_service: {folder}/journal: the journal and {folder}/traces/{number:06}.trace "
            "are not of one run. Look at the meter; then move the journal away to resume from the "
            "trace, or the later traces to resume from the journal, and remove "
            f"{folder}/stored\n")


def check_refused(name, folder, number):
    """Checks that a service with FOLDER/journal is refused because of this trace, by one line."""
    journal = folder / "journal"
    service = Service(folder, "--journal", str(journal))
    is_over = wait_until(lambda: service.process.poll() is not None, SHORT_END)
    if not is_over:
        check(f"{name}: refused", False, service.client().get(STATE), service.errors)
        service.ends()
        return
    status, _, errors = service.end()
    check(f"{name}: refused", (status, errors) == (2, not_of_one_run(folder, number)), status,
          errors)


@in_folder
def a_journal_of_another_run_is_refused(name, folder):
    """A journal that a later run without it has left behind would connect the supply again."""
    path = folder / "journal"
    journal, before = ("--journal", str(path)), folder.with_name("before")
    check(f"{name}: a first run",
          state_and_end(name, Service(folder, *journal)) == "value 1601")
    shutil.copy(path, before)
    disconnect_and_end(name, Service(folder))
    check(f"{name}: the trace without a journal", stored_in(folder) == "000002.trace\n\n")
    check_refused(name, folder, 2)
    check(f"{name}: nothing is changed", path.read_bytes() == before.read_bytes()
          and not (folder / "running").exists(), names_of(folder))
    path.rename(folder.with_name("away"))
    service = Service(folder, *journal)
    check(f"{name}: without it still disconnected",
          state_and_end(name, service) == "value 1600")
    check(f"{name}: the trace with a journal", stored_in(folder) == f"000003.trace\n{path}\n")
    check(f"{name}: then with a journal of its own",
          state_and_end(name, Service(folder, *journal)) == "value 1600")


@in_folder
def a_journal_may_be_preferred_to_a_later_trace(name, folder):
    """As the line of a refused start says: the later traces are moved away."""
    journal = ("--journal", str(folder / "journal"))
    state_and_end(name, Service(folder, *journal))
    disconnect_and_end(name, Service(folder))
    (folder / "traces/000002.trace").rename(folder.with_name("away"))
    (folder / "stored").unlink(missing_ok=True)
    check(name, state_and_end(name, Service(folder, *journal)) == "value 1601")


@in_folder
def other_files_are_no_traces(name, folder):
    """A copy with a date as its name is not resumed from, and numbers the next trace no other."""
    state_and_end(name, Service(folder))
    shutil.copy(folder / "traces/000001.trace", folder / "traces/2026-11-01.trace")
    disconnect_and_end(name, Service(folder))
    check(f"{name}: its trace", (folder / "traces/000002.trace").exists(), names_of(folder))
    service = Service(folder)
    check(f"{name}: still disconnected", state_and_end(name, service) == "value 1600")
    check(f"{name}: the traces", names_of(folder / "traces")
          == ["000001.trace", "000002.trace", "000003.trace", "2026-11-01.trace"], names_of(folder))


@in_folder
def a_folder_of_an_older_version_is_judged_by_its_events(name, folder):
    """Without FOLDER/stored the events of the journal and of the last trace are compared. If the
    trace has reads only, nothing shows that it is of the journal's run."""
    path, stored = folder / "journal", folder / "stored"
    journal = ("--journal", str(path))
    disconnect_and_end(name, Service(folder, *journal))
    stored.unlink(missing_ok=True)
    check(f"{name}: the same events",
          state_and_end(name, Service(folder, *journal)) == "value 1600")
    stored.unlink(missing_ok=True)
    check_refused(f"{name}: a trace of reads", folder, 2)
    service = Service(folder)
    client = service.client()
    check(f"{name}: connected again", client.execute(RECONNECT) == "code 0")
    client.close()
    check(f"{name}: a run without the journal", service.ends()[0] == 0)
    stored.unlink(missing_ok=True)
    check_refused(name, folder, 3)


@in_folder
def a_journal_with_the_same_last_event_is_judged_by_its_state(name, folder):
    """Both end with a press of the button, after which one is disconnected and the other is not."""
    journal = ("--journal", str(folder / "journal"))
    service = Service(folder, *journal)
    client = service.client()
    check(f"{name}: mode", client.set(MODE, "1601") == "code 0")
    for state in ("value 1602", "value 1601"):
        service.write("button\n")
        check(f"{name}: {state}", wait_until(lambda: client.get(STATE) == state))
    client.close()
    check(f"{name}: a run with a journal", service.ends()[0] == 0)
    service = Service(folder)
    client = service.client()
    service.write("button\n")
    check(f"{name}: a press", wait_until(lambda: client.get(STATE) == "value 1602"))
    client.close()
    check(f"{name}: a run without", service.ends()[0] == 0)
    (folder / "stored").unlink(missing_ok=True)
    check_refused(name, folder, 2)


@in_folder
def a_journal_without_events_is_refused_by_a_later_trace(name, folder):
    """As in a folder of an older version, whose journal had nothing but its opening."""
    journal = ("--journal", str(folder / "journal"))
    state_and_end(name, Service(folder, *journal))
    disconnect_and_end(name, Service(folder))
    (folder / "stored").unlink(missing_ok=True)
    check_refused(name, folder, 2)


@in_folder
def a_trace_that_is_recovered_is_not_of_another_journal(name, folder):
    """The service of a run without a journal is killed, and its server ends in order. A journal of
    an earlier run does not belong to the trace that is stored then."""
    journal = ("--journal", str(folder / "journal"))
    state_and_end(name, Service(folder, *journal))
    service = Service(folder)
    client = service.client()
    replies = client.set(MODE, "1604"), client.execute(DISCONNECT)
    check(f"{name}: is disconnected", replies == ("code 0", "code 0"), replies)
    service.process.kill()
    service.process.wait()
    client.close()
    check(f"{name}: the server ends in order",
          wait_until(lambda: (folder / "next.trace").read_text().endswith("\n")))
    service = Service(folder, *journal)
    is_over = wait_until(lambda: service.process.poll() is not None, SHORT_END)
    if not is_over:
        check(f"{name}: refused", False, service.client().get(STATE), service.errors)
        service.ends()
        return
    status, _, errors = service.end()
    check(f"{name}: refused", status == 2 and errors.endswith(not_of_one_run(folder, 2)), status,
          errors)


@in_folder
def a_journal_of_a_start_that_failed_is_taken(name, folder):
    """A start with a new journal makes it before it listens. If that fails, the next start is not
    refused: the journal has the state of the last trace."""
    journal = ("--journal", str(folder / "journal"))
    disconnect_and_end(name, Service(folder))
    with socket.create_server(("127.0.0.1", 0)) as taken:
        service = Service(folder, *journal, port=taken.getsockname()[1])
        status, _, errors = service.end()
    check(f"{name}: the port is taken", status == 3 and "fault: listen" in errors, status, errors)
    check(f"{name}: the journal is of the trace",
          stored_in(folder) == f"000001.trace\n{folder}/journal\n", stored_in(folder))
    service = Service(folder, *journal)
    is_over = wait_until(lambda: service.process.poll() is not None, SHORT)
    check(f"{name}: starts", not is_over, service.errors)
    if not is_over:
        check(f"{name}: disconnected", state_and_end(name, service) == "value 1600")


def command_line(name):
    def run(*words):
        return subprocess.run([SERVICE, *words], capture_output=True, text=True, timeout=PATIENCE)
    for word in ("-h", "--help"):
        ran = run(word)
        check(f"{name}: {word}",
              ran.returncode == 0 and "usage: bin/meter_service" in ran.stdout and not ran.stderr)
    for words in ([], ["--listen", "127.0.0.1:0"], ["--server"]):
        ran = run(*words)
        check(f"{name}: {words}",
              ran.returncode == 2 and "expected FOLDER" in ran.stderr and not ran.stdout)
    with tempfile.TemporaryDirectory(prefix="service-") as folder:
        ran = run("--server", f"{folder}/none", f"{folder}/meter")
        check(f"{name}: a server that is missing",
              ran.returncode == 3 and ran.stderr.count("\n") == 1, ran.stderr)


def modes_of(folder):
    """The modes of the files in a folder of a service."""
    return {str(it.relative_to(folder)): it.stat().st_mode & 0o777
            for it in folder.rglob("*") if not it.is_dir()}


@in_folder
def the_unit_has_private_files(name, folder):
    found = re.search(r"(?m)^UMask=(\d+)$", UNIT.read_text().partition("[Service]")[2])
    mask = int(found[1], 8) if found else 0o022
    service = Service(folder, "--journal", str(folder / "journal"),
                      "--relay", str(folder / "supply"), umask=mask)
    client = service.client()
    check(f"{name}: mode and disconnect",
          (client.set(MODE, "1601"), client.execute(DISCONNECT)) == ("code 0", "code 0"))
    client.close()
    modes = modes_of(folder)
    check(f"{name}: the console", modes.pop("console", None) == 0o620)
    check(f"{name}: {len(modes)} files of a run",
          len(modes) >= 4 and set(modes.values()) == {0o600}, modes)
    status, errors = service.ends()
    check(f"{name}: ends", status == 0, status, errors)
    mode = modes_of(folder).get("traces/000001.trace")
    check(f"{name}: the trace", mode == 0o600, mode)


def service_of_runit(folder, port):
    """A copy of the service's folder that runs the script of this repository as this user."""
    service = folder / "meter_server"
    shutil.copytree(RUNIT, service)
    (folder / "password").touch(0o600)
    (folder / "password").write_text(f"{PASSWORD}\n")
    text = (service / "run").read_text()
    for old, new in (("-u meter_server ", ""), ("/usr/local/bin/", f"{TOP}/bin/"),
                     ("/var/lib/meter_server", f"{folder}/state"),
                     ("/etc/meter_server/password", f"{folder}/password"),
                     ("0.0.0.0:4059", f"127.0.0.1:{port}")):
        assert text.count(old) == 1, old
        text = text.replace(old, new)
    (service / "run").write_text(text)
    return service


def under_runit(name):
    missing = [it for it in ("runsv", "sv", "svlogd", "chpst") if not shutil.which(it)]
    if missing:
        print(f"SKIPPED runit: {', '.join(missing)} not installed (Debian: apt-get install runit)")
        return
    with tempfile.TemporaryDirectory(prefix="service-runit-") as folder:
        folder, port = Path(folder), serving.free_port()
        service = service_of_runit(folder, port)
        supervisor = subprocess.Popen(["runsv", service], stderr=subprocess.DEVNULL)
        try:
            commands_of_runit(name, folder, service, port)
        finally:
            subprocess.run(["sv", "-w", "30", "shutdown", service], capture_output=True)
            supervisor.wait(PATIENCE)


def commands_of_runit(name, folder, service, port):
    log, traces = service / "log" / "main" / "current", folder / "state" / "traces"

    def wait_for_log(words, times):
        return wait_until(lambda: log.exists() and log.read_text().count(words) >= times)

    def sv(*words):
        return subprocess.run(["sv", *words, service], capture_output=True).returncode == 0

    check(f"{name}: runs", wait_for_log("listening on", 1))
    client = serving.Client(port)
    client.associate()
    check(f"{name}: mode and disconnect",
          (client.set(MODE, "1601"), client.execute(DISCONNECT)) == ("code 0", "code 0"))
    client.close()
    check(f"{name}: restart",
          sv("-w", "30", "restart") and wait_for_log("listening on", 2)
          and (traces / "000001.trace").exists())
    client = serving.Client(port)
    client.associate()
    check(f"{name}: still disconnected", client.get(STATE) == "value 1600")
    client.close()
    check(f"{name}: stop", sv("-w", "30", "stop") and (traces / "000002.trace").exists())
    check(f"{name}: the log has times",
          log.read_text().startswith(time.strftime("%Y-", time.gmtime())))
    (folder / "state" / "running").touch()
    subprocess.run(["sv", "start", service], capture_output=True)
    check(f"{name}: what a person must decide stays down",
          wait_for_log("left no trace", 1) and wait_until(lambda: is_down(service)))
    (folder / "state" / "running").unlink()
    subprocess.run(["sv", "start", service], capture_output=True)
    check(f"{name}: starts again", wait_for_log("listening on", 3))


def is_down(service):
    """Whether a service is down, and runsv does not start it again."""
    said = subprocess.run(["sv", "status", service], capture_output=True, text=True).stdout
    return said.startswith("down:") and "want up" not in said


def under_systemd(name):
    if not shutil.which("systemd-analyze"):
        print("SKIPPED systemd: systemd-analyze is not installed (Debian: apt-get install systemd)")
        return
    with tempfile.TemporaryDirectory(prefix="service-systemd-") as folder:
        unit, text = Path(folder) / "meter_server.service", UNIT.read_text()
        environment = {**os.environ, "MANPATH": f"{TOP}/share/man"}
        for what, old, new, status in (
                ("the unit", "/usr/local/", f"{TOP}/", 0),
                ("a wrong unit", "Type=exec", "Type=wrong", 1)):
            unit.write_text(text.replace("/usr/local/", f"{TOP}/").replace(old, new))
            ran = subprocess.run(["systemd-analyze", "verify", unit], capture_output=True,
                                 text=True, env=environment)
            said = ran.stdout + ran.stderr
            check(f"{name}: {what}",
                  (ran.returncode == 0 and not said) == (status == 0), ran.returncode, said)


def main():
    if not serving.are_built(serving.SERVER, serving.PLAYER):
        return 1
    return serving.run_tests((a_run_is_stored_and_resumed, the_console_stays_open, open_sessions_end_first,
                              a_silent_client_delays_the_end, a_killed_server_is_not_resumed,
                              a_killed_server_has_its_journal,
                              a_start_that_fails_keeps_what_a_killed_run_left,
                              a_start_beside_a_server_that_ends_keeps_its_trace,
                              a_log_that_is_not_read_stops_nothing,
                              a_journal_of_another_run_is_refused,
                              a_journal_may_be_preferred_to_a_later_trace,
                              other_files_are_no_traces,
                              a_folder_of_an_older_version_is_judged_by_its_events,
                              a_journal_with_the_same_last_event_is_judged_by_its_state,
                              a_journal_without_events_is_refused_by_a_later_trace,
                              a_trace_that_is_recovered_is_not_of_another_journal,
                              a_journal_of_a_start_that_failed_is_taken,
                              files_are_for_the_user_or_the_group,
                              a_killed_service_is_recovered, what_serves_nothing_loses_nothing,
                              a_full_disk_keeps_the_marker, the_unit_has_private_files,
                              command_line, under_runit, under_systemd))


if __name__ == "__main__":
    sys.exit(main())
