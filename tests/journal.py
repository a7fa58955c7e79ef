#!/usr/bin/env python3
"""Tests `meter_server serve --journal FILE`. The server is killed at random times while clients and
the console change the meter, and is restarted on the same file: each answer that a client got must
be in the journal, in order and once, and the restarted meter must answer as a model of the switch
(tests/switch_model.py) that ran over the lines of the journal and never stopped. Also tested: torn
ends of the file and the copies of them, files that are refused or damaged, links, the modes of the
files, the sync of the folder at a restart, a full disk, and each read, write and sync failing.
Every wait has a time limit. One test needs strace, and is skipped with a message if it is missing.

usage: tests/journal.py [--long] [--seed N]

  --long     2,000 runs that end with a kill instead of 200, and more of the other failures
  --seed N   the seed of the random choices; the times are never the same twice"""

import argparse
import collections
import fcntl
import os
import pathlib
import random
import re
import shutil
import subprocess
import sys
import tempfile
import threading
import time

sys.dont_write_bytecode = True  # importing the modules of tests/ leaves no files

import serving
from core_rows import NEW_METER
from journal_history import (CUT, GONE, LEFT_OUT, OPEN_COUNT, Console, Explanation, Journal, Talker,
                             end_of_a_run, journal_with_events, lines_played, model_lines, restart,
                             start_server, torn_tail, whole_lines)
from refusing import Refusing, call_numbers
from serving import (DEVICE, DISCONNECT, MANAGEMENT, MODE, PASSWORD, PATIENCE, PLAYER, PUBLIC,
                     RECONNECT, SERVER, STATE, Client, Server, check, free_port, is_part_of,
                     play_trace, run_with)

KILLS, LONG_KILLS = 200, 2_000
STARTS, LONG_STARTS = 20, 200
START = 0.015  # a server has begun to serve after about this time, in seconds
LONGEST_START = 15  # it has on any machine
SEED = 48
JOURNAL_FAILED = "{}: the journal failed: "
NOBODY = 65_534  # the user and the group without rights
is_long, seed = False, SEED


def in_folder(function):
    """A test with an empty folder."""
    def run_test(name):
        with tempfile.TemporaryDirectory(prefix="journal-") as folder:
            function(name, pathlib.Path(folder))
    run_test.__name__ = function.__name__
    return run_test


def clients_of_a_run(server, first, choose, number, answered):
    """One to three clients, of which `first` is connected already."""
    sources = [choose.choice((MANAGEMENT, MANAGEMENT, MANAGEMENT, PUBLIC))
               for _ in range(choose.randrange(3))]
    pace = choose.choice((0, 0.002, 0.008))
    return [Talker(client, random.Random(f"{seed} {number} {which}"), number << 20 | which << 18,
                   answered, pace)
            for which, client in enumerate([first, *map(server.client, sources)])]


def run_and_kill(journal, number, totals):
    """One run on a journal, which a kill ends. Before some runs a torn end is added, as a crash of
    the machine may leave it."""
    choose = random.Random(f"{seed} {number}")
    is_torn = journal.model is not None and choose.random() < 0.25
    if is_torn:
        with open(journal.path, "ab") as file:
            file.write(torn_tail(choose))
    server, first = restart(journal)
    meanwhile, answered = None, threading.Event()
    try:
        talkers = clients_of_a_run(server, first, choose, number, answered)
        console = Console(server, random.Random(f"{seed} {number} console"), journal.model.now or 0)
        for thread in (*talkers, console):
            thread.start()
        assert answered.wait(PATIENCE), "no answer"
        if choose.random() < 0.2:
            meanwhile = lines_played(journal.path, journal.count, is_written=True)
        time.sleep(choose.uniform(0.002, 0.060))
        assert server.process.poll() is None, f"the server ended: {server.errors}"
    finally:
        server.stop()
    for thread in (*talkers, console):
        thread.join(PATIENCE)
    compare(journal, talkers, console, meanwhile, totals)
    totals.update({"torn ends added": is_torn, "runs": 1})
    for talker in talkers:
        talker.client.close()


def compare(journal, talkers, console, meanwhile, totals):
    """Fails if the journal that a killed server left does not fit what its clients saw."""
    faults = [talker.fault for talker in talkers if talker.fault]
    assert not faults, faults
    before, lines = journal.count, journal.new_lines()
    explanation = Explanation(journal, talkers, console)
    expected = [explanation.take(line) for line in lines]
    unanswered = explanation.end()
    printed = lines_played(journal.path, before)
    assert printed == expected, f"played: {printed}, not {expected}"
    is_front = meanwhile is None or meanwhile == expected[:len(meanwhile)]
    assert is_front, f"played while it ran: {meanwhile}, not {expected}"
    seen = [event for talker in talkers for event, _ in talker.client.seen]
    changing = [event for event in seen if not event.startswith("get ")]
    totals.update({"answers": len(seen), "answered events": len(changing),
                   "events without an answer": unanswered,
                   "lines of the console": sum(explanation.heard.values())})


@in_folder
def killed_servers_lose_no_answer(name, folder):
    runs, totals = LONG_KILLS if is_long else KILLS, collections.Counter()
    journal = Journal(folder / "journal")
    for number in range(1, runs + 1):
        try:
            run_and_kill(journal, number, totals)
        except (AssertionError, LookupError, ValueError, *GONE, subprocess.TimeoutExpired) as error:
            what = f"{type(error).__name__} {error}"
            check(f"{name}: run {number} of seed {seed}", False, what)
            return
    end_in_order(name, journal)
    figures = ", ".join(f"{count} {what}" for what, count in sorted(totals.items()))
    print(f"{name}, seed {seed}: {figures}; {journal.count} lines")
    check(f"{name}: all runs of seed {seed}",
          totals["runs"] == runs and totals["answered events"] >= runs // 2, totals)


def end_in_order(name, journal):
    """A last run on a journal, which ends in order."""
    server, client = restart(journal)
    check(f"{name}: the last run", client.set(MODE, "1602") == "code 0")
    check(f"{name}: its mode", client.get(MODE) == "value 1602")
    client.close()
    status, trace, errors = server.end()
    check(f"{name}: it ends in order", status == 0 and "fault" not in errors, status, errors)
    check(f"{name}: its trace",
          is_part_of(client.seen, play_trace(trace)) and "events 6\n" in trace, trace)
    check(f"{name}: its line",
          journal.follow() == [client.seen[0][0]] and journal.tail() == b"")


def start_and_kill(path, choose, longest=START):
    """Kills a server within its start, at most this time after it."""
    server = Server.__new__(Server)
    server.start([str(SERVER), "serve", "--password", PASSWORD,
                  "--listen", f"127.0.0.1:{free_port()}", "--journal", str(path)])
    time.sleep(choose.uniform(0, longest))
    server.stop()


@in_folder
def a_start_may_be_killed(name, folder):
    """A kill while the journal is created, or while its torn end is cut, loses nothing."""
    choose = random.Random(f"{seed} starts")
    new, old = folder / "new", journal_with_events(folder / "old")
    made, longest = 0, START

    def is_made(number):
        """Kills a server that creates a journal, and returns whether the journal was there."""
        new.unlink(missing_ok=True)
        start_and_kill(new, choose, longest)
        held = new.read_bytes() if new.exists() else None
        check(f"{name}: seed {seed}, new journal {number}",
              held is None or held.endswith(f"\n{OPEN_COUNT}\n".encode()), held)
        return held is not None

    for number in range(LONG_STARTS if is_long else STARTS):
        made += is_made(number)
        old.path.write_bytes(old.text + torn_tail(choose))
        start_and_kill(old.path, choose)
        held = old.path.read_bytes()
        check(f"{name}: seed {seed}, old journal {number}", whole_lines(held) == old.text, held)
    print(f"{name}: {made} of {number + 1} new journals were there after the kill")
    # (on a machine under load, a server may need longer)
    while not made and longest < LONGEST_START:
        longest *= 2
        made += is_made(f"within {longest:.2f} s")
    check(f"{name}: some were there", made > 0, longest)
    check(f"{name}: then both serve", end_of_a_run(Journal(new)) and end_of_a_run(old))


@in_folder
def an_answer_has_its_line(name, folder):
    """With one client and no console, the file ends with the event of each answer."""
    journal = Journal(folder / "journal")
    server = start_server(journal.path)
    talker = Talker(server.client(), random.Random(f"{seed} lines"))
    check(f"{name}: the opening", journal.new_lines() == [] and journal.tail() == b"")
    for turn in range(60):
        before = len(talker.client.seen)
        talker.ask()
        wanted = [it for it in talker.client.seen[before:] if not it[0].startswith("get ")]
        lines = [(line, journal.apply(line)[0]) for line in journal.new_lines()]
        check(f"{name}: seed {seed}, request {turn}", lines == wanted, lines, wanted)
        if turn % 15 == 0:
            check(f"{name}: played while the server runs",
                  lines_played(journal.path) == model_lines(journal.text))
    talker.client.close()
    check(f"{name}: end", server.end()[0] == 0)


LINE, HALF = b"set 1 70 000060030AFF 4 0 1602\n", b"set 1 70 000060030AFF 4"
TAILS = {
    "nothing": b"",
    "half a line": HALF,
    "a line without its end": LINE[:-1],
    "zeros": bytes(700),
    "half a line and zeros": HALF + bytes(9),
    "a line with zeros in it": LINE[:12] + bytes(3) + LINE[15:],
    "a line end after zeros": bytes(2) + b"\n",
    "a line with zeros in it, its end and half a line": LINE[:12] + bytes(3) + LINE[15:] + HALF,
    "wrong bytes": b"\xff\r\t",
}


@in_folder
def a_torn_end_is_cut(name, folder):
    journal = journal_with_events(folder / "journal")
    for what, tail in TAILS.items():
        with open(journal.path, "ab") as file:
            file.write(tail)
        check(f"{name}: {what}, played", lines_played(journal.path) == model_lines(journal.text))
        server, client = restart(journal)
        replies = client.execute(RECONNECT), client.execute(DISCONNECT)
        check(f"{name}: {what}, continued", replies == ("code 0", "code 0"), replies)
        client.close()
        check(f"{name}: {what}, end", server.end()[0] == 0)
        lines = journal.follow()
        check(f"{name}: {what}, its lines",
              lines == [event for event, _ in client.seen] and journal.tail() == b"", lines)


def start_on(path, *options):
    """Starts a server that must be refused its journal."""
    return run_with("--password", PASSWORD, "--verbose", "--listen", f"127.0.0.1:{free_port()}",
                    "--journal", str(path), *options)


def is_fault(made, status, word):
    """Whether a start ended with this status and fault, before the server listened."""
    has_word = made[2].endswith(f"fault: {word}\n") and "listening on" not in made[2]
    return made[:2] == (status, "") and has_word


@in_folder
def a_wrong_journal_is_refused(name, folder):
    """Nothing of a file that is refused is changed: not even its torn end is cut."""
    journal = journal_with_events(folder / "journal")
    lines = journal.text.split(b"\n")
    first = lines.index(OPEN_COUNT.encode()) + 1  # (of the lines from 0, that of event 1)
    for what, at, line in (
            ("a wrong event", first + 1, b"get 17 70 000060030AFF 3 0"),
            ("no event", first + 3, b"nonsense"),
            ("an empty line", first, b""),
            ("a carriage return", first, lines[first] + b"\r"),
            ("an unfit state", 2, b"state 3"),
            ("no trace", 0, b"button")):
        held = b"\n".join((*lines[:at], line, *lines[at + 1:])) + HALF
        journal.path.write_bytes(held)
        made = start_on(journal.path)
        has_place = re.search(rf"^{re.escape(str(journal.path))}: line {at + 1}\b", made[2])
        check(f"{name}: {what}", is_fault(made, 2, "input") and has_place, made)
        check(f"{name}: {what}, unchanged", journal.path.read_bytes() == held)
    for what, held, why in (
            ("an empty file", b"", "line 1 "),
            ("a trace of counted events", trace_of_a_run(), "expected a trace of version 2 with `events -`, ")):
        journal.path.write_bytes(held)
        made = start_on(journal.path)
        has_reason = made[2].startswith(f"{journal.path}: {why}")
        check(f"{name}: {what}", is_fault(made, 2, "input") and has_reason, made)
        check(f"{name}: {what}, unchanged", journal.path.read_bytes() == held)


# The journal of a new meter with the name METER7, as docs/TRACE.md has it.
BEGUN = "\n".join(["RELAYTRACE 2", "device 4D4554455237", *NEW_METER[2:], "events -", ""]).encode()


# Bytes after whole lines that an interrupted write can't have left: a whole line follows a damaged
# one.
HOLED = LINE[:12] + bytes(3) + LINE[15:]
DAMAGES = {
    "a whole line after zeros": bytes(2) + b"\n" + LINE,
    "a whole line after a line with zeros": HOLED + LINE,
    "a whole line and a torn one after a line with zeros": HOLED + LINE + HALF,
    "many lines after a line with zeros": HOLED + LINE * 300,
    "a block of zeros with many lines after it": LINE * 20 + bytes(512) + LINE * 300,
    "whole lines and a torn one after zeros": bytes(512) + LINE * 2 + HALF,
}


@in_folder
def a_damaged_journal_is_refused(name, folder):
    """Its later lines were answered: they must not be cut as those of an interrupted write. Once it
    is cut where the server says, its meter continues."""
    journal = journal_with_events(folder / "journal")
    for what, tail in DAMAGES.items():
        held = journal.text + tail
        journal.path.write_bytes(held)
        made = start_on(journal.path, "--stop-with-input")
        whole = whole_lines(held)
        why = (f"{journal.path}: damaged after byte {len(whole)}, and whole lines follow: "
               "keep a copy, and cut it there\nfault: input\n")
        check(f"{name}: {what}", is_fault(made, 2, "input") and made[2] == why, made)
        found = {it.name for it in folder.iterdir()}
        check(f"{name}: {what}, unchanged", journal.path.read_bytes() == held
              and found == {"journal", "journal.lock"}, found)
        check(f"{name}: {what}, played", lines_played(journal.path) == model_lines(whole))
        os.truncate(journal.path, len(whole))
        journal.follow()
        check(f"{name}: {what}, cut there", end_of_a_run(journal))


@in_folder
def what_is_cut_is_kept(name, folder):
    """In FILE.cut, of the last start that cut anything; trace_player reports its length. A refused
    journal leaves that as it is."""
    journal, cut = journal_with_events(folder / "journal"), folder / "journal.cut"
    check(f"{name}: nothing was cut", not cut.exists())
    for what in ("half a line", "zeros", "half a line and zeros", "a line with zeros in it"):
        tail = TAILS[what]
        journal.path.write_bytes(journal.text + tail)
        made = subprocess.run([str(PLAYER), str(journal.path)], capture_output=True, text=True,
                              timeout=PATIENCE)
        wanted = f"{LEFT_OUT.format(journal.path)}{len(tail)}\n"
        check(f"{name}: {what}, played", (made.returncode, made.stderr) == (0, wanted), made)
        server = start_server(journal.path)
        status, _, errors = server.end()
        check(f"{name}: {what}, reported",
              status == 0 and CUT.format(journal.path, len(tail)) in errors, status, errors)
        check(f"{name}: {what}, the journal", journal.path.read_bytes() == journal.text)
        kept = cut.read_bytes() if cut.exists() else None
        check(f"{name}: {what}, exactly these bytes", kept == tail, kept)
    check(f"{name}: a start that cuts nothing",
          start_server(journal.path).end()[0] == 0 and cut.read_bytes() == tail)
    held = journal.text + HALF
    journal.path.write_bytes(held)
    for what, start in (("an older one", tail), ("none", None)):
        if start is None:
            cut.unlink()
        made = start_on(journal.path, "--stop-with-input", "--device", "METER8")
        kept = cut.read_bytes() if cut.exists() else None
        check(f"{name}: a refused journal, {what}", is_fault(made, 2, "input")
              and journal.path.read_bytes() == held and kept == start, made, kept)
        check(f"{name}: a refused journal, {what}: no word of a cut",
              "cut" not in made[2].replace(str(journal.path), ""), made)


@in_folder
def a_journal_of_version_1_is_refused(name, folder):
    path = folder / "journal"
    lines = [it for it in BEGUN.decode().splitlines() if not it.startswith("x")]
    held = "".join(f"{it}\n" for it in ["RELAYTRACE 1", *lines[1:], "button"])
    path.write_text(held)
    made = start_on(path, "--stop-with-input", "--device", "METER7")
    why = (f"{path}: expected a trace of version 2 with `events -`, found counted events or "
           "version 1\nfault: input\n")
    check(name, is_fault(made, 2, "input") and made[2] == why, made)
    check(f"{name}: unchanged", path.read_text() == held)
    check(f"{name}: it plays", len(lines_played(path)) == 1)


def files_of_runs(folder, *options):
    """Starts servers with a journal and a relay in a folder until each of their files is there.
    Returns the modes of the files."""
    path, relay = folder / "journal", ("--relay", str(folder / "relay"))
    for tail in (b"", LINE * 300, HALF):
        with open(path, "ab") if tail else open(os.devnull, "ab") as file:
            file.write(tail)
        server = Server("--journal", str(path), "--journal-limit", "4096", "--keep-journals", "1",
                        "--depth", "1", "--stop-with-input", *relay, *options)
        assert server.end()[0] == 0, server.errors
    return {it.name: oct(it.stat().st_mode & 0o777) for it in folder.iterdir()}


@in_folder
def files_are_made_for_their_owner(name, folder):
    """With any umask. (The journal has the mode of its draft, which was renamed.)"""
    names = ("journal", "journal.1", "journal.cut", "relay")
    before = os.umask(0)
    try:
        for mask in (0o022, 0o077):
            for mode, options in ((0o600, ()), (0o640, ("--group-readable",))):
                os.umask(mask)
                inner = folder / f"{mask:o} {mode:o}"
                inner.mkdir()
                wanted = {**{it: oct(mode) for it in names}, "journal.lock": oct(0o600)}
                found = files_of_runs(inner, *options)
                check(f"{name}: {options}, mask {mask:o}", found == wanted, found)
    finally:
        os.umask(before)


# What a start prints of each file that is a symbolic link and is not replaced.
NO_LINKS = {
    "journal": "a symbolic link is not followed\n{}: reading, writing or syncing failed\n",
    "journal.lock": "the lock file can't be opened and locked\n",
    "relay": "(a symbolic link is not followed|the relay can't be opened for reading and writing: .*)\n",
}


@in_folder
def symbolic_links_are_not_followed(name, folder):
    """Not as FILE, its lock, its draft, the bytes that are cut or the relay: what a link leads to
    stays as it is."""
    target, journal = folder / "target", journal_with_events(folder / "begun")
    for what in (*NO_LINKS, "journal.new", "journal.cut"):
        # (a link as FILE that leads nowhere has a test of its own)
        for is_there in (True,) if what == "journal" else (True, False):
            inner = folder / f"{what} {is_there}"
            inner.mkdir()
            path, link = inner / "journal", inner / what
            held = journal.text + LINE * 300 + HALF
            target.unlink(missing_ok=True)
            if is_there:
                target.write_bytes(held if what == "journal" else b"of another user\n")
            if what != "journal":
                path.write_bytes(held)
            link.symlink_to(target)
            made = start_on(path, "--stop-with-input", "--journal-limit", "4096", "--relay",
                            str(inner / "relay"))
            title = f"{name}: {what}, {'a target' if is_there else 'none'}"
            after = target.read_bytes() if target.exists() else None
            before = (held if what == "journal" else b"of another user\n") if is_there else None
            check(f"{title}: untouched", after == before, after)
            if what in NO_LINKS:
                start, line = re.escape(f"{link}: "), NO_LINKS[what].format(re.escape(str(link)))
                is_told = re.search(f"(?m)^{start}{line}fault: write\n\\Z", made[2])
                check(f"{title}: refused", made[:2] == (3, "") and is_told, made)
            else:
                check(f"{title}: replaced", made[0] == 0, made)
            check(f"{title}: the link", link.is_symlink() == (what in NO_LINKS))


@in_folder
def a_link_that_leads_nowhere_is_refused(name, folder):
    """As FILE: a new meter would be connected, whatever the journal of the missing target has."""
    path, target = folder / "journal", folder / "target"
    path.symlink_to(target)
    made = start_on(path, "--stop-with-input")
    line = f"{path}: {NO_LINKS['journal'].format(path)}fault: write\n"
    check(name, made == (3, "", line), made)
    check(f"{name}: the link stays", path.is_symlink() and not target.exists())


@in_folder
def another_user_has_no_lock(name, folder):
    """A user who could open the lock could hold it, so that no server starts."""
    if os.geteuid():
        print("SKIPPED the lock for another user: only root can be another user")
        return
    journal_with_events(folder / "journal")
    folder.chmod(0o755)  # (so that the mode of the file alone keeps others out)
    (folder / "open").touch(0o644)
    for path, wanted in (("open", True), ("journal.lock", False), ("journal", False)):
        made = subprocess.run(["sh", "-c", 'exec < "$1"', "sh", folder / path], user=NOBODY,
                              group=NOBODY, extra_groups=[], capture_output=True, text=True)
        check(f"{name}: {path}", (made.returncode == 0) == wanted
              and (wanted or "ermission denied" in made.stderr), made)


CALLS = "openat,fsync,fdatasync,write,writev,sendto,sendmsg"


@in_folder
def a_restart_syncs_its_folder_first(name, folder):
    """A killed server may have renamed its draft and not synced the folder: until that is done, a
    power cut could take the answers of the next server with the name of its journal."""
    if not shutil.which("strace"):
        print("SKIPPED the calls of a restart: strace is missing (Debian: apt-get install strace)")
        return
    journal, log = journal_with_events(folder / "journal"), folder / "calls"
    killed, _ = restart(journal)
    killed.stop()
    server = Server.__new__(Server)
    server.port = free_port()
    server.start(["strace", "-f", "-yy", "-o", str(log), "-e", f"trace={CALLS}", str(SERVER),
                  "serve", "--verbose", "--password", PASSWORD, "--stop-with-input", "--listen",
                  f"127.0.0.1:{server.port}", "--journal", str(journal.path)])
    check(f"{name}: starts", server.wait_for(b"listening on"), server.errors)
    client = server.client()
    check(f"{name}: is answered", client.set(MODE, "1602") == "code 0")
    client.close()
    status, _, errors = server.end()
    check(f"{name}: end", status == 0, status, errors)
    calls = [line.split(None, 1)[1] for line in log.read_text().splitlines()]

    def places_of(pattern):
        return [at for at, it in enumerate(calls) if re.match(pattern, it)]

    answers = places_of(r"\w+\(\d+<TCP:")
    syncs = places_of(rf"fsync\(\d+<{re.escape(os.path.realpath(folder))}>(\) += 0$| <unfinished)")
    check(f"{name}: before the first answer", answers and syncs and syncs[0] < answers[0],
          syncs, answers, len(calls))


@in_folder
def a_killed_renewal_loses_no_kept_journal(name, folder):
    """A kill between the link of FILE.1 and the rename of the draft: the next renewal continues
    there, and the journals before it keep their names."""
    journal = journal_with_events(folder / "journal")
    path, oldest = journal.path, journal.text + LINE * 100
    held = journal.text + LINE * 300
    for kept in (1, 2, 3):
        path.write_bytes(held)
        first = folder / "journal.1"
        first.unlink(missing_ok=True)
        os.link(path, first)
        for number in range(2, kept + 1):
            (folder / f"journal.{number}").write_bytes(oldest + LINE * number)
        (folder / "journal.new").write_bytes(journal.text[:200])
        server = start_server(path, "--depth", "1", "--keep-journals", str(kept), limit=4096)
        status = server.end()[0]
        found = {it: (folder / f"journal.{it}").read_bytes() for it in range(1, kept + 1)}
        wanted = {1: held, **{it: oldest + LINE * it for it in range(2, kept + 1)}}
        wrong = [it for it in wanted if found[it] != wanted[it]]
        check(f"{name}: {kept} kept", status == 0 and not wrong, status, wrong)
        check(f"{name}: {kept} kept: renewed", path.read_bytes() != held
              and not (folder / "journal.new").exists() and path.stat().st_nlink == 1)


@in_folder
def another_meter_is_refused(name, folder):
    path = folder / "journal"
    for _ in range(2):
        server = start_server(path, "--device", "METER7")
        check(f"{name}: the journal", path.read_bytes() == BEGUN, path.read_bytes())
        client = server.client()
        check(f"{name}: its own", client.get(DEVICE) == "value 0906" + b"METER7".hex().upper())
        client.close()
        check(f"{name}: end", server.end()[0] == 0)
    held = path.read_bytes()
    made = start_on(path, "--device", "METER8")
    has_reason = made[2].startswith(f"{path}: the journal of a meter with another device name\n")
    is_refused = is_fault(made, 2, "input") and has_reason
    check(name, is_refused and path.read_bytes() == held, made)


@in_folder
def one_server_has_a_journal(name, folder):
    journal = journal_with_events(folder / "journal")
    server = start_server(journal.path)
    made = start_on(journal.path)
    has_reason = f"{journal.path}: another server has this journal\n" in made[2]
    check(f"{name}: a second server", is_fault(made, 3, "write") and has_reason, made)
    check(f"{name}: a second server, unchanged", journal.path.read_bytes() == journal.text)
    client = server.client()
    check(f"{name}: the first serves", client.execute(RECONNECT) == "code 0")
    check(f"{name}: its line", len(journal.follow()) == 1)
    client.close()
    server.stop()
    check(f"{name}: once it was killed, another", end_of_a_run(journal))


@in_folder
def a_locked_file_is_refused(name, folder):
    """A journal that another process has locked is not opened, and none is replaced through a draft
    that another has locked. A draft that a crash has left is replaced."""
    journal = journal_with_events(folder / "journal")
    held, draft = journal.text + LINE * 300, folder / "journal.new"
    journal.path.write_bytes(held)
    draft.write_bytes(b"left by a crash\n")
    for path in (journal.path, draft):
        with open(path, "rb+") as file:
            fcntl.flock(file, fcntl.LOCK_EX)
            made = start_on(journal.path, "--journal-limit", "4096", "--stop-with-input")
        check(f"{name}: {path.name}", is_fault(made, 3, "write"), made)
        check(f"{name}: {path.name}, unchanged", journal.path.read_bytes() == held
              and draft.exists() and draft.read_bytes() == b"left by a crash\n")
    status = start_server(journal.path, limit=4096).end()[0]
    check(f"{name}: then it is renewed",
          status == 0 and journal.path.read_bytes() != held and not draft.exists(), status)


@in_folder
def a_journal_needs_its_folder(name, folder):
    made = start_on(folder / "none" / "journal")
    check(f"{name}: not there", is_fault(made, 3, "write") and not (folder / "none").exists(), made)
    inner = folder / "inner"
    inner.mkdir()
    made = start_on(inner)
    is_refused = is_fault(made, 3, "write") or is_fault(made, 3, "read")
    check(f"{name}: a folder as the file", is_refused and not list(inner.iterdir()), made)


@in_folder
def a_journal_is_renewed(name, folder):
    """A journal that grows is renewed while the server runs, and at a start: it stays short, it
    plays, and a killed meter continues from it. The last journals before it are kept."""
    path, depth, limit = folder / "journal", 4, 4096
    for turn in range(2):
        server = start_server(path, "--depth", str(depth), "--keep-journals", "2", limit=limit)
        client = server.client()
        for number in range(301):
            assert client.set(MODE, f"160{number % 2 + 2}") == "code 0"
        server.stop()
        client.close()
        length = path.stat().st_size
        check(f"{name}: run {turn}, its length", length < 2 * limit, length)
        played = lines_played(path)
        check(f"{name}: run {turn}, its lines", len(played) >= depth, played[-1:])
        server = start_server(path, limit=limit)
        client = server.client()
        check(f"{name}: run {turn}, continued", client.get(MODE) == "value 1602")
        client.close()
        check(f"{name}: run {turn}, end", server.end()[0] == 0)
    held = sorted(it.name for it in folder.iterdir() if it.name != "journal.lock")
    check(f"{name}: the files", held == ["journal", "journal.1", "journal.2"], held)
    older = (folder / "journal.1").read_bytes()
    check(f"{name}: a journal before it", len(older) > limit and lines_played(folder / "journal.1"))


@in_folder
def a_long_journal_is_renewed_at_a_start(name, folder):
    journal = journal_with_events(folder / "journal")
    with open(journal.path, "ab") as file:
        file.write(LINE * 300)
    server = start_server(journal.path, "--depth", "1", "--keep-journals", "1", limit=4096)
    client = server.client()
    check(f"{name}: the mode", client.get(MODE) == "value 1602")
    held = journal.path.read_bytes()
    check(f"{name}: its events", held.endswith(f"\n{OPEN_COUNT}\n".encode() + LINE), held)
    check(f"{name}: the journal before it",
          (folder / "journal.1").read_bytes() == journal.text + LINE * 300)
    client.close()
    check(f"{name}: end", server.end()[0] == 0)


@in_folder
def the_last_journals_are_kept(name, folder):
    """Each of three starts renews a long journal: the two last ones before it are kept, in order."""
    journal, held = journal_with_events(folder / "journal"), []
    for turn in range(3):
        with open(journal.path, "ab") as file:
            file.write(LINE * (300 + turn))
        held.append(journal.path.read_bytes())
        server = start_server(journal.path, "--depth", "1", "--keep-journals", "2", limit=4096)
        check(f"{name}: end {turn}", server.end()[0] == 0)
    kept = [(folder / f"journal.{number}").read_bytes() for number in (1, 2)]
    check(f"{name}: in order", kept == [held[2], held[1]])
    check(f"{name}: no more", not (folder / "journal.3").exists())


def trace_of_a_run():
    """A trace of mode 4, disconnected, 70 W and second 300."""
    server = Server("--stop-with-input")
    client = server.client()
    assert (client.set(MODE, "1604"), client.execute(DISCONNECT)) == ("code 0", "code 0")
    client.close()
    server.say("samples 10 70", "moment 300")
    trace = server.end()[1]
    assert "\nsamples 10 70\n" in trace and "\nmoment 300\n" in trace, trace
    return trace.encode()


@in_folder
def a_journal_begins_from_a_trace(name, folder):
    """With --resume a new journal begins from the trace. A journal that is there has precedence:
    the trace is read, and none of its lines reaches the console."""
    trace, journal = trace_of_a_run(), Journal(folder / "journal")
    server, client = restart(journal, "--resume", console=trace)
    model = journal.model
    check(f"{name}: the opening",
          (model.state, model.mode, model.value, model.now) == (0, 4, 70, 300), vars(model))
    check(f"{name}: the state", client.get(STATE) == "value 1600")
    check(f"{name}: reconnect", client.execute(RECONNECT) == "code 0")
    client.close()
    server.say("moment 400")
    check(f"{name}: end", server.end()[0] == 0)
    check(f"{name}: its lines",
          sorted(journal.follow()) == sorted([client.seen[1][0], "moment 400"]), journal.text)
    server, client = restart(journal, "--resume", console=trace)
    check(f"{name}: the journal has precedence", client.get(STATE) == "value 1601")
    line = (f"warning: the trace of --resume is not used: the meter resumes from the journal "
            f"{journal.path}\n")
    check(f"{name}: with a warning", server.errors.decode().count(line) == 1, server.errors)
    client.close()
    check(f"{name}: its end", server.end()[0] == 0 and journal.follow() == [], journal.text)


@in_folder
def a_journal_changes_no_answer(name, folder):
    """Without a journal all is as before; with one the answers and the printed trace are the
    same."""
    serving.requests_of_every_kind(f"{name}: without")
    traces = []
    for options in ((), ("--journal", str(folder / "journal"))):
        server = Server("--stop-with-input", *options)
        talker = Talker(server.client(), random.Random(f"{seed} answers"))
        for _ in range(40):
            talker.ask()
        talker.client.close()
        status, trace, errors = server.end()
        check(f"{name}: end", status == 0 and "fault" not in errors, status, errors)
        check(f"{name}: played", play_trace(trace) == talker.client.seen, trace)
        traces.append(trace)
    check(f"{name}: the same trace", traces[0] == traces[1], *traces)
    found = {it.name for it in folder.iterdir()}
    check(f"{name}: the folder", found - {"journal.lock"} == {"journal"}, found)


class SmallDisk:
    """A tmpfs of 64 KiB in a mount namespace of its own, which `path` leads into. It is gone once
    its process has ended."""

    MOUNT = 'mount -t tmpfs -o size=64k none "$1" && echo mounted && exec cat'

    def __init__(self, folder):
        mapped = ["--map-root-user"] if os.geteuid() else []
        words = ["unshare", "--mount", *mapped, "sh", "-c", self.MOUNT, "sh", str(folder)]
        self.holder = subprocess.Popen(words, stdin=subprocess.PIPE, stdout=subprocess.PIPE,
                                       stderr=subprocess.DEVNULL)
        self.is_mounted = self.holder.stdout.readline() == b"mounted\n"
        self.path = pathlib.Path(f"/proc/{self.holder.pid}/root{folder}")

    def fill(self, file, room):
        """Has a file take all but `room` bytes of the disk."""
        (self.path / file).unlink(missing_ok=True)
        space = os.statvfs(self.path)
        (self.path / file).write_bytes(bytes(space.f_bavail * space.f_frsize - room))

    def stop(self):
        """Ends the process that holds the mount."""
        self.holder.stdin.close()
        self.holder.wait(PATIENCE)


def answer_of(call, *words):
    """The reply to a request, or None if there was no answer or another one."""
    try:
        return call(*words)
    except (AssertionError, *GONE):
        return None


@in_folder
def a_full_disk_ends_the_server(name, folder):
    try:
        disk = SmallDisk(folder)
    except FileNotFoundError:
        print("SKIPPED a full disk: unshare is not installed (Debian: apt-get install util-linux)")
        return
    try:
        if not disk.is_mounted:
            print("SKIPPED a full disk: no tmpfs can be mounted in a mount namespace")
            return
        disk.fill("filler", 0)
        made = start_on(disk.path / "journal")
        check(f"{name}: a new journal",
              is_fault(made, 3, "write") and not (disk.path / "journal").exists(), made)
        disk.fill("filler", 16_384)
        journal = Journal(disk.path / "journal")
        a_journal_fills_its_disk(name, journal)
        (disk.path / "filler").unlink()
        server, client = restart(journal)
        check(f"{name}: with space it continues", client.set(MODE, "1604") == "code 0")
        check(f"{name}: its line", journal.follow() == [client.seen[0][0]])
        client.close()
        check(f"{name}: and ends in order", server.end()[0] == 0)
    finally:
        disk.stop()


def later_client(server):
    """A client of a server that may not serve it any more: it waits for a second at most."""
    client = Client(server.port)
    client.socket.settimeout(1)
    client.associate()
    return client


def a_journal_fills_its_disk(name, journal):
    server, client = restart(journal)
    sent, told = 0, JOURNAL_FAILED.format(journal.path).encode()
    while sent < 2_000 and answer_of(client.set, MODE, f"160{1 + sent % 6}") == "code 0":
        sent += 1
    check(f"{name}: reported at once", server.wait_for(told), server.errors)
    later = answer_of(later_client, server)
    replies = [answer_of(one.set, MODE, "1601") for one in (client, client, later) if one]
    check(f"{name}: no success afterwards", "code 0" not in replies, replies)
    for one in (client, later):
        if one:
            one.close()
    status, trace, errors = server.end()
    check(f"{name}: end", status == 3 and errors.endswith("fault: write\n"), status, errors)
    check(f"{name}: the trace is printed", is_part_of(client.seen[-100:], play_trace(trace)), trace)
    lines, answered = journal.follow(), [event for event, _ in client.seen]
    check(f"{name}: each answer has its line",
          len(answered) > 200 and lines[:len(answered)] == answered
          and len(lines) <= len(answered) + 1, len(lines), len(answered))
    print(f"{name}: {sent} answers before it was full, {len(journal.tail())} torn bytes")


REQUESTS = ((MODE, "1604"), (DISCONNECT, "0F01"), (RECONNECT, "0F02"), (MODE, "1602"),
            (DISCONNECT, "0F03"))
STREAMS, SYNCS = 1, 5  # the places of these numbers in the counts of tests/refusing.c
NOTHING_FAILED = "nothing failed"


class FailingRuns:
    """Runs of a server on a journal, each with one failing call, and a restart after each. The
    number of the call is passed as the argument `fail_sync`, `fail_stream` or the like."""

    def __init__(self, folder, refusing, start):
        """`start` is the text of the journal at the start of each run; None: a new one."""
        self.path, self.refusing, self.start = folder / "journal", refusing, start

    def begin(self, which):
        """Starts a server. Its console has ended when the first client connects."""
        self.path.unlink(missing_ok=True)
        if self.start is not None:
            self.path.write_bytes(self.start)
        server = Server("--journal", str(self.path), "--connections", "1",
                        environment=self.refusing.environment(**which))
        server.end_input()
        self.refusing.wait_for_end_of_input()
        return server

    def run(self, **which):
        """What happened in a run, in words that begin with WRONG if it must not."""
        server = self.begin(which)
        seen, replies = self.talk(server)
        status, trace, errors = server.end()
        self.counts = self.refusing.counts()
        wrong = self.find_fault(seen, replies, which, status, errors)
        if wrong:
            return f"WRONG: {wrong}"
        return self.judge(seen, status, trace, errors)

    def talk(self, server):
        """Serves a client. Returns what it saw, and its replies to the changing requests, None for
        each that was not answered."""
        if b"listening on" not in server.errors:
            return [], []
        client = answer_of(Client, server.port)
        if not client:
            return [], []
        replies = []
        if answer_of(client.associate):
            for place, data in REQUESTS:
                change = client.set if place == MODE else client.execute
                replies.append(answer_of(change, place, data))
            answer_of(client.get, STATE)
        client.close()
        return client.seen, replies

    def find_fault(self, seen, replies, which, status, errors):
        """What must not happen, or None."""
        if None in replies and any(replies[replies.index(None):]):
            return f"a success after the failure: {replies}, {errors}"
        if self.counts[2]:
            return f"a write after the failure: {errors}"
        if status not in (0, 3) or (status == 3) != ("fault: " in errors):
            return f"status {status}, {errors}"
        if status and self.counts[SYNCS] > which.get("fail_sync", self.counts[SYNCS]):
            return f"{self.counts[SYNCS]} syncs, {which}"
        if JOURNAL_FAILED.format(self.path) in errors and not errors.endswith("fault: write\n"):
            return f"the journal failed: {errors}"
        return None if self.is_kept(seen) else f"{seen}, and the journal {self.path.read_bytes()}"

    def is_kept(self, seen):
        """Whether the journal has the answered events and at most one more, and whether a server
        restarts on it and answers as the model."""
        journal = Journal(self.path)
        if not self.path.exists():
            return self.start is None and seen == [] and end_of_a_run(journal)
        lines = journal.follow()[len(model_lines(self.start)) if self.start else 0:]
        answered = [event for event, _ in seen if not event.startswith("get ")]
        is_front = lines[:len(answered)] == answered and len(lines) <= len(answered) + 1
        return is_front and end_of_a_run(journal)

    def judge(self, seen, status, trace, errors):
        """What happened in a run in which one call failed; `WRONG` if an answer was lost."""
        last = errors.splitlines()[-1] if errors else ""
        if "listening on" not in errors:
            return f"no start, {last}"
        if status == 3 and not trace.endswith("\n"):
            return f"the output failed, {last}"
        if not is_part_of(seen, play_trace(trace)):
            return f"WRONG: {seen}, and the trace {trace}"
        if JOURNAL_FAILED.format(self.path) in errors:
            return "the journal failed"
        if status:
            return last
        return NOTHING_FAILED if len(seen) == len(REQUESTS) + 1 else "one session ended"


def all_calls(count):
    """The numbers of all calls."""
    return range(1, count + 1)


def some_calls(count):
    """The numbers of some calls, or of all with --long."""
    return call_numbers(count, is_long)


def each_call_fails(name, how, place, wanted, chosen=all_calls):
    """Lets each chosen call fail in turn, on a new journal and on an old one with a torn end.
    `place` is that of its number in the counts. For each of `wanted` something must happen that
    begins with it; if only NOTHING_FAILED is wanted, nothing else may."""
    refusing = Refusing()
    with tempfile.TemporaryDirectory(prefix="journal-") as folder:
        folder = pathlib.Path(folder)
        old = journal_with_events(folder / "journal").text + HALF
        for title, start in ((f"{name}, a new journal", None), (f"{name}, an old journal", old)):
            runs = FailingRuns(folder, refusing, start)
            ample = runs.run()
            count = runs.counts[place]
            check(f"{title}: nothing fails", ample == NOTHING_FAILED and count > 0, ample, count)
            found = collections.Counter(runs.run(**{how: call}) for call in chosen(count))
            figures = ", ".join(f"{times} {what}" for what, times in sorted(found.items()))
            print(f"{title}: {count} calls; {figures}")
            is_met = all(any(what.startswith(word) for what in found) for word in wanted)
            is_wrong = any(what.startswith("WRONG") for what in found)
            is_other = wanted == (NOTHING_FAILED,) and len(found) > 1
            check(title, is_met and not is_wrong and not is_other, found)
    refusing.stop()


def a_failed_sync_is_never_answered(name):
    wanted = ("no start, fault: write", "the journal failed")
    each_call_fails(name, "fail_sync", SYNCS, wanted)


def a_failed_read_or_write_loses_no_answer(name):
    wanted = ("no start", "the journal failed", "one session ended", "the output failed")
    each_call_fails(name, "fail_stream", STREAMS, wanted)


def a_short_or_interrupted_call_changes_nothing(name):
    for how in ("short_stream", "interrupt_stream"):
        title = f"{name}, {how.split('_')[0]}"
        each_call_fails(title, how, STREAMS, (NOTHING_FAILED,), some_calls)


TESTS = (a_journal_changes_no_answer, an_answer_has_its_line, a_torn_end_is_cut,
         a_wrong_journal_is_refused, another_meter_is_refused, one_server_has_a_journal,
         a_locked_file_is_refused, a_journal_needs_its_folder, a_journal_begins_from_a_trace,
         a_journal_is_renewed, a_long_journal_is_renewed_at_a_start, the_last_journals_are_kept,
         a_damaged_journal_is_refused, what_is_cut_is_kept, a_journal_of_version_1_is_refused,
         files_are_made_for_their_owner, symbolic_links_are_not_followed,
         a_link_that_leads_nowhere_is_refused, another_user_has_no_lock,
         a_restart_syncs_its_folder_first, a_killed_renewal_loses_no_kept_journal,
         a_start_may_be_killed,
         killed_servers_lose_no_answer, a_full_disk_ends_the_server,
         a_failed_sync_is_never_answered, a_failed_read_or_write_loses_no_answer,
         a_short_or_interrupted_call_changes_nothing)


def main():
    global is_long, seed
    parser = argparse.ArgumentParser(description=__doc__,
                                     formatter_class=argparse.RawDescriptionHelpFormatter)
    parser.add_argument("--long", action="store_true")
    parser.add_argument("--seed", type=int, default=SEED)
    given = parser.parse_args()
    is_long, seed = given.long, given.seed
    if not serving.are_built(SERVER, PLAYER):
        return 1
    return serving.run_tests(TESTS)


if __name__ == "__main__":
    sys.exit(main())
