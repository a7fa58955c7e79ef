#!/usr/bin/env python3
"""Tests `head_end run --ledger FILE`, `head_end ask` and `head_end status`. Campaigns of 300 jobs
against scripted meters that count what they receive are killed at random times, and run again on
the same ledger until they are whole: no meter may get a second command, each command must have its
mark in the ledger, no outcome may be lost, and SQLite must find each ledger that a kill left whole.
Also tested: ledgers and lists that are refused, ledgers without their log, empty ones, two runs at
once, meters that were down, the order of one meter's jobs, meters with passwords of their own,
meters that are asked for their states, a full disk, and each failing read, write and sync. Every
wait has a time limit.

usage: tests/ledger.py [--long] [--seed N]

  --long     2,000 campaigns that are killed instead of 200, and each read, write and sync fails
  --seed N   the seed of the random choices; the times are never the same twice"""

import argparse
import collections
import concurrent.futures
import contextlib
import os
import pathlib
import random
import re
import shutil
import socket
import sqlite3
import subprocess
import sys
import tempfile
import threading
import time

sys.dont_write_bytecode = True  # importing the modules of tests/ leaves no files

import serving
from core_rows import NEW_METER
from counted_meters import COMMANDS, CountedMeters, kind_of
from programs import HEAD_END
from journal import NOBODY, SmallDisk, in_folder
from refusing import Refusing, call_numbers
from scripted_meters import CROWD, REQUESTS, ScriptedMeter, answer_to, answers_slowly
from scripted_meters import closes_without_answer, does_it
from serving import PASSWORD, PATIENCE, Server, TOP, check, test


JOBS = 300
KILLED, LONG_KILLED = 200, 2_000  # campaigns that are killed
LANES = 4  # of them at the same time: they mostly wait
MOST_RUNS = 60  # of one campaign
LONGEST = 120  # the time limit of a run, in seconds
SEED = 49
WORKERS = (1, 4, 16)
FULL = ("64k", "128k", "256k", "512k")  # disks that the ledger of 300 jobs fills
TABLES = {"begun": "SELECT place FROM begun ORDER BY place",
          "outcome": "SELECT place, kind, number FROM outcome ORDER BY place",
          "job": "SELECT name, address, verb FROM job ORDER BY place"}

Ran = collections.namedtuple("Ran", "status report errors")
Entries = collections.namedtuple("Entries", "check begun outcomes jobs")
is_long, seed = False, SEED


class Campaign:
    """A list of jobs at meters that count: each place has a kind of meter and a verb."""

    def __init__(self, meters, verb_of):
        self.meters = meters
        self.jobs = [(f"job{place}", address, verb_of(place))
                     for place, address in enumerate(meters.addresses)]
        self.text = text_of(self.jobs)
        self.rows = [CROWD[kind_of(place)][2][verb] for place, (_, _, verb) in enumerate(self.jobs)]
        self.commands = [place for place, (_, _, verb) in enumerate(self.jobs) if verb in COMMANDS]

    def take_commands(self):
        """The number of commands that each place's meter has received since the last call."""
        received = self.meters.take_counts()
        assert not any(it["strange"] for it in received), "a meter received a strange frame"
        return [it["disconnect"] + it["reconnect"] for it in received]


def text_of(jobs):
    """The list of these jobs."""
    return "".join(f"{' '.join(job)}\n" for job in jobs)


def any_verb(place):
    """Each kind of meter gets each verb."""
    return list(REQUESTS)[place // len(CROWD) % len(REQUESTS)]


def report_of(jobs, rows):
    """The report in which jobs have these results."""
    return "".join(f"{job[0]} {row}\n" for job, row in zip(jobs, rows))


def words_of(ledger, workers=4):
    """The command line of a campaign on a ledger."""
    return [str(HEAD_END), "run", "--password", PASSWORD, "--ledger", str(ledger), "--workers",
            str(workers), "--timeout", "10", "--connect-timeout", "5"]


def run(ledger, text, workers=4, kill_after=None, before=()):
    """Runs a campaign, by the command `before` if there is one; returns None if it was killed after
    a number of seconds."""
    process = subprocess.Popen([*before, *words_of(ledger, workers)], stdin=subprocess.PIPE,
                               stdout=subprocess.PIPE, stderr=subprocess.PIPE, text=True)
    try:
        output, errors = process.communicate(text, timeout=kill_after or LONGEST)
    except subprocess.TimeoutExpired:
        process.kill()
        process.communicate()
        assert kill_after, "a run did not end"
        return None
    except BaseException:
        process.kill()
        raise
    return Ran(process.returncode, output, errors)


def entries(ledger):
    """What SQLite reads from copies of the ledger's files, which themselves stay as they are. None
    if there is no ledger or no table in it."""
    if not ledger.exists():
        return None
    with tempfile.TemporaryDirectory(prefix="ledger-copy-") as folder:
        for file in ledger.parent.glob(f"{ledger.name}*"):
            if not file.name.endswith(("-shm", ".lock")):
                shutil.copy(file, folder)
        copy = pathlib.Path(folder) / ledger.name
        with contextlib.closing(sqlite3.connect(copy)) as database:
            try:
                found = {name: database.execute(query).fetchall() for name, query in TABLES.items()}
            except sqlite3.DatabaseError as error:
                # (a sync that fails while the tables are made leaves such files until the next run)
                assert "no such table" in str(error) or "not a database" in str(error), error
                return None
            whole = database.execute("PRAGMA integrity_check").fetchall()
    outcomes = {place: kind if number is None else f"{kind} {number}"
                for place, kind, number in found["outcome"]}
    return Entries(whole, {place for place, in found["begun"]}, outcomes, found["job"])


class History:
    """What is known of a campaign over all its runs: the commands that the meters received, the
    outcomes that the ledger had, and the places that a run left without one. If connections may
    fail, an outcome may be `unknown` instead of the meter's."""

    def __init__(self, campaign, may_fail=False):
        self.campaign, self.may_fail = campaign, may_fail
        self.commands = [0] * len(campaign.jobs)
        self.outcomes, self.torn, self.runs = {}, set(), 0

    def follow(self, ledger, workers):
        """Compares the ledger with what the meters received. Fails if they do not fit."""
        self.runs += 1
        self.commands = [a + b for a, b in zip(self.commands, self.campaign.take_commands())]
        twice = [place for place, count in enumerate(self.commands) if count > 1]
        assert not twice, f"commanded twice: places {twice}"
        found = entries(ledger)
        if found is None:
            assert not any(self.commands), "commands went out, and there is no ledger"
            return
        assert found.check == [("ok",)], f"integrity_check: {found.check}"
        sent = {place for place, count in enumerate(self.commands) if count}
        assert sent <= found.begun, f"commands without a mark: {sorted(sent - found.begun)}"
        kept = {place: found.outcomes.get(place) for place in self.outcomes}
        assert kept == self.outcomes, f"outcomes lost or changed: {kept}, not {self.outcomes}"
        wrong = {place: row for place, row in found.outcomes.items()
                 if row != self.campaign.rows[place] and not (self.may_fail and row == "unknown")}
        assert not wrong, f"other outcomes than the meters gave: {wrong}"
        torn = found.begun - set(found.outcomes)
        assert len(torn - self.torn) <= workers, f"more marks than workers: {torn - self.torn}"
        self.outcomes, self.torn = found.outcomes, self.torn | torn

    def expected_rows(self):
        """The rows of the whole report."""
        return [self.outcomes.get(place, "unknown" if place in self.torn else row)
                for place, row in enumerate(self.campaign.rows)]

    def check_end(self, name, ran):
        """Checks the report of the last run, and that each command was sent once."""
        wanted = report_of(self.campaign.jobs, self.expected_rows())
        check(f"{name}: the report", (ran.status, ran.report) == (0, wanted), ran.status,
              first_differences(wanted, ran.report), ran.errors[-500:])
        unsent = [place for place in self.campaign.commands
                  if self.expected_rows()[place].startswith(("done", "refused"))
                  and self.commands[place] != 1]
        check(f"{name}: each command once", not unsent, unsent)


def first_differences(wanted, found):
    """The first lines in which two reports differ."""
    pairs = zip(wanted.splitlines(), found.splitlines())
    lines = [f"{b!r}, not {a!r}" for a, b in pairs if a != b]
    return lines[:5] or f"{found.count(chr(10))} lines, not {wanted.count(chr(10))}"


def campaign_of(meters, choose):
    """A campaign in which each place has a random verb, most of them commands."""
    verbs = [choose.choice((*REQUESTS, *COMMANDS)) for _ in meters.addresses]
    return Campaign(meters, verbs.__getitem__)


@in_folder
def a_ledger_changes_no_row(name, folder):
    with running_meters() as meters:
        campaign = Campaign(meters, any_verb)
        words = [it for it in words_of("") if it not in ("--ledger", "")]
        plain = subprocess.run(words, input=campaign.text, capture_output=True, text=True,
                               timeout=LONGEST)
        campaign.take_commands()
        history, ledger = History(campaign), folder / "ledger"
        ran = run(ledger, campaign.text)
        history.follow(ledger, 0)
        history.check_end(name, ran)
        check(f"{name}: as without one", ran.report == plain.stdout,
              first_differences(plain.stdout, ran.report))
        found = entries(ledger)
        check(f"{name}: its jobs", found.jobs == campaign.jobs, found.jobs[:3])
        mode = ledger.stat().st_mode & 0o777
        check(f"{name}: its owner alone may read it", mode == 0o600, oct(mode))
        check(f"{name}: its marks", found.begun >= set(campaign.commands),
              sorted(set(campaign.commands) - found.begun)[:9])
        check(f"{name}: its outcomes", sorted(found.outcomes) == list(range(JOBS)),
              len(found.outcomes))
        again = run(ledger, campaign.text, 16)
        check(f"{name}: run again", again[:2] == ran[:2],
              first_differences(ran.report, again.report), again.errors)
        received = meters.take_counts()
        check(f"{name}: no connection again", not any(map(sum, map(dict.values, received))))
        check(f"{name}: and no entry", entries(ledger) == found)


def kill_until_whole(folder, meters, number):
    """A campaign that is killed at random times and run again until it ends. Returns its history
    and its last run."""
    choose = random.Random(f"{seed} {number}")
    campaign, ledger = campaign_of(meters, choose), folder / f"ledger{number}"
    history, longest = History(campaign), choose.choice((0.1, 0.4, 1.0))
    while history.runs < MOST_RUNS:
        workers = choose.choice(WORKERS)
        ran = run(ledger, campaign.text, workers, choose.uniform(0.005, longest))
        history.follow(ledger, 0 if ran else workers)
        if ran:
            return history, ran
        longest *= 1.1  # so that it ends
    raise AssertionError(f"campaign {number} is not whole after {MOST_RUNS} runs")


def kill_campaigns(folder, meters, numbers):
    """Kills these campaigns one after the other. Returns for each its number, its history and its
    last run, or its number, None and an error."""
    found = []
    for number in numbers:
        try:
            found.append((number, *kill_until_whole(folder, meters, number)))
        except AssertionError as error:
            found.append((number, None, error))
            meters.take_counts()
    return found


def kill_in_lanes(folder, campaigns):
    """Kills campaigns in lanes, each with meters of its own; returns what `kill_campaigns` does."""
    numbers = [range(lane, campaigns + 1, LANES) for lane in range(1, LANES + 1)]
    with contextlib.ExitStack() as stack:
        meters = [stack.enter_context(running_meters()) for _ in numbers]
        lanes = stack.enter_context(concurrent.futures.ThreadPoolExecutor(LANES))
        found = lanes.map(kill_campaigns, [folder] * LANES, meters, numbers)
        return [one for lane in found for one in lane]


@in_folder
def killed_campaigns_command_nobody_twice(name, folder):
    totals, campaigns = collections.Counter(), LONG_KILLED if is_long else KILLED
    for number, history, ran in kill_in_lanes(folder, campaigns):
        check(f"{name}: campaign {number}, seed {seed}", history, ran)
        if history:
            history.check_end(f"{name} {number}", ran)
            totals.update(kills=history.runs - 1, commands=sum(history.commands),
                          unknown=len(history.torn), outcomes=len(history.outcomes))
    print(f"{name}: {campaigns} campaigns of {JOBS} jobs, {totals['kills']} kills, "
          f"{totals['commands']:,} commands, {totals['outcomes']:,} outcomes, "
          f"{totals['unknown']} places left without one")
    check(f"{name}: enough kills", totals["kills"] >= campaigns, totals)


def log_of(ledger):
    """The path of SQLite's log of a ledger."""
    return ledger.with_name(f"{ledger.name}-wal")


def without_log(ledger):
    """What `run`, `status` and `ask` print of a ledger without its log."""
    return Ran(2, "", f"ledger: {log_of(ledger)} is missing, which may have marks of a killed run: "
                      "put it back (if the last run ended in order, an empty file will do)\n"
                      "fault: input\n")


def is_refused(ran):
    """Whether a run was refused before it began: with the line of a fault, and no report."""
    has_line = re.search(r"(?m)^fault: [a-z]+$", ran.errors)
    return ran.status in (2, 3) and ran.report == "" and bool(has_line)


@in_folder
def another_list_is_refused(name, folder):
    with running_meters(12) as meters:
        campaign, ledger = Campaign(meters, lambda place: "disconnect"), folder / "ledger"
        run(ledger, campaign.text)
        campaign.take_commands()
        found, jobs = entries(ledger), campaign.jobs
        others = {"another verb": [(*jobs[0][:2], "reconnect"), *jobs[1:]],
                  "another name": [("other", *jobs[0][1:]), *jobs[1:]],
                  "another address": [(jobs[0][0], jobs[1][1], jobs[0][2]), *jobs[1:]],
                  "another order": [jobs[1], jobs[0], *jobs[2:]],
                  "one job less": jobs[:-1],
                  "one job more": [*jobs, ("more", jobs[0][1], "disconnect")],
                  "no job": []}
        for what, other in others.items():
            ran = run(ledger, text_of(other))
            check(f"{name}: {what}", is_refused(ran), ran)
            check(f"{name}: {what}: no command", not any(campaign.take_commands()))
            check(f"{name}: {what}: the ledger", entries(ledger) == found)
        # (empty lines are no jobs, so the list is the same)
        ran = run(ledger, "\n" + campaign.text.replace("\n", "\n\n"))
        check(f"{name}: the list with empty lines", ran.status == 0, ran)


@in_folder
def what_is_no_ledger_is_refused(name, folder):
    with running_meters(4) as meters:
        campaign = Campaign(meters, lambda place: "disconnect")
        (folder / "text").write_text("a report\n" * 1000)
        with contextlib.closing(sqlite3.connect(folder / "other")) as database:
            database.execute("CREATE TABLE meter (name TEXT)")
            database.commit()
        (folder / "folder").mkdir()
        for what in ("text", "other", "folder", "missing/ledger"):
            file = folder / what
            before = file.read_bytes() if file.is_file() else None
            ran = run(file, campaign.text)
            check(f"{name}: {what}", is_refused(ran), ran)
            check(f"{name}: {what}: no command", not any(campaign.take_commands()))
            after = file.read_bytes() if file.is_file() else None
            check(f"{name}: {what}: unchanged", before == after)
        others = sorted(it.name for it in folder.iterdir())
        check(f"{name}: nothing is made", others == ["folder", "other", "text"], others)


# What no ledger has: marks, outcomes and campaigns that are none.
DAMAGES = {
    "a mark of no job": "INSERT INTO begun VALUES (4, 1)",
    "an outcome of no job": "INSERT INTO outcome VALUES (4, 'done', 0, 1)",
    "a kind": "UPDATE outcome SET kind = 'opened' WHERE place = 0",
    "no number": "UPDATE outcome SET kind = 'done', number = NULL WHERE place = 0",
    "a number above 255": "UPDATE outcome SET kind = 'done', number = 300 WHERE place = 0",
    "a number of an unknown outcome": "UPDATE outcome SET kind = 'unknown', number = 0 "
                                      "WHERE place = 0",
    "another version": "UPDATE campaign SET version = 2",
    "another number of jobs": "UPDATE campaign SET jobs = 3",
    "no campaign": "DELETE FROM campaign",
}


@in_folder
def damaged_ledgers_are_refused(name, folder):
    """Ledgers of runs with rows that no run writes, which Python's sqlite3 wrote into copies."""
    with running_meters(4) as meters:
        campaign, ledger = Campaign(meters, lambda place: "disconnect"), folder / "ledger"
        first = run(ledger, campaign.text)
        campaign.take_commands()
        for number, (what, statement) in enumerate(DAMAGES.items()):
            copy = folder / str(number) / "ledger"
            copy.parent.mkdir()
            for file in (it for it in folder.glob("ledger*") if not it.name.endswith(".lock")):
                shutil.copy(file, copy.parent)
            with contextlib.closing(sqlite3.connect(copy)) as database:
                changed = database.execute(statement).rowcount
                database.commit()
            log_of(copy).touch()  # (SQLite has removed it at the close)
            check(f"{name}: {what}: is damaged", changed == 1, changed)
            for command in (run, status):
                ran = command(copy, campaign.text) if command is run else command(copy)
                check(f"{name}: {what}: {command.__name__}",
                      ran == (2, "", "ledger: not a ledger\nfault: input\n"), ran)
            check(f"{name}: {what}: no command", not any(campaign.take_commands()))
        ran = run(ledger, campaign.text)
        check(f"{name}: the ledger itself", ran.status == 0 and ran.report == first.report, ran)


@in_folder
def two_runs_at_once_are_refused(name, folder):
    with running_meters(12) as meters, socket.create_server(("127.0.0.1", 0)) as silent:
        campaign, ledger = Campaign(meters, lambda place: "disconnect"), folder / "ledger"
        held = f"silent 127.0.0.1:{silent.getsockname()[1]} disconnect\n" + campaign.text
        first = subprocess.Popen(words_of(ledger, 1), stdin=subprocess.PIPE, text=True,
                                 stdout=subprocess.PIPE, stderr=subprocess.PIPE)
        try:
            first.stdin.write(held)
            first.stdin.close()
            silent.settimeout(PATIENCE)
            client, _ = silent.accept()
            second = run(ledger, held)
            check(f"{name}: the second", is_refused(second), second)
            client.close()
            first.stdin = None
            output, _ = first.communicate(timeout=LONGEST)
        finally:
            first.kill()
        wanted = "silent unknown\n" + report_of(campaign.jobs, campaign.rows)
        check(f"{name}: the first", output == wanted, first_differences(wanted, output))
        commands = campaign.take_commands()
        check(f"{name}: each command once", max(commands) == 1, commands)


@in_folder
def a_meter_that_was_down_is_commanded_later(name, folder):
    with running_meters(6) as meters, socket.socket() as down:
        down.bind(("127.0.0.1", 0))
        campaign, ledger = Campaign(meters, lambda place: "disconnect"), folder / "ledger"
        job = f"down 127.0.0.1:{down.getsockname()[1]} disconnect\n"
        ran = run(ledger, job + campaign.text)
        check(f"{name}: its row", ran.report.startswith("down unknown\n") and ran.status == 0, ran)
        check(f"{name}: no mark", 0 not in entries(ledger).begun, entries(ledger).begun)
        check(f"{name}: its note", "down not reached" in ran.errors.splitlines(), ran.errors[-300:])
        first = campaign.take_commands()
        down.listen()
        down.settimeout(PATIENCE)
        process = subprocess.Popen(words_of(ledger), stdin=subprocess.PIPE, text=True,
                                   stdout=subprocess.PIPE, stderr=subprocess.PIPE)
        try:
            process.stdin.write(job + campaign.text)
            process.stdin.close()
            client, _ = down.accept()
            client.close()
            process.stdin = None
            _, errors = process.communicate(timeout=LONGEST)
        finally:
            process.kill()
        check(f"{name}: it is called", 0 in entries(ledger).begun, entries(ledger).begun)
        check(f"{name}: its note then", "down sent, no answer" in errors.splitlines(),
              errors[-300:])
        later = campaign.take_commands()
        check(f"{name}: nobody else", not any(later) and max(first) == 1, later)


@in_folder
def jobs_of_a_meter_run_in_order(name, folder):
    """Jobs of one meter reach it one after the other, in the order of the list."""
    verbs = ["disconnect", "reconnect", "state", "disconnect", "state", "reconnect", "disconnect"]
    for workers in WORKERS:
        meters = [ScriptedMeter(answers_slowly) for _ in range(3)]
        rows = [(f"m{number}{verb}{turn}", meter, verb) for turn, verb in enumerate(verbs)
                for number, meter in enumerate(meters)]
        jobs = [(job, f"127.0.0.1:{meter.port}", verb) for job, meter, verb in rows]
        ran = run(folder / f"ledger{workers}", text_of(jobs), workers)
        check(f"{name}, workers {workers}: report",
              (ran.status, ran.report) == (0, report_of(jobs, ["done 0"] * len(jobs))), ran)
        for meter in meters:
            requests = [talk.frames[1] for talk in meter.wait_for_talks(len(verbs))]
            check(f"{name}, workers {workers}: order",
                  requests == [REQUESTS[verb] for verb in verbs], requests)
            meter.stop()


@in_folder
def each_meter_has_its_password(name, folder):
    """A campaign whose meters have passwords of their own, in a file; m3 has the common one, and m4
    gets a wrong one. No password is in the ledger."""
    path, ledger, words = folder / "passwords", folder / "ledger", ("11111111", "22222222", PASSWORD)
    path.touch(0o600)
    path.write_text(f"m2 {words[1]}\nm1 {words[0]}\nm4 wrongword\nother 1\n")
    servers = [Server("--connections", "1", password=it) for it in (*words, "44444444")]
    jobs = [(f"m{number}", f"127.0.0.1:{it.port}", "state") for number, it in enumerate(servers, 1)]
    ran = subprocess.run([*words_of(ledger), "--passwords", str(path)], input=text_of(jobs),
                         capture_output=True, text=True, timeout=LONGEST)
    wanted = report_of(jobs, ["done 1", "done 1", "done 1", "rejected 13"])
    check(f"{name}: report", (ran.returncode, ran.stdout, ran.stderr) == (0, wanted, ""), ran)
    held = b"".join(it.read_bytes() for it in folder.glob("ledger*"))
    found = [it for it in (*words, "wrongword") if it.encode() in held]
    check(f"{name}: no password in the ledger", held and not found, found)
    for server in servers:
        check(f"{name}: end", server.end()[0] == 0)
    missing = subprocess.run([str(HEAD_END), "run", "--ledger", str(folder / "other"),
                              "--passwords", str(path)], input=text_of(jobs), text=True,
                             capture_output=True, timeout=LONGEST,
                             env={it: os.environ[it] for it in os.environ if it != "METER_PASSWORD"})
    check(f"{name}: a job without one", missing.returncode == 2 and "job m3:" in missing.stderr
          and not (folder / "other").exists(), missing)


def state_of(found):
    """What `status` prints for the entries of a ledger."""
    kinds = [found.outcomes.get(place, "unknown" if place in found.begun else "not sent")
             for place in range(len(found.jobs))]
    counts = collections.Counter(re.sub(" [0-9]+$", "", kind) for kind in kinds)
    words = ("done", "refused", "rejected", "unknown", "not sent")
    lines = [f"jobs {len(kinds)}", *(f"{word} {counts[word]}" for word in words),
             *(f"{' '.join(job)} sent, no answer"
               for job, kind in zip(found.jobs, kinds) if kind == "unknown")]
    return "".join(f"{line}\n" for line in lines)


def status(ledger, before=(), program=HEAD_END, environment=None):
    """Runs `head_end status` on a ledger, by the command `before` if there is one."""
    words = [*before, str(program), "status", "--ledger", str(ledger)]
    ran = subprocess.run(words, capture_output=True, stdin=subprocess.DEVNULL, text=True,
                         timeout=LONGEST, env=environment)
    return Ran(ran.returncode, ran.stdout, ran.stderr)


@in_folder
def the_state_is_that_of_the_ledger(name, folder):
    """`status` prints what SQLite reads, of campaigns that were killed and of whole ones."""
    with running_meters(60) as meters:
        for number in range(1, 6):
            choose = random.Random(f"{seed} state {number}")
            campaign, ledger = campaign_of(meters, choose), folder / f"ledger{number}"
            for kill_after in (0.02, 0.05, 0.1, None):
                run(ledger, campaign.text, 4, kill_after)
                found = entries(ledger)
                ran = status(ledger)
                if found is None:
                    check(f"{name} {number}: no ledger", is_refused(ran), ran)
                    continue
                check(f"{name} {number}: text", ran == (0, state_of(found), ""), ran)
                check(f"{name} {number}: unchanged", entries(ledger) == found)
            campaign.take_commands()


def ask(ledger):
    """Runs `head_end ask` on a ledger."""
    words = [str(HEAD_END), "ask", "--ledger", str(ledger), "--password", PASSWORD, "--timeout", "10",
             "--connect-timeout", "5"]
    ran = subprocess.run(words, capture_output=True, stdin=subprocess.DEVNULL, text=True,
                         timeout=LONGEST)
    return Ran(ran.returncode, ran.stdout, ran.stderr)


def answers(ledger):
    """The answers that SQLite reads from a copy of the file next to a ledger, in their order: each
    as name, address, state and time."""
    with tempfile.TemporaryDirectory(prefix="answers-copy-") as folder:
        for file in ledger.parent.glob(f"{ledger.name}.answers*"):
            if not file.name.endswith(("-shm", ".lock")):
                shutil.copy(file, folder)
        with contextlib.closing(sqlite3.connect(pathlib.Path(folder) / f"{ledger.name}.answers")) as it:
            rows = it.execute("SELECT number, name, address, state, asked_at FROM answer "
                              "ORDER BY number").fetchall()
            assert it.execute("PRAGMA integrity_check").fetchall() == [("ok",)]
    assert [row[0] for row in rows] == list(range(1, len(rows) + 1)), rows
    return [row[1:] for row in rows]


def with_states(text, states):
    """The text of `status` in which the meters of these names reported these states."""
    lines = [f"{line}; state {states[line.split()[0]]}" if line.split()[0] in states else line
             for line in text.splitlines()]
    return "".join(f"{line}\n" for line in lines)


def closes_at_commands(states):
    """The script of a meter that closes the connection at a command, and reports these control
    states to those who ask for it, in their order."""
    left = list(states)

    def play(talk):
        request = talk.open()
        if request != REQUESTS["state"]:
            return True
        talk.send(answer_to(request, state=left.pop(0)))
        return False
    return play


@in_folder
def meters_without_an_answer_are_asked(name, folder):
    """`ask` asks the meters that did not answer a command for their states, and commands nobody;
    `status` shows the states."""
    scripts = (does_it, closes_at_commands(("00", "01")), closes_at_commands(("02", "02")),
               closes_without_answer)
    meters, ledger = [ScriptedMeter(it) for it in scripts], folder / "ledger"
    jobs = [(f"m{number}", f"127.0.0.1:{meter.port}", "disconnect")
            for number, meter in enumerate(meters)]
    ran = run(ledger, text_of(jobs), 1)
    check(f"{name}: campaign", ran.report == report_of(jobs, ["done 0", *["unknown"] * 3]), ran)
    found, begun = entries(ledger), int(time.time())
    check(f"{name}: state before", status(ledger) == (0, state_of(found), ""))
    for turn, states in enumerate((("0", "2"), ("1", "2")), 1):
        ran = ask(ledger)
        wanted = report_of(jobs[1:], [*(f"done {it}" for it in states), "unknown"])
        check(f"{name}: {turn}: report", ran == (0, wanted, ""), ran)
        rows = answers(ledger)
        expected = [(*job[:2], int(it)) for job, it in zip(jobs[1:], states)]
        check(f"{name}: {turn}: answers", len(rows) == 2 * turn
              and [row[:3] for row in rows[-2:]] == expected, rows)
        check(f"{name}: {turn}: times", all(begun <= row[3] <= time.time() for row in rows), rows)
        state = with_states(state_of(found), dict(zip(("m1", "m2"), states)))
        check(f"{name}: {turn}: state", status(ledger) == (0, state, ""), status(ledger), state)
        check(f"{name}: {turn}: the ledger", entries(ledger) == found)
    mode = (folder / "ledger.answers").stat().st_mode & 0o777
    check(f"{name}: its owner alone may read it", mode == 0o600, oct(mode))
    for number, meter in enumerate(meters):
        requests = [talk.frames[1] for talk in meter.wait_for_talks(3 if number else 1)]
        wanted = [REQUESTS[it] for it in ("disconnect", *("state",) * (2 if number else 0))]
        check(f"{name}: requests to m{number}", requests == wanted, requests)
        meter.stop()


@in_folder
def nothing_to_ask_changes_nothing(name, folder):
    """`ask` on a ledger whose commands were all answered prints nothing and makes no file."""
    with running_meters(4) as meters:
        campaign, ledger = Campaign(meters, lambda place: "disconnect"), folder / "ledger"
        text = text_of([it for it, row in zip(campaign.jobs, campaign.rows) if row != "unknown"])
        run(ledger, text)
        meters.take_counts()
        ran = ask(ledger)
        check(f"{name}: no report", ran == (0, "", ""), ran)
        check(f"{name}: no file", not (folder / "ledger.answers").exists())
        check(f"{name}: no connection", not any(map(sum, map(dict.values, meters.take_counts()))))
    ran = ask(folder / "missing")
    check(f"{name}: no ledger", ran == (3, "", "ledger: can't open the file\nfault: read\n"), ran)


@in_folder
def other_files_of_answers_are_refused(name, folder):
    """A file of answers that is something else is refused before a meter is asked, and stays as it
    is. One that is empty gets its table."""
    meter, ledger = ScriptedMeter(closes_at_commands(("01",))), folder / "ledger"
    run(ledger, f"m1 127.0.0.1:{meter.port} disconnect\n")
    file, talks = folder / "ledger.answers", len(meter.wait_for_talks(1))
    with contextlib.closing(sqlite3.connect(folder / "other")) as database:
        database.execute("CREATE TABLE meter (name TEXT)")
        database.commit()
    said = "answers: the file of answers has other tables\nfault: input\n"
    for what, text in (("another database", (folder / "other").read_bytes()),
                       ("a ledger", ledger.read_bytes()), ("a text", b"a report\n" * 1000)):
        file.write_bytes(text)
        for command in (ask, status):
            ran = command(ledger)
            check(f"{name}: {what}: {command.__name__}", ran == (2, "", said), ran)
            check(f"{name}: {what}: unchanged", file.read_bytes() == text)
    check(f"{name}: no connection", len(meter.talks) == talks, len(meter.talks))
    for it in folder.glob("ledger.answers*"):
        it.unlink()
    file.touch()
    before = status(ledger)
    check(f"{name}: an empty file", before.status == 0 and "; state" not in before.report, before)
    ran = ask(ledger)
    check(f"{name}: is filled", ran == (0, "m1 done 1\n", "") and len(answers(ledger)) == 1, ran)
    meter.stop()


def texts_of(folder):
    """The bytes of the files in a folder, but for those that SQLite adds."""
    return {it.name: it.read_bytes() for it in folder.iterdir() if it.is_file()
            and not it.name.endswith((".lock", "-wal", "-shm"))}


@in_folder
def what_has_no_state_is_refused(name, folder):
    (folder / "text").write_text("a report\n" * 1000)
    with contextlib.closing(sqlite3.connect(folder / "other")) as database:
        database.execute("CREATE TABLE meter (name TEXT)")
        database.commit()
    (folder / "folder").mkdir()
    files = {"text": ("not a ledger", "input", 2), "other": ("not a ledger", "input", 2),
             "folder": ("can't open the file", "read", 3),
             "missing": ("can't open the file", "read", 3)}
    before = texts_of(folder)
    ran = status(folder / "other")
    check(f"{name}: other, without a log", ran == without_log(folder / "other"), ran)
    log_of(folder / "other").touch()
    for what, (reason, word, code) in files.items():
        ran = status(folder / what)
        check(f"{name}: {what}", ran == (code, "", f"ledger: {reason}\nfault: {word}\n"), ran)
    after = texts_of(folder)
    check(f"{name}: unchanged", before == after, sorted(after))


def copy_alone(ledger, folder):
    """Copies the file of a ledger without its log into a new folder, and returns the copy."""
    folder.mkdir()
    return pathlib.Path(shutil.copy(ledger, folder / "ledger"))


@contextlib.contextmanager
def killed_run(name, ledger):
    """A run on a ledger that was killed when its second meter had received its command, and the
    first had done its own. Gives the jobs and the meters, which answer later requests."""
    is_commanded = threading.Event()

    def waits(talk):
        request = talk.open()
        if is_commanded.is_set():
            talk.send(answer_to(request))
        is_commanded.set()

    meters = [ScriptedMeter(does_it), ScriptedMeter(waits)]
    jobs = [(f"m{number}", f"127.0.0.1:{it.port}", "disconnect")
            for number, it in enumerate(meters)]
    process = subprocess.Popen(words_of(ledger, 1), stdin=subprocess.PIPE, text=True,
                               stdout=subprocess.DEVNULL, stderr=subprocess.DEVNULL)
    try:
        process.stdin.write(text_of(jobs))
        process.stdin.close()
        check(f"{name}: the second command", is_commanded.wait(PATIENCE))
    finally:
        process.kill()
        process.wait()
    try:
        for meter in meters:
            meter.wait_for_talks(1)
        yield jobs, meters
    finally:
        for meter in meters:
            meter.stop()


@in_folder
def a_ledger_without_its_log_is_refused(name, folder):
    """The marks of a killed run are in the log alone: without it the commands would be sent again.
    Once the log is back, the campaign continues."""
    ledger = folder / "ledger"
    with killed_run(name, ledger) as (jobs, meters):
        copy = copy_alone(ledger, folder / "alone")
        held, marks = copy.read_bytes(), entries(ledger)
        for what, command in (("run", lambda it: run(it, text_of(jobs))), ("status", status),
                              ("ask", ask)):
            ran = command(copy)
            check(f"{name}: {what}", ran == without_log(copy), ran)
        talks = [len(it.talks) for it in meters]
        check(f"{name}: no meter is called", talks == [1, 1], talks)
        names = [it.name for it in copy.parent.iterdir()]
        check(f"{name}: no file is made", names == ["ledger"] and copy.read_bytes() == held, names)
        shutil.copy(folder / "ledger-wal", copy.parent)
        ran = run(copy, text_of(jobs))
        wanted = report_of(jobs, ["done 0", "unknown"])
        check(f"{name}: with its log", ran[:2] == (0, wanted) and marks.begun == {0, 1}, ran, marks)
        log_of(copy).unlink()
        ran = run(copy, text_of(jobs))
        check(f"{name}: after a run that ended in order", ran == without_log(copy), ran)
        log_of(copy).touch()
        ran = run(copy, text_of(jobs))
        check(f"{name}: then with an empty log", ran[:2] == (0, wanted), ran)
        talks = [len(it.talks) for it in meters]
        check(f"{name}: with its log no meter is called", talks == [1, 1], talks)


@in_folder
def a_linked_ledger_has_the_log_of_its_file(name, folder):
    """SQLite follows a symbolic link: the log is next to the file that it leads to."""
    ledger, link = folder / "ledger", folder / "link"
    with killed_run(name, ledger) as (jobs, meters):
        link.symlink_to(ledger)
        ran = run(link, text_of(jobs))
        wanted = report_of(jobs, ["done 0", "unknown"])
        check(f"{name}: with its log", ran[:2] == (0, wanted), ran)
        log_of(ledger).unlink()
        log_of(link).touch()
        for what, command in (("run", lambda it: run(it, text_of(jobs))), ("status", status)):
            ran = command(link)
            check(f"{name}: {what} without it", is_refused(ran), ran)
        talks = [len(it.talks) for it in meters]
        check(f"{name}: no meter is called again", talks == [1, 1], talks)


@in_folder
def a_pipe_is_no_ledger(name, folder):
    """It is not opened: that would wait for a writer."""
    os.mkfifo(folder / "ledger")
    for what, command in (("run", lambda it: run(it, "m1 127.0.0.1:1 state\n")), ("status", status), ("ask", ask)):
        ran = command(folder / "ledger")
        check(f"{name}: {what}", ran.status == 3 and ran.report == "", ran)


@in_folder
def a_ledger_has_its_list_before_a_command(name, folder):
    """A kill right after the first commands leaves the list of jobs in the file itself."""
    ledger = folder / "ledger"
    with killed_run(name, ledger) as (jobs, _):
        copy = copy_alone(ledger, folder / "alone")
        with contextlib.closing(sqlite3.connect(f"file:{copy}?immutable=1", uri=True)) as database:
            try:
                found = database.execute(TABLES["job"]).fetchall()
            except sqlite3.DatabaseError as error:
                found = error
        check(f"{name}: the list", found == jobs, found)


@in_folder
def an_empty_file_is_a_ledger_of_no_run(name, folder):
    """As a part of a campaign leaves it that was ended before it began."""
    ledger = folder / "ledger"
    ledger.touch()
    counts = "".join(f"{it} 0\n" for it in ("jobs", "done", "refused", "rejected", "unknown",
                                            "not sent"))
    for command, wanted in ((status, counts), (ask, "")):
        ran = command(ledger)
        check(f"{name}: {command.__name__}", ran == (0, wanted, ""), ran)
        names = [it.name for it in folder.iterdir()]
        check(f"{name}: {command.__name__}: nothing is written",
              names == ["ledger"] and ledger.read_bytes() == b"", names)
    with running_meters(4) as meters:
        campaign = Campaign(meters, lambda place: "disconnect")
        history, ran = History(campaign), run(ledger, campaign.text)
        history.follow(ledger, 0)
        history.check_end(f"{name}: run", ran)


def make_half_made_ledgers(folder):
    """Returns what a run that was killed while it made its ledger leaves at the ledger's path: a
    byte, and a page whose first byte is not written yet."""
    path = folder / "page"
    with contextlib.closing(sqlite3.connect(path)) as database:
        database.execute("PRAGMA journal_mode = wal")
    page = path.read_bytes()
    path.unlink()
    return {"a byte": b"\0", "a page without its first byte": b"\0" + page[1:]}


@in_folder
def a_ledger_that_a_killed_run_half_made_is_completed(name, folder):
    """The log next to it has its header alone: no job was marked, so no meter was called."""
    log = bytes.fromhex("377f0682002de21800001000ffffffff01000000"
                        "0cc2eeffd4e703138cbd9cc3") + bytes(9)
    for what, text in make_half_made_ledgers(folder).items():
        (ledger := folder / "ledger").write_bytes(text)
        log_of(ledger).write_bytes(log)
        with running_meters(4) as meters:
            campaign = Campaign(meters, lambda place: "disconnect")
            history, ran = History(campaign), run(ledger, campaign.text)
            history.follow(ledger, 0)
            history.check_end(f"{name}: {what}", ran)
        ledger.unlink()
        log_of(ledger).unlink(missing_ok=True)


# Commands that run another one as a user who may only read, and with a folder that may.
OTHER_USER = ("setpriv", f"--reuid={NOBODY}", f"--regid={NOBODY}", "--clear-groups")
READ_ONLY = ("unshare", "--mount", "sh", "-c", 'mount --bind "$1" "$1" && '
             'mount -o remount,bind,ro "$1" && shift && exec "$@"', "sh")


def check_is_shown(name, what, ledger, wanted, before, temporary):
    """Checks that a status by a user who may not write to the ledger is this one, and that it
    leaves nothing, neither next to the ledger nor in the temporary folder."""
    held = {it.name: it.read_bytes() for it in ledger.parent.iterdir()}
    ran = status(ledger, before, ledger.parent.parent / "head_end",
                 {**os.environ, "TMPDIR": str(temporary)})
    check(f"{name}: {what}", ran == (0, wanted, ""), ran, wanted)
    after = {it.name: it.read_bytes() for it in ledger.parent.iterdir()}
    check(f"{name}: {what}: nothing is written", held == after, sorted(held), sorted(after))
    left = [it.name for it in temporary.iterdir()]
    check(f"{name}: {what}: the copy is removed", left == [], left)


@in_folder
def a_ledger_that_may_only_be_read_is_shown(name, folder):
    """With the marks of a killed run, which are in the log alone, and with the answers."""
    inner, temporary = folder / "inner", folder / "temporary"
    ways = {"another user": OTHER_USER, "a read-only mount": (*READ_ONLY, str(inner))}
    for path in (inner, temporary):
        path.mkdir()
    if os.geteuid() or not all(map(shutil.which, ("setpriv", "unshare"))):
        print("SKIPPED a ledger that may only be read: only root can be another user, by setpriv "
              "and unshare (Debian: apt-get install util-linux)")
        return
    if subprocess.run([*READ_ONLY, str(inner), "true"], capture_output=True).returncode:
        print("SKIPPED a read-only mount: none can be made in a mount namespace")
        del ways["a read-only mount"]
    shutil.copy(HEAD_END, folder / "head_end")
    folder.chmod(0o755)
    temporary.chmod(0o777)
    with killed_run(name, inner / "ledger") as (jobs, _):
        found = entries(inner / "ledger")
        check(f"{name}: its marks", found.begun == {0, 1}, found)
        for path in inner.iterdir():
            path.chmod(0o644)
        for what, before in ways.items():
            check_is_shown(name, what, inner / "ledger", state_of(found), before, temporary)
        ran = ask(inner / "ledger")
        check(f"{name}: is asked", ran.status == 0, ran)
        for path in inner.iterdir():
            path.chmod(0o644)
        state = ran.report.split()[-1]
        wanted = with_states(state_of(found), {jobs[1][0]: state})
        for what, before in ways.items():
            title = f"{what}, with answers"
            check_is_shown(name, title, inner / "ledger", wanted, before, temporary)


@in_folder
def what_is_no_ledger_gets_no_log(name, folder):
    """A trace that is given by mistake has no further file next to it."""
    trace, text = folder / "000001.trace", "".join(f"{it}\n" for it in (*NEW_METER, "events 0"))
    trace.write_text(text)
    for command in (status, ask, lambda it: run(it, "m1 127.0.0.1:1 state\n")):
        ran = command(trace)
        check(f"{name}: refused", ran == (2, "", "ledger: not a ledger\nfault: input\n"), ran)
        names = [it.name for it in folder.iterdir()]
        check(f"{name}: no file", names == [trace.name] and trace.read_text() == text, names)


def namespace_command(disk):
    """The command that runs another one in the mount namespace of a disk. (SQLite follows links, so
    it would not open a file by the path from outside.)"""
    user = ["--user", "--preserve-credentials"] if os.geteuid() else []
    return ["nsenter", "--target", str(disk.holder.pid), "--mount", *user, "--"]


def a_disk_is_filled(name, folder, meters, size):
    """A campaign whose ledger fills a disk, and then continues with the same files on another."""
    class LedgerDisk(SmallDisk):
        MOUNT = SmallDisk.MOUNT.replace("64k", size)

    disk = LedgerDisk(folder)
    try:
        if not disk.is_mounted:
            print("SKIPPED a full disk: no tmpfs can be mounted in a mount namespace")
            return
        campaign = campaign_of(meters, random.Random(f"{seed} {size}"))
        history, ledger = History(campaign), disk.path / "ledger"
        ran = run(folder / "ledger", campaign.text, before=namespace_command(disk))
        check(f"{name}: {size}: the fault", ran.status == 3 and "fault: write" in ran.errors,
              ran.status, ran.errors[-300:])
        history.follow(ledger, 4)
        rows = dict(line.split(" ", 1) for line in ran.report.splitlines())
        wrong = {f"job{place}": rows[f"job{place}"] for place, row in enumerate(campaign.rows)
                 if rows and rows[f"job{place}"] not in (row, "unknown")}
        check(f"{name}: {size}: its rows", not wrong, wrong)
        other = folder / f"moved{size}"
        other.mkdir()
        for file in disk.path.glob("ledger*"):
            shutil.copy(file, other)
    finally:
        disk.stop()
    ran = run(other / "ledger", campaign.text)
    history.follow(other / "ledger", 0)
    history.check_end(f"{name}: {size}: with space", ran)
    print(f"{name}: {size}: {len(history.torn)} places left without an outcome")


@in_folder
def a_full_disk_stops_the_commands(name, folder):
    if not shutil.which("unshare") or not shutil.which("nsenter"):
        print("SKIPPED a full disk: unshare or nsenter is missing (Debian: apt-get install "
              "util-linux)")
        return
    with running_meters() as meters:
        for size in FULL:
            mount = folder / f"disk{size}"
            mount.mkdir()
            try:
                a_disk_is_filled(name, mount, meters, size)
            except AssertionError as error:
                check(f"{name}: {size}", False, error)
                meters.take_counts()


def one_call_fails(folder, refusing, campaign, which, call):
    """A campaign in which one call fails, run again with none failing. Returns what happened."""
    history, ledger = History(campaign, which == "fail_stream"), folder / f"{which}{call}"
    ran = refusing.run(words_of(ledger), campaign.text.encode(), **{which: call})
    history.follow(ledger, 4)
    again = run(ledger, campaign.text)
    history.follow(ledger, 0)
    wanted = report_of(campaign.jobs, history.expected_rows())
    assert (again.status, again.report) == (0, wanted), first_differences(wanted, again.report)
    return f"status {ran.status}"


@in_folder
def a_failed_call_commands_nobody_twice(name, folder):
    """Each sync, and each read and write, fails in turn."""
    refusing = Refusing()
    with running_meters(12) as meters:
        campaign = Campaign(meters, any_verb)
        for which, index in (("fail_sync", 5), ("fail_stream", 1)):
            ample = refusing.run(words_of(folder / which), campaign.text.encode(), **{which: 0})
            campaign.take_commands()
            count, found = refusing.counts()[index], collections.Counter()
            for call in call_numbers(count, is_long):
                try:
                    found[one_call_fails(folder, refusing, campaign, which, call)] += 1
                except AssertionError as error:
                    check(f"{name}: {which} {call} of {count}", False, error)
                    meters.take_counts()
            check(f"{name}: {which}", ample.status == 0 and count > 0 and len(found), ample, count)
            print(f"{name}: {which}: {count} calls, {dict(found)}")
    refusing.stop()


@contextlib.contextmanager
def running_meters(count=JOBS):
    """Meters that count their commands, and are stopped at the end."""
    meters = CountedMeters(count)
    try:
        yield meters
    finally:
        meters.stop()


TESTS = (a_ledger_changes_no_row, killed_campaigns_command_nobody_twice, another_list_is_refused,
         what_is_no_ledger_is_refused, damaged_ledgers_are_refused, two_runs_at_once_are_refused,
         a_meter_that_was_down_is_commanded_later, jobs_of_a_meter_run_in_order,
         each_meter_has_its_password, the_state_is_that_of_the_ledger,
         meters_without_an_answer_are_asked, nothing_to_ask_changes_nothing,
         other_files_of_answers_are_refused, what_has_no_state_is_refused,
         a_ledger_without_its_log_is_refused, a_linked_ledger_has_the_log_of_its_file,
         a_pipe_is_no_ledger, a_ledger_has_its_list_before_a_command,
         an_empty_file_is_a_ledger_of_no_run, a_ledger_that_a_killed_run_half_made_is_completed,
         a_ledger_that_may_only_be_read_is_shown, what_is_no_ledger_gets_no_log,
         a_full_disk_stops_the_commands,
         a_failed_call_commands_nobody_twice)


def main():
    global is_long, seed
    parser = argparse.ArgumentParser(description=__doc__,
                                     formatter_class=argparse.RawDescriptionHelpFormatter)
    parser.add_argument("--long", action="store_true")
    parser.add_argument("--seed", type=int, default=SEED)
    given = parser.parse_args()
    is_long, seed = given.long, given.seed
    if not serving.are_built(HEAD_END):
        return 1
    begun = time.monotonic()
    for function in TESTS:
        test(function)
    print(f"in {time.monotonic() - begun:.0f} s")
    print(f"{serving.passed} passed, {serving.failed} failed")
    return 1 if serving.failed else 0


if __name__ == "__main__":
    sys.exit(main())
