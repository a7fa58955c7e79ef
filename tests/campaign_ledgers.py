#!/usr/bin/env python3
"""Tests `bin/campaign --ledgers`. Campaigns of three parts against scripted meters that count what
they receive are stopped and killed at random times, by GNU parallel, by ssh with ledgers on each
machine, and by a Slurm cluster of one node that the test starts, and run again until they are
whole: no meter may get a second command, and the report must be whole and right. Also tested:
ledgers that are missing, elsewhere or of another list, a part that arrives cut, a campaign that is
killed in its first part, two campaigns at once, a machine that does not answer, a write that fails
in mid campaign, and 20,000 jobs through Slurm that are stopped once.
Every wait has a time limit. What a missing program would test is skipped.

usage: tests/campaign_ledgers.py [--long] [--short] [--seed N]

  --long     50 campaigns that are stopped or killed instead of 4, 10 of them by ssh instead of 2
  --short    2,000 jobs through Slurm instead of 20,000
  --seed N   the seed of the random choices; the times are never the same twice"""

import argparse
import contextlib
import fcntl
import importlib.machinery
import importlib.util
import os
import random
import shutil
import signal
import socket
import subprocess
import sys
import threading
import time

sys.dont_write_bytecode = True  # importing the modules of tests/ leaves no files

import serving
from campaigns import CAMPAIGN, SSHD_PATH, Shell, stop_campaigns, started
from counted_meters import COMMANDS, CountedMeters, kind_of
from journal import in_folder
from ledger import HEAD_END, any_verb, entries, first_differences, report_of, text_of
from one_node_slurm import LONG_PATIENCE, Slurm, missing_commands
from scripted_meters import CROWD, REQUESTS, ScriptedMeter, answer_to
from serving import PASSWORD, check, wait_until

JOBS, PARTS, LINES = 150, 3, 1_000  # a part of 50 jobs is filled up with empty lines
KILLED, LONG_KILLED, KILLED_JOBS = 4, 50, 90
KILLED_BY_SSH, LONG_KILLED_BY_SSH = 2, 10
MANY, SHORT_MANY = 20_000, 2_000  # the jobs of the long array
MOST_RUNS = 40  # of one campaign
LONGEST = 300  # the time limit of a run, in seconds
LONGEST_ARRAY = 1_500  # that of the long array
is_long, is_short, seed = False, False, 49


def module_of(path):
    """A script of bin/ as a module."""
    loader = importlib.machinery.SourceFileLoader(path.name, str(path))
    module = importlib.util.module_from_spec(importlib.util.spec_from_loader(path.name, loader))
    loader.exec_module(module)
    return module


script = module_of(CAMPAIGN)
processes_of = script.processes_of


class Long:
    """A list of three parts at meters that count, in a file, and the commands that they received
    over all runs."""

    def __init__(self, folder, meters, verb_of=any_verb, parts=PARTS):
        self.path, self.meters = folder / "jobs", meters
        self.jobs = [(f"job{place}", address, verb_of(place))
                     for place, address in enumerate(meters.addresses)]
        self.rows = [CROWD[kind_of(place)][2][job[2]] for place, job in enumerate(self.jobs)]
        self.commands = [0] * len(self.jobs)
        size = len(self.jobs) // parts
        for at in range(0, len(self.jobs), size):
            with self.path.open("a") as file:
                file.write(text_of(self.jobs[at:at + size]) + "\n" * (LINES - size))

    def start(self, *words):
        """Starts the campaign, whose output goes to files."""
        environment = {**os.environ, "METER_PASSWORD": PASSWORD,
                       "PARALLEL_HOME": str(self.path.parent), "TMPDIR": str(self.path.parent)}
        words = [str(CAMPAIGN), "--ledgers", "--program", str(HEAD_END), "--timeout", "10",
                 "--connect-timeout", "5", *words, str(self.path)]
        self.output, self.errors = (self.path.with_name(it) for it in ("report", "errors"))
        with self.output.open("w") as output, self.errors.open("w") as errors:
            process = subprocess.Popen(words, stdin=subprocess.DEVNULL, stdout=output,
                                       stderr=errors, env=environment)
        started.append(process)
        return process

    def run(self, *words, limit=LONGEST):
        """Runs the campaign; returns its status, report and standard error."""
        process = self.start(*words)
        status = process.wait(limit)
        started.remove(process)
        return status, self.output.read_text(), self.errors.read_text()

    def holders(self):
        """The commands of the processes that have the record open, by their numbers."""
        return script.holders_of(self.path.with_name("jobs.campaign"))

    def is_free(self):
        """Whether no process has the record open, except those that a killed GNU parallel had
        reserved: the next campaign ends them."""
        return set(self.holders().values()) <= {script.RESERVED}

    def follow(self):
        """Adds what the meters received. Fails if one got a second command."""
        received = self.meters.take_counts()
        for place, it in enumerate(received):
            self.commands[place] += sum(it[verb] for verb in COMMANDS)
        twice = [place for place, count in enumerate(self.commands) if count > 1]
        assert not twice, f"commanded twice: places {twice}"

    def check_end(self, name, ran):
        """Checks a whole report: each row is the meter's, or unknown where a run was stopped."""
        status, report, errors = ran
        lines = report.splitlines()
        names = [line.split()[0] for line in lines] == [job[0] for job in self.jobs]
        check(f"{name}: a whole report", status == 0 and names, status, len(lines), errors[-500:])
        rows = [line.split(" ", 1)[1] for line in lines]
        wrong = [(row, wanted) for row, wanted in zip(rows, self.rows) if row not in (wanted, "unknown")]
        check(f"{name}: its rows", not wrong, wrong[:5])
        unsent = [place for place, row in enumerate(rows) if row.startswith(("done", "refused"))
                  and self.jobs[place][2] in COMMANDS and self.commands[place] != 1]
        check(f"{name}: each command once", not unsent, unsent)
        return sum(row != wanted for row, wanted in zip(rows, self.rows))


def kill_all(process):
    """Kills a campaign and all that it started."""
    while found := processes_of(process.pid):
        for it in (process.pid, *found):
            try:
                os.kill(it, signal.SIGKILL)
            except ProcessLookupError:
                pass
        process.poll()
        time.sleep(0.02)


@in_folder
def a_campaign_is_run_again(name, folder):
    meters = CountedMeters(JOBS)
    try:
        campaign = Long(folder, meters)
        ran = campaign.run("--jobs", "2", "--workers", "8")
        campaign.follow()
        wanted = report_of(campaign.jobs, campaign.rows)
        check(f"{name}: report", ran[:2] == (0, wanted), ran[0], first_differences(wanted, ran[1]),
              ran[2][-500:])
        record = folder / "jobs.campaign"
        text = record.read_text()
        check(f"{name}: the record", f"\nhost {socket.gethostname()}\nfolder {folder}/jobs.ledgers\n"
              in text, text)
        found = entries(folder / "jobs.ledgers" / "ledger.2")
        check(f"{name}: the ledger of a part", found and found.jobs == campaign.jobs[50:100])
        again = campaign.run("--jobs", "3")
        check(f"{name}: again", again[:2] == ran[:2], first_differences(wanted, again[1]), again[2])
        received = meters.take_counts()
        check(f"{name}: no connection again", not any(map(sum, map(dict.values, received))))
        refusals(name, campaign, record, text)
        check(f"{name}: nothing was sent",
              not any(map(sum, map(dict.values, meters.take_counts()))))
    finally:
        meters.stop()


@in_folder
def what_parallel_reserved_is_ended(name, folder):
    """A killed GNU parallel leaves the processes that it had reserved; they hold the lock."""
    meters = CountedMeters(JOBS)
    record, held = folder / "jobs.campaign", []
    try:
        campaign = Long(folder, meters)
        wanted = 0, report_of(campaign.jobs, campaign.rows)
        first = campaign.run("--jobs", "3")
        check(f"{name}: report", first[:2] == wanted, first)
        with record.open("a") as file:
            fcntl.flock(file, fcntl.LOCK_EX)
            for seconds in ("10101", "10102"):
                held.append(subprocess.Popen(["sleep", seconds], pass_fds=(file.fileno(),)))
        refused = campaign.run("--jobs", "3")
        check(f"{name}: refused while another process holds the lock", refused[:2] == (2, "")
              and "another campaign of this list runs" in refused[2] and held[0].poll() is None,
              refused, held[0].poll())
        held[1].kill()
        held[1].wait(LONGEST)
        again = campaign.run("--jobs", "3")
        check(f"{name}: then not", again[:2] == wanted and held[0].wait(LONGEST) == -signal.SIGKILL,
              again)
    finally:
        for it in held:
            it.kill()
            it.wait(LONGEST)
        meters.stop()


@in_folder
def a_part_that_arrives_cut_is_refused(name, folder):
    """If GNU parallel or a connection is killed while it writes a part, nothing is sent and the
    ledger stays empty: it would be that of a shorter list, and refuse the part from then on."""
    meters = CountedMeters(JOBS)
    token, part, ledger = (folder / it for it in ("token", "part.1", "ledger.1"))
    try:
        campaign = Long(folder, meters)
        jobs, rows = campaign.jobs[:50], campaign.rows[:50]
        lines = text_of(jobs).splitlines(keepends=True)
        token.write_text("a\n")
        part.write_text("".join(lines))
        ledger.touch()
        words = [str(HEAD_END), "run", "--ledger", str(ledger)]
        length = str(part.stat().st_size)
        scripts = {"at a ledger": (script.AT_LEDGER, str(folder), "a", str(ledger), str(part)),
                   "at a machine": (script.AT_MACHINE, "campaign", str(folder), "a", "1", length)}

        def run(where, text):
            return subprocess.run(["sh", "-c", *scripts[where], *words], input=text, text=True,
                                  capture_output=True, timeout=LONGEST,
                                  env={**os.environ, "METER_PASSWORD": PASSWORD})

        for where in scripts:
            for count in (0, 1, 49):
                part.write_text("".join(lines))
                ran = run(where, "".join(lines[:count]))
                check(f"{name}: {where}: {count} of 50 lines", ran.returncode == 2
                      and not ran.stdout and "did not arrive whole" in ran.stderr
                      and not ledger.stat().st_size, ran)
        check(f"{name}: nothing was sent",
              not any(map(sum, map(dict.values, meters.take_counts()))))
        part.write_text("".join(lines))
        ran = run("at a ledger", "".join(lines) + "\n" * (LINES - 50))
        check(f"{name}: whole", (ran.returncode, ran.stdout) == (0, report_of(jobs, rows)),
              ran.returncode, first_differences(report_of(jobs, rows), ran.stdout), ran.stderr)
    finally:
        meters.stop()


def refusals(name, campaign, record, text):
    """What is refused with status 2 and before anything is sent."""
    folder = campaign.path.with_name("jobs.ledgers")

    def is_refused(what, message, *words):
        ran = campaign.run(*words)
        check(f"{name}: refused: {what}", ran[:2] == (2, "") and message in ran[2], ran)

    list_before = campaign.path.read_text()
    campaign.path.write_text(list_before + "more 127.0.0.1:1 state\n")
    is_refused("another list", "the list is not the one of")
    campaign.path.write_text(list_before)
    (folder / "ledger.3").rename(folder / "away")
    is_refused("a missing ledger", "ledger.3: the ledger is missing")
    (folder / "away").rename(folder / "ledger.3")
    record.write_text(text.replace("host ", "host other"))
    is_refused("another machine", "and the campaign runs nowhere else")
    record.write_text(text)
    is_refused("another folder", "and the campaign runs nowhere else", "--folder", "/tmp")
    is_refused("ssh without a shared folder", "expected --folder DIR", "--sshlogin", "127.0.0.1")
    token = (folder / "token").read_text()
    (folder / "token").write_text("0" * 32 + "\n")
    is_refused("a copy of other ledgers", "are not there")
    (folder / "token").write_text(token)
    record.unlink()
    is_refused("no record", "has ledgers of a campaign")
    record.write_text("minutes of a meeting\n")
    is_refused("a record of another program", "is no record of a campaign")
    check(f"{name}: it is left", record.read_text() == "minutes of a meeting\n")


def run_until_whole(name, campaign, choose, words_of):
    """Stops or kills a campaign at random times and runs it again until it ends. Returns the number
    of runs."""
    longest = choose.choice((0.5, 1.0, 2.0))
    for runs in range(1, MOST_RUNS):
        process = campaign.start(*words_of(choose))
        how = choose.choice(("stop", "kill", "kill all"))
        try:
            status = process.wait(choose.uniform(0.1, longest))
        except subprocess.TimeoutExpired:
            status = None
        if status is None:
            if how == "kill all":
                kill_all(process)
            else:
                process.send_signal(signal.SIGTERM if how == "stop" else signal.SIGKILL)
            process.wait(LONGEST)
        started.remove(process)
        # (the processes that a killed campaign started run on, and hold the lock)
        assert wait_until(campaign.is_free, 3 * LONGEST), \
            f"what the campaign started does not end: {campaign.holders()}"
        campaign.follow()
        if status == 0:
            ran = status, campaign.output.read_text(), campaign.errors.read_text()
            left = campaign.check_end(name, ran)
            return runs, left
        known = campaign.output.read_text().splitlines()
        order = [int(line.split()[0][3:]) for line in known]
        assert order == sorted(order), "the rows that are known are not in the list's order"
        longest *= 1.5  # so that it ends
    raise AssertionError(f"not whole after {MOST_RUNS} runs; the last: status {status}, "
                         f"{campaign.errors.read_text()[-500:]}")


@in_folder
def killed_campaigns_command_nobody_twice(name, folder):
    runs, left = 0, 0
    for number in range(LONG_KILLED if is_long else KILLED):
        choose, meters = random.Random(f"{seed} {number}"), CountedMeters(KILLED_JOBS)
        place = folder / str(number)
        place.mkdir()
        try:
            campaign = Long(place, meters, lambda _: choose.choice(("disconnect", "reconnect", "state")))
            found = run_until_whole(f"{name} {number}", campaign, choose, lambda it: (
                "--jobs", it.choice("123"), "--workers", it.choice(("1", "4", "16"))))
            runs, left = runs + found[0], left + found[1]
        except AssertionError as error:
            check(f"{name}: campaign {number}, seed {seed}", False, error)
        finally:
            stop_campaigns()
            meters.stop()
    print(f"{name}: {runs} runs, {left} jobs left unknown", flush=True)


class Holding(ScriptedMeter):
    """A meter that answers once the test allows it."""

    def __init__(self):
        self.requested, self.allowed = threading.Event(), threading.Event()
        super().__init__(self.hold)

    def hold(self, talk):
        request = talk.open()
        self.requested.set()
        self.allowed.wait(LONGEST)
        talk.send(answer_to(request))

    def commands(self):
        """The number of commands that it received in the connections that have ended."""
        return sum(talk.frames.count(REQUESTS["disconnect"]) for talk in self.talks)


def no_part_begins_later(name, folder, *words, named, has_ended=lambda: True):
    """A campaign is killed while its first part waits for the last of its meters: the part ends, no
    other one begins, and until then a second run is refused and names what runs. The same command
    then continues, and no meter gets a second command."""
    meters, holding, place = CountedMeters(JOBS), Holding(), JOBS // PARTS - 1
    try:
        campaign = Long(folder, meters)
        job = "holding", f"127.0.0.1:{holding.port}", "disconnect"
        text = campaign.path.read_text()
        campaign.path.write_text(text.replace(" ".join(campaign.jobs[place]), " ".join(job)))
        campaign.jobs[place], campaign.rows[place] = job, "done 0"
        words = "--workers", "1", "--timeout", "0", *words
        process = campaign.start(*words)
        check(f"{name}: the part runs", holding.requested.wait(LONG_PATIENCE))
        process.kill()
        process.wait(LONGEST)
        started.remove(process)
        time.sleep(1)
        refused = campaign.run(*words)
        wanted = named(campaign)
        check(f"{name}: a second run names what runs, and the command that ends it",
              refused[:2] == (2, "") and all(it in refused[2] for it in wanted), refused, wanted)
        holding.allowed.set()
        check(f"{name}: what runs ends", wait_until(
            lambda: campaign.is_free() and has_ended(), 3 * LONGEST), campaign.holders())
        sizes = [(folder / "jobs.ledgers" / f"ledger.{it + 1}").stat().st_size
                 for it in range(PARTS)]
        check(f"{name}: no other part has begun", sizes[0] and not any(sizes[1:]), sizes)
        campaign.follow()
        check(f"{name}: no meter of another part was called", not any(campaign.commands[place:]))
        ran = campaign.run(*words)
        campaign.follow()
        campaign.commands[place] = holding.commands()
        check(f"{name}: no row is unknown", campaign.check_end(name, ran) == 0, ran[1])
    finally:
        holding.allowed.set()
        stop_campaigns()
        meters.stop()
        holding.stop()


def kill_of(command):
    """What a refusal must have: the one process of the campaign whose command begins like this, and
    the command that ends it."""
    def named(campaign):
        # (ssh is the child of a process that has the record open)
        found = [it for holder in campaign.holders() for it in processes_of(holder)
                 if script.command_of(it).startswith(command)]
        return "processes that it started:", f"{found[0]} {command}", f" kill {found[0]}\n"
    return named


@in_folder
def a_killed_campaign_begins_no_part(name, folder):
    no_part_begins_later(name, folder, "--jobs", "1", named=kill_of(f"{HEAD_END} run "))


@in_folder
def what_is_known_is_printed(name, folder):
    """A campaign that is stopped prints the rows of its ledgers; a second one meanwhile is
    refused."""
    meters = CountedMeters(JOBS)
    with socket.create_server(("127.0.0.1", 0)) as silent:
        silent.settimeout(LONG_PATIENCE)
        try:
            campaign = Long(folder, meters)
            job = f"silent 127.0.0.1:{silent.getsockname()[1]} disconnect\n"
            lines = campaign.path.read_text().splitlines(keepends=True)
            campaign.path.write_text("".join([*lines[:49], job, *lines[50:]]))
            process = campaign.start("--workers", "1", "--timeout", "0")
            output, errors = campaign.output, campaign.errors
            client, _ = silent.accept()
            ledger = folder / "jobs.ledgers" / "ledger.1"
            wait_until(lambda: len(entries(ledger).outcomes) == 49, LONG_PATIENCE)
            campaign.output, campaign.errors = folder / "report2", folder / "errors2"
            second = subprocess.run([str(CAMPAIGN), "--ledgers", "--program", str(HEAD_END),
                                     str(campaign.path)], capture_output=True, text=True,
                                    env={**os.environ, "METER_PASSWORD": PASSWORD}, timeout=LONGEST)
            check(f"{name}: a second campaign", second.returncode == 2 and not second.stdout
                  and "another campaign of this list runs" in second.stderr
                  and second.stderr.endswith(f" kill {process.pid}\n"), second)
            process.send_signal(signal.SIGTERM)
            status = process.wait(LONGEST)
            client.close()
            found = output.read_text()
            wanted = report_of(campaign.jobs[:49], campaign.rows[:49]) + "silent unknown\n"
            check(f"{name}: report", (status, found) == (143, wanted), status,
                  first_differences(wanted, found), errors.read_text()[-500:])
            check(f"{name}: how many rows", "50 of 150 jobs have a row" in errors.read_text(),
                  errors.read_text()[-500:])
            check(f"{name}: the parts that had not begun", all(
                f"campaign: part {it} was not begun: none of its jobs was sent.\n"
                in errors.read_text() for it in (2, 3)), errors.read_text()[-500:])
        finally:
            stop_campaigns()
            meters.stop()


@in_folder
def arrays_command_nobody_twice(name, folder):
    missing = missing_commands()
    if missing:
        print(f"SKIPPED Slurm: {', '.join(missing)} not installed")
        return
    slurm, meters = Slurm(folder / "slurm"), CountedMeters(JOBS)
    try:
        if not slurm.start():
            print(f"SKIPPED Slurm: the daemons that the test started accept no tasks: {slurm.errors()}")
            return
        os.environ["SLURM_CONF"] = str(slurm.configuration)
        place = folder / "one"
        place.mkdir()
        no_part_begins_later(f"{name}: no task begins a part", place, "--slurm", "--jobs", "1",
                             named=lambda _: ("of an earlier run has tasks:", "PENDING",
                                              f"RUNNING {socket.gethostname().split('.')[0]}",
                                              " scancel --name campaign."),
                             has_ended=slurm.has_no_task)
        errors = [it.read_text() for it in place.glob("campaign.*/report.[23].err")]
        check(f"{name}: what the other tasks report", len(errors) == 2
              and all(it.endswith("is not begun: its campaign does not run\n") for it in errors),
              errors)
        campaign = Long(folder, meters)
        process = campaign.start("--slurm", "--jobs", "3", "--workers", "1")
        ledgers = [folder / "jobs.ledgers" / f"ledger.{it}" for it in range(1, PARTS + 1)]
        begun = wait_until(lambda: all(it.exists() and it.stat().st_size for it in ledgers),
                           LONG_PATIENCE)
        check(f"{name}: the parts begin", begun)
        process.kill()
        process.wait(LONGEST)
        started.remove(process)
        ran = campaign.run("--slurm", "--jobs", "3", "--workers", "1")
        check(f"{name}: while tasks of the killed one run", ran[0] == 2 and (
            "another campaign of this list runs" in ran[2] or "of an earlier run has tasks" in ran[2]), ran)
        slurm.run("scancel", f"--user={os.environ.get('USER', 'root')}")
        check(f"{name}: they end", wait_until(slurm.has_no_task, LONG_PATIENCE))
        campaign.follow()
        wait_until(lambda: campaign.run("--slurm", "--jobs", "3")[0] == 0, LONG_PATIENCE)
        campaign.follow()
        left = campaign.check_end(name, (0, campaign.output.read_text(), campaign.errors.read_text()))
        print(f"{name}: {left} jobs left unknown")
        ran = campaign.run("--jobs", "3")
        check(f"{name}: and by GNU parallel in the shared folder", ran[0] == 0, ran[2])
        campaign.follow()
        campaign.check_end(f"{name}: again", ran)
    finally:
        stop_campaigns()
        slurm.stop()
        os.environ.pop("SLURM_CONF", None)
        meters.stop()


def a_long_array(name, folder, slurm, count):
    """A campaign of many parts through Slurm is stopped once, and run again until it is whole."""
    meters = CountedMeters(count, is_wide=True)
    try:
        campaign = Long(folder, meters, parts=count // LINES)
        words = ("--slurm", "--jobs", "4", "--workers", "16")
        process = campaign.start(*words)
        reports = "campaign.*/ended.*"
        begun = wait_until(lambda: process.poll() is not None or list(folder.glob(reports)), LONGEST_ARRAY)
        check(f"{name}: a part ends", begun and process.poll() is None, campaign.errors.read_text()[-500:])
        process.send_signal(signal.SIGTERM)
        status = process.wait(LONGEST)
        started.remove(process)
        known = len(campaign.output.read_text().splitlines())
        check(f"{name}: it is stopped", status == 143 and LINES <= known, status, known, campaign.errors.read_text()[-500:])
        campaign.follow()
        begun = time.monotonic()
        ran = campaign.run(*words, limit=LONGEST_ARRAY)
        campaign.follow()
        left = campaign.check_end(name, ran)
        print(f"{name}: {count} jobs, {known} rows when it was stopped, then {time.monotonic() - begun:.0f} s, {left} jobs left unknown", flush=True)
    finally:
        stop_campaigns()
        meters.stop()


@in_folder
def long_arrays_command_nobody_twice(name, folder):
    missing = missing_commands()
    if missing:
        print(f"SKIPPED Slurm: {', '.join(missing)} not installed")
        return
    slurm = Slurm(folder / "slurm")
    try:
        if not slurm.start():
            print(f"SKIPPED Slurm: the daemons that the test started accept no tasks: {slurm.errors()}")
            return
        os.environ["SLURM_CONF"] = str(slurm.configuration)
        a_long_array(name, folder, slurm, SHORT_MANY if is_short else MANY)
    finally:
        stop_campaigns()
        slurm.stop()
        os.environ.pop("SLURM_CONF", None)


def program_of_machines(folder):
    """A head end that reads the password on its machine: it is not sent."""
    password, program = folder / "password", folder / "there"
    password.write_text(f"{PASSWORD}\n")
    password.chmod(0o600)
    program.write_text(f'#!/bin/sh\nexec {HEAD_END} "$@" --password-file {password}\n')
    program.chmod(0o700)
    return program


class ByMachines(Long):
    """A campaign by ssh to two names of this machine, each with ledgers of its own."""

    def __init__(self, folder, meters, shell, verb_of=any_verb):
        super().__init__(folder, meters, verb_of)
        self.shell, self.names = shell, ("127.0.0.1", "localhost")
        self.there = program_of_machines(folder)
        self.dead, self.has_dead = "ssh -F /dev/null -p 1 -o BatchMode=yes 127.0.0.9", False

    def words(self, *names):
        """The options of a campaign on these machines."""
        logins = ",".join([self.shell.login(it) for it in names or self.names]
                          + [self.dead] * self.has_dead)
        return ("--machine-folder", str(self.path.parent / "far"), "--sshlogin", logins,
                "--program", str(self.there))

    def places(self):
        """The machine of each part that has begun, by the record."""
        text = self.path.with_name("jobs.campaign").read_text()
        return dict(line.split()[1:] for line in text.splitlines() if line.startswith("part "))

    def far_ledgers(self):
        """The ledgers in the folders of the machines."""
        return sorted(self.path.parent.glob("far/jobs.*/ledger.[0-9]"))


@in_folder
def machines_command_nobody_twice(name, folder):
    missing = [word for word in ("ssh", "ssh-keygen", "sshd") if not shutil.which(word, path=SSHD_PATH)]
    if missing:
        print(f"SKIPPED ssh: {', '.join(missing)} not installed")
        return
    shell = Shell(folder)
    try:
        if not shell.wait_for_login():
            print("SKIPPED ssh: the sshd that the test started does not accept connections")
            return
        place = folder / "whole"
        place.mkdir()
        a_campaign_by_machines(f"{name}: whole", place, shell)
        place = folder / "one"
        place.mkdir()
        login = shell.login("127.0.0.1")
        no_part_begins_later(f"{name}: no part begins by GNU parallel", place, "--jobs", "1",
                             "--sshlogin", login, "--folder", str(place), "--program",
                             str(program_of_machines(place)), named=kill_of(login))
        for number in range(LONG_KILLED_BY_SSH if is_long else KILLED_BY_SSH):
            choose, meters = random.Random(f"{seed} ssh {number}"), CountedMeters(KILLED_JOBS)
            place = folder / str(number)
            place.mkdir()
            try:
                campaign = ByMachines(place, meters, shell)
                runs, left = run_until_whole(f"{name} {number}", campaign, choose, lambda it: (
                    *campaign.words(), "--jobs", it.choice("12"), "--workers", it.choice(("1", "4"))))
                print(f"{name} {number}: {runs} runs, {left} jobs left unknown", flush=True)
            except AssertionError as error:
                check(f"{name}: campaign {number}, seed {seed}", False, error)
            finally:
                stop_campaigns()
                meters.stop()
    finally:
        shell.stop()


def a_campaign_by_machines(name, folder, shell):
    meters = CountedMeters(JOBS)
    try:
        campaign = ByMachines(folder, meters, shell)
        campaign.has_dead = True
        ran = campaign.run(*campaign.words(), "--jobs", "2")
        campaign.follow()
        check(f"{name}: a machine that does not answer", "127.0.0.9: no part runs there" in ran[2], ran[2])
        campaign.has_dead = False
        wanted = report_of(campaign.jobs, campaign.rows)
        check(f"{name}: report", ran[:2] == (0, wanted), ran[0], first_differences(wanted, ran[1]),
              ran[2][-500:])
        places = campaign.places()
        check(f"{name}: the record names the machine of each part", set(places) == {"1", "2", "3"}
              and set(places.values()) == set(campaign.names), places)
        check(f"{name}: the ledgers", len(campaign.far_ledgers()) == PARTS
              and not list((folder / "jobs.ledgers").glob("ledger.[0-9]")))
        record = folder / "jobs.campaign"
        with record.open("a") as file:
            file.write("part 3 another")  # (no line end: a crash left it)
        again = campaign.run(*campaign.words(), "--jobs", "3")
        check(f"{name}: again, after a torn line", again[:2] == ran[:2] and campaign.places() == places,
              first_differences(wanted, again[1]), again[2])
        check(f"{name}: no connection again", not any(map(sum, map(dict.values, meters.take_counts()))))
        machine_refusals(name, campaign, record)
        check(f"{name}: nothing was sent", not any(map(sum, map(dict.values, meters.take_counts()))))
    finally:
        stop_campaigns()
        meters.stop()


# An ssh to this machine: its first word is the host, its second one the command.
NO_SSH = '#!/bin/sh\nexec sh -c "$2"\n'

# A head end. The first part ends once the second one runs, and leaves a folder at the path of a file
# that the campaign writes before the third part begins.
OBSTRUCTING = """#!/bin/sh
case $(cat) in
    first*)
        while [ ! -s "{folder}/process" ]; do sleep 0.1; done
        mkdir "{folder}/jobs.ledgers/ledger.3.at"
        echo "first done 0" ;;
    second*) echo $$ > "{folder}/process"; exec sleep 600 ;;
    *) echo "third done 0" ;;
esac
"""


@in_folder
def a_failed_write_ends_the_parts(name, folder):
    """A campaign by machines that can't write a file is stopped: the part that runs is ended, and
    the rows of the one that has ended are printed."""
    ssh, program, path, process = (folder / it for it in ("ssh", "program", "jobs", "process"))
    for it, text in (ssh, NO_SSH), (program, OBSTRUCTING.format(folder=folder)):
        it.write_text(text)
        it.chmod(0o700)
    path.write_text(("\n" * LINES).join(f"{it} {it}:1 state" for it in ("first", "second", "third")))
    words = ["--ledgers", "--machine-folder", str(folder / "far"), "--program", str(program),
             "--sshlogin", f"{ssh} one,{ssh} other", str(path)]
    ran = subprocess.run([str(CAMPAIGN), *words], stdin=subprocess.DEVNULL, capture_output=True,
                         text=True, timeout=LONGEST)
    check(f"{name}: report", (ran.returncode, ran.stdout) == (1, "first done 0\n"), ran)
    wanted = (f"{folder}/jobs.ledgers/ledger.3.at: Is a directory: started no more parts and stopped "
              "those that ran", "part 2 failed ", "part 3 was not begun: none of its jobs was sent",
              "1 of 3 jobs have a row")
    check(f"{name}: what it says", all(f"campaign: {it}" in ran.stderr for it in wanted), ran.stderr)
    number = process.read_text().strip()
    check(f"{name}: no part is left", wait_until(lambda: not os.path.exists(f"/proc/{number}"), 10), number)


def machine_refusals(name, campaign, record):
    """What is refused with status 2 and before anything is sent."""

    def is_refused(what, message, *words):
        ran = campaign.run(*words)
        check(f"{name}: refused: {what}", ran[:2] == (2, "") and message in ran[2], ran)

    is_refused("a machine that has a ledger is not named", "is on localhost, which --sshlogin does "
               "not name", *campaign.words("127.0.0.1"))
    is_refused("on one machine", "and the campaign runs nowhere else")
    is_refused("another folder", "and the campaign runs nowhere else", *campaign.words(),
               "--machine-folder", "/tmp")
    is_refused("no folder", "expected --folder DIR", *campaign.words()[2:])
    ledger = campaign.far_ledgers()[0]
    ledger.rename(ledger.with_name("away"))
    is_refused("a missing ledger", "ledger.1: the ledger is not there", *campaign.words())
    ledger.with_name("away").rename(ledger)
    text = record.read_text()
    record.unlink()
    is_refused("no record", "has ledgers of a campaign", *campaign.words())
    record.write_text(text)


TESTS = (a_campaign_is_run_again, what_is_known_is_printed, what_parallel_reserved_is_ended,
         a_part_that_arrives_cut_is_refused, a_killed_campaign_begins_no_part,
         killed_campaigns_command_nobody_twice, a_failed_write_ends_the_parts,
         machines_command_nobody_twice, arrays_command_nobody_twice,
         long_arrays_command_nobody_twice)


def main():
    global is_long, is_short, seed
    parser = argparse.ArgumentParser(description=__doc__,
                                     formatter_class=argparse.RawDescriptionHelpFormatter)
    parser.add_argument("--long", action="store_true")
    parser.add_argument("--short", action="store_true")
    parser.add_argument("--seed", type=int, default=seed)
    given = parser.parse_args()
    is_long, is_short, seed = given.long, given.short, given.seed
    if not serving.are_built(HEAD_END):
        return 1
    if not shutil.which("parallel"):
        print("SKIPPED bin/campaign --ledgers: GNU parallel is not installed\n0 passed, 0 failed")
        return 0
    return serving.run_tests(TESTS)


if __name__ == "__main__":
    sys.exit(main())
