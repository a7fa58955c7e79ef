#!/usr/bin/env python3
"""Tests switching campaigns over the loopback interface: `head_end run` with 200 running meters
(`meter_server serve`) and with scripted meters that refuse, reject, stay silent, disconnect or send
garbage; `bin/campaign` with a crowd of scripted meters, by GNU parallel, by ssh and by a Slurm
cluster of one node that the test starts. Every wait has a time limit.

usage: tests/campaigns.py [--short]     (--short: campaigns of 2,000 jobs instead of 20,000)"""

import argparse
import errno
import os
import pathlib
import pty
import re
import resource
import shutil
import signal
import socket
import subprocess
import sys
import tempfile
import threading
import time

sys.dont_write_bytecode = True  # importing the modules of tests/ leaves no files

import serving
from programs import HEAD_END, IS_UNPROVED
from one_node_slurm import LONG_PATIENCE, Slurm, missing_commands
from scripted_meters import AARQ, CROWD, HOLDING, RELEASE, REQUESTS, SCRIPTS, Crowd, ScriptedMeter, Unheard, answer_to, answers_slowly, \
    answers_the_release, does_it, loopback_address
from serving import (MODE, PASSWORD, PATIENCE, PLAYER, SERVER, TOP, Client, Server, check,
                     play_trace, process_text, test, wait_until)

CAMPAIGN = TOP / "bin" / "campaign"

METERS = 200
REFUSING, REJECTING = 7, 13  # of each 20 meters, the one that stays in mode 0 and the one with another password
MODES = 6
VERBS = ("disconnect", "state", "reconnect", "state")  # the campaigns with all meters
WORKERS = (16, 1)
LIMITS = ("--timeout", "5", "--connect-timeout", "2")
LONGEST = 300  # the time limit of a campaign, in seconds
PROGRESS = r"jobs done 1 of 2, unknown 0, about \d+ s to go\njobs done 2 of 2, unknown 0, about 0 s to go\n"

OPENING = """RELAYTRACE 2
device 52454C415931
state 1
mode {mode}
value 0
now -
{limiter}
xvalue 0
{export}
scripts 0100
schedule 0 0 5 0100
schedule 1 0 5 0100
schedule 2 0 5 0100
schedule 3 0 5 0100
events 0
"""
LIMITER = ("normal 4294967295", "emergency 4294967295", "minover 0", "minunder 0", "profile 0 FFFFFFFFFFFFFFFFFF8000FF 0", "groups", "actions 0 0", "over 0 0",
           "under 0 0")

def trace_in_mode(mode):
    """A trace without events of a new meter in this mode."""
    return OPENING.format(mode=mode, limiter="\n".join(LIMITER), export="\n".join("x" + line for line in LIMITER)).encode()


class Meter(Server):
    """A running meter. It gets its mode from a client or from the trace that it resumes from, and
    ends after its connections or with its standard input."""

    def __init__(self, number):
        self.name = f"meter{number}"
        self.mode = {REFUSING: 0}.get(number % 20, 1 + number % MODES)
        self.rejects = number % 20 == REJECTING
        self.resumes = number % 2 == 0
        self.writes = self.mode > 0 and not self.resumes and not self.rejects
        self.counts = number % 3 == 0
        words = [str(SERVER), "serve", "--listen", "127.0.0.1:0", "--verbose", "--password", "87654321" if self.rejects else PASSWORD]
        words += ["--connections", str(len(VERBS) + self.writes)] if self.counts else ["--stop-with-input"]
        words += ["--resume"] if self.resumes else []
        self.start(words)
        if self.resumes:
            self.say_bytes(trace_in_mode(self.mode))

    def begin(self):
        """Waits until the meter listens, and writes its mode."""
        self.wait_for(b"\n")
        line = re.match(rb"\S+ listening on 127\.0\.0\.1:(\d+)\n", self.errors)
        assert line, f"{self.name} does not listen: {self.errors}"
        self.port = int(line[1])
        if self.writes:
            client = Client(self.port)
            client.associate()
            assert client.set(MODE, f"160{self.mode}") == "code 0"
            client.close()
        if self.counts:
            self.end_input()

    def expected_results(self):
        """The expected row of each campaign (IEC 62056-6-2, class 70, control modes)."""
        if self.rejects:
            return ["rejected 13"] * len(VERBS)
        if self.mode == 0:
            return ["refused 2", "done 1", "done 0", "done 1"]
        return ["done 0", "done 0", "done 0", "done 1" if self.mode in (2, 4) else "done 2"]

    def history_of(self, rows):
        """The events and replies of its trace that follow from these rows of the reports."""
        history = [(f"set 1 70 000060030AFF 4 0 160{self.mode}", "code 0")] if self.writes else []
        for verb, row in zip(VERBS, rows):
            word, number = (*row.split(), "")[:2]
            if word in ("rejected", "unknown"):
                continue
            if verb == "state":
                history.append(("get 1 70 000060030AFF 3 0", f"value 160{number}" if word == "done" else f"code {number}"))
            else:
                history.append((f"execute 1 70 000060030AFF {1 if verb == 'disconnect' else 2} 0F00", f"code {number}"))
        return history


class OddMeter:
    """A scripted meter in the list of jobs. One that blocks its worker up to the time limit is only
    in the first campaign."""

    def __init__(self, script, outcomes, frames):
        self.name = script.__name__
        self.outcomes = dict(zip(("disconnect", "reconnect", "state"), outcomes))
        self.frames = frames
        self.verbs = VERBS[:1] if script in HOLDING else VERBS
        self.meter = ScriptedMeter(script)
        self.port = self.meter.port

    def expected_results(self):
        """The results that the meter's jobs must have."""
        return [self.outcomes[verb] for verb in self.verbs]

    def check_talks(self, name):
        """Checks that each connection had the AARQ, the request at most once, the release only
        after an outcome, and nothing else."""
        talks = self.meter.wait_for_talks(len(self.verbs))
        check(f"{name}: {self.name}: a connection for each job", len(talks) == len(self.verbs), len(talks))
        for verb, talk in zip(self.verbs, talks):
            right = [AARQ, REQUESTS[verb], RELEASE][:len(talk.frames)]
            check(f"{name}: {self.name}: {verb}", talk.frames == right and len(talk.frames) in self.frames and not talk.text, talk.frames, talk.text)


class Place:
    """An address where no meter answers."""

    def __init__(self, name, port, times):
        self.name = name
        self.port = port
        self.times = times

    def expected_results(self):
        """The results that the meter's jobs must have."""
        return ["unknown"] * self.times


def start_meters(meters, count):
    """Adds `count` meters that listen, or as many as the machine can run."""
    try:
        for number in range(count):
            meters.append(Meter(number))
    except OSError as error:
        print(f"only {len(meters)} of {count} meters started: {error}")
    for meter in meters:
        meter.begin()


def mix(many, few):
    """The list `many` with the items of `few` spread over it."""
    step = len(many) // len(few)
    rest = list(many)
    for place, one in enumerate(few):
        rest.insert(place * (step + 1), one)
    return rest


def report_of(rows):
    """The report with these rows."""
    return "".join(f"{name} {row}\n" for name, row in rows)


def without_warnings(errors):
    """Standard error without its warnings, since the jobs of these campaigns share names and
    addresses, and without the notice of programs that are not proved."""
    words = [": warning: "] + ["head_end: NOT PROVED: "] * IS_UNPROVED
    return "".join(line + "\n" for line in errors.splitlines() if not any(it in line for it in words))


def run_head_end(jobs, *words):
    """Runs a campaign; returns its status, standard output and standard error."""
    made = subprocess.run([str(HEAD_END), "run", "--password", PASSWORD, *words], input=jobs.encode(), capture_output=True, timeout=LONGEST)
    return made.returncode, made.stdout.decode(), without_warnings(made.stderr.decode())


def differences(wanted, got):
    """The first lines that differ."""
    pairs = list(zip(wanted.splitlines(), got.splitlines()))
    return [pair for pair in pairs if pair[0] != pair[1]][:5], len(wanted.splitlines()), len(got.splitlines())


def run_campaigns(name, street, workers):
    """Runs the campaigns with all meters of a street; returns the reports and the rows of each
    meter."""
    rows = {one.name: [] for one in street}
    texts = []
    for turn, verb in enumerate(VERBS):
        there = [one for one in street if len(one.expected_results()) > turn]
        jobs = "".join(f"{one.name} 127.0.0.1:{one.port} {verb}\n" for one in there)
        status, text, errors = run_head_end(jobs, "--workers", str(workers), *LIMITS)
        wanted = report_of((one.name, one.expected_results()[turn]) for one in there)
        check(f"{name}: {verb}", (status, text, errors) == (0, wanted, ""), status, differences(wanted, text), errors[:200])
        texts.append(text)
        for line in text.splitlines():
            known, row = line.split(" ", 1)
            rows[known].append(row)
    return texts, rows


def check_meters(name, meters, rows):
    """Checks that each meter's trace plays to what the reports say: each command once, and nothing
    else."""
    for meter in meters:
        if not meter.process.stdin.closed:
            meter.end_input()
    for meter in meters:
        status, trace, errors = meter.end()
        check(f"{name}: {meter.name}: ends", status == 0 and "fault" not in errors, status, errors)
        history = [pair for pair in play_trace(trace) if not pair[0].startswith("getlist 1 2 71 ")]  # the sampler reads the thresholds
        check(f"{name}: {meter.name}: its trace", history == meter.history_of(rows[meter.name]), history, rows[meter.name])


def a_street(name, workers, count):
    """Runs the campaigns with `count` meters and the scripted ones among them; returns the reports
    and the number of running meters."""
    meters, odd, unheard = [], [], Unheard()
    try:
        start_meters(meters, count)
        odd = [OddMeter(*row) for row in SCRIPTS]
        nobody = [Place("nobody_listens", unheard.closed_port, len(VERBS)), Place("nobody_accepts", unheard.full_port, 1)]
        texts, rows = run_campaigns(name, mix(meters, odd + nobody), workers)
        check_meters(name, meters, rows)
        for one in odd:
            one.check_talks(name)
        print(f"{name}: {len(meters)} running meters, {len(odd) + len(nobody)} others")
        return texts, len(meters)
    finally:
        for meter in meters:
            meter.stop()
        for one in odd:
            one.meter.stop()
        unheard.stop()


def campaigns_among_running_meters(name):
    many, one = WORKERS
    texts, count = a_street(f"{name}, workers {many}", many, METERS)
    others, _ = a_street(f"{name}, workers {one}", one, count)
    check(f"{name}: one text for each number of workers", texts == others)


def a_meter_is_reached_by_its_name(name):
    meter = ScriptedMeter(does_it)
    made = run_head_end(f"m1 localhost:{meter.port} disconnect\nm2 nowhere state\n", *LIMITS)
    check(f"{name}: report", made == (0, "m1 done 0\nm2 unknown\n", ""), made)
    check(f"{name}: what it got", [talk.frames for talk in meter.wait_for_talks(1)] == [[AARQ, REQUESTS["disconnect"], RELEASE]])
    meter.stop()


def a_file_has_the_password(name):
    """A campaign whose password is in a file: the meter is a server with that password, and neither
    the command line nor the environment of the campaign has it."""
    with tempfile.TemporaryDirectory(prefix="passwords-") as folder:
        path = pathlib.Path(folder) / "password"
        path.touch(0o600)
        path.write_text("of the file\n")
        server = Server("--connections", "1", "--password-file", str(path), password=None)
        campaign = subprocess.Popen([str(HEAD_END), "run", "--password-file", str(path)], stdin=subprocess.PIPE, stdout=subprocess.PIPE, text=True,
                                    env={**os.environ, "METER_PASSWORD": "of the environment"})
        shown = process_text(campaign)
        check(f"{name}: not shown", b"--password-file" in shown and b"of the environment" in shown and b"of the file" not in shown, shown)
        report, _ = campaign.communicate(f"m1 127.0.0.1:{server.port} state\n", timeout=LONGEST)
        check(f"{name}: report", (campaign.returncode, report) == (0, "m1 done 1\n"), campaign.returncode, report)
        check(f"{name}: end", server.end()[0] == 0)


def each_meter_has_its_password(name):
    """A campaign whose meters have passwords of their own, in a file; m3 has the common one, and m4
    gets a wrong one."""
    with tempfile.TemporaryDirectory(prefix="passwords-") as folder:
        path = pathlib.Path(folder) / "passwords"
        path.touch(0o600)
        path.write_text("m2 22222222\nm1 11111111\nm4 wrong\nother 1\n")
        servers = [Server("--connections", "1", "--password", word, password=None) for word in ("11111111", "22222222", "33333333", "44444444")]
        jobs = "".join(f"m{number} 127.0.0.1:{server.port} state\n" for number, server in enumerate(servers, 1))
        campaign = subprocess.Popen([str(HEAD_END), "run", "--passwords", str(path), *LIMITS], stdin=subprocess.PIPE, stdout=subprocess.PIPE, stderr=subprocess.PIPE,
                                    text=True, env={**os.environ, "METER_PASSWORD": "33333333"})
        shown = process_text(campaign)
        report, errors = campaign.communicate(jobs, timeout=LONGEST)
        wanted = "m1 done 1\nm2 done 1\nm3 done 1\nm4 rejected 13\n"
        check(f"{name}: report", (campaign.returncode, report, errors) == (0, wanted, ""), campaign.returncode, report, errors)
        check(f"{name}: not shown", not any(word in shown for word in (b"11111111", b"22222222", b"wrong")), shown)
        for server in servers:
            check(f"{name}: end", server.end()[0] == 0)


def jobs_of_a_meter_run_in_order(name):
    """Jobs of one meter reach it one after the other, in the order of the list, whatever the number
    of workers."""
    verbs = ["disconnect", "reconnect", "state", "disconnect", "state", "reconnect", "disconnect"]
    for workers in ("1", "4", "16"):
        meters = [ScriptedMeter(answers_slowly) for _ in range(3)]
        rows = [(f"m{number}{verb}{turn}", meter, verb) for turn, verb in enumerate(verbs) for number, meter in enumerate(meters)]
        jobs = "".join(f"{job} 127.0.0.1:{meter.port} {verb}\n" for job, meter, verb in rows)
        made = run_head_end(jobs, "--workers", workers, *LIMITS)
        check(f"{name}, workers {workers}: report", made == (0, report_of((job, "done 0") for job, _, _ in rows), ""), made)
        for meter in meters:
            requests = [talk.frames[1] for talk in meter.wait_for_talks(len(verbs))]
            check(f"{name}, workers {workers}: order", requests == [REQUESTS[verb] for verb in verbs], requests)
            meter.stop()


def jobs_run_in_parallel(name):
    """Each of two meters answers only once the other has received its request."""
    asked = [threading.Event(), threading.Event()]

    def script_of(own, other):
        def waits_for_the_other(talk):
            request = talk.open()
            own.set()
            if other.wait(PATIENCE):
                talk.send(answer_to(request))

        return waits_for_the_other

    meters = [ScriptedMeter(script_of(*asked)), ScriptedMeter(script_of(*reversed(asked)))]
    jobs = "".join(f"m{number} 127.0.0.1:{meter.port} disconnect\n" for number, meter in enumerate(meters))
    made = run_head_end(jobs, "--workers", "2", *LIMITS)
    check(name, made == (0, "m0 done 0\nm1 done 0\n", ""), made)
    for meter in meters:
        meter.stop()


def no_connection_is_reset(name):
    """The client reads the answer to its release before it closes: the meter sees the end of the
    stream, and no reset."""
    meter = ScriptedMeter(answers_the_release)
    made = run_head_end("".join(f"m{turn} 127.0.0.1:{meter.port} {verb}\n" for turn, verb in enumerate(REQUESTS)), *LIMITS)
    check(f"{name}: report", made == (0, "m0 done 0\nm1 done 0\nm2 done 0\n", ""), made)
    endings = [talk.ending for talk in meter.wait_for_talks(3)]
    check(f"{name}: endings", endings == ["end"] * 3, endings)
    meter.stop()


def text_of_terminal(terminal):
    """All that was written to a terminal that nobody has open any more: a read gives some of it,
    one at the end fails."""
    pieces = []
    try:
        while piece := os.read(terminal, 4_096):
            pieces.append(piece)
    except OSError as fault:
        if fault.errno != errno.EIO:
            raise
    return b"".join(pieces).decode().replace("\r\n", "\n")


def progress_is_reported(name):
    meter = ScriptedMeter(does_it)
    status, text, errors = run_head_end(f"m1 127.0.0.1:{meter.port} state\nm2 127.0.0.1:{meter.port} reconnect\n", "--progress", "--workers", "1")
    check(name, (status, text) == (0, "m1 done 0\nm2 done 0\n") and re.fullmatch(PROGRESS, errors), status, text, errors)
    # On a terminal, progress is reported without the option.
    terminal, standard_error = pty.openpty()
    jobs = f"m1 127.0.0.1:{meter.port} state\nm2 127.0.0.1:{meter.port} reconnect\n"
    ran = subprocess.run([str(HEAD_END), "run", "--password", PASSWORD, "--workers", "1"], input=jobs, stdout=subprocess.PIPE, stderr=standard_error, text=True, timeout=60)
    os.close(standard_error)
    lines = text_of_terminal(terminal)
    os.close(terminal)
    check(f"{name}, on a terminal", (ran.returncode, ran.stdout) == (0, "m1 done 0\nm2 done 0\n") and re.fullmatch(PROGRESS, without_warnings(lines)), ran, lines)
    meter.stop()


def address_of(number, port):
    """A loopback address of its own for each job."""
    return f"{loopback_address(number)}:{port}"


def crowd_jobs(crowd, count):
    """A list of jobs, each for a kind of meter and a verb; the expected report; and the number of
    jobs of each kind and verb."""
    verbs = list(REQUESTS)
    jobs, rows, expected = [], [], [dict.fromkeys(("jobs", *verbs), 0) for _ in CROWD]
    for number in range(count):
        kind, verb = number % len(CROWD), verbs[number // len(CROWD) % len(verbs)]
        jobs.append(f"job{number} {address_of(number, crowd.ports[kind])} {verb}\n")
        rows.append((f"job{number}", CROWD[kind][2][verb]))
        expected[kind]["jobs"] += 1
        expected[kind][verb] += 1
    return "".join(jobs), report_of(rows), expected


def expected_counts(expected):
    """The counts of the crowd after these jobs: for each job one connection and one AARQ, one
    request if the association was opened, and a release if the request was answered."""
    counts = []
    for (opening, answers, outcomes), jobs in zip(CROWD, expected):
        opens = opening is not None and outcomes["state"] != "rejected 13"
        counts.append({"connections": jobs["jobs"], "aarq": jobs["jobs"], **{verb: jobs[verb] if opens else 0 for verb in REQUESTS},
                       "release": jobs["jobs"] if answers else 0, "strange": 0})
    return counts


def run_campaign(path, *words):
    """Runs bin/campaign; returns its status, standard output, standard error and seconds. The files
    of parallel go to the folder of the jobs."""
    begun = time.monotonic()
    program = [] if "--program" in words else ["--program", str(HEAD_END)]
    made = subprocess.run([str(CAMPAIGN), *program, "--workers", "8", *words, str(path)], stdin=subprocess.DEVNULL, capture_output=True,
                          timeout=LONGEST, env={**os.environ, "METER_PASSWORD": PASSWORD, "PARALLEL_HOME": str(path.parent)})
    return made.returncode, made.stdout.decode(), without_warnings(made.stderr.decode()), time.monotonic() - begun


def check_campaign(name, crowd, path, wanted, expected, *words):
    """Runs a campaign with a crowd and checks that the report is the expected one, and that each
    meter got each command once."""
    status, text, errors, seconds = run_campaign(path, *words)
    check(f"{name}: report", (status, text, errors) == (0, wanted, ""), status, differences(wanted, text), errors[:500])
    got = crowd.counts()
    check(f"{name}: each command once", got == expected_counts(expected), got,
          expected_counts(expected))
    print(f"{name}: {wanted.count(chr(10)):,} jobs in {seconds:.1f} s")


def campaigns_in_parallel(name, crowd, folder, count):
    jobs, wanted, expected = crowd_jobs(crowd, count)
    path = folder / "jobs"
    path.write_text(jobs)
    for side in ("1", "2", "8"):
        check_campaign(f"{name}: {side} parts in parallel", crowd, path, wanted, expected, "--jobs", side)


def program_that_fails(folder):
    """A head end that fails for each part with a job of the name fails1."""
    path = folder / "failing"
    path.write_text(f"""#!/bin/sh
[ "$1" = run ] || exec {HEAD_END} "$@"
jobs=$(mktemp) && trap 'rm -f "$jobs"' EXIT && cat > "$jobs"
if grep -q '^fails1 ' "$jobs"; then exit 4; fi
{HEAD_END} "$@" < "$jobs"
""")
    path.chmod(0o700)
    return path

def own_lines(errors):
    """The lines of the errors that bin/campaign itself wrote."""
    return [line for line in errors.splitlines() if line.startswith("campaign:")]

def a_part_that_fails_is_named(name, crowd, folder):
    jobs, wanted, expected = crowd_jobs(crowd, 1000)
    path = folder / "part"
    path.write_text("fails1 127.0.0.1:1 state\nfails2 127.0.0.1:1 state\n" + "\n" * 998 + jobs)
    status, text, errors, _ = run_campaign(path, "--jobs", "2", "--program", str(program_that_fails(folder)))
    check(f"{name}: the other part's report", (status, text) == (1, wanted), status, differences(wanted, text))
    lines = ["campaign: part 1 failed (exit status 4): the results of its jobs are unknown, and none is sent again. Its jobs:",
             "campaign:     fails1", "campaign:     fails2"]
    check(f"{name}: its jobs", own_lines(errors) == lines, errors)
    check(f"{name}: each command once", crowd.counts() == expected_counts(expected))

def a_wrong_list_sends_nothing(name, crowd, folder):
    jobs, _, _ = crowd_jobs(crowd, 1001)
    _, _, none = crowd_jobs(crowd, 0)
    path = folder / "wrong"
    path.write_text(jobs + "wrong1 127.0.0.1:1 close\nwrong2 127.0.0.1:1 open\n" + "\n" * 997 + "\nwrong3 127.0.0.1:1\n")
    status, text, errors, _ = run_campaign(path, "--jobs", "2")
    check(f"{name}: status", (status, text) == (2, ""), status, text)
    lines = [line.split(":")[1] for line in own_lines(errors)]
    check(f"{name}: all wrong lines", lines == [" line 1002", " line 1003", " line 2002", " findings", " nothing was sent"], errors)
    check(f"{name}: their number", "campaign: findings: 3\n" in errors, errors)
    check(f"{name}: no command", crowd.counts() == expected_counts(none))

def a_list_is_warned_of(name, crowd, folder):
    """Warnings about parts have the line numbers of the whole list, and the list is run."""
    path = folder / "odd"
    path.write_text(f"#m1 127.0.0.1:{crowd.ports[0]} state\n" + "\n" * 999 + "m2 127.0.0.1:0 state\n" + f"#m1 127.0.0.1:{crowd.ports[0]} state\n")
    made = subprocess.run([str(CAMPAIGN), "--program", str(HEAD_END), str(path)], stdin=subprocess.DEVNULL, capture_output=True, text=True, timeout=LONGEST,
                          env={**os.environ, "METER_PASSWORD": PASSWORD, "PARALLEL_HOME": str(folder)})
    crowd.counts()
    check(f"{name}: names of the report", [line.split()[0] for line in made.stdout.splitlines()] == ["#m1", "m2", "#m1"], made)
    wanted = [f"campaign: line {line}" for line in ("1: warning: `#` begins a name, not a comment", "1001: warning: the port of the address must be 1 to 65535",
              "1002: warning: `#` begins a name, not a comment", "1002: warning: line 1 has the same name", "1002: warning: line 1 has the same address")]
    lines = made.stderr.splitlines()
    check(f"{name}: lines", len(lines) == len(wanted) and all(line.startswith(it) for line, it in zip(lines, wanted)), made.stderr)


# A head end that keeps the list of each part, and reports each job as done.
KEEPING = """#!/bin/sh
case $1 in run) tee "{folder}/kept.$PARALLEL_SEQ" | sed '/^$/d; s/ .*/ done 0/' ;; esac
"""


def jobs_of_an_address_are_in_one_part(name, folder):
    """Jobs of one address are in one part, in the list's order, and the report is in the list's
    order too; an address with more jobs than a part is refused."""
    program, path = folder / "keeping", folder / "shared"
    program.write_text(KEEPING.format(folder=folder))
    program.chmod(0o700)
    # (so that each third job has an address of the first part)
    jobs = [f"job{number} {address_of(number % 900 if number % 3 == 0 else number, 1)} state\n" for number in range(2_500)]
    path.write_text("".join(jobs))
    status, text, _, _ = run_campaign(path, "--jobs", "2", "--program", str(program))
    check(f"{name}: report", (status, text) == (0, "".join(f"job{number} done 0\n" for number in range(2_500))), status, text[:200])
    parts = [it.read_text().splitlines() for it in folder.glob("kept.*")]
    parts = [[line for line in it if line] for it in parts]
    check(f"{name}: all jobs", sorted(line for it in parts for line in it) == sorted(line.strip() for line in jobs))
    check(f"{name}: at most 1,000 in a part", max(map(len, parts)) <= 1_000 and len(parts) >= 3, [len(it) for it in parts])
    addresses = [{line.split()[1] for line in it} for it in parts]
    check(f"{name}: no address in two parts", sum(map(len, addresses)) == len(set.union(*addresses)))
    ordered = all(it == sorted(it, key=lambda line: int(line.split()[0][3:])) for it in parts)
    check(f"{name}: in the list's order", ordered)
    path.write_text("".join(f"job{number} h:1 state\n" for number in range(1_001)))
    status, text, errors, _ = run_campaign(path, "--program", str(program))
    check(f"{name}: too many jobs of one address", (status, text) == (2, "") and "line 1001: h:1: a part has at most 1,000 jobs" in errors, status, errors)


# A head end that knows the options of files of passwords, and reports its words and the password of
# its environment.
TELLING = """#!/bin/sh
case "$*" in run*--help) echo --passwords --password-file ;; run*) echo "$* [$METER_PASSWORD]" >&2; sed '/^$/d; s/ .*/ done 0/' ;; esac
"""


def files_of_passwords_are_passed_on(name, folder):
    program, path, passwords, password = (folder / it for it in ("telling", "two", "passwords", "password"))
    program.write_text(TELLING)
    program.chmod(0o700)
    path.write_text("m1 h:1 state\nm2 h:2 state\n")
    passwords.write_text("m1 one\n")

    def run(variables, *words):
        environment = {it: text for it, text in os.environ.items() if it != "METER_PASSWORD"} | {"PARALLEL_HOME": str(folder), **variables}
        return subprocess.run([str(CAMPAIGN), "--program", str(program), *(words or ("--passwords", str(passwords))), str(path)], stdin=subprocess.DEVNULL,
                              capture_output=True, text=True, timeout=LONGEST, env=environment, cwd=folder)

    made = run({})
    check(f"{name}: a job without one", (made.returncode, made.stdout) == (2, "") and "job m2: it has no line in" in made.stderr, made)
    made = run({"METER_PASSWORD": "common"})
    wanted = "m1 done 0\nm2 done 0\n", f"run --passwords {passwords} [common]\n"
    check(f"{name}: with a common one", (made.returncode, made.stdout, made.stderr) == (0, *wanted), made)
    passwords.write_text("m1 one\nm2 two\n")
    made = run({})
    check(f"{name}: one for each", (made.returncode, made.stderr) == (0, wanted[1].replace("common", "")), made)
    made = run({}, "--password-file", "password")
    check(f"{name}: a file that is missing", (made.returncode, made.stdout) == (2, "") and f"{password}: No such file" in made.stderr, made)
    password.write_text("common\n")
    passwords.write_text("m1 one\n")
    made = run({}, "--passwords", "passwords", "--password-file", "password")
    check(f"{name}: the common one in a file", (made.returncode, made.stderr) == (0, f"run --password-file {password} --passwords {passwords} []\n"), made)


def is_running(program):
    """Whether a process runs this executable."""
    for it in pathlib.Path("/proc").iterdir():
        try:
            if it.name.isdigit() and os.readlink(it / "exe") == str(program):
                return True
        except OSError:
            pass
    return False


started = []  # campaigns that may still run


def start_campaign(path, *words, errors):
    """Starts bin/campaign, which writes to a pipe and to the open file `errors`. The files of
    parallel go to the folder of the jobs."""
    environment = {**os.environ, "METER_PASSWORD": PASSWORD, "PARALLEL_HOME": str(path.parent)}
    made = subprocess.Popen([str(CAMPAIGN), *words, str(path)], stdin=subprocess.DEVNULL, stdout=subprocess.PIPE, stderr=errors, text=True, env=environment)
    started.append(made)
    return made


def stop_campaigns():
    """Stops what a test that failed has left."""
    while started:
        made = started.pop()
        if made.poll() is None:
            made.terminate()
            made.communicate(timeout=LONG_PATIENCE)


def drain(silent):
    """Closes all pending connections."""
    silent.setblocking(False)
    try:
        while True:
            silent.accept()[0].close()
    except BlockingIOError:
        silent.settimeout(LONG_PATIENCE)


def a_campaign_is_stopped(name, folder):
    """A signal stops a campaign whose meters never answer."""
    program = folder / "head_end"
    shutil.copy(HEAD_END, program)
    path = folder / "silent"
    with socket.create_server(("0.0.0.0", 0)) as silent:
        silent.settimeout(LONG_PATIENCE)
        port = silent.getsockname()[1]
        path.write_text("".join(f"job{number} {address_of(number, port)} disconnect\n" for number in range(2_500)))
        for signal_sent, wanted in (signal.SIGTERM, 143), (signal.SIGINT, 130):
            # (standard error is a file: a pipe that nobody reads would block the campaign)
            log = folder / "errors"
            with log.open("w") as errors:
                made = start_campaign(path, "--program", str(program), "--jobs", "2", errors=errors)
            # (once it has connected, a part runs)
            client, _ = silent.accept()
            made.send_signal(signal_sent)
            text, _ = made.communicate(timeout=60)
            client.close()
            errors = without_warnings(log.read_text())
            named = re.findall(r"(?m)^campaign: part (\d) (?:failed|was not begun)", errors)
            check(f"{name}: {signal_sent.name}", (made.returncode, text) == (wanted, ""), made.returncode, text, errors[:500])
            check(f"{name}: {signal_sent.name}, its parts", named == ["1", "2", "3"]
                  and "part 3 was not begun: none of its jobs was sent. Its jobs:" in errors,
                  errors[:500])
            check(f"{name}: {signal_sent.name}, no head end is left", wait_until(lambda: not is_running(program)))
            drain(silent)


# A head end that reports the job first, and takes ten minutes for any other part.
LASTING = """#!/bin/sh
[ "$1" = run ] || exit 0
case $(cat) in first*) echo "first done 0" ;; *) echo $$ > "{folder}/process"; exec sleep 600 ;; esac
"""


def a_lost_terminal_stops_no_report(name, folder):
    """A campaign whose terminal is lost continues, and a signal stops it: its part that runs is ended,
    and the rows of the other one are printed."""
    program, path, joblog, process = (folder / it for it in ("lasting", "lost", "lost.log", "process"))
    program.write_text(LASTING.format(folder=folder))
    program.chmod(0o700)
    path.write_text("first h:1 state\n" + "\n" * 999 + "second h:2 state\n")
    terminal, standard_error = pty.openpty()
    made = start_campaign(path, "--program", str(program), "--jobs", "2", "--joblog", str(joblog), "--progress", errors=standard_error)
    os.close(standard_error)
    check(f"{name}: a part ends", wait_until(lambda: process.exists() and process.read_text() and joblog.read_text().count("\n") == 2))
    os.close(terminal)
    time.sleep(1.5)  # (once a second a line of progress fails)
    check(f"{name}: it continues", made.poll() is None, made.poll())
    made.send_signal(signal.SIGHUP)
    text, _ = made.communicate(timeout=60)
    check(f"{name}: report", (made.returncode, text) == (129, "first done 0\n"), made.returncode, text)
    number = process.read_text().strip()
    check(f"{name}: no part is left", wait_until(lambda: not pathlib.Path("/proc", number).exists(), 10), number)


def what_is_known_is_printed(name, crowd, folder):
    """A campaign that is stopped prints the reports of the parts that have ended, even if an
    earlier part has not."""
    jobs, wanted, expected = crowd_jobs(crowd, 1000)
    path, joblog, log = folder / "known", folder / "joblog", folder / "errors"
    with socket.create_server(("127.0.0.1", 0)) as silent:
        silent.settimeout(LONG_PATIENCE)
        path.write_text(f"silent 127.0.0.1:{silent.getsockname()[1]} disconnect\n" + "\n" * 999 + jobs)
        with log.open("w") as errors:
            made = start_campaign(path, "--program", str(HEAD_END), "--workers", "8", "--jobs", "2", "--joblog", str(joblog), errors=errors)
        client, _ = silent.accept()
        check(f"{name}: a part ends", wait_until(lambda: joblog.exists() and joblog.read_text().count("\n") == 2))
        made.send_signal(signal.SIGTERM)
        text, _ = made.communicate(timeout=60)
        client.close()
    check(f"{name}: report", (made.returncode, text) == (143, wanted), made.returncode, differences(wanted, text))
    lines = [line for line in own_lines(without_warnings(log.read_text())) if "SIGTERM" not in line]
    check(f"{name}: the other part", len(lines) == 2 and " part 1 failed " in lines[0] and lines[1].endswith(" silent"), lines)
    check(f"{name}: each command once", crowd.counts() == expected_counts(expected))


# A head end of two jobs that reports one as done and waits for a file.
WAITING = """#!/bin/sh
[ "$1" = run ] || exit 0
case "$*" in *--progress*) echo "jobs done 1 of 2, unknown 1, about 7 s to go" >&2 ;; esac
while [ ! -e "$(dirname "$0")/go" ]; do sleep 0.1; done
printf 'm1 unknown\\nm2 done 0\\n'
"""
PROGRESS_OF_CAMPAIGN = r"campaign: jobs done [012] of 2, unknown [01]"


def run_waiting(folder, lines, errors, read_errors, *words, seconds=PATIENCE):
    """Runs a campaign with the head end WAITING until it has reported this number of lines of
    progress, or these seconds have passed; returns its status, its report, standard error and the
    seconds that it took."""
    program, go, path = folder / "waiting", folder / "go", folder / "two"
    program.write_text(WAITING)
    program.chmod(0o700)
    path.write_text("m1 h:1 state\nm2 h:2 state\n")
    begun = time.monotonic()
    made = start_campaign(path, "--program", str(program), *words, errors=errors)
    wait_until(lambda: len(re.findall(PROGRESS_OF_CAMPAIGN, read_errors())) >= lines, seconds)
    go.touch()
    text, _ = made.communicate(timeout=60)
    go.unlink()
    return made.returncode, text, read_errors(), time.monotonic() - begun


def campaigns_report_progress(name, folder):
    report, log = "m1 unknown\nm2 done 0\n", folder / "errors"
    with log.open("w") as errors:
        status, text, lines, seconds = run_waiting(folder, 2, errors, log.read_text, "--progress", seconds=4)
    few = 1 <= lines.count("\n") <= 1 + seconds // 10
    check(f"{name}: a file", (status, text) == (0, report) and few and re.match(PROGRESS_OF_CAMPAIGN, lines), status, text, lines, seconds)
    terminal, standard_error = pty.openpty()
    os.set_blocking(terminal, False)
    shown = []

    def read_terminal():
        try:
            shown.append(os.read(terminal, 4_096).decode().replace("\r\n", "\n"))
        except BlockingIOError:
            pass
        return "".join(shown)

    status, text, lines, seconds = run_waiting(folder, 4, standard_error, read_terminal, "--progress", "--fail")
    os.close(standard_error)
    os.close(terminal)
    check(f"{name}: a terminal, and a row that fails", (status, text) == (1, report) and 4 <= lines.count("\n") <= seconds, status, text, lines, seconds)
    check(f"{name}: a line", "campaign: jobs done 1 of 2, unknown 1, about " in lines, lines)


class Shell:
    """A daemon of OpenSSH on a free port of the loopback interface, with keys of its own in its
    folder."""

    def __init__(self, folder):
        self.folder = folder
        self.made = None
        self.process = None
        for key in ("host", "own"):
            subprocess.run(["ssh-keygen", "-q", "-t", "ed25519", "-N", "", "-f", folder / key], check=True, timeout=PATIENCE)
        (folder / "allowed").write_text((folder / "own.pub").read_text())
        with socket.socket() as free:
            free.bind(("127.0.0.1", 0))
            self.port = free.getsockname()[1]
        self.start()

    def start(self):
        parted = pathlib.Path("/run/sshd")
        if os.geteuid() == 0 and not parted.exists():
            parted.mkdir(mode=0o755)
            self.made = parted
        options = [f"HostKey={self.folder}/host", "ListenAddress=127.0.0.1", f"AuthorizedKeysFile={self.folder}/allowed", "StrictModes=no", "UsePAM=no",
                   "PasswordAuthentication=no", f"PidFile={self.folder}/pid", "MaxStartups=100"]
        words = [shutil.which("sshd", path=SSHD_PATH), "-D", "-f", "/dev/null", "-p", str(self.port)]
        for option in options:
            words += ["-o", option]
        self.process = subprocess.Popen(words, stdin=subprocess.DEVNULL, stdout=subprocess.DEVNULL, stderr=subprocess.DEVNULL)

    def login(self, host):
        """The command that logs in to a host of the test's sshd."""
        return (f"ssh -F /dev/null -p {self.port} -i {self.folder}/own -o BatchMode=yes -o IdentitiesOnly=yes -o StrictHostKeyChecking=no"
                f" -o UserKnownHostsFile={self.folder}/known -o LogLevel=ERROR {host}")

    def can_log_in(self):
        """Whether the test's sshd accepts a login."""
        words = [*self.login("127.0.0.1").split(), "true"]
        try:
            return subprocess.run(words, stdin=subprocess.DEVNULL, capture_output=True, timeout=PATIENCE).returncode == 0
        except subprocess.TimeoutExpired:
            return False

    def wait_for_login(self):
        """Waits until the test's sshd accepts a login; returns whether it does."""
        return wait_until(lambda: self.process.poll() is not None or self.can_log_in(), pause=0.1) \
            and self.process.poll() is None

    def stop(self):
        if self.process:
            self.process.terminate()
            self.process.wait(PATIENCE)
        if self.made:
            self.made.rmdir()


SSHD_PATH = os.environ.get("PATH", "") + ":/usr/sbin:/usr/local/sbin"


def campaigns_by_ssh(name, crowd, folder, count):
    missing = [word for word in ("ssh", "ssh-keygen", "sshd") if not shutil.which(word, path=SSHD_PATH)]
    if missing:
        print(f"SKIPPED ssh: {', '.join(missing)} not installed")
        return
    jobs, wanted, expected = crowd_jobs(crowd, count)
    path = folder / "jobs"
    path.write_text(jobs)
    shell = None
    try:
        shell = Shell(folder)
        if not shell.wait_for_login():
            print("SKIPPED ssh: the sshd that the test started does not accept connections")
            return
        hosts = f"{shell.login('127.0.0.1')},{shell.login('localhost')}"
        # (the password is not sent: the command reads it on its machine)
        (folder / "password").write_text(PASSWORD)
        there = folder / "there"
        there.write_text(f'#!/bin/sh\nMETER_PASSWORD=$(cat {folder}/password) exec {HEAD_END} "$@"\n')
        there.chmod(0o700)
        check_campaign(f"{name}: two hosts", crowd, path, wanted, expected, "--jobs", "1", "--sshlogin", hosts, "--program", str(there))
    finally:
        if shell:
            shell.stop()


# A head end that fails if the password is not the text of a file, or if that text is in the command
# line of a process or in what Slurm stores.
SECRET = """#!/bin/sh
[ "$1" = run ] || exit 0
cd {folder} && [ "$METER_PASSWORD" = "$(cat secret)" ] || exit 4
! cat /proc/[0-9]*/cmdline 2> /dev/null | grep -qaF -f secret || exit 5
! grep -rqaF -f secret slurm || exit 6
sed 's/ .*/ done 0/'
"""


def the_password_is_not_shown(name, folder):
    secret, program, path = os.urandom(12).hex(), folder / "secretive", folder / "one"
    (folder / "secret").write_text(secret)
    program.write_text(SECRET.format(folder=folder))
    program.chmod(0o700)
    path.write_text("m1 h:1 state\n")
    made = subprocess.run([str(CAMPAIGN), "--slurm", "--program", str(program), str(path)], stdin=subprocess.DEVNULL, capture_output=True, text=True,
                          timeout=LONGEST, env={**os.environ, "METER_PASSWORD": secret})
    check(name, (made.returncode, made.stdout, made.stderr) == (0, "m1 done 0\n", ""), made)


def begin_again(folder, part):
    """Runs the task of a part, as Slurm would if it requeued it; returns its status."""
    (work,) = folder.glob("campaign.*")
    words = ["sh", str(work / "task"), str(work), str(HEAD_END), "run"]
    return subprocess.run(words, stdin=subprocess.DEVNULL, capture_output=True, timeout=PATIENCE, env={**os.environ, "SLURM_ARRAY_TASK_ID": str(part)}).returncode


def program_of_tasks(folder):
    """A head end that writes the number of its task's shell to a file, and its executable."""
    program, copy = folder / "task", folder / "head_end"
    shutil.copy(HEAD_END, copy)
    program.write_text(f'#!/bin/sh\n[ "$1" != run ] || echo $PPID > {folder}/shell.$SLURM_ARRAY_TASK_ID\nexec {copy} "$@"\n')
    program.chmod(0o700)
    return program, copy


def a_task_is_killed(name, crowd, folder):
    """The second of three tasks is killed when eight of its meters have a request and don't
    answer."""
    jobs, wanted, expected = crowd_jobs(crowd, 2000)
    requested = threading.Semaphore(0)

    def holds(talk):
        talk.open()
        requested.release()

    meters = [ScriptedMeter(does_it if number < 16 else holds) for number in range(40)]
    lines = jobs.splitlines(keepends=True)
    path, log = folder / "killed", folder / "errors"
    own = [f"own{number} 127.0.0.1:{meter.port} disconnect\n" for number, meter in enumerate(meters)]
    path.write_text("".join([*lines[:1000], *own, "\n" * 960, *lines[1000:]]))
    program, copy = program_of_tasks(folder)
    with log.open("w") as errors:
        made = start_campaign(path, "--slurm", "--jobs", "3", "--workers", "8", "--program", str(program), errors=errors)
    check(f"{name}: its meters get requests", all(requested.acquire(timeout=LONG_PATIENCE) for _ in range(8)))
    check(f"{name}: it is not begun again", begin_again(folder, 2) != 0)
    os.kill(int((folder / "shell.2").read_text()), signal.SIGKILL)
    text, _ = made.communicate(timeout=LONGEST)
    check(f"{name}: report", (made.returncode, text) == (1, wanted), made.returncode, differences(wanted, text))
    first, *names = own_lines(without_warnings(log.read_text()))
    line = r"campaign: part 2 failed \(no exit status(; Slurm: \w+)?\): the results of its jobs are unknown, and none is sent again. Its jobs:"
    check(f"{name}: its jobs", re.fullmatch(line, first) and names == [f"campaign:     own{number}" for number in range(40)], first, names)
    check(f"{name}: no head end is left", wait_until(lambda: not is_running(copy)))
    check(f"{name}: each command once in the other parts",
              crowd.counts() == expected_counts(expected))
    for meter in meters:
        meter.stop()
    counts = [sum(talk.frames.count(REQUESTS["disconnect"]) for talk in meter.talks) for meter in meters]
    check(f"{name}: no command twice", max(counts) == 1 and sum(counts) >= 8, counts)


def an_array_is_stopped(name, crowd, slurm, folder):
    """A signal stops a campaign whose first part has ended, whose second one runs and whose third
    one is pending."""
    jobs, wanted, expected = crowd_jobs(crowd, 1000)
    program, copy = program_of_tasks(folder)
    path, log = folder / "stopped", folder / "errors"
    with socket.create_server(("0.0.0.0", 0)) as silent:
        silent.settimeout(LONG_PATIENCE)
        port = silent.getsockname()[1]
        path.write_text(jobs + "".join(f"job{number} {address_of(number, port)} disconnect\n" for number in range(1000, 2001)))
        with log.open("w") as errors:
            made = start_campaign(path, "--slurm", "--workers", "8", "--program", str(program), errors=errors)
        client, _ = silent.accept()
        made.send_signal(signal.SIGTERM)
        text, _ = made.communicate(timeout=LONGEST)
        client.close()
    check(f"{name}: report", (made.returncode, text) == (143, wanted), made.returncode, differences(wanted, text))
    lines = own_lines(without_warnings(log.read_text()))
    failed = [line for line in lines if line.startswith("campaign: part ")]
    check(f"{name}: its parts", len(failed) == 2 and " part 2 failed " in failed[0] and "the results of its jobs are unknown" in failed[0]
          and "part 3 was not begun: none of its jobs was sent." in failed[1], failed)
    check(f"{name}: no head end is left", not is_running(copy))
    check(f"{name}: no task is left", slurm.has_no_task())
    check(f"{name}: each command once", crowd.counts() == expected_counts(expected))


def campaigns_by_slurm(name, crowd, folder, count):
    missing = missing_commands()
    if missing:
        print(f"SKIPPED Slurm: {', '.join(missing)} not installed")
        return
    slurm = Slurm(folder / "slurm")
    jobs, wanted, expected = crowd_jobs(crowd, count)
    path = folder / "jobs"
    path.write_text(jobs)
    try:
        if not slurm.start():
            print(f"SKIPPED Slurm: the daemons that the test started accept no tasks: {slurm.errors()}")
            return
        os.environ["SLURM_CONF"] = str(slurm.configuration)
        check_campaign(f"{name}: eight parts in parallel", crowd, path, wanted, expected, "--slurm", "--jobs", "8")
        the_password_is_not_shown(f"{name}: the password", folder)
        a_task_is_killed(f"{name}: a task is killed", crowd, folder)
        an_array_is_stopped(f"{name}: a signal", crowd, slurm, folder)
        check(f"{name}: no folder is left", not list(folder.glob("campaign.*")))
    finally:
        stop_campaigns()
        slurm.stop()
        os.environ.pop("SLURM_CONF", None)


def campaigns_of_a_crowd(name, count):
    if not shutil.which("parallel"):
        print("SKIPPED bin/campaign: GNU parallel is not installed")
        return
    crowd = Crowd()
    try:
        with tempfile.TemporaryDirectory() as folder:
            folder = pathlib.Path(folder)
            campaigns_in_parallel(name, crowd, folder, count)
            a_part_that_fails_is_named(f"{name}: a part fails", crowd, folder)
            a_wrong_list_sends_nothing(f"{name}: a wrong list", crowd, folder)
            a_list_is_warned_of(f"{name}: warnings", crowd, folder)
            jobs_of_an_address_are_in_one_part(f"{name}: one address", folder)
            files_of_passwords_are_passed_on(f"{name}: passwords", folder)
            a_campaign_is_stopped(f"{name}: a signal", folder)
            a_lost_terminal_stops_no_report(f"{name}: a lost terminal", folder)
            what_is_known_is_printed(f"{name}: a signal and a part that has ended", crowd, folder)
            campaigns_report_progress(f"{name}: progress", folder)
            campaigns_by_ssh(f"{name}: by ssh", crowd, folder, count)
            campaigns_by_slurm(f"{name}: by Slurm", crowd, folder, count)
    finally:
        stop_campaigns()
        crowd.stop()


def main():
    parser = argparse.ArgumentParser()
    parser.add_argument("--short", action="store_true", help="campaigns of 2,000 jobs instead of 20,000")
    count = 2_000 if parser.parse_args().short else 20_000
    for executable in (SERVER, PLAYER, HEAD_END):
        if not os.access(executable, os.X_OK):
            print(f"{executable} is missing: run bin/test, or `rt run` in its crate")
            print("0 passed, 1 failed")
            return 1
    _, most = resource.getrlimit(resource.RLIMIT_NOFILE)
    resource.setrlimit(resource.RLIMIT_NOFILE, (most, most))
    for function in (campaigns_among_running_meters, a_meter_is_reached_by_its_name, a_file_has_the_password, each_meter_has_its_password,
                     jobs_of_a_meter_run_in_order, jobs_run_in_parallel, no_connection_is_reset, progress_is_reported):
        test(function)

    def campaigns_of_many_jobs(name):
        campaigns_of_a_crowd(name, count)

    test(campaigns_of_many_jobs)
    print(f"{serving.passed} passed, {serving.failed} failed")
    return 1 if serving.failed else 0


if __name__ == "__main__":
    sys.exit(main())
