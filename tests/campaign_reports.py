#!/usr/bin/env python3
"""Tests `head_end status --format` and bin/campaign_report over ledgers, and files of answers, that
Python's sqlite3 made: each record against what Python computes from the same rows, and the page
against the records, also in a browser, which filters its table.

Without a browser (Debian: apt-get install chromium) the page is only parsed, with a message.

usage: tests/campaign_reports.py [--keep FOLDER]     (--keep: write the ledgers and pages to FOLDER)
"""
import contextlib
import csv
import datetime
import html.parser
import io
import json
import pathlib
import re
import shutil
import sqlite3
import subprocess
import sys
import tempfile

sys.dont_write_bytecode = True  # importing the modules of tests/ leaves no files

import serving
from programs import HEAD_END
from serving import PATIENCE, TOP, check

SCRIPT = TOP / "bin" / "campaign_report"
BROWSERS = ("chromium", "chromium-browser", "google-chrome")
COLUMNS = ["name", "address", "verb", "outcome", "number", "sent", "begun_at", "ended_at",
           "seconds", "state", "asked_at"]
# The tables of a ledger (docs/CAMPAIGNS.md), as crates/sqlite_ledger has them.
TABLES = """
CREATE TABLE begun (place INTEGER PRIMARY KEY, at INTEGER NOT NULL) STRICT;
CREATE TABLE outcome (place INTEGER PRIMARY KEY, kind TEXT NOT NULL, number INTEGER, \
at INTEGER NOT NULL) STRICT;
CREATE TABLE job (place INTEGER PRIMARY KEY, name TEXT NOT NULL, address TEXT NOT NULL, \
verb TEXT NOT NULL) STRICT;
CREATE TABLE campaign (version INTEGER PRIMARY KEY, jobs INTEGER NOT NULL) STRICT;
"""
# The table of the answers of meters that were asked later, as crates/sqlite_ledger has it.
ANSWER_TABLE = """
CREATE TABLE answer (number INTEGER PRIMARY KEY, name TEXT NOT NULL, address TEXT NOT NULL, \
state INTEGER NOT NULL, asked_at INTEGER NOT NULL) STRICT;
"""
START = 1_795_856_405  # 2026-11-28T09:00:05Z
LATEST = 2**32 - 1  # the last second that a record has
HOSTILE = "<b>&amp;\"',"  # a name that a page and a line of values must not take as their own
INJECTED = "</td><script>document.title='injected'</script>"
# Jobs with what a ledger may have of them: name, verb, the second of the mark, and the kind, number
# and second of the outcome.
JOBS = [
    ("m1", "disconnect", START, ("done", 0, START + 1)),
    (HOSTILE, "disconnect", START, ("refused", 2, START)),
    (INJECTED, "reconnect", START + 3, ("rejected", 13, START + 9)),
    ("m4", "disconnect", START + 4, None),
    ("m5", "state", None, ("done", 1, START + 5)),
    ("m6", "reconnect", None, None),
    ("m7", "reconnect", START + 60, ("unknown", None, START + 120)),
    # a clock that could not be read, one that was set back, and times that no record has
    ("m8", "disconnect", 0, ("done", 0, START)),
    ("m9", "disconnect", START, ("done", 0, START - 10)),
    ("m10", "disconnect", 1, ("done", 0, LATEST)),
    ("m11", "disconnect", -1, ("done", 0, LATEST + 1)),
]
# Answers of meters that were asked later: the place and the name of the job, the state and the
# second. The last one counts whose meter was asked no earlier than the mark; second 0 is that of a
# clock that could not be read.
ANSWERS = [
    (3, "m4", 0, START + 100),
    (3, "m4", 1, START + 200),
    (6, "m7", 2, 0),
    (6, "m7", 0, START + 59),
    (5, "m4", 2, START + 300),  # another meter
]
keep = None


def make_ledger(path, jobs):
    """Writes a ledger in which these jobs have these entries and times."""
    with contextlib.closing(sqlite3.connect(path)) as database:
        database.executescript(TABLES)
        for place, (name, verb, begun, outcome) in enumerate(jobs):
            database.execute("INSERT INTO job VALUES (?, ?, ?, ?)",
                             (place, name, address_of(place), verb))
            if begun is not None:
                database.execute("INSERT INTO begun VALUES (?, ?)", (place, begun))
            if outcome is not None:
                database.execute("INSERT INTO outcome VALUES (?, ?, ?, ?)", (place, *outcome))
        database.execute("INSERT INTO campaign VALUES (1, ?)", (len(jobs),))
        database.commit()
    make_log(path)


def make_log(path):
    """Makes the empty log of a ledger, which a run that ended in order leaves."""
    pathlib.Path(f"{path}-wal").touch(0o600)


def address_of(place):
    """The address of the meter at a place."""
    return f"192.0.2.{place % 250}:4059"


def make_answers(path, answers):
    """Writes the file of these answers next to a ledger."""
    with contextlib.closing(sqlite3.connect(f"{path}.answers")) as database:
        database.executescript(ANSWER_TABLE)
        for number, (place, name, state, second) in enumerate(answers, 1):
            database.execute("INSERT INTO answer VALUES (?, ?, ?, ?, ?)",
                             (number, name, address_of(place), state, second))
        database.commit()


def time_of(second):
    """A second of a ledger as a record has it."""
    if second is None or not 0 < second <= LATEST:
        return None
    epoch = datetime.datetime(1970, 1, 1)
    return (epoch + datetime.timedelta(seconds=second)).strftime("%Y-%m-%dT%H:%M:%SZ")


def answer_of(place, job, answers):
    """The state that the meter of a job reported last, and when it was asked."""
    name, _, begun, _ = job
    is_marked = time_of(begun) is not None
    found = [(state, second) for at, about, state, second in answers
             if (at, about) == (place, name) and not (is_marked and 0 < second < begun)]
    state, second = found[-1] if found else (None, None)
    return state, time_of(second)


def record_of(place, job, answers):
    """The record of a job, by the rows that its ledger has, and by these answers."""
    name, verb, begun, outcome = job
    kind, number, ended = outcome or ("not sent" if begun is None else "unknown", None, None)
    times = time_of(begun), time_of(ended)
    seconds = ended - begun if all(times) and ended >= begun else None
    sent = {"done": "yes", "refused": "yes", "unknown": "maybe"}.get(kind, "no")
    return dict(zip(COLUMNS, (name, address_of(place), verb, kind, number, sent, *times, seconds,
                              *answer_of(place, job, answers))))


def records_of(jobs, answers=()):
    """The records of jobs, as `head_end status --format json` has them."""
    return [record_of(place, job, answers) for place, job in enumerate(jobs)]


def lines_of(records):
    """Records as lines of JSON."""
    return "".join(json.dumps(it, sort_keys=True, separators=(",", ":")) + "\n" for it in records)


def run(*words, text=None):
    """Runs a command with this input; returns its status, output and errors."""
    return subprocess.run([str(it) for it in words], input=text, capture_output=True,
                          timeout=PATIENCE)


def in_folder(function):
    """A test with an empty folder, or with the one of --keep."""
    def run_test(name):
        if keep:
            keep.mkdir(parents=True, exist_ok=True)
            return function(name, keep)
        with tempfile.TemporaryDirectory(prefix="reports-") as folder:
            return function(name, pathlib.Path(folder))
    run_test.__name__ = function.__name__
    return run_test


def report(*words, text=None):
    """Runs the script. Returns its status, the page and the errors."""
    ran = run(sys.executable, SCRIPT, "--head-end", HEAD_END, *words, text=text)
    return ran.returncode, ran.stdout.decode(), ran.stderr.decode()


@in_folder
def records_are_those_of_the_rows(name, folder):
    """Each format of `status`, of a ledger that Python's sqlite3 made; nothing in it changes."""
    ledger = folder / "rows.ledger"
    make_ledger(ledger, JOBS)
    before = ledger.read_bytes()
    ran = run(HEAD_END, "status", "--ledger", ledger, "--format", "json")
    lines = lines_of(records_of(JOBS))
    check(f"{name}: no answers", (ran.returncode, ran.stdout.decode()) == (0, lines),
          ran.stdout.decode(), ran.stderr.decode())
    make_answers(ledger, ANSWERS)
    wanted = records_of(JOBS, ANSWERS)
    ran = run(HEAD_END, "status", "--ledger", ledger, "--format", "json")
    lines = lines_of(wanted)
    check(f"{name}: json", (ran.returncode, ran.stdout.decode()) == (0, lines), ran.stdout.decode(),
          ran.stderr.decode())
    ran = run(HEAD_END, "status", "--ledger", ledger, "--format", "csv")
    text = io.StringIO()
    writer = csv.writer(text, lineterminator="\n")
    writer.writerow(COLUMNS)
    writer.writerows([it.values() for it in wanted])
    check(f"{name}: csv", (ran.returncode, ran.stdout.decode()) == (0, text.getvalue()),
          ran.stdout.decode(), ran.stderr.decode())
    ran = run(HEAD_END, "status", "--ledger", ledger)
    check(f"{name}: the state", ran.stdout.decode().startswith(
        f"jobs {len(JOBS)}\ndone 6\nrefused 1\nrejected 1\nunknown 2\nnot sent 1\n"), ran)
    looks = [line.split(" sent, no answer") for line in ran.stdout.decode().splitlines()[6:]]
    check(f"{name}: the answers", [it[1] for it in looks] == ["; state 1", "; state 2"], ran)
    check(f"{name}: unchanged", ledger.read_bytes() == before)
    ran = run(HEAD_END, "status", "--ledger", ledger, "--format", "xml")
    check(f"{name}: another format", ran.returncode == 2 and not ran.stdout, ran)


# What no ledger has: jobs, marks, outcomes and campaigns that are none.
DAMAGES = {
    "a place is missing": "DELETE FROM job WHERE place = 3",
    "a verb": "UPDATE job SET verb = 'open' WHERE place = 3",
    "a mark of no job": f"INSERT INTO begun VALUES (99, {START})",
    "an outcome of no job": f"INSERT INTO outcome VALUES (99, 'done', 0, {START})",
    "a kind": "UPDATE outcome SET kind = 'opened' WHERE place = 0",
    "a kind that is no text": "UPDATE outcome SET kind = CAST(x'646F6E65FF' AS TEXT) "
                              "WHERE place = 0",
    "no number": "UPDATE outcome SET number = NULL WHERE place = 0",
    "a number above 255": "UPDATE outcome SET number = 256 WHERE place = 0",
    "a number below 0": "UPDATE outcome SET number = -1 WHERE place = 0",
    "a number of an unknown outcome": "UPDATE outcome SET number = 0 WHERE kind = 'unknown'",
    "another version": "UPDATE campaign SET version = 2",
    "another number of jobs": "UPDATE campaign SET jobs = jobs + 1",
    "no campaign": "DELETE FROM campaign",
    "two campaigns": "INSERT INTO campaign SELECT 2, jobs FROM campaign",
}


@in_folder
def other_rows_are_refused(name, folder):
    """Ledgers with rows that no ledger has, which Python's sqlite3 wrote."""
    for number, (what, statement) in enumerate(DAMAGES.items()):
        ledger = folder / f"{number}.ledger"
        make_ledger(ledger, JOBS)
        with contextlib.closing(sqlite3.connect(ledger)) as database:
            changed = database.execute(statement).rowcount
            database.commit()
        check(f"{name}: {what}: is damaged", changed > 0, changed)
        ran = run(HEAD_END, "status", "--ledger", ledger, "--format", "json")
        found = ran.returncode, ran.stdout, ran.stderr.decode()
        check(f"{name}: {what}", found == (2, b"", "ledger: not a ledger\nfault: input\n"), found)


class Page(html.parser.HTMLParser):
    """What a page has: the cells of each table by its id, the scripts, and the bars of the chart."""

    def __init__(self, text):
        super().__init__()
        self.tables, self.scripts, self.bars, self.titles = {}, 0, [], []
        self.table = self.cell = None
        self.feed(text)

    def handle_starttag(self, tag, attrs):
        found = dict(attrs)
        if tag == "table":
            self.table = self.tables.setdefault(found["id"], [])
        elif tag == "tr":
            self.table.append([])
        elif tag in ("td", "th"):
            self.table[-1].append("")
            self.cell = True
        elif tag == "script":
            self.scripts += 1
        elif tag == "rect":
            self.bars.append(found)

    def handle_endtag(self, tag):
        if tag in ("td", "th"):
            self.cell = None

    def handle_data(self, data):
        if self.cell:
            self.table[-1][-1] += data
        elif match := re.fullmatch(r"(\S+ \S+): ([0-9,]+) (\w+)", data):
            self.titles.append(match.groups())


def cells_of(record):
    """The cells of a record in the table of a page."""
    return ["" if it is None else str(it) for it in record.values()]


@in_folder
def the_page_has_the_records(name, folder):
    ledger, path = folder / "page.ledger", folder / "page.html"
    jobs = [job for job in JOBS if job[0] not in ("m10", "m11")]
    make_ledger(ledger, jobs)
    make_answers(ledger, ANSWERS)
    status, text, errors = report("--output", path, "--title", "<i>A & B", ledger)
    check(f"{name}: written", (status, text, errors) == (0, "", ""), status, errors)
    text = path.read_text()
    page, wanted = Page(text), records_of(jobs, ANSWERS)
    check(f"{name}: its rows", page.tables["jobs"][1:] == [cells_of(it) for it in wanted],
          page.tables["jobs"][1:])
    counts = {row[0]: row[1] for row in page.tables["counts"]}
    check(f"{name}: its counts", counts == {"jobs": "9", "done": "4", "refused": "1",
                                            "rejected": "1", "unknown": "2", "not sent": "1"}, counts)
    check(f"{name}: one script", page.scripts == 1, page.scripts)
    check(f"{name}: its title", "<title>&lt;i&gt;A &amp; B</title>" in text)
    check(f"{name}: loads nothing", not re.search(r"(src|href)=|url\(|@import|https?://", text))
    marks = [it for it in page.titles if it[2] == "marked"]
    check(f"{name}: its marks", sum(int(it[1]) for it in marks)
          == sum(it["begun_at"] is not None for it in wanted), marks)
    ends = [it for it in page.titles if it[2] != "marked"]
    check(f"{name}: its outcomes", sum(int(it[1]) for it in ends)
          == sum(it["ended_at"] is not None for it in wanted), ends)
    check(f"{name}: the marks of the first five seconds",
          ("2026-11-28 09:00:05", "5", "marked") in marks, marks)


@in_folder
def pages_of_more_and_fewer_ledgers(name, folder):
    first, second, empty = (folder / f"{it}.ledger" for it in ("first", "second", "empty"))
    make_ledger(first, JOBS[:3])
    make_ledger(second, JOBS[3:])
    make_ledger(empty, [])
    status, text, errors = report(first, second, empty)
    rows = Page(text).tables["jobs"][1:]
    check(f"{name}: two", status == 0 and [it[0] for it in rows] == [it[0] for it in JOBS], status,
          errors)
    status, text, errors = report(empty)
    check(f"{name}: no job", status == 0 and "The ledgers have no times" in text, status, errors)
    lines = run(HEAD_END, "status", "--ledger", first, "--format", "json").stdout
    status, text, errors = report("-", text=lines)
    check(f"{name}: standard input", status == 0 and len(Page(text).tables["jobs"]) == 4, status,
          errors)


@in_folder
def a_part_that_has_not_begun_is_not_sent(name, folder):
    """An empty file is the ledger of such a part, and the file next to it has its jobs."""
    first, second, other = (folder / f"ledger.{it}" for it in (1, 2, 3))
    make_ledger(first, JOBS[:3])
    second.touch()
    other.touch()
    part = "m1 192.0.2.9:4059 disconnect\n\nm2 h<b>:4059 state\n"
    (folder / "part.2").write_text(part + "\n" * 9)
    status, text, errors = report(first, second, other)
    tables = Page(text).tables
    check(f"{name}: its jobs", (status, errors) == (0, "") and [it[:6] for it in tables["jobs"][4:]]
          == [["m1", "192.0.2.9:4059", "disconnect", "not sent", "", "no"],
              ["m2", "h<b>:4059", "state", "not sent", "", "no"]], status, errors)
    counts = {row[0]: row[1] for row in tables.get("counts", [])}
    found = counts.get("jobs"), counts.get("not sent")
    check(f"{name}: the numbers", found == ("5", "2"), counts)
    for path, count in (second, 2), (other, 0):
        check(f"{name}: {path.name}", f"<li>{path}: not begun, jobs not sent: {count}</li>" in text)
    check(f"{name}: it is left", second.exists() and not second.stat().st_size)
    # (a log may have rows that the file does not: head_end reads them, or refuses them)
    (folder / "ledger.3-wal").write_text("rows")
    status, text, errors = report(other)
    check(f"{name}: a log", "not begun, jobs" not in text, status, text[-500:], errors)


@in_folder
def wrong_input_writes_no_page(name, folder):
    path, missing = folder / "none.html", folder / "missing"
    ledger, script = folder / "whole.ledger", folder / "script"
    make_ledger(ledger, JOBS)
    shutil.copy(SCRIPT, script)  # (SQLite may leave a file next to it)
    cases = {"a missing ledger": ((missing,), None, 3, "fault: read"),
             "one of two": ((ledger, missing), None, 3, "fault: read"),
             "no ledger": ((script,), None, 2, "fault: input"),
             "no argument": ((), None, 2, "usage: bin/campaign_report"),
             "another option": (("--form", "x"), None, 2, "unexpected option --form"),
             "no value": (("--title",), None, 2, "--title: the value is missing"),
             "other lines": (("-",), b"name,address\n", 2, "standard input: line 1"),
             "a job without a verb": (("-",), b'{"name":"m1"}\n', 2, "standard input: line 1")}
    for what, (words, text, wanted, message) in cases.items():
        status, output, errors = report("--output", path, *words, text=text)
        check(f"{name}: {what}", status == wanted and message in errors and not output
              and "Traceback" not in errors, status, errors)
        check(f"{name}: {what}: no file", not path.exists())
    status, _, errors = report("--output", folder / "no" / "page.html", ledger)
    check(f"{name}: no folder", status == 3 and "No such file" in errors, status, errors)


def dump_page(browser, page):
    """The page as the browser has it after its scripts have run."""
    ran = subprocess.run([browser, "--headless", "--no-sandbox", "--disable-gpu", "--dump-dom",
                          page.as_uri()], capture_output=True, timeout=120)
    return ran.stdout.decode(errors="replace")


@in_folder
def a_browser_filters_the_table(name, folder):
    """A name is text and not markup; the script of the page filters, and no other one runs."""
    browser = next((found for found in map(shutil.which, BROWSERS) if found), None)
    if not browser:
        print("SKIPPED the page in a browser: no browser is installed (Debian: apt-get install "
              "chromium)")
        return
    ledger, path = folder / "browser.ledger", folder / "browser.html"
    make_ledger(ledger, JOBS)
    report("--output", path, ledger)
    found = dump_page(browser, path)
    check(f"{name}: the title", "<title>Campaign</title>" in found)
    check(f"{name}: all rows", f'<span id="shown">{len(JOBS)}</span>' in found, found[-500:])
    # (the policy of the page allows no other script: one that sets the filters must be allowed)
    text = path.read_text()
    policy = re.search(r"<meta http-equiv=[^>]*>", text)[0]
    for what, setting, wanted in (
            ("an outcome", 'document.getElementById("outcome").value = "unknown";', 2),
            ("a text", 'document.getElementById("text").value = "M1";', 3),
            ("both", 'document.getElementById("outcome").value = "done";'
                     'document.getElementById("text").value = "m9";', 1)):
        changed = folder / "changed.html"
        changed.write_text(text.replace(policy, "").replace(
            "</body>", f"<script>{setting} filter();</script></body>"))
        found = dump_page(browser, changed)
        check(f"{name}: {what}", f'<span id="shown">{wanted}</span>' in found
              and found.count('hidden=""') == len(JOBS) - wanted, found[-500:])
    changed.write_text(text.replace("</body>", "<script>document.title = 'injected'</script></body>"))
    check(f"{name}: another script", "<title>Campaign</title>" in dump_page(browser, changed))


TESTS = (records_are_those_of_the_rows, other_rows_are_refused, the_page_has_the_records,
         pages_of_more_and_fewer_ledgers, a_part_that_has_not_begun_is_not_sent,
         wrong_input_writes_no_page, a_browser_filters_the_table)


def main(words):
    global keep
    if words[:1] == ["--keep"]:
        keep = pathlib.Path(words[1])
    if not serving.are_built(HEAD_END):
        return 1
    return serving.run_tests(TESTS)


if __name__ == "__main__":
    sys.exit(main(sys.argv[1:]))
