#!/usr/bin/env python3
"""Draws the worked trace and a long one with bin/trace_chart, whole and in parts, checks the marks
of the charts, and renders both with a browser.

The long trace has the maximum number of events. The expected marks follow from how it is made, not
from the player's output. Without matplotlib the test is skipped, and without a browser the
rendering (Debian: apt-get install python3-matplotlib chromium), with a message.

usage: tests/charts.py [--keep FOLDER]     (--keep: write the charts to FOLDER)
"""
import os
import re
import shutil
import subprocess
import sys
import tempfile
import xml.etree.ElementTree as Tree
from pathlib import Path

sys.dont_write_bytecode = True
sys.path.insert(0, str(Path(__file__).resolve().parent))
import core_rows as rows

TOP = Path(__file__).resolve().parent.parent
WORKED = TOP / "crates" / "trace_player_cli" / "stdin"
COMMITTED = TOP / "docs" / "worked_trace.svg"
SVG = "{http://www.w3.org/2000/svg}"
BROWSERS = ("chromium", "chromium-browser", "google-chrome")

# The labels of the worked trace, from docs/TRACE.md.
WORKED_LABELS = ["1 set control_mode 1", "2 remote_disconnect", "3 button: refused, 2", "4 remote_reconnect", "5 button", "6 get output_state (public)",
                 "9 moment 4: stale"]
ROUNDS = 936
SETUP, ROUND = 16, 70  # the number of events that set the meter up, and of those of a round
# The list that the server's sampler reads, and another one of a client.
SAMPLER_READ = "getlist 1 2 71 0000110000FF 3 0 71 0001110000FF 3 0"
CLIENT_READ = "getlist 1 2 71 0000110000FF 4 0 71 0001110000FF 4 0"


def long_trace():
    """65,536 events: 16 that set the meter up, then rounds of 70 (a second of samples and a moment,
    34 times; a press; a read).

    In each round ten seconds are over the import limiter's 5,000 W. It fires after one second and
    disconnects; the press restores the supply, which ends the run. In the 17th second of every
    fifth round the pairs have 7,000 W of export, over the export limiter's 6,000 W: its duration is
    one second, so it fires once, and the supply stays. A schedule runs once, at moment 1,000."""
    setup = [rows.write(rows.TABLE, rows.scripts(s1=[rows.DISCONNECT], s2=[])), rows.write(rows.MODE, rows.mode(5)),
             rows.write(rows.IMPORT_NORMAL, rows.long_number(5000)), rows.write(rows.IMPORT_MIN_OVER, rows.long_number(1)),
             rows.write(rows.IMPORT_MIN_UNDER, rows.long_number(100_000)), rows.write(rows.IMPORT_ACTIONS, rows.actions(1, 0)),
             rows.write(rows.EXPORT_NORMAL, rows.long_number(6000)), rows.write(rows.EXPORT_MIN_OVER, rows.long_number(1)),
             rows.write(rows.EXPORT_MIN_UNDER, rows.long_number(100_000)), rows.write(rows.EXPORT_ACTIONS, rows.actions(2, 0)),
             rows.write(rows.SCHEDULE_SCRIPT, "0202090600000A006AFF120002"), rows.write(rows.SCHEDULE_TYPE, "1601"),
             # the time 00:16:40.00 of 1 January 2000, which is moment 1,000
             rows.write(rows.SCHEDULE_TIMES, "010102020904001028000905" + "07D00101FF"), rows.read(rows.MODE, rows.mode(5)),
             rows.moment(0, 0), rows.read(rows.MODE, rows.mode(5))]
    events = [it[0] for it in setup]
    second = 0
    for number in range(ROUNDS):
        for at in range(34):
            second += 1
            power = 6000 + at if 10 <= at < 20 else 1000 + 40 * at
            export = 7000 if at == 17 and number % 5 == 0 else 500
            events += ["pairs" + f" {power} {export}" * 10, f"moment {second}"]
        events += ["button", f"get 1 {rows.SWITCH} 3 0"]
    return events


def finds(svg, name):
    """The group of a chart with this name, or `None`."""
    return next((it for it in svg.iter(f"{SVG}g") if it.get("id") == name), None)


def marks(svg, name):
    """The number of marks in the group of this name."""
    group = finds(svg, name)
    return 0 if group is None else sum(1 for _ in group.iter(f"{SVG}use"))


def texts(svg):
    """All texts of a chart."""
    return ["".join(it.itertext()).strip() for it in svg.iter(f"{SVG}text")]


def worked_rows(svg):
    """Checks of the chart of the worked trace."""
    labels = texts(svg)
    for label in WORKED_LABELS:
        yield f"the label {label}", label in labels
    yield "the power and the threshold", all(finds(svg, it) is not None for it in ("import-power", "import-threshold"))
    yield "no export", finds(svg, "export-power") is None
    yield "one firing under the threshold, none over it", (marks(svg, "firings-import-under"), marks(svg, "firings-import-over")) == (1, 0)
    yield "the supply and the three states", all(finds(svg, it) is not None for it in ("supply", "state-0", "state-1", "state-2"))
    yield "the moment", "2000-01-01 00:00:05" in labels
    yield "one legend", sum(1 for it in svg.iter(f"{SVG}g") if it.get("id", "").startswith("legend_")) == 1


def long_rows(svg):
    """Checks of the chart of a trace of 65,536 events."""
    labels = texts(svg)
    yield "the title", any(it.startswith("RELAY1: 65,536 events") for it in labels)
    yield "both powers and thresholds", all(finds(svg, f"{which}-{what}") is not None for which in ("import", "export") for what in ("power", "threshold"))
    yield "a firing over the import threshold in each round", f"import limiter fires over its threshold ({ROUNDS:,})" in labels
    yield "a firing over the export threshold in every fifth", f"export limiter fires over its threshold ({-(-ROUNDS // 5):,})" in labels
    yield "a mark for each firing", (marks(svg, "firings-import-over"), marks(svg, "firings-export-over")) == (ROUNDS, -(-ROUNDS // 5))
    yield "no firing under a threshold", marks(svg, "firings-import-under") + marks(svg, "firings-export-under") == 0
    yield "all runs", all(finds(svg, f"runs-{which}-{side}") is not None for which in ("import", "export") for side in ("over", "under"))
    yield "the label of the first call", any(it.startswith("1 set scripts ") for it in labels)
    yield "the last moment", f"{34 * ROUNDS // 3600:02}:" in "".join(it[11:14] for it in labels if it.startswith("2000-01-01 "))


def draw_chart(path, to, *options):
    """Runs bin/trace_chart with its output in a file; returns what it printed."""
    with open(to, "wb") as file:
        return subprocess.run([TOP / "bin" / "trace_chart", *options, path], stdout=file, stderr=subprocess.PIPE, timeout=600)


def part_of(path, to, *options):
    """The chart of a part of a trace, or an empty one."""
    ran = draw_chart(path, to, *options)
    if ran.returncode:
        print(ran.stderr.decode(errors="replace"))
        return Tree.Element("svg")
    return Tree.parse(to).getroot()


def number_of(label):
    """The number of the event that a label names, or None."""
    found = re.match(r"(\d+) [a-z]", label)
    return found and int(found[1])


def part_rows(room):
    """Parts of the long trace: ten rounds by their events, and ten seconds by the clock."""
    count = f"{SETUP + ROUNDS * ROUND:,}"
    first, last = SETUP + ROUNDS // 2 * ROUND + 1, SETUP + (ROUNDS // 2 + 10) * ROUND
    svg = part_of(room / "long.trace", room / "rounds.svg", "--from", str(first), "--to", str(last))
    labels = texts(svg)
    yield "ten rounds: the title", f"RELAY1: events {first:,} to {last:,} of {count}, 3,400 samples" in labels
    yield "ten rounds: their firings", (marks(svg, "firings-import-over"), marks(svg, "firings-export-over")) == (10, 2)
    numbers = [it for it in map(number_of, labels) if it]
    yield "ten rounds: the numbers of the trace", numbers and min(numbers) == first + 68 and max(numbers) == last
    lines = (room / "long.trace").read_text().splitlines()
    lines = lines[next(at for at, it in enumerate(lines) if it.startswith("events ")) + 1 :]
    first, last = lines.index("moment 60") + 1, lines.index("moment 70")
    title = f"RELAY1: events {first:,} to {last:,} of {count}, 100 samples"
    svg = part_of(room / "long.trace", room / "seconds.svg", "--from", "2000-01-01T00:01", "--to", "2000-01-01 00:01:09")
    yield "ten seconds: the title", title in texts(svg)
    yield "ten seconds: the first moment", "2000-01-01 00:01:00" in texts(svg)


def range_rows(room):
    """Ranges of the worked trace: the whole, a day, and those that are refused with one line."""
    whole = (room / "worked_trace.svg").read_bytes()
    for words in (["--from", "1"], ["--to", "9"], ["--from", "1", "--to", "100"], ["--to", "2000-01-01"]):
        ran = draw_chart(WORKED, room / "part.svg", *words)
        yield f"the whole: {words}", ran.returncode == 0 and (room / "part.svg").read_bytes() == whole
    svg = part_of(WORKED, room / "day.svg", "--from", "2000-01-01", "--to", "2000-01-01")
    yield "a day begins with its first moment", "RELAY1: events 8 to 9 of 9, 0 samples" in texts(svg)
    svg = part_of(WORKED, room / "part.svg", "--from", "3", "--to", "4")
    yield "a part has its own labels", [it for it in texts(svg) if number_of(it)] == WORKED_LABELS[2:4]
    yield "a part begins in the state before it", all(finds(svg, f"state-{it}") is not None for it in (0, 2)) and finds(svg, "supply") is not None
    for words in (["--from", "10"], ["--to", "0"], ["--from", "5", "--to", "4"], ["--from", "2001-01-01"], ["--from", "2000-01-01", "--to", "1999-12-31"]):
        ran = draw_chart(WORKED, room / "part.svg", "--output", room / "none.svg", *words)
        yield f"no event: {words}", ran.returncode == 2 and ran.stderr.count(b"\n") == 1 and b"no event" in ran.stderr
    for word in ("", "now", "2000-13-01", "-1", "2000-01-01T00:00:00Z"):
        ran = draw_chart(WORKED, room / "part.svg", "--output", room / "none.svg", "--from", word)
        yield f"no place: {word}", ran.returncode == 2 and b"--from: expected the number of an event" in ran.stderr
    yield "a refused range: no file", not (room / "none.svg").exists()


def visible_part(svg, name):
    """The visible part of the width of the chart that the last stretch of this name takes."""
    group, edge = finds(svg, name), next(svg.iter(f"{SVG}clipPath"))[0]
    paths = [] if group is None else [*group.iter(f"{SVG}path")]
    if not paths:
        return 0
    left, width = float(edge.get("x")), float(edge.get("width"))
    places = [min(float(it), left + width) for it in re.findall(r"[ML] ([\d.]+)", paths[-1].get("d"))]
    return (max(places) - min(places)) / width


def last_rows(room):
    """The state that the last event leads to is visible, and so is that of a trace without events."""
    trace = room / "last.trace"
    trace.write_text(rows.trace_text(rows.NEW_METER, [f"set 1 {rows.SWITCH} 4 0 1601", f"execute 1 {rows.SWITCH} 1 0F00"]))
    svg = part_of(trace, room / "last.svg")
    yield "the last event's state", round(visible_part(svg, "state-0"), 3) == 0.333
    svg = part_of(trace, room / "last.svg", "--to", "1")
    yield "no state of an event that is not drawn", (visible_part(svg, "state-0"), round(visible_part(svg, "state-1"), 3)) == (0, 1)
    trace.write_text(rows.trace_text(rows.NEW_METER, []))
    svg = part_of(trace, room / "last.svg")
    yield "no event: the state and the supply", all(round(visible_part(svg, it), 3) == 1 for it in ("state-1", "supply"))
    yield "no event: the ticks", [it for it in texts(svg) if it.isdecimal()] == ["0", "1"]


def sampler_rows(room):
    """The sampler's read and a client's have other labels."""
    trace = room / "sampler.trace"
    trace.write_text(rows.trace_text(rows.NEW_METER, [SAMPLER_READ, "samples 10", CLIENT_READ, SAMPLER_READ.replace("getlist 1", "getlist 16")]))
    svg = part_of(trace, room / "sampler.svg")
    wanted = ["1 sampler: reads both thresholds", "3 get 2 attributes", "4 get 2 attributes (public)"]
    yield "the sampler's read is told apart", [it for it in texts(svg) if number_of(it)] == wanted


def label_rows(room):
    """Writes to the attributes of the second to fourth schedule and of both limiters have their
    names (the logical names: docs/CLIENTS.md)."""
    trace = room / "labels.trace"
    writes = {"22 00010F0001FF 2 0 0202090600000A006AFF120001": "schedule 1 script 02020906..", "22 00020F0001FF 3 0 1602": "schedule 2 type 2",
              "22 00030F0001FF 4 0 0100": "schedule 3 entries 0100", "71 0000110000FF 6 0 0600000002": "import min_over_threshold_duration 2",
              "71 0001110000FF 7 0 0600000003": "export min_under_threshold_duration 3"}
    trace.write_text(rows.trace_text(rows.NEW_METER, [f"set 1 {it}" for it in writes]))
    svg = part_of(trace, room / "labels.svg")
    wanted = [f"{number} set {it}" for number, it in enumerate(writes.values(), 1)]
    yield "writes have the names of attributes", [it for it in texts(svg) if number_of(it)] == wanted


def command_rows(room):
    """Checks of the command line of bin/trace_chart."""
    script = TOP / "bin" / "trace_chart"
    for words in (["--help"], ["-h"], ["--version"], ["-V"]):
        ran = subprocess.run([script, *words], capture_output=True, timeout=60)
        yield f"{words[0]}", ran.returncode == 0 and ran.stdout and not ran.stderr
    ran = subprocess.run([script, "-"], input=WORKED.read_bytes(), capture_output=True, timeout=600)
    yield "standard input", ran.returncode == 0 and ran.stdout == (room / "worked_trace.svg").read_bytes()
    ran = subprocess.run([script, "-"], input=b"RELAYTRACE 3\n", capture_output=True, timeout=600)
    yield "standard input: one line that names it", ran.returncode == 2 and ran.stderr.count(b"\n") == 1 and b"standard input: line 1: " in ran.stderr
    ran = subprocess.run([script, "--output", room / "none" / "run.svg", WORKED], capture_output=True, timeout=600)
    yield "a folder that is missing: one line that names it", ran.returncode == 3 and ran.stderr.count(b"\n") == 1 and b"none/run.svg: " in ran.stderr
    (room / "full.svg").symlink_to("/dev/full")
    ran = subprocess.run([script, "--output", room / "full.svg", WORKED], capture_output=True, timeout=600)
    yield "a full disk: one line that names it", ran.returncode == 3 and ran.stderr.count(b"\n") == 1 and b"full.svg: " in ran.stderr
    before = set(room.iterdir())
    ran = subprocess.run([script, "--output", room / "run.png", WORKED], capture_output=True, timeout=600)
    yield "a PNG", ran.returncode == 0 and (room / "run.png").read_bytes().startswith(b"\x89PNG") and set(room.iterdir()) - before == {room / "run.png"}


def is_rendered(browser, svg, picture):
    """Whether a headless browser renders the chart without an error to a picture that is not
    empty."""
    # (the chart has points; a point is four thirds of a browser's pixel)
    size = [str(round(float(it) * 4 / 3)) for it in re.search(r'viewBox="0 0 ([\d.]+) ([\d.]+)"', svg.read_text()).groups()]
    with tempfile.TemporaryDirectory(prefix="charts-browser-") as home:
        words = [browser, "--headless", "--no-sandbox", "--disable-gpu", "--hide-scrollbars", f"--user-data-dir={home}", f"--screenshot={picture}",
                 f"--window-size={','.join(size)}", "--default-background-color=FFFFFFFF", svg.as_uri()]
        ran = subprocess.run(words, capture_output=True, timeout=120)
    return ran.returncode == 0 and picture.exists() and picture.stat().st_size > 10_000


def check_chart(name, path, room, rows_of, browser):
    """Draws a chart, and checks it by these rows, also as a browser shows it."""
    svg = room / f"{name}.svg"
    ran = draw_chart(path, svg)
    yield f"{name}: drawn", ran.returncode == 0 and not ran.stderr
    if ran.returncode:
        print(ran.stderr.decode(errors="replace"))
        return
    for what, is_so in rows_of(Tree.parse(svg).getroot()):
        yield f"{name}: {what}", is_so
    if browser:
        yield f"{name}: a browser renders it", is_rendered(browser, svg, room / f"{name}.png")


def all_rows(room, browser):
    """All checks, each with its name and whether it holds."""
    yield from check_chart("worked_trace", WORKED, room, worked_rows, browser)
    for what, is_so in worked_rows(Tree.parse(COMMITTED).getroot()):
        yield f"docs/worked_trace.svg: {what}", is_so
    trace = room / "long.trace"
    trace.write_text(rows.trace_text(rows.NEW_METER, long_trace()))
    yield from check_chart("long", trace, room, long_rows, browser)
    for rows_of in (part_rows, range_rows, last_rows, sampler_rows, label_rows, command_rows):
        yield from rows_of(room)
    yield from wrong_rows(room)


def wrong_rows(room):
    """Checks that a wrong or missing trace writes no chart and one line of errors."""
    wrong = room / "wrong.trace"
    wrong.write_text("RELAYTRACE 3\n")
    ran = draw_chart(wrong, room / "wrong.svg")
    lines = ran.stderr.decode(errors="replace").splitlines()
    yield "a wrong trace is a fault of the input", ran.returncode == 2 and b"fault: input" in ran.stderr and not (room / "wrong.svg").stat().st_size
    yield "a wrong trace: one line that names it", len(lines) == 1 and f"{wrong}: line 1: " in lines[0]
    ran = subprocess.run([TOP / "bin" / "trace_chart", "--output", room / "none.svg", room / "none.trace"], capture_output=True, timeout=600)
    yield "a missing trace: one line that names it", ran.returncode == 2 and ran.stderr.count(b"\n") == 1 and b"none.trace: " in ran.stderr
    yield "a missing trace: no file", not (room / "none.svg").exists()


def has_matplotlib():
    """Whether a Python with matplotlib is installed."""
    return any(subprocess.run([it, "-c", "import matplotlib"], capture_output=True).returncode == 0 for it in (sys.executable, "/usr/bin/python3"))


def main(words):
    if not has_matplotlib():
        print("SKIPPED charts: matplotlib is not installed (Debian: apt-get install python3-matplotlib)")
        print("0 passed, 0 failed")
        return 0
    browser = next((found for found in map(shutil.which, BROWSERS) if found), None)
    if not browser:
        print("SKIPPED charts in a browser: no browser is installed (Debian: apt-get install chromium)")
    passed, failed = 0, 0
    with tempfile.TemporaryDirectory(prefix="charts-") as room:
        if words[:1] == ["--keep"]:
            room = words[1]
            os.makedirs(room, exist_ok=True)
        for name, is_so in all_rows(Path(room), browser):
            passed, failed = passed + bool(is_so), failed + (not is_so)
            if not is_so:
                print(f"FAILED charts: {name}")
    print(f"{passed} passed, {failed} failed")
    return 1 if failed else 0


if __name__ == "__main__":
    sys.exit(main(sys.argv[1:]))
