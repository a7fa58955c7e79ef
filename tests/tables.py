#!/usr/bin/env python3
"""Tests bin/tables: in a small repository it writes the right tables, and its check fails for each
planted wrong line. In this repository the made parts and the groups of crates.txt must be right.
"""
import shutil
import subprocess
import sys
import tempfile
from pathlib import Path

TOP = Path(__file__).resolve().parent.parent
PAGE = "<!-- {0} -->\n\n{1}<!-- end of the {0} -->\n"
ROW = "| [words/{0}](../crates/words/specs/{0}.antt) | {1} |  | {2} |\n"
FILES = {
    "crates.txt": "# NAME: what it needs\n\n## Bytes and text\nwords: hex\ncosem_names:\n\n"
                  "## Threads and server\nlock: words\n\n## Head end\n\n"
                  "## C library\ndevice: words\n\n## Programs\nrun: lock words\n\n"
                  "## Tests\nwords_tests: words lock\n",
    "crates/words/README.md": "# words\n\nWords of a line ([a page](../../docs/PROMISES.md)). "
                              "More.\n",
    "crates/lock/README.md": "# lock\n\nA lock.\n\nFrom the test `locks_again`:\n",
    "crates/device/README.md": "# device\n\nA device. `tests/device.py` runs it.\n",
    "crates/run/README.md": "# run\n\nA program.\n",
    "crates/words/src/lib.rt": "", "crates/device/src/lib.rt": "", "crates/run/src/lib.rt": "",
    "crates/lock/src/lib.rt": "#[test]\nfn locks() {}\n",
    "crates/words_tests/src/lib.rt": "mod lines;\nmod locks;\n",
    "crates/words_tests/src/lines.rt": "use words::Line;\n\n#[test]\nfn reads() {}\n",
    "crates/words_tests/src/locks.rt": "use lock::Lock;\nuse words::Line;\n\nmod two;\n",
    "crates/words_tests/src/locks/two.rt": "#[test]\nfn locks_again() {}\n",
    "tests/unproved/depends.txt": "more_tests: words\n",
    "tests/unproved/more_tests/lib.test": "use words::Line;\n\n#[test]\nfn more() {}\n",
    "crates/words/specs/Lines.antt": "use Rattle.words.specs.Parts.{part}\n",
    "crates/words/specs/Parts.antt": "", "crates/words/specs/Inside.antt": "",
    "crates/words/specs/Numbers.antt": "",
    "docs/ARCHITECTURE.md": PAGE.format("crates", ""),
    "docs/DEFINITIONS.md": PAGE.format("numbers", "") + PAGE.format("definitions", "".join(
        ROW.format(name, "a text", "") for name in ("Lines", "Parts", "Inside"))),
    "docs/PROMISES.md": '<a id="p1"></a>**1. Lines.** A promise.\n\n- Definitions: '
                        "[`line`](../crates/words/specs/Lines.antt).\n\n" + PAGE.format("kit", ""),
}
# The sources of docs/CLIENTS.md, with a row or two each.
FILES |= {
    "crates/cosem_names/README.md": "# cosem_names\n\nNames.\n",
    "crates/cosem_names/specs/Table.antt": (
        "switch : ClassId\nswitch = class_id 70\n\nobjects =\n"
        "    object (Limiter Export) switch 3 (obis 0 1 96 3 10 255) ∷\n    []\n\nattributes =\n"
        "    attribute switch 4 ReadOnly ReadAndWrite ∷  -- mode\n"
        "    attribute switch 5 NoAccess ReadOnly ∷  -- state\n    []\n\n"
        "methods =\n    method switch 1 false true ∷  -- cut\n    []\n"),
    "crates/cosem_names/src/objects.rt": (
        "pub enum Instance {\n    /// The device.\n    Device,\n"
        "    /// The limiter of\n    /// power: class 70, Switch.\n    Limiter(Which),\n}\n"),
    "crates/cosem_names/src/class.rt": "/// Class 70, Switch (IEC 62056-6-2).\n",
    "crates/cosem_names/specs/ResultCode.antt": "code_of Success = 0\ncode_of Other = 250\n",
    "crates/cosem_names/src/result_code.rt": (
        "pub enum ResultCode {\n    /// 0, success.\n    Success,\n"
        "    /// 250, other-reason: out of\n    /// memory.\n    Other,\n}\n"),
    "crates/acse_ber/specs/Conformance.antt": (
        "-- blocks\nabbrev pub in_blocks : ℕ\nin_blocks = conformance_bit 11\n\n"
        "-- get\nabbrev pub get_service : ℕ\nget_service = conformance_bit 19\n"),
    "crates/session_core/specs/Standard.antt": (
        "get_tag = 0xC0\nrequest_forms =\n    form get_tag 1 get_service\n"
        "    ∷ form get_tag 2 (get_service + in_blocks)\n"),
    "crates/xdlms_apdu/specs/Requests.antt": (
        "-- Get-Request ::= CHOICE { get-request-normal [1],\n--     get-request-next [2] }\n"),
    "crates/disconnect_control/specs/Transitions.antt": (
        "a = record { trigger = RemoteCut; from = On; to = Off }\n"
        "b = record { trigger = LocalCut; from = On; to = ReadyAgain }\nrows_of Mode0 = columns n n\n"
        "rows_of Mode1 = columns y n\nstate_number Off = 0\nstate_number ReadyAgain = 2\n"
        "trigger_number RemoteCut = 0\ntrigger_number LocalCut = 4\n"),
    "docs/CLIENTS.md": "".join(PAGE.format(it, "") for it in (
        "objects", "results", "conformance", "requests", "modes")),
}
# What the made pages contain.
WRITTEN = {
    "docs/CLIENTS.md": (
        "| The limiter of power: export | 70 | 3 | 0.1.96.3.10.255 | `000160030AFF` |\n",
        "| 70 Switch | attribute 4 | mode | read | read, write |\n",
        "| 70 Switch | attribute 5 | state | none | read |\n",
        "| 70 Switch | method 1 | cut | none | execute |\n", "| 0 | `00` | success |  |\n",
        "| 250 | `FA` | other-reason | out of memory |\n", "| 11 | `001000` | blocks |\n",
        "| all | `001010` |  |\n", "| `C0 01` | Get-Request-Normal | get (19) |\n",
        "| `C0 02` | Get-Request-Next | get (19), blocks (11) |\n", "| 0 | no | no |\n",
        "| Mode | Remote cut | Local cut |\n", "| 1 | 0 Off | no |\n"),
    "docs/ARCHITECTURE.md": (
        "| [`words`](../crates/words/README.md) | Words of a line ([a page](PROMISES.md)) "
        "| kit: `hex` | [words_tests/lines](../crates/words_tests/src/lines.rt), "
        "[more_tests/lib](../tests/unproved/more_tests/lib.test) |\n",
        "| [`lock`](../crates/lock/README.md) | A lock | `words` | [lock/lib](../crates/lock/src/"
        "lib.rt), [words_tests/locks](../crates/words_tests/src/locks.rt) |\n",
        "| A device | `words` | [tests/device.py](../tests/device.py) |\n",
        "| A program | `lock` |  |\n", "| `words_tests` | `words`, `lock` |\n",
        "### Tests that are not proved\n\n", "| `more_tests` | `words` |\n"),
    "docs/DEFINITIONS.md": (
        "[words](../crates/words/specs/Numbers.antt).\n", "## Bytes and text\n",
        ROW.format("Lines", "a text", "[1](PROMISES.md#p1)"),
        ROW.format("Parts", "a text", "[1](PROMISES.md#p1)"),
        ROW.format("Inside", "a text", "internal")),
    "docs/PROMISES.md": ("`std`, `hex`.\n",),
}
# Planted texts: the file, the old and the new text, and what the check reports.
PLANTED = {
    "a wrong dependency": ("docs/ARCHITECTURE.md", "| kit: `hex`", "| kit: `itoa`",
                           "expected `| [`words`](../crates/words/README.md) | Words of a line"),
    "a wrong description": ("docs/ARCHITECTURE.md", "A lock |", "A block |", "found `| [`lock`]"),
    "a changed README": ("crates/device/README.md", "A device.", "One device.", "| One device |"),
    "a wrong promise": ("docs/DEFINITIONS.md", "internal", "[1](PROMISES.md#p1)", "| internal |`"),
    "a file that no promise links": ("docs/PROMISES.md", "specs/Lines", "specs/Parts",
                                     "a text |  | internal |`, found"),
    "a README without a text": ("crates/run/README.md", "\n\nA program.", "",
                                "crates/run/README.md: expected a heading"),
    "a file with two rows": ("docs/DEFINITIONS.md", "words/specs/Inside", "words/specs/Parts",
                             "crates/words/specs/Parts.antt is listed twice"),
    "a row without its file": ("docs/DEFINITIONS.md", "words/specs/Inside", "words/specs/Outside",
                               "no file crates/words/specs/Outside.antt"),
    "a wrong crate of the kit": ("docs/PROMISES.md", "`hex`", "`memchr`", "`std`, `hex`"),
    "a page without its marks": ("docs/PROMISES.md", "<!-- kit -->", "", "no marks `<!-- kit -->`"),
    "a crate in another group": ("crates.txt", "## Programs\nrun", "\nrun", "no heading `## Prog"),
    "a crate before what it depends on": ("crates.txt", "words: hex", "words: hex device",
                                          "words depends on device, which is listed after it"),
    "a crate without a group": ("crates.txt", "## Bytes and text\n", "", "words has no group"),
    "a group with two headings": ("crates.txt", "## Head end", "## Head end\n\n## Head end",
                                  "two headings `## Head end`"),
    "a crate that is not listed": ("crates.txt", "run: lock words\n", "", "crates/run is not list"),
    "a wrong right": ("docs/CLIENTS.md", "state | none | read |", "state | read | read |",
                      "expected `| 70 Switch | attribute 5 | state | none | read |`"),
    "a changed transition": ("crates/disconnect_control/specs/Transitions.antt", "columns y n",
                             "columns y y", "expected `| 1 | 0 Off | 2 Ready again |`"),
    "a result with another number": ("crates/cosem_names/specs/ResultCode.antt", "Other = 250",
                                     "Other = 251", "Other is 251 in cosem_names/specs/Result"),
    "a source without rows": ("crates/cosem_names/specs/Table.antt", "object (", "item (",
                              "no row of the table `Object` in cosem_names/specs/Table.antt"),
    "a source without a row": ("crates/session_core/specs/Standard.antt", "form get_tag 1",
                               "shape get_tag 1", "expected `| `C0 02` | Get-Request-Next"),
    "a server in the C library": ("crates.txt", "device: words", "device: words lock",
                                  "C library depends on lock (Threads and server): device > lock"),
}


def run(top, *words):
    ran = subprocess.run([top / "bin" / "tables", *words], capture_output=True, text=True)
    return ran.returncode, ran.stdout + ran.stderr


def new_repository(top):
    for path, text in FILES.items():
        (top / path).parent.mkdir(parents=True, exist_ok=True)
        (top / path).write_text(text)
    (top / "bin").mkdir()
    shutil.copy(TOP / "bin" / "tables", top / "bin")


def cases(top):
    """The cases in a small repository, each with whether it is right."""
    yield "pages without their tables are refused", run(top, "--check")[0] == 1
    yield "the tables are written", run(top) == (0, "") and all(
        line in (top / path).read_text() for path, lines in WRITTEN.items() for line in lines)
    yield "written tables are right", run(top, "--check") == (0, "")
    for name, (path, old, new, reported) in PLANTED.items():
        text = (top / path).read_text()
        (top / path).write_text(text.replace(old, new, 1))
        status, lines = run(top, "--check")
        yield name, old in text and status == 1 and reported in lines
        (top / path).write_text(text)


def main():
    with tempfile.TemporaryDirectory() as folder:
        new_repository(Path(folder))
        rows = dict(cases(Path(folder)))
    status, lines = run(TOP, "--check")
    rows["the tables and crates.txt of this repository"] = status == 0
    print(lines, end="")
    failed = [name for name, is_right in rows.items() if not is_right]
    for name in failed:
        print(f"FAILED tables: {name}")
    print(f"{len(rows) - len(failed)} passed, {len(failed)} failed")
    return 1 if failed else 0


if __name__ == "__main__":
    sys.exit(main())
