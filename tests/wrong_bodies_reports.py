#!/usr/bin/env python3
"""Tests bin/wrong_bodies.

- It reports a refused body, a right one, one that does not compile and one whose text is missing,
  and counts them.
- An edit of a constant is judged together with others only if only bodies of functions use the
  constant.
- The other functions have no body in the copy that is checked.
- Edits of wrong/long/ are judged only with --long.
- A round ends once its check has printed its lines.
- An edit that was refused is judged again only if its text or its crate has changed.
"""
import importlib.machinery
import importlib.util
import os
import re
import subprocess
import sys
import tempfile
import types

TOP = os.path.dirname(os.path.dirname(os.path.realpath(__file__)))

# Edits of the crate relay_events, a small one: names, old and new texts, and the expected lines.
READS = "Event::Get { .. } | Event::GetList { .. })"
EDITS = {
    "a_right_body": (READS, "Event::GetList { .. } | Event::Get { .. })", r"NOT REFUSED"),
    "a_body_that_cannot_be_read": (READS, f"{READS})(,", r"BAD EDIT"),
    "a_text_that_is_not_there": ("Event::GetList { .. } | Event::Get { .. })", READS, r"BAD EDIT"),
}

BODY = "const LIMIT: u8 = 3;\n\nfn limit() -> u8 {\n    LIMIT\n}\n"
# The files of a crate with the constant LIMIT, and the functions whose bodies use it, or None if
# anything else does.
SOURCES = {
    "a body names the constant": ({"src/lib.rt": BODY}, ["limit"]),
    "two bodies in two files name it": ({"src/lib.rt": BODY, "src/more.rt": "use crate::LIMIT;\n\nfn twice() -> u8 {\n    LIMIT + LIMIT\n}\n"}, ["limit", "more::twice"]),
    "a contract names it": ({"src/lib.rt": BODY.replace("u8 {", "u8\n    ensures { result \u2261 LIMIT }\n{")}, None),
    "a type names it": ({"src/lib.rt": BODY, "src/more.rt": "struct Page {\n    bytes: [u8; LIMIT],\n}\n"}, None),
    "another constant names it": ({"src/lib.rt": BODY + "\nconst TWICE: u8 = 2 * LIMIT;\n"}, None),
    "a definition names it": ({"src/lib.rt": BODY, "specs/Limits.antt": "use Rattle.a.specs.declared.TheConstants.{LIMIT}\n"}, None),
    "a use gives it another name": ({"src/lib.rt": BODY, "src/more.rt": "use crate::LIMIT as MOST;\n"}, None),
}

# The functions of a crate of which `line_count` is edited. Below: the expected text, names and
# proofs with holes.
LEFT = """pub struct Page {
    lines: u8,
}

impl Page {
    pub fn lines(&self) -> u8
        ensures {
            result ≡ self.now.lines
        }
    {
        self.lines
    }
}

impl Default for Page {
    fn default() -> Page {
        Page { lines: 0 }
    }
}

impl From<Page> for u8 {
    fn from(page: Page) -> u8 {
        page.lines
    }
}

impl TryFrom<u8> for Page {
    fn try_from(lines: u8) -> Result<Page, Full> {
        Ok(Page { lines })
    }
}

const fn least() -> u8 {
    1
}

#[cycle(parity)]
fn is_even(n: u8) -> bool {
    n == 0 || !is_even(n - 1)
}

fn a_law()
    ensures { ⊤ }
{}

impl<'a, I: Read + Drop + Send> port_threads::Connection<
    Port<Kept>,
> for Client<'a, I> {
    fn serve(self) -> u8 {
        2
    }
}

fn line_count(page: &Page) -> u8 {
    page.lines()
}

fn two() -> u8 {
    let one = 1;
    one + 1
}

pub extern "C" fn next_number(n: u8) -> u8 {
    let one = 1;
    n + one
}
"""
KEPT = LEFT.replace("        self.lines\n", "loop {}\n").replace("    let one = 1;\n    one + 1\n", "loop {}\n\n").replace("    let one = 1;\n    n + one\n", "loop {}\n\n")
NAMES = ["Page::lines", "PageDefault::default", "U8FromPage::from", "PageTryFromU8::try_from", "page::least", "page::is_even", "page::a_law", "ClientConnectionPortKept::serve", "page::line_count", "page::two", "page::next_number"]
HOLES = {
    "proofs/page/Page/lines/Proof.antt": "use Rattle.book.proofs.page.Page.lines.Statement.{statement}\n\npub lines_spec : {M : Type 1} → statement M\nlines_spec = ?\n",
    "proofs/page/two/Proof.antt": "use Rattle.book.proofs.page.two.Statement.{statement}\n\npub two_spec : {M : Type 1} → statement M\ntwo_spec = ?\n",
    "proofs/page/next_number/Proof.antt": "use Rattle.book.proofs.page.next_number.Statement.{statement}\n\npub next_number_spec : {M : Type 1} → statement M\nnext_number_spec = ?\n",
}

def judge():
    """The module of bin/wrong_bodies."""
    sys.dont_write_bytecode = True
    loader = importlib.machinery.SourceFileLoader("wrong_bodies", f"{TOP}/bin/wrong_bodies")
    module = importlib.util.module_from_spec(importlib.util.spec_from_loader("wrong_bodies", loader))
    loader.exec_module(module)
    return module


def users_are_found():
    """Checks `users_of` with each of the crates above."""
    users_of, rows = judge().users_of, {}
    for name, (sources, wanted) in SOURCES.items():
        users = users_of("LIMIT", sources)
        rows[name] = (users if users is None else sorted(it.name for it in users.values())) == wanted
    return rows


def bodies_are_left_out():
    """Checks `sources_without_bodies`."""
    module = judge()
    edited = next(it for it in module.functions_of("src/page.rt", LEFT) if it.name == "page::line_count")
    names = [it.name for it in module.functions_of("src/page.rt", LEFT)]
    stubs, gone = module.sources_without_bodies("book", {"src/page.rt": LEFT}, {(edited.path, edited.first)})
    return {
        "functions have the names that a check prints": names == NAMES,
        "other bodies are left out, except those of a trait, a constant, a cycle and a law": stubs.pop("src/page.rt") == KEPT,
        "a function without a body has a hole as proof": stubs == HOLES,
        "the proof of a function without a body is left out": gone == [it.replace("Proof", part) for it in HOLES for part in ("Invariants", "Answers")],
    }


def edited_functions_are_kept():
    """Checks that the function of the line `by: ` keeps its body if the constant is in another
    file."""
    module = judge()
    with tempfile.TemporaryDirectory() as folder:
        os.makedirs(f"{folder}/src")
        texts = {
            "src/lib.rt": "mod limits;\n\nuse limits::LIMIT;\n\nfn limit() -> u8 {\n    let one = LIMIT;\n    one\n}\n",
            "src/limits.rt": "pub(crate) const LIMIT: u8 = 3;\n",
            "limit.edit": "by: limit\nfile: src/limits.rt\nold: const LIMIT: u8 = 3;\nnew: const LIMIT: u8 = 4;\n",
        }
        for path, text in texts.items():
            with open(f"{folder}/{path}", "w", encoding="utf-8") as file:
                file.write(text)
        crate = types.SimpleNamespace(name="book", folder=folder)
        changed, edited = module.edited_sources(crate, [module.Edit(crate, f"{folder}/limit.edit")])
    sources = {path: text for path, text in texts.items() if path.startswith("src/")}
    stubs, _ = module.sources_without_bodies("book", {**sources, **changed}, edited)
    return {"the function of the line `by: ` keeps its body": stubs == {"src/lib.rt": texts["src/lib.rt"], "src/limits.rt": texts["src/limits.rt"].replace("3", "4")}}


def long_ones_are_apart():
    """Checks that the edits of wrong/long/ are judged only with --long."""
    files_of = judge().files_of
    with tempfile.TemporaryDirectory() as folder:
        os.makedirs(f"{folder}/wrong/long")
        for it in ("wrong/one.edit", "wrong/long/another.edit"):
            open(f"{folder}/{it}", "w", encoding="utf-8").close()
        crate = types.SimpleNamespace(name="book", folder=folder)
        found = [[os.path.relpath(it, folder) for it in files_of(crate, is_long)] for is_long in (False, True)]
    return {"the edits of wrong/long/ are judged only with --long": found == [["wrong/one.edit"], ["wrong/one.edit", "wrong/long/another.edit"]]}


def rounds_end_at_their_lines():
    """Checks `has_lines` before and after the stage `lines`."""
    has_lines = judge().has_lines
    with tempfile.TemporaryDirectory() as folder:
        file, found = f"{folder}/stages", []
        found.append(has_lines(file))
        for text in ("stage front-end 5.1 326932\nstage session 6.1 693368\n", "stage front-end 5.1 326932\nstage session 6.1 693368\nstage lines 0.01 665660\n"):
            with open(file, "w", encoding="utf-8") as it:
                it.write(text)
            found.append(has_lines(file))
    return {"a round ends once its check has its lines": found == [False, False, True]}


def refused_ones_are_known():
    """Checks `Refused` with an edit of a crate that is refused, and then changed."""
    module, found = judge(), []
    with tempfile.TemporaryDirectory() as folder:
        module.rt.STORE = f"{folder}/kept"
        crate = next(it for it in module.rt.rtlib.crates_below(TOP) if it.name == "relay_events")
        edit = types.SimpleNamespace(crate=crate, file=f"{folder}/one.edit")
        for text in ("new: 4", "new: 5"):
            with open(edit.file, "w", encoding="utf-8") as file:
                file.write(text)
            found.append(module.Refused([crate], False).line_of(edit))
            module.Refused(crate.below() + [crate], False).add(edit, f"refused: {text}")
            found.append(module.Refused([crate], False).line_of(edit))
        found.append(module.Refused([crate], True).line_of(edit))
    return {"a refused edit is judged again only if it has changed, or with --anew": found == [None, "refused: new: 4", None, "refused: new: 5", None]}


def judge_edits():
    """Runs bin/wrong_bodies with the edits; returns its status and its lines."""
    with tempfile.TemporaryDirectory() as folder:
        words = []
        for name, (old, new, _) in EDITS.items():
            file = f"{folder}/{name}.edit"
            with open(file, "w", encoding="utf-8") as it:
                it.write(f"file: src/event.rt\nold: {old}\nnew: {new}\n")
            words += ["--with", f"relay_events={file}"]
        ran = subprocess.run([f"{TOP}/bin/wrong_bodies", "--anew", *words, "relay_events"], capture_output=True, text=True)
    return ran.returncode, ran.stdout.rstrip("\n").split("\n")


def main():
    status, lines = judge_edits()
    own = [it for it in lines if "relay_events/" in it and not any(name in it for name in EDITS)]
    rows = {name: any(f"relay_events/{name}: " in it and re.search(wanted, it) for it in lines) for name, (_, _, wanted) in EDITS.items()}
    rows["the wrong bodies of the crate are refused"] = bool(own) and all(": refused" in it for it in own)
    rows["all are counted"] = status == 1 and lines[-1] == f"{len(own)} passed, {len(EDITS)} failed"
    rows.update(users_are_found())
    rows.update(bodies_are_left_out())
    rows.update(edited_functions_are_kept())
    rows.update(long_ones_are_apart())
    rows.update(rounds_end_at_their_lines())
    rows.update(refused_ones_are_known())
    for name, is_well in rows.items():
        print(f"wrong_bodies_reports: {name}: {'passed' if is_well else 'FAILED'}")
    failed = sum(not it for it in rows.values())
    if failed:
        print("\n".join(lines))
    print(f"{len(rows) - failed} passed, {failed} failed")
    return 1 if failed else 0


if __name__ == "__main__":
    sys.exit(main())
