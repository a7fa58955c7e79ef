#!/usr/bin/env python3
"""Tests that what README.md, docs/ and the crates' READMEs name exists: links and their places,
files, functions, definitions, edits, tests.

- A link leads to a file, and to a heading or an anchor in it.
- A path in code or prose (docs/TRACE.md, bin/build, crates/NAME/..) is that of a file or folder.
- `CRATE::NAME` is declared in that crate's sources; the toolchain's crates are not checked. In
  `TYPE::NAME` a crate declares both.
- Names in the text of a link to a source or a file of specs/, and names `in` such a link, are
  declared in that file.
- Names of a crate's README under "Calls" are those of functions or types of that crate, or of its
  definitions if the entry names specs/ or proofs/.
- Any other name of several words in code (`some_name`, `SomeName`) is declared in some source,
  script or C file, or is a word of specs/ or proofs/.
- `CRATE/EDIT` and each name in docs/WRONG_BODIES.md's last column is an edit, or a test; its tables
  are what bin/wrong_page writes, so no edit is missing there.
- A definition that docs/DEFINITIONS.md names is in a file of its row, and each file of specs/ is
  linked there.
- A name in code in the first comment of a source is declared, or is a crate.
- Each crate has a README. It names a test that exists and makes the calls of its example, or a
  script or a file of tests/ or of a crate of tests, or says that the gate runs the files of its
  folder.
"""
import functools
import re
import subprocess
import sys
from pathlib import Path

TOP = Path(__file__).resolve().parent.parent
CRATES = {it.name: it for it in sorted((TOP / "crates").iterdir()) if (it / "src").is_dir()}
# Words that stand for any name, as in crates/NAME/src.
PLACEHOLDER = re.compile(r"\b(NAME|CRATE|PATH|TEXT|FILE|EDIT|PROGRAM|PREFIX|TRACE|JOBS|FOLDER)\b|\*|<|\.\.")
CODE = re.compile(r"`([^`\n]+)`")
LINK = re.compile(r"\[[^\]]*\]\(([^)\s]+)\)")
# A link with its text; and a link after names in code and the word `in`.
LABELLED = re.compile(r"\[([^\]]*)\]\(([^)\s#]+)")
NAMES_IN = re.compile(r"((?:`[^`\n]+`(?:,\s+|\s+and\s+)?)+)\s+in\s+\[[^\]]*\]\(([^)\s#]+)")
NAME = re.compile(r"(\w+(?:::\w+)*)(?:\(\))?")
# A name of several words, and no text in hexadecimal.
LONG_NAME = re.compile(r"(?!(?:[0-9A-F]{2})+$)(?:[a-z]\w*_\w+|[A-Z][a-z0-9]+[A-Z]\w*)")
# Names of other systems, and one that a recipe has the reader write.
OTHERS = {"local_lock", "MaxArraySize", "serve_with_four"}
DECLARATION = re.compile(r"\b(?:fn|struct|enum|trait|const|static|mod|type|ghost) (\w+)")
FIELD = re.compile(r"\b(\w+)\s*:(?!:)")
CLAUSE = re.compile(r"\b(?:ensures|requires)\*? (\w+) \{")
ENUM = re.compile(r"(?ms)^( *)(?:pub(?:\(\w+\))? )?enum \w+(.*?)^\1\}")
VARIANT = re.compile(r"(?m)^\s*(\w+)")


def pages():
    """The documents that are checked."""
    return [TOP / it for it in ("README.md", "CONTRIBUTING.md", "CHANGELOG.md")] + sorted((TOP / "docs").glob("*.md")) + sorted(TOP.glob("crates/*/README.md"))


def code_of(path):
    """A source without its comments."""
    mark = {".antt": "--", ".rt": "//", ".bench": "//", ".rs": "//", ".test": "//"}.get(path.suffix, "#")
    return re.sub(rf"(?m)(?:^|\s){mark}.*$", "", path.read_text())


def declared_in(code):
    """The functions, types, constants, modules, variants of enums, clauses, fields and parameters
    that a Rattle source declares."""
    found = {*DECLARATION.findall(code), *FIELD.findall(code), *CLAUSE.findall(code)}
    return found.union(*(VARIANT.findall(it) for _, it in ENUM.findall(code)))


FILES_OF = {name: {it: code_of(it) for it in sorted((folder / "src").rglob("*.rt"))} for name, folder in CRATES.items()}
FILES = {path: code for files in FILES_OF.values() for path, code in files.items()}
SOURCES = {name: "\n".join(files.values()) for name, files in FILES_OF.items()}
WORDS_OF_CODE = set(re.findall(r"\w+", "\n".join(SOURCES.values())))
DECLARED = {it: declared_in(code) for it, code in SOURCES.items()}
ALL_DECLARED = set().union(*DECLARED.values())
ALL_TYPES = {it for it in ALL_DECLARED if it[0].isupper()}
SPECS = {name: {word for it in folder.glob("specs/*.antt") for word in re.findall(r"\w+", code_of(it))} for name, folder in CRATES.items()}
EDITS = {crate: {it.stem for part in ("wrong", "wrong/long", "must-fail") for it in (folder / part).glob("*.edit")} for crate, folder in CRATES.items()}
ALL_EDITS = set().union(*EDITS.values())
# The sources of the tests that are not proved, by crate; each test with the sources of its crate.
UNPROVED = {it.name: "\n".join(code_of(file) for file in sorted(it.rglob("*.test"))) for it in (TOP / "tests" / "unproved").iterdir() if it.is_dir()}
TESTS = {it: text for text in (*SOURCES.values(), *UNPROVED.values()) for it in re.findall(r"#\[test\]\s*(?:#\[[^\n]*\]\s*)*(?:pub )?fn (\w+)", text)}


def other_names():
    """The names of crates, edits, files and of the toolchain's libraries, and those that benchmarks,
    scripts and C files declare; the words of proofs/."""
    yield from (*CRATES, *UNPROVED, *ALL_EDITS)
    yield from re.findall(r"\w+", (TOP / "crates.txt").read_text())
    for it in TOP.glob("crates/*/proofs/*.antt"):
        yield from re.findall(r"\w+", code_of(it))
    for folder in ("tests", "bin", "bench", "examples", "firmware", "share", "crates/meter/include"):
        for it in (it for it in (TOP / folder).rglob("*") if it.is_file()):
            yield it.stem
            if it.suffix in (".c", ".h", ".lua"):
                yield from re.findall(r"\w+", it.read_text())
            elif it.suffix in (".bench", ".rs", ".test"):
                yield from declared_in(code_of(it))
            elif it.suffix in ("", ".py"):
                yield from re.findall(r"(?m)^ *(?:def|class) (\w+)", it.read_text(errors="replace"))


KNOWN = ALL_DECLARED.union(*SPECS.values(), other_names(), OTHERS)


def prose(text):
    """A page without its blocks of code."""
    return re.sub(r"(?ms)^```.*?^```$", "", text)


@functools.cache
def anchors(path):
    """The places of a document that a link may name."""
    text = prose(path.read_text())
    heads = [re.sub(r"[^\w\- ]", "", it.lower()).replace(" ", "-") for it in re.findall(r"(?m)^#+ (.*)$", text)]
    return {*heads, *re.findall(r'<a id="([^"]+)"', text)}


def links(page, text):
    """The links of a document that lead to no file or place."""
    for target in LINK.findall(text):
        if re.match(r"https?:", target):
            continue
        path, _, place = target.partition("#")
        there = (page.parent / path).resolve() if path else page
        if not there.exists():
            yield f"no file {target}"
        elif place and place not in anchors(there):
            yield f"no place {target}"


def paths(page, text):
    """The paths in code and prose that lead to no file, from the top of the repository, or in a
    crate's README from its own folder."""
    plain = LINK.sub("", text)
    found = set(re.findall(r"(?<![\w/.-])(?:docs|bin|tests|bench|crates|share|examples|firmware)/[\w./*<>-]*[\w/]", plain))
    found |= {it for it in CODE.findall(plain) if re.fullmatch(r"(?:src|specs|proofs|wrong)/[\w./-]+", it)}
    for it in sorted(found):
        if not PLACEHOLDER.search(it) and not any((place / it).exists() for place in (TOP, page.parent)) and not is_shortened(it):
            yield f"no file {it}"


def is_shortened(path):
    """Whether a path is that of a file in the folder of some crate, such as `src/tests.rt`."""
    return path.startswith(("src/", "specs/", "proofs/", "wrong/")) and any((it / path).exists() for it in CRATES.values())


def functions(text):
    """The functions of crates that a document names and that do not exist."""
    for it in CODE.findall(text):
        words = re.fullmatch(r"(\w+)((?:::\w+)+)(?:\(\))?", it)
        if words and words[1] in CRATES:
            for name in words[2].split("::")[1:]:
                if name not in DECLARED[words[1]]:
                    yield f"no {name} in {words[1]}: {it}"


def types(text):
    """The names `TYPE::NAME` of which no crate declares both."""
    for it in CODE.findall(text):
        words = re.fullmatch(r"([A-Z]\w+)::(\w+)", it)
        if words and not any(names.issuperset(words.groups()) for names in DECLARED.values()):
            yield f"no {it}"


def linked_names(page, text):
    """The names in the text of a link to a source or a file of specs/, or `in` such a link, that
    the file does not declare."""
    for names, target in (*LABELLED.findall(text), *NAMES_IN.findall(text)):
        path = (page.parent / target).resolve()
        if path.suffix not in (".rt", ".antt") or not path.exists():
            continue
        code = FILES.get(path) or code_of(path)
        words = set(re.findall(r"\w+", code))
        declared = declared_in(code) if path.suffix == ".rt" else words
        for found in map(NAME.fullmatch, CODE.findall(names)):
            parts = [it for it in found[1].split("::") if it not in CRATES] if found else []
            if parts and not (parts[-1] in declared and words.issuperset(parts)):
                yield f"no {found[1]} in {path.relative_to(TOP)}"


def calls(page, text):
    """The names that a crate's README lists as its calls and that the crate does not declare."""
    section = re.search(r"(?ms)^## Calls\n(.*?)(?=^## |\Z)", text)
    crate = page.parent.name
    known = {*DECLARATION.findall(SOURCES.get(crate, ""))} | ALL_TYPES
    for entry in re.split(r"(?m)^- ", section[1])[1:] if section else ():
        names = known | SPECS[crate] if re.search(r"`(?:specs|proofs)/", entry) else known
        for found in map(NAME.fullmatch, CODE.findall(re.split(r"(?<!:):(?!:)", entry)[0])):
            parts = [it for it in found[1].split("::") if it not in CRATES] if found else []
            if not names.issuperset(parts) and not LONG_NAME.fullmatch(parts[-1]):
                yield f"no {found[1]} in {crate}"


def long_names(text):
    """The names of several words in code that nothing declares."""
    for found in map(NAME.fullmatch, CODE.findall(text)):
        for name in found[1].split("::") if found else ():
            if LONG_NAME.fullmatch(name) and name not in KNOWN:
                yield f"no {name}"


def steps(text):
    """The single names in code that no crate declares and no test has."""
    for it in CODE.findall(text):
        if re.fullmatch(r"[a-zA-Z_]+", it) and it not in CRATES and it not in ALL_DECLARED and it not in TESTS:
            yield f"no {it}"


def edits(text):
    """The edits of crates that a document names and that do not exist."""
    for it in CODE.findall(text):
        words = re.fullmatch(r"(\w+)/(\w+)", it)
        if words and words[1] in CRATES and words[2] not in EDITS[words[1]] and not (CRATES[words[1]] / words[2]).exists():
            yield f"no edit {it}"


def wrong_bodies(text):
    """The edits and tests that the page of wrong bodies names and that do not exist."""
    for row in text.split("\n"):
        cells = row.split(" | ")
        if len(cells) == 2 and row.startswith("| "):
            for it in CODE.findall(cells[1]):
                name = it.rpartition("/")[2]
                if re.fullmatch(r"\w+_\w+_\w+", name) and name not in ALL_EDITS | TESTS.keys():
                    yield f"no edit or test {it}"
    told = subprocess.run([TOP / "bin" / "wrong_page", "--check"], capture_output=True, text=True)
    if told.returncode:
        yield (told.stdout + told.stderr).strip()


def definitions(text):
    """The names in the second cell of a row that the files of specs/ in its first cell do not
    define, and the files of specs/ that no row links to."""
    for row in text.split("\n"):
        cells = row.strip("| ").split(" | ")
        files = [TOP / "docs" / it for it in LINK.findall(cells[0]) if it.endswith(".antt")]
        if not row.startswith("| ") or not files:
            continue
        defined = "\n".join(it.read_text() for it in files)
        for it in CODE.findall(cells[1]):
            if re.fullmatch(r"[\w◌>=]+", it) and not re.search(rf"(?<![\w-]){re.escape(it)}(?![\w-])", defined):
                yield f"no definition {it} in {[it.name for it in files]}"
    for it in sorted(TOP.glob("crates/*/specs/*.antt")):
        if it.name != "Lib.antt" and f"../{it.relative_to(TOP)})" not in text:
            yield f"no link to {it.relative_to(TOP)}"


def examples():
    """The crates whose README is missing, or names no test, or one that does not exist."""
    for name, folder in CRATES.items():
        if name.endswith("_tests"):
            continue
        page = folder / "README.md"
        if not page.exists():
            yield f"{name} has no README"
            continue
        text = page.read_text()
        tests = re.findall(r"[Tt]ests?\s`(\w+)`", text)
        if not tests and not re.search(r"\btests/\w+\.py\b|_tests/src/|The gate runs this", text):
            yield f"{name}: its README names no test"
        for test in tests:
            if test not in TESTS:
                yield f"{name}: no test {test}"
            else:
                yield from (f"{name}: {test} does not call {it}" for it in missing_calls(text, test))


def missing_calls(text, test):
    """The calls of a README's example that the crate of its test does not make."""
    code = re.sub(r"//.*", "", "".join(re.findall(r"(?ms)^```rust\n(.*?)^```", text)))
    made = set(re.findall(r"\w+", TESTS[test]))
    return sorted(set(re.findall(r"\b([a-z_]\w+)\(", code)) - made - {"assert"})


def crates_in_heads():
    """The names of several words in the first comment of a source that are neither declared nor
    those of a crate, here or of the toolchain."""
    kit = set(re.findall(r"\w+", (TOP / "crates.txt").read_text()))
    for source in sorted(TOP.glob("crates/*/src/**/*.rt")):
        for it in CODE.findall("\n".join(re.findall(r"(?m)^//!(.*)$", source.read_text()))):
            known = it in CRATES or it in kit or (TOP / "bin" / it).exists()
            if re.fullmatch(r"[a-z][a-z0-9]*(?:_[a-z0-9]+)+", it) and not known and it not in WORDS_OF_CODE:
                yield f"{source.relative_to(TOP)}: no {it}"


def missing_names():
    """All that documents name and that does not exist."""
    for page in pages():
        text = prose(page.read_text())
        for what in (links(page, text), paths(page, text), functions(text), types(text), edits(text), linked_names(page, text), calls(page, text), long_names(text)):
            for it in what:
                yield f"{page.relative_to(TOP)}: {it}"
    yield from (f"docs/A_GET.md: {it}" for it in steps((TOP / "docs" / "A_GET.md").read_text()))
    yield from (f"docs/WRONG_BODIES.md: {it}" for it in wrong_bodies((TOP / "docs" / "WRONG_BODIES.md").read_text()))
    yield from (f"docs/DEFINITIONS.md: {it}" for it in definitions((TOP / "docs" / "DEFINITIONS.md").read_text()))
    yield from examples()
    yield from crates_in_heads()


def main():
    found = list(missing_names())
    for it in found:
        print(f"FAILED links: {it}")
    passed = len(pages()) - len({it.split(": ")[0] for it in found if ".md: " in it})
    print(f"{max(passed, 0)} passed, {len(found)} failed")
    return 1 if found else 0


if __name__ == "__main__":
    sys.exit(main())
