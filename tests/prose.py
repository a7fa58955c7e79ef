#!/usr/bin/env python3
"""Checks how the repository is written. A count of a rule in a folder must not grow.

- length: a line of a .rt or .antt file, or of prose in a .md file, has at most 100 columns. Tables,
  blocks of code, lines with links, imports and attributes may be longer.
- phrase: comments, docstrings, messages and prose have no phrase of tests/prose_phrases.txt.
- alone: the first sentence of a doc comment or a docstring does not need the one above it.
- participle: no definition of specs/ is named by a bare participle or preposition, such as `told`,
  `merged` or `before`, also followed by `_by`.
- clause: no clause of a contract has a name of BAD_CLAUSES, such as `some`, that states nothing.
- action: no function has a name of BAD_FUNCTIONS, such as `turns`, that does not say what it does,
  or is a bare participle, such as `judged_trace`.
- behind: no name of src/ or specs/ has the part `behind`.
- constant: each constant of a .rt file has a comment of its own, directly above it.
- own: each definition of specs/ has a comment of its own: none stands for two.
- whether: the comment of a predicate of specs/ (its result is Bool or Type 0) begins with "whether".
- twice: no struct, enum or trait has the name of one in another crate (the tests' crates aside).

tests/prose_counts.txt has the allowed counts; a folder that it does not name has none. The rules
constant, own and whether allow none anywhere.

usage: tests/prose.py            compare; the last line is 'N passed, M failed'
       tests/prose.py --list     print each place
       tests/prose.py --write    lower the counts of tests/prose_counts.txt to the present ones
"""
import collections
import re
import subprocess
import sys
import tempfile
from pathlib import Path

TOP = Path(__file__).resolve().parent.parent
PHRASES, COUNTS = TOP / "tests" / "prose_phrases.txt", TOP / "tests" / "prose_counts.txt"
COLUMNS = 100
SHOWN = 5
STRICT = {"constant", "own", "whether"}
# Definitions of specs/ that are types of values, so no predicates.
VALUE_TYPES = {"CarriedSlots", "LastCall", "Parts"}
RATTLE = (".rt", ".bench")
COMMENTS = {".rt": "//", ".bench": "//", ".rs": "//", ".antt": "--", ".py": "#", ".sh": "#", "": "#"}
PARTICIPLES = ("[a-z]+ed|told|shown|begun|sent|taken|drawn|drew|seen|saw|kept|held|made|given|met|found"
               "|spent|born|lost|known|done|written|heard|laid|ran|gone|torn|cut|left|read")
PREPOSITIONS = "before|after|behind|over|under|past|beside|above|below|back|ahead|out|again"
PARTICIPLE = re.compile(
    rf"\s*(?:abbrev|unfoldable|opaque)(?: pub)? ((?!need )(?:(?:{PARTICIPLES})(?:_by)?"
    rf"|{PREPOSITIONS})) :")
CLAUSE = re.compile(r"\s*(?:ensures|requires)\*? (\w+) \{")
BAD_CLAUSES = {*"""some most back few again even this own other one two three both here there yes no only
    to from before after behind told begun asked out goes goes_on goes_err all ones stay stays shut
    silent made""".split()}
FUNCTION = re.compile(r"\s*(?:pub(?:\([a-z]+\))? )?(?:const )?fn (\w+)")
BAD_FUNCTIONS = {*"""turns samples pairs selections after before behind beside since fresh none nowhere words
    listening draft torn_by asked asked_in planned begun prepared started judged taken_out without_work
    written_down let_go copied""".split()}
ACTED = re.compile(r"(?:told|shown|begun|asked|planned|prepared|judged|renewed|resumed|recovered|given"
                   r"|kept|started|locked|moved|merged|listened|opened|stored|told)_(?:trace|text|of"
                   r"|recorder|in|by|from|journal|meter|file|lines)$")
BEHIND = re.compile(r"(?:\w+_)?behind(?:_\w+)?(?=\b)")
WRAPLESS = re.compile(r"\s*(?:(?:pub(?:\([a-z]+\))? |ghost )*use |#!?\[)")
TYPE = re.compile(r"\s*(?:pub(?:\([a-z]+\))? )?(?:struct|enum|trait) ([A-Z]\w*)")
CONSTANT = re.compile(r"\s*(?:pub(?:\([a-z]+\))? )?const ([A-Z]\w*)\s*:")
DEFINITION = re.compile(r"(?:abbrev|unfoldable|opaque)(?: pub)? (\S+) :")
PREDICATE = re.compile(r"(?<!: Type 0 )→ (?:Bool|Type 0)$")
LEANING = re.compile(r"(The same\b|Same as\b|As (above|before)\b|See above\b|Likewise\b|Ditto\b)")


def phrases():
    """The patterns of PHRASES, each with what to write instead."""
    rows = [it for it in PHRASES.read_text().split("\n") if " => " in it and not it.startswith("#")]
    return [(re.compile(rf"\b(?:{old})\b"), new) for old, new in (it.split(" => ") for it in rows)]


def is_prose(line):
    """Whether a line of Markdown is prose: no row of a table, no code, no line with a link."""
    return not line.startswith(("|", "    ")) and "](" not in line


def prose_lines(lines):
    """The numbered lines of Markdown outside fenced blocks."""
    is_code = False
    for number, line in enumerate(lines, 1):
        is_code ^= line.startswith("```")
        if not is_code:
            yield number, line


def comment_lines(kind, lines):
    """The numbered comments of a source file, and the messages of a Rattle source."""
    mark, is_text = COMMENTS[kind], False
    for number, line in enumerate(lines, 1):
        marks = line.count('"""') if kind in (".py", "") else 0
        found = re.search(rf"(?:^|\s){mark}[/!]?\s(.*)", line)
        if marks or is_text:
            yield number, line
        elif found:
            yield number, found[1]
        elif kind in RATTLE:
            yield from ((number, it) for it in re.findall(r'"((?:[^"\\]|\\.){12,})"', line))
        is_text ^= marks % 2 == 1


def long_lines(kind, lines):
    numbered = prose_lines(lines) if kind == ".md" else enumerate(lines, 1)
    for number, line in numbered if kind in (".rt", ".antt", ".md") else ():
        is_free = not is_prose(line) if kind == ".md" else WRAPLESS.match(line)
        if len(line) > COLUMNS and not is_free:
            yield number, f"{len(line)} columns"


def phrase_lines(kind, lines, patterns):
    if kind not in (".md", ".edit", *COMMENTS):
        return
    read = {".md": prose_lines(lines), ".edit": [(1, lines[0])]}
    for number, line in read.get(kind) or comment_lines(kind, lines):
        for pattern, instead in patterns:
            hit = pattern.search(line)
            if hit:
                yield number, f"'{hit[0]}', write: {instead}"


def leaning_lines(kind, lines):
    """The first lines of doc comments and docstrings that refer to the one above."""
    before = ""
    for number, line in enumerate(lines, 1):
        start = r"\s*//[/!] " if kind in RATTLE else r'\s*"""' if kind == ".py" else None
        found = re.match(start, line) if start else None
        is_first = found and (kind == ".py" or not re.match(r"\s*//[/!]", before))
        if is_first and LEANING.match(line[found.end():]):
            yield number, line.strip()[:60]
        before = line


def participle_lines(path, lines):
    """The definitions of a file of specs/ that are named by a bare participle."""
    for number, line in enumerate(lines, 1) if "/specs/" in path else ():
        found = PARTICIPLE.match(line)
        if found:
            yield number, f"`{found[1]}`, write a noun phrase: `state_after`, `count_of`"


def clause_lines(path, lines):
    """The clauses of contracts with a name that states nothing."""
    for number, line in enumerate(lines, 1) if path.endswith(".rt") else ():
        found = CLAUSE.match(line)
        if found and found[1] in BAD_CLAUSES:
            yield number, f"clause `{found[1]}`, write what holds: `unchanged_on_error`, `non_empty`"


def action_lines(path, lines):
    """The functions with a name that does not say what they do."""
    for number, line in enumerate(lines, 1) if path.endswith(".rt") else ():
        found = FUNCTION.match(line)
        if found and (found[1] in BAD_FUNCTIONS or ACTED.match(found[1])):
            yield number, f"function `{found[1]}`, write a verb: `parse_command_line`, `read_text`"


def behind_lines(path, lines):
    """The names of src/ and specs/ with the part `behind`."""
    is_read = path.endswith((".rt", ".antt")) and ("/src/" in path or "/specs/" in path)
    for number, line in enumerate(lines, 1) if is_read else ():
        found = BEHIND.search(re.sub(r"(?:--|//).*", "", line))
        if found:
            yield number, f"name `{found[0]}`, write `after`, `rest` or what follows"


def comment_above(lines, number, mark):
    """The comment directly above a line, without its mark; lines with attributes do not count."""
    above = []
    while number > 1 and re.match(r"\s*#\[", lines[number - 2]):
        number -= 1
    while number > 1 and lines[number - 2].lstrip().startswith(mark):
        number -= 1
        above.insert(0, lines[number - 1].strip().lstrip(mark + "/!").strip())
    return " ".join(above)


def constant_lines(path, lines):
    """The constants without a comment directly above."""
    for number, line in enumerate(lines, 1) if path.endswith(".rt") else ():
        found = CONSTANT.match(line)
        if found and not comment_above(lines, number, "//"):
            yield number, f"constant `{found[1]}` has no comment directly above it"


def definitions_in(path, lines):
    """The definitions of a file of specs/, each with its line, type and comment."""
    is_read = "/specs/" in path and path.endswith(".antt")
    for number, line in enumerate(lines, 1) if is_read else ():
        found, end = DEFINITION.match(line), number
        if found:
            while end < len(lines) and lines[end].startswith(" "):
                end += 1
            typed = " ".join(it.strip() for it in lines[number - 1:end])
            yield number, found[1], typed, comment_above(lines, number, "--")


def own_lines(path, lines):
    """The definitions without a comment of their own."""
    for number, name, _, comment in definitions_in(path, lines):
        if not comment:
            yield number, f"`{name}` has no comment directly above it"


def whether_lines(path, lines):
    """The predicates with a comment that does not say whether something holds."""
    for number, name, typed, comment in definitions_in(path, lines):
        if name in VALUE_TYPES or not PREDICATE.search(typed):
            continue
        if comment and not comment.lower().startswith("whether"):
            yield number, f"predicate `{name}`, begin its comment with `whether`"


def types_in(path, lines):
    """The types that a file declares, each with its line."""
    is_source = path.endswith(".rt") and "/src/" in path and "_tests/" not in path
    for number, line in enumerate(lines, 1) if is_source else ():
        found = TYPE.match(line)
        if found:
            yield found[1], number


def types_declared_twice(texts):
    """The types that two crates declare, at each place after the first."""
    first = {}
    for path, text in sorted(texts.items()):
        for name, number in types_in(path, text.split("\n")):
            before = first.setdefault(name, path)
            if folder_of(before) != folder_of(path):
                yield path, f"{path}:{number}: `{name}` is also in {before}"


def places_in(path, text, patterns):
    """The places of a file, each as rule, line and description."""
    kind, lines = Path(path).suffix, text.split("\n")
    yield from (("length", *it) for it in long_lines(kind, lines))
    yield from (("phrase", *it) for it in phrase_lines(kind, lines, patterns))
    yield from (("alone", *it) for it in leaning_lines(kind, lines))
    yield from (("participle", *it) for it in participle_lines(path, lines))
    yield from (("clause", *it) for it in clause_lines(path, lines))
    yield from (("action", *it) for it in action_lines(path, lines))
    yield from (("behind", *it) for it in behind_lines(path, lines))
    yield from (("constant", *it) for it in constant_lines(path, lines))
    yield from (("own", *it) for it in own_lines(path, lines))
    yield from (("whether", *it) for it in whether_lines(path, lines))


def folder_of(path):
    parts = path.split("/")
    return "/".join(parts[:2]) if parts[0] == "crates" else parts[0] if len(parts) > 1 else "."


def places_of(top, paths):
    """The places of all files, by rule and folder."""
    found, patterns, texts = collections.defaultdict(list), phrases(), {}
    for path in paths:
        try:
            texts[path] = (top / path).read_text(encoding="utf-8")
        except (OSError, UnicodeDecodeError):
            continue
        for rule, number, what in places_in(path, texts[path], patterns):
            found[rule, folder_of(path)].append(f"{path}:{number}: {what}")
    for path, what in types_declared_twice(texts):
        found["twice", folder_of(path)].append(what)
    return found


def tracked_files():
    ran = subprocess.run(["git", "ls-files"], cwd=TOP, capture_output=True, text=True, check=True)
    return [it for it in ran.stdout.split("\n") if it and not it.startswith("share/")]


def read_counts():
    rows = [it.split() for it in COUNTS.read_text().split("\n") if it and not it.startswith("#")]
    return {(rule, folder): int(count) for rule, folder, count in rows}


def grown_counts(found, limits):
    """The rules and folders with more places than allowed. A rule of STRICT allows none."""
    return [it for it in sorted(found) if len(found[it]) > allowed_count(it, limits)]


def allowed_count(place, limits):
    """The allowed count of a rule in a folder."""
    return 0 if place[0] in STRICT else limits.get(place, 0)


PLANTED = {
    "length": ("crates/one/src/long.rt", "// " + "a" * COLUMNS),
    "phrase": ("docs/PAGE.md", "A call that finds no memory is " + "told."),
    "alone": ("crates/one/src/alone.rt", "/// The same for a list.\nfn list() {}"),
    "participle": ("crates/one/specs/Participle.antt", "-- a number\nabbrev pub " + "told : ℕ"),
    "twice": ("crates/two/src/twice.rt", "pub struct Clean;"),
    "clause": ("crates/one/src/clause.rt", "    ensures " + "some { IsSome result }"),
    "action": ("crates/one/src/action.rt", "fn " + "turns(&mut self)"),
    "constant": ("crates/one/src/constant.rt", "// Both.\n"
                                               "const A: u8 = 1;\n\nconst B: u8 = 2;"),
    "own": ("crates/one/specs/Own.antt", "-- both\nabbrev pub one : ℕ\none = 1\n\n"
                                         "abbrev pub two : ℕ"),
    "whether": ("crates/one/specs/Whether.antt", "-- a number is small\nabbrev pub is_small : ℕ\n"
                                                 "    → Bool"),
    "behind": ("crates/one/src/behind.rt", "    let rest_" + "behind = 1;"),
}
CLEAN = {
    "crates/one/src/clean.rt": "ghost use " + "a" * COLUMNS + ";\n/// The number of lists.\n"
                               "pub struct Clean {}\nfn give_turns()\n    ensures found { x }",
    "crates/one/src/constants.rt": "// The size.\n#[cfg(one)]\npub const SIZE: u8 = 1;",
    "crates/one/specs/Clean.antt": "-- whether a number\n-- is small\nabbrev pub is_small : ℕ → Bool",
    "docs/CLEAN.md": "| " + "a" * 120 + " |\n\n    " + "b" * 120 + "\n\nA call returns a number.",
}


def self_test():
    """Plants a line against each rule, and returns whether exactly these are found and fail. If the
    counts allow each of them, those of STRICT still fail; a count is lowered, and never raised."""
    with tempfile.TemporaryDirectory() as folder:
        top = Path(folder)
        for path, text in [*PLANTED.values(), *CLEAN.items()]:
            (top / path).parent.mkdir(parents=True, exist_ok=True)
            (top / path).write_text(text)
        found = places_of(top, [*(path for path, _ in PLANTED.values()), *CLEAN])
    wanted = {(rule, folder_of(path)) for rule, (path, _) in PLANTED.items()}
    strict = {it for it in wanted if it[0] in STRICT}
    is_found = set(found) == wanted and all(len(it) == 1 for it in found.values())
    is_grown = set(grown_counts(found, {})) == wanted
    limits = dict.fromkeys(sorted(wanted)[1:], 2) | {("length", "crates/none"): 1}
    is_lowered = lowered_counts(found, limits) == dict.fromkeys(sorted(wanted - strict)[1:], 1)
    is_strict = set(grown_counts(found, dict.fromkeys(wanted, 1))) == strict
    return is_found and is_grown and is_lowered and is_strict


def lowered_counts(found, limits):
    """The allowed counts, each lowered to the present one; those of 0 are left out."""
    counts = {it: min(len(found.get(it, [])), count) for it, count in limits.items()}
    return {it: count for it, count in sorted(counts.items()) if count and it[0] not in STRICT}


def write(found):
    rows = "".join(f"{rule} {folder} {count}\n"
                   for (rule, folder), count in lowered_counts(found, read_counts()).items())
    COUNTS.write_text("# The allowed counts of tests/prose.py: RULE FOLDER COUNT. They only go down.\n"
                      + rows)


def main(words):
    if words in (["-h"], ["--help"]) or words not in ([], ["--list"], ["--write"]):
        print(__doc__.strip(), file=sys.stdout if words[0] in ("-h", "--help") else sys.stderr)
        return 0 if words[0] in ("-h", "--help") else 2
    found = places_of(TOP, tracked_files())
    if words == ["--write"]:
        write(found)
        return 0
    if words == ["--list"]:
        print("\n".join(it for key in sorted(found) for it in found[key]))
        return 0
    limits = read_counts()
    failed = grown_counts(found, limits)
    for rule, folder in failed:
        places = found[rule, folder]
        print(f"FAILED prose: {rule} in {folder}: "
              f"at most {allowed_count((rule, folder), limits)} allowed, "
              f"found {len(places)}; the last ones:")
        print("\n".join(f"    {it}" for it in places[-SHOWN:]))
    lower = sum(len(found.get(it, [])) < count for it, count in limits.items())
    if lower:
        print(f"prose: {lower} counts are lower than allowed: run tests/prose.py --write")
    is_well = self_test()
    if not is_well:
        print("FAILED prose: the self-test: a planted line is not found")
    pairs = len({*found, *limits}) + 1
    print(f"{pairs - len(failed) - (not is_well)} passed, {len(failed) + (not is_well)} failed")
    return 1 if failed or not is_well else 0


if __name__ == "__main__":
    sys.exit(main(sys.argv[1:]))
