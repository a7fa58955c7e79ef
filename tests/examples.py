#!/usr/bin/env python3
"""Checks that each test which docs/EXAMPLES.md names is there, and that each row names one.

usage: python3 tests/examples.py

A cell of tests has parts `FILE`: `NAME`, `NAME`; `FILE`: .. . In a file of Rattle a name is that of
a test function; in a script it is a function, or a text that titles a row of values; in another
file it is a line. The last line is `N passed, M failed`.
"""
import pathlib
import re
import sys

sys.dont_write_bytecode = True
TOP = pathlib.Path(__file__).resolve().parent.parent
PAGE = TOP / "docs" / "EXAMPLES.md"


def named_tests(cell):
    """The files and names of a cell, or None if it has another form."""
    if not re.fullmatch(r"(`[^`]+`: `[^`]+`(, `[^`]+`)*)(; `[^`]+`: `[^`]+`(, `[^`]+`)*)*", cell):
        return None
    return [(part.split("`")[1], name) for part in re.split(r"; (?=`[^`]+`: )", cell)
            for name in re.findall(r"`([^`]+)`", part)[1:]]


def is_there(file, name):
    """Whether a file has a test of this name."""
    path = TOP / file
    if not path.is_file():
        return False
    text = path.read_text()
    if path.suffix in (".rt", ".test"):
        return re.search(rf"#\[test\]\s+fn {re.escape(name)}\(", text) is not None
    if path.suffix == ".py" and re.search(rf"^def {re.escape(name)}\(", text, re.M):
        # (a function that nothing calls is no test)
        return len(re.findall(rf"\b{re.escape(name)}\b", text)) > 1
    if path.suffix == ".py":
        return re.search(rf"^{re.escape(name)} = |\"{re.escape(name)}\"", text, re.M) is not None
    return name in text.splitlines()


def main():
    passed = failed = 0
    for number, line in enumerate(PAGE.read_text().splitlines(), 1):
        if not line.startswith("| ") or line.startswith("| Example |"):
            continue
        tests = named_tests(line.strip("| ").rpartition(" | ")[2])
        if not tests:
            print(f"FAILED {PAGE.name}:{number}: expected FILE: TEST in the last cell, found {line}")
            failed += 1
        for file, name in tests or []:
            if is_there(file, name):
                passed += 1
            else:
                print(f"FAILED {PAGE.name}:{number}: {file} has no test {name!r}")
                failed += 1
    print(f"{passed} passed, {failed} failed")
    return 1 if failed or not passed else 0


if __name__ == "__main__":
    sys.exit(main())
