#!/usr/bin/env python3
"""Runs the tests below unproved/: those of ledgers, worked examples, and long runs, whose proofs
would cost more than those of what they show. Their files are named *.test, since the gate proves
each file of a crate.

usage: python3 tests/unproved.py

A copy of the repository gets them as crates, with the dependencies that unproved/depends.txt names,
and `rt try --test` builds and runs them. Nothing here is proved: the tests have run-time checks
instead. The last line is `N passed, M failed`.
"""
import pathlib
import re
import shutil
import subprocess
import sys
import tempfile

sys.dont_write_bytecode = True
HERE = pathlib.Path(__file__).resolve().parent
TOP = HERE.parent
CRATES = HERE / "unproved"
PATIENCE = 1_200


def copy_repository(to):
    """Copies the crates, without what was built, and adds those of the tests."""
    shutil.copy(TOP / "HANDLES", to)
    shutil.copytree(TOP / "crates", to / "crates",
                    ignore=shutil.ignore_patterns("out", "wrong", "must-fail", ".*"))
    listed = (CRATES / "depends.txt").read_text()
    (to / "crates.txt").write_text((TOP / "crates.txt").read_text() + "\n" + listed)
    names = [it.partition(":")[0].split()[0] for it in listed.splitlines() if it.strip()]
    for name in names:
        for source in sorted((CRATES / name).rglob("*.test")):
            target = to / "crates" / name / "src" / source.relative_to(CRATES / name)
            target.parent.mkdir(parents=True, exist_ok=True)
            shutil.copy(source, target.with_suffix(".rt"))
    return names


def tests_of(name):
    """The tests in the files of a crate."""
    texts = (it.read_text() for it in (CRATES / name).rglob("*.test"))
    return sorted(it for text in texts for it in re.findall(r"#\[test\]\s+fn (\w+)\(", text))


def counts_of(output):
    """The passed and the failed tests of an output, or None if it has no result."""
    found = re.search(r"test result: \w+\. (\d+) passed; (\d+) failed;", output)
    return (int(found[1]), int(found[2])) if found else None


def main():
    passed = failed = 0
    for it in CRATES.iterdir():
        if it.is_dir() and not re.search(rf"(?m)^{it.name}:", (CRATES / "depends.txt").read_text()):
            print(f"FAILED unproved: {it.name} is not in depends.txt")
            failed += 1
    with tempfile.TemporaryDirectory(prefix="unproved-") as folder:
        for name in copy_repository(pathlib.Path(folder)):
            made = subprocess.run(["rt", "try", "--test"], cwd=f"{folder}/crates/{name}", text=True, timeout=PATIENCE,
                                  stdin=subprocess.DEVNULL, stdout=subprocess.PIPE, stderr=subprocess.STDOUT)
            counts = counts_of(made.stdout)
            found = sorted(it.rpartition("::")[2] for it in re.findall(r"(?m)^test (\S+) \.\.\. ", made.stdout))
            if counts is None or found != tests_of(name) or (made.returncode != 0) != (counts[1] > 0):
                print(f"FAILED {name}: status {made.returncode}\n{made.stdout[-3_000:]}")
                failed += 1
                continue
            for line in made.stdout.splitlines():
                if re.match(r"test \S+ \.\.\. ", line):
                    print(f"{name}: {line}")
            if counts[1]:
                print(made.stdout[-3_000:])
            passed, failed = passed + counts[0], failed + counts[1]
    print(f"{passed} passed, {failed} failed")
    return 1 if failed or not passed else 0


if __name__ == "__main__":
    sys.exit(main())
