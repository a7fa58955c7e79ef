#!/usr/bin/env python3
"""Shows that `bin/test --quick`, which proves nothing, fails over a wrong body: plants one into a
copy of the repository, builds the copy's trace player without a proof, and runs tests/core_rows.py
over it as tests/quick.py does.

usage: python3 tests/planted.py

The last line is `N passed, M failed`.
"""
import importlib.util
import pathlib
import shutil
import subprocess
import sys
import tempfile

sys.dont_write_bytecode = True
TOP = pathlib.Path(__file__).resolve().parent.parent
# The wrong body: one of those that the prover rejects, and a table that has another state then.
CRATE = "crates/disconnect_control"
EDIT = "wrong/a_local_disconnect_goes_to_disconnected.edit"
TABLE = "a local reconnection is of modes 5 and 6"


def plant(top):
    """Applies the edit to the copy of its crate."""
    lines = [it.partition(": ")[::2] for it in (TOP / CRATE / EDIT).read_text().splitlines()]
    file, old, new = ([text for key, text in lines if key == it] for it in ("file", "old", "new"))
    path = top / CRATE / file[0]
    text = path.read_text()
    if [len(file), text.count(old[0])] != [1, 1]:
        sys.exit(f"planted: {EDIT}: expected one change of one line, found {file} and {old}")
    path.write_text(text.replace(old[0], new[0]))


def quick_of(top):
    """The module tests/quick.py of the copy."""
    spec = importlib.util.spec_from_file_location("planted_quick", top / "tests" / "quick.py")
    module = importlib.util.module_from_spec(spec)
    spec.loader.exec_module(module)
    return module


def main():
    with tempfile.TemporaryDirectory(prefix="planted-") as folder:
        top = pathlib.Path(folder) / "copy"
        shutil.copytree(TOP, top, symlinks=True, ignore=shutil.ignore_patterns("out", ".git"))
        plant(top)
        made = subprocess.run([top / "bin" / "build", "--unproved", "trace_player"], text=True,
                              stdin=subprocess.DEVNULL, stdout=subprocess.PIPE,
                              stderr=subprocess.STDOUT)
        quick = quick_of(top)
        _, status, _, text = quick.run("core_rows.py")
        passed, failed = quick.counts_of(text)
        named = [it for it in text.splitlines() if it.startswith("FAILED core_rows: ")]
    # (it must fail over this body, and not because the program is missing)
    is_seen = status == 1 and passed > failed > 0 and any(TABLE in it for it in named)
    if made.returncode or not is_seen:
        print(f"FAILED planted: {EDIT}: status {status}\n{made.stdout[-3_000:]}\n{text[-3_000:]}")
    else:
        print(f"{EDIT}: {passed} tables passed, and {failed} failed:", *named, sep="\n")
    print("1 passed, 0 failed" if is_seen else "0 passed, 1 failed")
    return 0 if is_seen else 1


if __name__ == "__main__":
    sys.exit(main())
