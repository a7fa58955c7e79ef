"""The executables that the scripts of tests/ run: the proved ones; those of unproved code if
WESPLINA_UNPROVED is 1; or those that METER_SERVER, TRACE_PLAYER, HEAD_END, METER_FLEET and RUN_TESTS
name."""
import os
import pathlib

TOP = pathlib.Path(__file__).resolve().parent.parent
IS_UNPROVED = os.environ.get("WESPLINA_UNPROVED") == "1"


def made_of(crate, file):
    """An executable of a crate."""
    folder = TOP / "crates" / crate / "out"
    return (folder / "unproved" if IS_UNPROVED else folder) / file


def executable(program):
    """The executable of a program."""
    return os.environ.get(program.upper()) or made_of(f"{program}_cli", f"{program}_cli")


def tests_of(crate):
    """The executable of a crate's tests."""
    return os.environ.get(crate.upper()) or made_of(crate, f"{crate}_tests")


SERVER, PLAYER, HEAD_END, FLEET = map(executable, ("meter_server", "trace_player", "head_end", "meter_fleet"))


def are_built(*executables):
    """Whether these executables are there. The first that is missing is reported as a failed check."""
    for it in executables:
        if not os.access(it, os.X_OK):
            print(f"{it} is missing: run bin/build or bin/test\n0 passed, 1 failed")
            return False
    return True
