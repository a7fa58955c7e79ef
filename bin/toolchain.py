"""The command rt as a module, for the scripts that use its parts; the state of the libraries that
it left; the number of checks that may run in parallel.

usage: toolchain.py            print RT_JOBS for a run of many checks, or an empty line if rt should
                               decide
       toolchain.py stamp TOP  mark the libraries that a run of the gate left in TOP, a copy of the
                               repository, as proved, so that `rt run` does not prove them again
       toolchain.py built TOP  record what the executables of TOP, which were just built, were built
                               with, for their --version
"""
import glob
import hashlib
import importlib.machinery
import importlib.util
import os
import shutil
import signal
import subprocess
import sys


# The largest check of this repository takes 3.5 GB.
BYTES_OF_A_CHECK = 4_000_000_000


def stop(doc, words, why):
    """Ends a script: prints its usage if `words` ask for help, with status 0; else reports why its
    arguments are wrong, with status 2."""
    if words and words[0] in ("-h", "--help"):
        signal.signal(signal.SIGPIPE, signal.SIG_DFL)
        print(doc.strip())
        sys.exit(0)
    print(f"{os.path.basename(sys.argv[0])}: {why}\n\n{doc.strip()}", file=sys.stderr)
    sys.exit(2)


def command():
    """The module of the command rt."""
    if not shutil.which("rt"):
        sys.exit("the Rattle toolchain is not installed: no command rt (see README.md)")
    ran = subprocess.run(["rt", "doc"], capture_output=True, text=True, check=True)
    path = f"{os.path.dirname(ran.stdout.strip())}/bin/rt"
    loader = importlib.machinery.SourceFileLoader("rt_command", path)
    module = importlib.util.module_from_spec(importlib.util.spec_from_loader("rt_command", loader))
    loader.exec_module(module)
    return module


def is_as_left(rt, crate):
    """Whether a run of the gate left the library of a crate: it has no stamp and is as new as its
    sources."""
    rlib = f"{crate.folder}/out/rlib"
    if not os.path.isdir(crate.rlib) or os.path.exists(f"{rlib}/stamp"):
        return False
    built = os.path.getmtime(crate.rlib)
    return all(os.path.getmtime(file) <= built for file in rt.rtlib.files_of(crate.folder))


def is_left_by_ci(rt, crates):
    """Whether a run of the gate in a new clone left the libraries below these crates."""
    below = {it.name: it for crate in crates for it in crate.below()}.values()
    return all(is_as_left(rt, it) for it in below)


def stamp(rt, top):
    """Writes the stamps with which rt takes libraries as proved, for those that a run of the gate
    left in a copy of the repository."""
    os.chdir(top)
    rt.rtlib.guarded()
    rt.rtlib.Crate, rt.Crate.allowed = rt.Crate, rt.handles_of(top)
    for it in rt.rtlib.crates_below(top):
        if is_as_left(rt, it):
            with open(f"{it.folder}/out/rlib/stamp", "w", encoding="utf-8") as file:
                file.write(it.stamp())


def output_of(words):
    """What a command prints, without its line end; nothing if it fails or is not installed."""
    try:
        ran = subprocess.run(words, capture_output=True, text=True)
    except OSError:
        return ""
    return "" if ran.returncode else ran.stdout.strip()


def identity(top):
    """What a program that is built now is built with: the commit of the sources if git knows it,
    and the toolchain with its proof logic."""
    commit = output_of(["git", "-C", str(top), "describe", "--always", "--abbrev=40", "--exclude=*",
                        "--dirty"]).replace("-dirty", " and changes")
    return ", ".join([f"commit {it}" for it in [commit] if it]
                     + [it for it in [output_of(["rt", "version"])] if it])


def digest_of(path):
    with open(path, "rb") as file:
        return hashlib.sha256(file.read()).hexdigest()


def write_built(top, crate):
    """Records what the executable of a program's crate, which was just built, was built with: its
    digest and its `identity`, in the file CRATE.built next to it."""
    path = f"{top}/crates/{crate}/out/{crate}"
    with open(f"{path}.built", "w", encoding="utf-8") as file:
        file.write(f"{digest_of(path)} {identity(top)}\n")


def read_built(path):
    """What an executable was built with; nothing if that is not recorded for its bytes."""
    try:
        with open(f"{path}.built", encoding="utf-8") as file:
            digest, _, text = file.read().strip().partition(" ")
        return text if digest == digest_of(path) else ""
    except OSError:
        return ""


def lanes(rt):
    """The number of checks that may run in parallel: one for each processor if each can have the
    memory of the largest check. Else None: rt estimates the need of each from its lines, and leaves
    processors idle."""
    processors = rt.processors()
    return processors if rt.free() >= processors * BYTES_OF_A_CHECK else None


if __name__ == "__main__":
    if sys.argv[1:2] == ["stamp"] and len(sys.argv) == 3:
        stamp(command(), sys.argv[2])
    elif sys.argv[1:2] == ["built"] and len(sys.argv) == 3:
        for it in glob.glob(f"{sys.argv[2]}/crates/*_cli"):
            if os.path.exists(f"{it}/out/{os.path.basename(it)}"):
                write_built(sys.argv[2], os.path.basename(it))
    elif len(sys.argv) == 1:
        print(lanes(command()) or "")
    else:
        stop(__doc__, sys.argv[1:], f"unexpected arguments {' '.join(sys.argv[1:])}")
