#!/usr/bin/env python3
"""Tests bin/install over the proved executables that the gate left: what it copies with and without
DESTDIR, that --remove removes exactly that, versions, manual pages and completions of all commands,
programs and scripts that are called through symbolic links, and programs without a proved
executable.

What a missing tool would test (man, zsh, fish, GNU parallel, matplotlib) is skipped with a message
(Debian: apt-get install man-db zsh fish parallel python3-matplotlib).

usage: tests/installing.py
"""
import hashlib
import os
import re
import shutil
import subprocess
import sys
import tempfile
import time
from pathlib import Path

TOP = Path(__file__).resolve().parent.parent
PROGRAMS = ("meter_server", "head_end", "trace_player", "meter_fleet")
SCRIPTS = ("campaign", "campaign_report", "trace_chart", "meter_service")
COMMANDS = PROGRAMS + SCRIPTS
RECORD = "share/wesplina/installed"
WORKED = TOP / "crates" / "trace_player_cli" / "stdin"
# What an installed user must find in the manual pages.
PAGES = {
    "meter_server": ["samples WATTS ..", "pairs WATTS WATTS ..", "moment SECONDS",
                     "prints no trace"],
    "head_end": ["NAME done N", "NAME unknown", "does not mean that the meter did not switch"],
    "campaign": ["NAME done N", "NAME unknown", "does not mean that the meter did not switch"],
    "campaign_report": ["--title TEXT", "--head-end COMMAND", "head_end status --format json"],
    "trace_player": ["docs/TRACE.md"],
    "meter_fleet": ["127.0.0.1 is meter 1", "Password of the management client"],
    "trace_chart": ["--from PLACE", "--to PLACE", "sampler: reads both thresholds"],
    "meter_service": ["FOLDER/console", "FOLDER/running", "SIGTERM"],
}


def run(*words, **more):
    """Runs a command without input; returns its status, output and errors."""
    return subprocess.run([str(it) for it in words], stdin=subprocess.DEVNULL, capture_output=True,
                          text=True, timeout=300, **more)


def install(*words, destination=None, home=None, **more):
    """Runs bin/install, with DESTDIR if a destination is given, and with a home folder."""
    environment = {name: it for name, it in os.environ.items() if name != "DESTDIR"}
    environment |= {"DESTDIR": str(destination)} if destination else {}
    environment |= {"HOME": str(home)} if home else {}
    return run(TOP / "bin" / "install", *words, env=environment, **more)


def tree(folder):
    """Each path below a folder, and the content of each file."""
    return {it.relative_to(folder): it.read_bytes() if it.is_file() else None
            for it in folder.rglob("*")}


def recorded_files(root):
    """The files that the record of an installation lists."""
    lines = (root / RECORD).read_text().splitlines()
    return {it.split("  ", 1)[1] for it in lines if not it.startswith("#")}


def destinations(room):
    """Checks of an installation into DESTDIR, and of its removal."""
    prefix, stage = room / "prefix", room / "stage"
    ran = install(prefix, destination=stage)
    root = Path(f"{stage}{prefix}")
    yield "DESTDIR: installs", ran.returncode == 0 and not ran.stderr
    yield "DESTDIR: nothing in PREFIX", not prefix.exists()
    files = {str(it) for it, text in tree(root).items() if text is not None}
    yield "DESTDIR: the record has each file", recorded_files(root) == files - {RECORD}
    ran = run("sha256sum", "--check", "--strict", "--quiet", RECORD, cwd=root)
    yield "DESTDIR: the digests", ran.returncode == 0
    wanted = {*(f"bin/{it}" for it in COMMANDS), "share/doc/wesplina/LICENSE",
              "share/doc/wesplina/docs/SERVICE.md", "share/systemd/meter_server.service",
              "share/doc/wesplina/examples/client/read_and_switch.py",
              "share/doc/wesplina/crates/trace_player_cli/stdin"}
    shared = {str(it.relative_to(TOP)) for it in (TOP / "share").rglob("*") if it.is_file()}
    yield "DESTDIR: programs, licence, documents and share", wanted | shared <= files
    unit = (root / "share/systemd/meter_server.service").read_text()
    yield "DESTDIR: the unit calls PREFIX", f'ExecStart="{prefix}/bin/meter_service" ' in unit
    ran = install("--remove", prefix, destination=stage)
    yield "DESTDIR: --remove", ran.returncode == 0 and not stage.exists()


def removals(room):
    """Checks that --remove removes exactly what was installed and is unchanged."""
    root = room / "some"
    (root / "bin").mkdir(parents=True)
    (root / "bin" / "other").write_text("a file of another package\n")
    (root / "share" / "man").mkdir(parents=True)
    before = tree(root)
    ran = install("--remove", root)
    yield "remove: nothing is known", (ran.returncode, ran.stderr.count("\n")) == (1, 1)
    installs = install(root).returncode == install(root).returncode == 0
    yield "remove: a second installation", installs
    ran = install("--remove", root)
    yield "remove: exactly that", ran.returncode == 0 and tree(root) == before
    install(root)
    (root / "share/man/man1/campaign.1").write_text("changed\n")
    ran = install("--remove", root)
    left = {Path("share/man/man1"): None, Path("share/man/man1/campaign.1"): b"changed\n"}
    yield "remove: a changed file stays", ran.returncode == 1 and tree(root) == before | left
    yield ("remove: and is named",
           ran.stderr.count("\n") == 1 and "man1/campaign.1: changed" in ran.stderr)
    shutil.rmtree(root / "share/man/man1")
    yield from an_earlier_file(root)


def made_folders(room):
    """Checks that --remove removes PREFIX and the folders above it if, and only if, an installation
    made them and they are empty."""
    for destination in (None, room / "made for DESTDIR"):
        first = destination or room / "made"
        prefix = "/usr/local" if destination else first / "some" / "prefix"
        root = Path(f"{destination or ''}{prefix}")
        installs = install(prefix, destination=destination).returncode == 0
        yield f"folders for {prefix}: installs", installs
        installs = install(prefix, destination=destination).returncode == 0
        yield f"folders for {prefix}: installs again", installs
        other = root.parent / "other"
        other.touch()
        ran = install("--remove", prefix, destination=destination)
        left = {it.relative_to(first) for it in (other, *other.parents) if first in it.parents}
        yield (f"folders for {prefix}: those of others stay",
               ran.returncode == 0 and set(tree(first)) == left)
        shutil.rmtree(root.parent)
        install(prefix, destination=destination)
        ran = install("--remove", prefix, destination=destination)
        yield (f"folders for {prefix}: an earlier one stays",
               ran.returncode == 0 and first.is_dir() and not tree(first))
        shutil.rmtree(first)
        install(prefix, destination=destination)
        ran = install("--remove", prefix, destination=destination)
        yield f"folders for {prefix}: removed", ran.returncode == 0 and not first.exists()
    root = room / "was there"
    root.mkdir()
    install(root)
    ran = install("--remove", root)
    yield "folders: a PREFIX that was there stays", ran.returncode == 0 and root.is_dir()


def an_earlier_file(root):
    """A file that an earlier installation copied, and the present one does not."""
    install(root)
    old = root / "share/man/man1/old_command.1"
    old.write_text("old\n")
    ran = run("sha256sum", "share/man/man1/old_command.1", cwd=root)
    with open(root / RECORD, "a", encoding="utf-8") as record:
        record.write(ran.stdout)
    ran = install(root)
    yield "remove: a file of an earlier installation", ran.returncode == 0 and not old.exists()
    ran = install("--remove", root)
    yield "remove: with a record of two installations", ran.returncode == 0


def modes(room):
    """Checks that the umask does not decide who may use an installation."""
    for mask in (0o077, 0o000):
        made = room / f"umask {mask:03o}"
        installs = install(made / "prefix", umask=mask).returncode == 0
        yield f"umask {mask:03o}: installs", installs
        found = {it: it.stat().st_mode & 0o7777 for it in (made, *made.rglob("*"))}
        wrong = [f"{mode:o} {it.relative_to(room)}" for it, mode in found.items()
                 if mode != 0o755 and (it.is_dir() or mode != 0o644)]
        yield f"umask {mask:03o}: modes {', '.join(wrong[:3])}", not wrong
        record = made / "prefix" / RECORD
        yield f"umask {mask:03o}: the record", found.get(record) == 0o644
        shutil.rmtree(made)


# Prefixes with characters that mean more to systemd or to a shell. systemd refuses a program whose
# path has quotes, backslashes or control characters, as the second does.
SPECIAL = ("pre fix;100% $HOME ${HOME} #1", """it's "quoted" \\x20 50% $HOME ${HOME}\t*""")
# A chpst that prints its words, one a line.
CHPST = '#!/bin/sh\nprintf "%s\\n" "$@"\n'
OPTIONS = ["/var/lib/meter_server", "--password-file", "/etc/meter_server/password",
           "--listen", "0.0.0.0:4059", "--session", "60", "--inactivity", "30"]


def services(room):
    """Checks that the service files name the script in PREFIX, whatever characters PREFIX has."""
    tools = room / "tools of runit"
    tools.mkdir()
    (tools / "chpst").write_text(CHPST)
    (tools / "chpst").chmod(0o700)
    if not shutil.which("systemd-analyze"):
        print("SKIPPED units of systemd: systemd-analyze is not installed")
    for name in SPECIAL:
        root = room / name
        installs = install(root).returncode == 0
        yield f"services in {name}: installs", installs
        script = f"{root}/bin/meter_service"
        ran = run("sh", root / "share/runit/meter_server/run",
                  env={**os.environ, "PATH": f"{tools}:{os.environ['PATH']}"})
        yield (f"services in {name}: runit",
               ran.stdout.splitlines() == ["-u", "meter_server", script, *OPTIONS])
        if shutil.which("systemd-analyze"):
            yield from units(root, name, script)
        shutil.rmtree(root)


def units(root, name, script):
    """Checks that systemd accepts the unit, and which words it runs."""
    environment = {**os.environ, "MANPATH": f"{root}/share/man"}
    unit = root / "share/systemd/meter_server.service"
    ran = run("systemd-analyze", "verify", unit, env=environment)
    yield f"services in {name}: systemd", (ran.returncode, ran.stdout + ran.stderr) == (0, "")
    ran = run("systemd-analyze", "verify", unit,
              env={**environment, "SYSTEMD_LOG_LEVEL": "debug"})
    line = re.search(r"(?m)^\s*Command Line: (.*)$", ran.stdout)
    # (it shows a tab as `\t`, all else as a shell reads it)
    shown = line[1].replace("\\t", "\t") if line else ""
    words = run("sh", "-c", f"printf '%s\\n' {shown}").stdout.splitlines()
    # (systemd replaces variables in the words after the program, and `$$` by a dollar sign)
    wanted = [script, *OPTIONS]
    if words[:1] != [script]:
        wanted = ["/usr/bin/env", "python3", script.replace("$", "$$"), *OPTIONS]
    yield f"services in {name}: the words of systemd", words == wanted


def prefixes(room):
    """Checks which words are a PREFIX or a DESTDIR, and what is made in the current folder."""
    folder = room / "current folder"
    folder.mkdir()
    for word in ("", "help", "some/folder", "~nobody_at_all/some"):
        for words in ([word], ["--remove", word]):
            ran = install(*words, cwd=folder)
            yield (f"prefix {words}", (ran.returncode, ran.stdout) == (2, "")
                   and ran.stderr.startswith("install: PREFIX: expected an absolute path"))
    for word in ("stage", "~nobody_at_all/stage"):
        ran = install("/usr", destination=word, cwd=folder)
        yield (f"DESTDIR {word}", ran.returncode == 2
               and ran.stderr.startswith("install: DESTDIR: expected an absolute path"))
    yield "prefix: nothing is made", not tree(folder)
    for word, wanted in (("./some", folder / "some"), ("../other", room / "other"),
                         ("~/other", room / "other"), (".", folder)):
        ran = install(word, cwd=folder, home=room)
        yield f"prefix {word}", ran.returncode == 0 and (wanted / RECORD).exists()
        ran = install("--remove", word, cwd=folder, home=room)
        yield f"prefix {word}: --remove", ran.returncode == 0 and not tree(wanted)
    for stage, wanted in (("./stage", folder / "stage"), (f"{folder}/stage/", folder / "stage")):
        ran = install("/usr", destination=stage, cwd=folder)
        yield (f"DESTDIR {stage}",
               ran.returncode == 0 and (wanted / "usr" / RECORD).exists())
        ran = install("--remove", "/usr", destination=stage, cwd=folder)
        yield f"DESTDIR {stage}: --remove", ran.returncode == 0


def arguments():
    """Checks of wrong command lines, and of the help."""
    for words in ([], ["a", "b"], ["--remove"], ["--remove", "a", "b"], ["--other", "a"]):
        ran = install(*words)
        yield f"arguments {words}", ran.returncode == 2 and "usage: bin/install" in ran.stderr
    ran = install("--help")
    yield "help", ran.returncode == 0 and "--remove PREFIX" in ran.stdout and not ran.stderr


def versions_of(root, program, number):
    """What the executable of a program prints, and what is added by the script that runs it: the
    commit and the proof logic, if they are recorded for the executable."""
    executable = root / "libexec/wesplina" / program
    record = Path(f"{executable}.built")
    built = record.read_text().strip() if record.exists() else ""
    ran = run(executable, "--version")
    yield (f"the version of the executable {program}",
           (ran.returncode, ran.stdout) == (0, f"{program} {number}\n"))
    for command in (root / "bin" / program, TOP / "bin" / program):
        for flag in ("--version", "-V"):
            ran = run(command, flag)
            wanted = f"{program} {number}" + (f" ({built})" if built else "") + "\n"
            yield f"the version of {command} {flag}", (ran.returncode, ran.stdout) == (0, wanted)
    if not built:
        print(f"SKIPPED the commit of {program}: not recorded (bin/build and bin/test record it)")
    else:
        yield (f"{program} names a commit and a proof logic",
               re.fullmatch(r"(commit \w+( and changes)?, )?\S+ logic [0-9a-f]+", built) is not None)
    ran = run(root / "bin" / program, "--version", "more")
    wanted = run(executable, "--version", "more")
    yield (f"{program} gets all words", (ran.returncode, ran.stdout, ran.stderr)
           == (wanted.returncode, wanted.stdout, wanted.stderr))


def versions(root):
    """Checks of the version that each command prints."""
    first = (root / RECORD).read_text().partition("\n")[0]
    number = re.match(r"# wesplina (\d+\.\d+\.\d+)", first)
    yield "the record has the version", number is not None
    for it in PROGRAMS:
        yield from versions_of(root, it, number[1])
    for it in SCRIPTS:
        wanted = first.replace("# wesplina", it) + "\n"
        for flag in ("--version", "-V"):
            ran = run(root / "bin" / it, flag)
            yield f"the version of {it} {flag}", (ran.returncode, ran.stdout) == (0, wanted)
        ran = run(TOP / "bin" / it, "--version")
        yield f"the version of bin/{it}", (ran.returncode, ran.stdout) == (0, f"{it} {number[1]}\n")


# The subcommands of the programs that have some.
BELOW = {"meter_server": ("apdu", "hex", "serve"), "meter_fleet": ("serve",),
         "head_end": ("check", "run", "status", "ask")}


def options_of(root, name):
    """The options that the help of a command and of its subcommands describes."""
    texts = [run(root / "bin" / name, *it, "--help").stdout
             for it in ((), *((it,) for it in BELOW.get(name, ())))]
    return sorted(set(re.findall(r"(?m)^ +(?:-\w, )?(--[a-z-]+)", "\n".join(texts))))


def pages(root):
    """Checks that the manual pages and completions have all options."""
    has_man = shutil.which("man")
    if not has_man:
        print("SKIPPED rendered pages: man is not installed")
    for name in COMMANDS:
        page = root / "share/man/man1" / f"{name}.1"
        text = page.read_text().replace("\\-", "-").replace("\n", " ")
        completion = (root / "share/bash-completion/completions" / name).read_text()
        for it in PAGES[name]:
            yield f"the page of {name}: {it}", it in text
        options = options_of(root, name)
        yield f"{name} has options", bool(options)
        for it in options:
            yield f"the page of {name}: {it}", it in text
            yield f"the completion of {name}: {it}", it in completion
        for it in (f"zsh/site-functions/_{name}", f"fish/vendor_completions.d/{name}.fish"):
            yield f"share/{it}", name in (root / "share" / it).read_text()
        if has_man:
            ran = run("man", "--warnings", "-E", "UTF-8", "-l", "-Tutf8", page,
                      env={**os.environ, "MANWIDTH": "100", "LC_ALL": "C.UTF-8"})
            yield (f"the page of {name} is rendered",
                   ran.returncode == 0 and not ran.stderr and name in ran.stdout)


def completions(root):
    """Checks that bash completes an option of each script."""
    cases = (("campaign", "--jobl", "--joblog"), ("trace_chart", "--fr", "--from"),
             ("campaign_report", "--ti", "--title"),
             ("meter_service", "--se", "--server"))
    for name, word, wanted in cases:
        file = root / "share/bash-completion/completions" / name
        script = (f'. "{file}"; COMP_WORDS=({name} {word}); COMP_CWORD=1; _{name}; '
                  'echo "${COMPREPLY[@]}"')
        yield f"{name} {word} is completed", run("bash", "-c", script).stdout == f"{wanted}\n"


# Where the completions of a command are, for each shell.
SHELLS = {"bash": "bash-completion/completions/{}", "zsh": "zsh/site-functions/_{}",
          "fish": "fish/vendor_completions.d/{}.fish"}
# Prints the words that a completion of zsh passes to zsh's own functions, one a line.
ZSH_WORDS = """
_arguments() { print -rl -- "$@" }
_describe() { print -rl -- "${(@P)2}" }
words=(%s) CURRENT=$#words
complete_words() { . "$1" }
complete_words "$1"
"""


def completions_of_shells(root):
    """Checks that each shell reads its completions, and describes options as `--help` does."""
    for shell, place in SHELLS.items():
        if not shutil.which(shell):
            print(f"SKIPPED completions of {shell}: {shell} is not installed")
            continue
        for name in COMMANDS:
            file = root / "share" / place.format(name)
            ran = run(shell, "-n", file)
            yield f"{shell} reads {file.name}", (ran.returncode, ran.stderr) == (0, "")
        if shell == "zsh":
            yield from descriptions(root, "zsh", described_in_zsh)
        elif shell == "fish":
            yield from descriptions(root, "fish", described_in_fish)


def descriptions(root, shell, described):
    """Checks that the completions of a shell describe the options of each program as its help does,
    and a script's option and a subcommand with their apostrophes. None in the words is a subcommand
    that is still to be completed."""
    for name in PROGRAMS:
        for words in ((name,), *((name, it) for it in BELOW.get(name, ()))):
            ran = run(root / "bin" / name, *words[1:], "--help")
            wanted = dict(re.findall(r"(?m)^ {6}--([a-z-]+)(?: <.*?>)? {2,}(.*?)"
                                     r"(?: \[(?:default|possible values): .*\])?$", ran.stdout))
            found = described(root, name, words)
            for option, text in wanted.items():
                yield (f"{shell} describes {' '.join(words)} --{option}",
                       found.get(f"--{option}") == text)
    found = described(root, "campaign", ("campaign",)).get("--passwords", "")
    yield f"{shell} describes campaign --passwords", found.startswith("file of the meters' own")
    found = described(root, "head_end", ("head_end", None)).get("status", "")
    yield f"{shell} describes head_end status", "a ledger's campaign" in found


def described_in_zsh(root, name, words):
    """The description that zsh shows for each option after these words, or each subcommand."""
    file = root / "share" / SHELLS["zsh"].format(name)
    words = " ".join(it for it in words if it)
    ran = run("zsh", "-f", "-c", ZSH_WORDS % f"{words} ''", "zsh", file)
    pairs = re.findall(r"(?m)^(--[a-z-]+)\[((?:[^\\\]]|\\.)*)\]|^(\w+):(.*)$", ran.stdout)
    return {option or command: re.sub(r"\\(.)", r"\1", text or about)
            for option, text, command, about in pairs}


def described_in_fish(root, name, words):
    """The description that fish shows for each option after these words, or each subcommand."""
    file = root / "share" / SHELLS["fish"].format(name)
    line = " ".join([it or "" for it in words] + ["--"] * (None not in words))
    ran = run("fish", "--no-config", "-c", 'source $argv[1]; complete -C "$argv[2]"', file, line)
    return dict(it.split("\t", 1) for it in ran.stdout.splitlines() if "\t" in it)


def links(root, room):
    """Commands that are called through a link to a link, in a folder without the others."""
    for at, bin_folder in enumerate((root / "bin", TOP / "bin")):
        folder = room / f"links {at}"
        folder.mkdir()
        for it in COMMANDS:
            (folder / f"{it}_there").symlink_to(bin_folder / it)
            (folder / it).symlink_to(f"{it}_there")
        for it in COMMANDS:
            ran = run(folder / it, "--version", cwd=folder)
            yield (f"{bin_folder.name} {at}: a link to {it}",
                   ran.returncode == 0 and ran.stdout.startswith(f"{it} "))
        yield from linked_scripts(folder)


def linked_scripts(folder):
    """Whether the scripts find the programs next to what the link leads to."""
    if shutil.which("parallel"):
        (folder / "jobs").write_text("m1 127.0.0.1:4059 close\n")
        ran = run(folder / "campaign", "jobs", cwd=folder,
                  env={**os.environ, "METER_PASSWORD": "12345678"})
        yield ("a link to campaign finds head_end",
               ran.returncode == 2 and "line 1: expected" in ran.stderr)
    else:
        print("SKIPPED campaign through a link: GNU parallel is not installed")
    if run("/usr/bin/python3", "-c", "import matplotlib").returncode == 0:
        ran = run(folder / "trace_chart", WORKED, cwd=folder)
        yield ("a link to trace_chart finds trace_player",
               ran.returncode == 0 and "</svg>" in ran.stdout)
    else:
        print("SKIPPED trace_chart through a link: matplotlib is not installed")
    ran = run(folder / "meter_service", folder / "meter", "--depth", "0", cwd=folder)
    yield ("a link to meter_service finds meter_server",
           ran.returncode == 2 and "--depth" in ran.stderr)


# An rt that prints its words.
RT = '#!/bin/sh\nfor it; do echo "$it"; done\n'
# A bin/build that can't build without a proof; and one that makes an executable, which prints its
# words, and prints `built` itself.
NO_BUILD = "#!/bin/sh\nexit 1\n"
BUILD = """#!/bin/sh
[ "$1" = --unproved ] || exit 1
echo built >&2
made=$(dirname "$(dirname "$0")")/crates/$2_cli/out/unproved
mkdir -p "$made"
printf '#!/bin/sh\\nfor it; do echo "$it"; done\\n' > "$made/$2_cli"
chmod 700 "$made/$2_cli"
"""
# What bin/manuals reads of the sources of the programs.
SOURCES = ("arguments.rt", "options.rt")


def copy_without_executables(top):
    """Copies what bin/.run and bin/manuals use, without the executables, to a folder."""
    (top / "bin").mkdir(parents=True)
    shutil.copy(TOP / "crates.txt", top)
    for name in (*PROGRAMS, ".run", "manuals"):
        shutil.copy(TOP / "bin" / name, top / "bin" / name)
    for it in PROGRAMS:
        (top / "crates" / f"{it}_cli").mkdir(parents=True)
    for it in (TOP / "crates").glob("*/src/*.rt"):
        if it.name in SOURCES:
            copy = top / it.relative_to(TOP)
            copy.parent.mkdir(parents=True, exist_ok=True)
            shutil.copy(it, copy)


def unproved(root, room):
    """Checks of bin/.run for programs that have no proved executable: with which words it runs one,
    which command it names, and that --help and --version need none."""
    top, tools = room / "unproved", room / "tools"
    copy_without_executables(top)
    tools.mkdir()
    (tools / "rt").write_text(RT)
    (tools / "rt").chmod(0o700)
    write_script(top / "bin" / "build", NO_BUILD)
    (room / "run.trace").touch()
    environment = {**os.environ, "PATH": f"{tools}:{os.environ['PATH']}"}

    def run_in(words, **more):
        name, *words = words.split()
        return name, run(top / "bin" / name, *words, cwd=room, env=environment | more)

    for words, wanted in (
            ("head_end status --ledger some/ledger --format csv",
             f"status --ledger {room}/some/ledger --format csv"),
            ("head_end status --ledger=ledger", f"status --ledger={room}/ledger"),
            ("meter_server hex --password-file password --device RELAY2",
             f"hex --password-file {room}/password --device RELAY2"),
            ("trace_player --from 2 run.trace", f"--from 2 {room}/run.trace")):
        name, ran = run_in(words)
        found = ran.stdout.removeprefix("try\n--\n").replace("\n", " ").strip()
        yield f"unproved: {words}", (ran.returncode, found) == (0, wanted)
        yield (f"unproved: {words}: what runs it",
               ran.stderr.endswith(f"{name}: running it once by rt try\n"))
    for words in ("head_end run --ledger ledger", "head_end ask --ledger ledger",
                  "meter_server serve --password --helpless", "meter_fleet serve",
                  "meter_fleet --nonsense", "meter_fleet"):
        name, ran = run_in(words)
        yield f"unproved: {words}", (ran.returncode, ran.stdout) == (2, "")
        yield (f"unproved: {words}: what builds it",
               f"older than the sources: run bin/build {name} first (" in ran.stderr)
    yield from kept_builds(top, run_in)
    yield from recorded_builds(top)
    yield from answers_without_build(root, top, room / "tools without rt")


def write_script(path, text):
    path.write_text(text)
    path.chmod(0o700)


def kept_builds(top, run_in):
    """Checks that an unproved executable is built once, runs until the sources change, and serves
    and calls nobody unasked."""
    write_script(top / "bin" / "build", BUILD)
    source = top / "crates" / "trace_player_cli" / "src" / "arguments.rt"
    long_ago = time.time() - 60
    for it in top.glob("crates/*/src/*.rt"):
        os.utime(it, (long_ago, long_ago))
    name, ran = run_in("trace_player --from 2 run.trace")
    yield "unproved: built once", (ran.returncode, ran.stdout) == (0, "--from\n2\nrun.trace\n")
    yield "unproved: built once: what it says", ran.stderr.endswith(
        f"built\n{name}: NOT PROVED: bin/build {name} proves and builds it\n")
    name, ran = run_in("trace_player run.trace")
    yield "unproved: kept", (ran.returncode, ran.stdout, ran.stderr) == (
        0, "run.trace\n", f"{name}: NOT PROVED: bin/build {name} proves and builds it\n")
    now = time.time() + 60
    os.utime(source, (now, now))
    name, ran = run_in("trace_player run.trace")
    yield "unproved: built anew after a change", "built\n" in ran.stderr
    os.utime(source, (long_ago, long_ago))
    name, ran = run_in("meter_server serve")
    yield "unproved: a server is not built unasked", (ran.returncode, ran.stdout) == (2, "")
    name, ran = run_in("meter_server serve", WESPLINA_UNPROVED="1")
    yield "unproved: a server, if asked", (ran.returncode, ran.stdout) == (0, "serve\n")
    name, ran = run_in("meter_server serve", WESPLINA_UNPROVED="1")
    yield "unproved: a server, if asked: what it says", (ran.stdout, ran.stderr) == (
        "serve\n", f"{name}: NOT PROVED: bin/build {name} proves and builds it\n")
    name, ran = run_in("meter_server serve", WESPLINA_UNPROVED="10")
    yield "unproved: a server, if asked in another way", (ran.returncode, ran.stdout) == (2, "")


def recorded_builds(top):
    """Checks that a new executable is taken for a proved one only with the record of its bytes."""
    made = top / "crates" / "trace_player_cli" / "out" / "trace_player_cli"

    def where():
        ran = run(top / "bin" / ".run", "--where", "trace_player_cli")
        return ran.returncode, ran.stdout

    write_script(made, "#!/bin/sh\nexit 0\n")
    yield "unproved: a file without a record is not proved", where() == (1, "")
    digest = hashlib.sha256(made.read_bytes()).hexdigest()
    made.with_suffix(".built").write_text(f"{digest} commit 1\n")
    yield "unproved: a file with its record is proved", where() == (0, f"{made}\n")
    write_script(made, "#!/bin/sh\nexit 1\n")
    yield "unproved: a file with the record of another is not proved", where() == (1, "")
    made.unlink()


def answers_without_build(root, top, tools):
    """Checks that a program without an executable prints the help and the version of an executable,
    with a password in the environment and without, also if rt is not installed."""
    tools.mkdir()
    (tools / "python3").symlink_to(sys.executable)
    for it in ("bash", "dirname", "find", "readlink", "sh"):
        (tools / it).symlink_to(shutil.which(it))
    without = {name: it for name, it in os.environ.items() if name != "METER_PASSWORD"}
    without["PATH"] = str(tools)
    for name in PROGRAMS:
        for words in ((), *((it,) for it in BELOW.get(name, ()))):
            for flag, more in (("--help", {}), ("-h", {"METER_PASSWORD": "12345678"})):
                ran = run(top / "bin" / name, *words, flag, env=without | more)
                wanted = run(root / "libexec/wesplina" / name, *words, flag, env=without | more)
                yield (f"unproved: {' '.join((name, *words, flag))}",
                       (ran.returncode, ran.stdout, ran.stderr) == (0, wanted.stdout, ""))
        for flag in ("--version", "-V"):
            ran = run(top / "bin" / name, flag, env=without)
            number = run(root / "libexec/wesplina" / name, flag).stdout.strip()
            yield (f"unproved: {name} {flag}", (ran.returncode, ran.stdout, ran.stderr)
                   == (0, f"{number} (NOT PROVED: not built from these sources)\n", ""))
    ran = run(top / "bin" / "head_end", "run", "--passwords", "passwords", "--help", env=without)
    wanted = run(root / "libexec/wesplina/head_end", "run", "--help", env=without)
    yield "unproved: --help after other words", (ran.stdout, ran.stderr) == (wanted.stdout, "")


def all_rows(room):
    """All checks, each with its name and whether it holds."""
    yield from arguments()
    yield from destinations(room)
    yield from removals(room)
    yield from made_folders(room)
    yield from modes(room)
    yield from services(room)
    yield from prefixes(room)
    root = room / "installed"
    ran = install(root)
    yield "installs", ran.returncode == 0
    yield from versions(root)
    yield from pages(root)
    yield from completions(root)
    yield from completions_of_shells(root)
    yield from links(root, room)
    yield from unproved(root, room)


def main():
    for it in PROGRAMS:
        if run(TOP / "bin" / ".run", "--where", f"{it}_cli").returncode:
            print(f"the executable of {it} is missing: run bin/build or bin/test")
            print("0 passed, 1 failed")
            return 1
    passed, failed = 0, 0
    with tempfile.TemporaryDirectory(prefix="installing ") as room:
        for name, is_so in all_rows(Path(room)):
            passed, failed = passed + is_so, failed + (not is_so)
            if not is_so:
                print(f"FAILED installing: {name}")
    print(f"{passed} passed, {failed} failed")
    return 1 if failed else 0


if __name__ == "__main__":
    sys.exit(main())
