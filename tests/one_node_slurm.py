"""A Slurm cluster of one node on this machine, for tests. Its daemons have a key, ports and files
of their own, all in one folder."""

import contextlib
import getpass
import os
import pathlib
import random
import shutil
import signal
import socket
import subprocess

from serving import PATIENCE, wait_until

LONG_PATIENCE = 6 * PATIENCE  # for waits on Slurm, which starts tasks every few seconds
PATH = os.environ.get("PATH", "") + ":/usr/sbin:/usr/local/sbin"
DAEMONS = ("munged", "slurmctld", "slurmd")  # in the order of their start
COMMANDS = ("sbatch", "scancel", "sinfo", "squeue")

CONFIGURATION = """ClusterName=test
SlurmctldHost={host}(127.0.0.1)
SlurmUser={user}
SlurmdUser={user}
AuthType=auth/munge
CryptoType=crypto/munge
AuthInfo=socket={folder}/munged.socket
StateSaveLocation={folder}/state
SlurmdSpoolDir={folder}/spool
SlurmctldPidFile={folder}/slurmctld.pid
SlurmdPidFile={folder}/slurmd.pid
SlurmctldLogFile={folder}/slurmctld.log
SlurmdLogFile={folder}/slurmd.log
SlurmctldPort={ports[0]}
SlurmdPort={ports[1]}
SlurmdParameters=config_overrides
ProctrackType=proctrack/pgid
TaskPlugin=task/none
MpiDefault=none
SelectType=select/cons_tres
SelectTypeParameters=CR_Core
ReturnToService=2
KillWait=5
NodeName={host} NodeAddr=127.0.0.1 CPUs=1 State=UNKNOWN
PartitionName=all Nodes=ALL Default=YES MaxTime=INFINITE State=UP OverSubscribe=FORCE:16
"""


def missing_commands():
    """The daemons and commands that are not installed."""
    return [it for it in (*DAEMONS, *COMMANDS) if not shutil.which(it, path=PATH)]


def free_ports(count):
    """Free ports below those that the system gives to clients, which could take one before a daemon
    listens on it."""
    found = []
    for port in random.sample(range(20_000, 32_000), 1_000):
        with contextlib.suppress(OSError), socket.socket() as taken:
            taken.bind(("127.0.0.1", port))
            found.append(port)
        if len(found) == count:
            break
    return found


class Slurm:
    """The three daemons. `stop` ends them by their pid files."""

    def __init__(self, folder):
        self.folder = pathlib.Path(folder)
        self.folder.mkdir()
        for it in ("state", "spool"):
            (self.folder / it).mkdir()
        self.started = []
        self.configuration = self.folder / "slurm.conf"
        host = socket.gethostname().split(".")[0]
        self.configuration.write_text(CONFIGURATION.format(host=host, user=getpass.getuser(), folder=self.folder, ports=free_ports(2)))
        self.environment = {**os.environ, "PATH": PATH, "SLURM_CONF": str(self.configuration)}

    def start(self):
        """Starts the daemons; returns whether the node accepts tasks."""
        key = self.folder / "munged.key"
        key.write_bytes(os.urandom(128))
        key.chmod(0o600)
        paths = (f"--{it}-file={self.folder}/munged.{it}" for it in ("key", "pid", "log", "seed"))
        # (the folder is not open to others, of which munged warns)
        daemons = (["munged", "--force", f"--socket={self.folder}/munged.socket", *paths], ["slurmctld"], ["slurmd"])
        for words in daemons:
            self.started.append(words[0])
            if self.run(*words).returncode != 0:
                return False
        return wait_until(lambda: self.run("sinfo", "--noheader", "--format=%T").stdout.split() == ["idle"], LONG_PATIENCE)

    def run(self, *words):
        """Runs a daemon, which puts itself in the background, or a command."""
        # (daemons keep standard error open, so it is a file)
        with (self.folder / "errors").open("a") as errors:
            try:
                return subprocess.run(words, stdin=subprocess.DEVNULL, stdout=subprocess.PIPE if words[0] in COMMANDS else errors, stderr=errors, text=True,
                                      env=self.environment, timeout=PATIENCE)
            except subprocess.TimeoutExpired:
                return subprocess.CompletedProcess(words, 1, "", "")

    def has_no_task(self):
        listed = self.run("squeue", "--noheader")
        return listed.returncode == 0 and not listed.stdout

    def errors(self):
        """The ends of what the daemons wrote, to report why they do not run."""
        paths = (self.folder / it for it in ("errors", "slurmctld.log", "slurmd.log"))
        return "".join(it.read_text(errors="replace")[-300:] for it in paths if it.exists())

    def stop(self):
        """Cancels all tasks and ends the daemons."""
        if "slurmd" in self.started:
            self.run("scancel", f"--user={getpass.getuser()}")
            wait_until(self.has_no_task)
        while self.started:
            name = self.started.pop()
            end_daemon(name, self.folder / f"{name}.pid")


def end_daemon(name, pid_file):
    """Ends the daemon whose number the file has. A daemon that has just been started may write it
    late; one that failed writes none."""
    if not wait_until(lambda: pid_file.exists() and pid_file.read_text().strip(), 2):
        return
    number = int(pid_file.read_text())
    for number_sent in signal.SIGTERM, signal.SIGKILL:
        if is_daemon(name, number):
            os.kill(number, number_sent)
            wait_until(lambda: not is_daemon(name, number), PATIENCE / 2)


def is_daemon(name, number):
    """Whether the process of this number is a daemon of this name, and no zombie."""
    try:
        line = pathlib.Path(f"/proc/{number}/stat").read_text()
    except OSError:
        return False
    found, state = line.split("(", 1)[1].rsplit(")", 1)
    return found == name and state.split()[0] != "Z"
