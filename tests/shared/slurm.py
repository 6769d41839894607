"""A queue of Slurm on one node, this machine, for tests: Debian's `slurm-wlm` with its daemons in a folder, on loopback, as this user.

Where it is not installed, `is_there` is false; with KH_SLURM=install in the environment `apt-get` installs it first.
"""
import contextlib
import getpass
import os
import shutil
import socket
import subprocess
import sys
import time

from shared.places import write_text

DAEMONS = ("munged", "slurmctld", "slurmd")
PACKAGES = ("slurm-wlm", "munge")
PATIENCE = 120
SETTINGS = """\
ClusterName=kh
SlurmctldHost=localhost(127.0.0.1)
SlurmctldPort={ports[0]}
SlurmdPort={ports[1]}
SlurmUser={user}
SlurmdUser={user}
AuthType=auth/munge
AuthInfo=socket={folder}/munge.socket
CredType=cred/munge
CommunicationParameters=NoInAddrAny,NoCtldInAddrAny
StateSaveLocation={folder}/state
SlurmdSpoolDir={folder}/spool
SlurmctldPidFile={folder}/slurmctld.pid
SlurmdPidFile={folder}/slurmd.pid
SlurmctldLogFile={folder}/slurmctld.log
SlurmdLogFile={folder}/slurmd.log
ProctrackType=proctrack/linuxproc
TaskPlugin=task/none
JobAcctGatherType=jobacct_gather/none
SelectType=select/cons_res
SelectTypeParameters=CR_Core_Memory
SwitchType=switch/none
MpiDefault=none
ReturnToService=2
NodeName=localhost NodeHostname=localhost NodeAddr=127.0.0.1 CPUs={processors} RealMemory=4000 State=UNKNOWN
PartitionName=kh Nodes=localhost Default=YES MaxTime=INFINITE State=UP
"""


def found(name):
    """Where a program is; daemons are where a user's path may not lead."""
    return shutil.which(name, path=os.environ.get("PATH", os.defpath) + ":/usr/sbin:/sbin")


def is_there():
    """Whether Slurm is to be tried, which KH_SLURM says, and is installed, once it has been where that is asked for."""
    if os.environ.get("KH_SLURM") not in ("install", "run"):
        return False
    if not all(map(found, DAEMONS)) and os.environ["KH_SLURM"] == "install":
        settings = dict(os.environ, DEBIAN_FRONTEND="noninteractive")
        subprocess.run(["apt-get", "install", "-y", "--no-install-recommends", *PACKAGES], env=settings, stdout=sys.stderr, check=False)
    return all(map(found, (*DAEMONS, "sbatch")))


def free_ports(count):
    """So many ports of this machine that nobody listens at."""
    with contextlib.ExitStack() as stack:
        sockets = [stack.enter_context(socket.socket()) for _ in range(count)]
        for it in sockets:
            it.bind(("127.0.0.1", 0))
        return [it.getsockname()[1] for it in sockets]


class Queue:
    """The queue, which ends behind a `with`."""

    def __init__(self, folder, processors=2):
        self.folder, self.settings, self.daemons = folder, os.path.join(folder, "slurm.conf"), []
        for name in ("state", "spool"):
            os.mkdir(os.path.join(folder, name), 0o755)
        with open(os.path.join(folder, "key"), "wb", opener=lambda path, flags: os.open(path, flags, 0o600)) as file:
            file.write(os.urandom(128))
        write_text(self.settings, SETTINGS.format(folder=folder, user=getpass.getuser(), ports=free_ports(2), processors=processors))

    def __enter__(self):
        at = {name: os.path.join(self.folder, name) for name in ("key", "munge.socket", "munge.pid", "munge.log", "munge.seed")}
        key, *others = at.values()
        names = ("--socket", "--pid-file", "--log-file", "--seed-file")
        try:
            self.begin("munged", "--foreground", "--force", f"--key-file={key}", *map("=".join, zip(names, others)))
            self.wait(lambda: os.path.exists(at["munge.socket"]))
            self.begin("slurmctld", "-D")
            self.begin("slurmd", "-D", "-N", "localhost")
            self.wait(lambda: "idle" in self.run("sinfo", "-h", "-o", "%T"))
        except BaseException:
            self.__exit__()
            raise
        return self

    def __exit__(self, *_):
        for daemon in reversed(self.daemons):
            daemon.terminate()
            try:
                daemon.wait(PATIENCE)
            except subprocess.TimeoutExpired:
                daemon.kill()

    def begin(self, name, *words):
        nothing = subprocess.DEVNULL
        settings = dict(os.environ, SLURM_CONF=self.settings)
        words = [found(name), *words]
        self.daemons.append(subprocess.Popen(words, env=settings, stdin=nothing, stdout=nothing, stderr=nothing, start_new_session=True))

    def run(self, *words, folder=None, **more):
        """What a command of the queue, or a line of a shell, writes and says."""
        settings = dict(os.environ, SLURM_CONF=self.settings, **more)
        words = ["sh", "-c", *words] if len(words) == 1 else words
        came = subprocess.run(words, cwd=folder, env=settings, stdin=subprocess.DEVNULL, capture_output=True, text=True, timeout=PATIENCE)
        return came.stdout + came.stderr

    def wait(self, is_so):
        """Waits until something is so, for some time; whether it has come so far."""
        begun = time.monotonic()
        while not is_so() and time.monotonic() - begun < PATIENCE:
            time.sleep(0.1)
        return is_so()

    def is_empty(self):
        """Whether no task waits or runs."""
        return not self.run("squeue", "-h", "-r", "-o", "%i").strip()
