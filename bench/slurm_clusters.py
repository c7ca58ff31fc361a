"""A cluster of simulated nodes on this machine, for `bench/slurm`: what any has, and Slurm's."""
import os
import shutil
import signal
import subprocess
import time

FIRST_PORT = 17_100
SLURM = """\
ClusterName=bench
SlurmctldHost={host}(127.0.0.1)
SlurmUser=root
SlurmctldPort={port}
AuthType=auth/munge
AuthInfo=socket={folder}/munge.socket
CredType=cred/munge
MpiDefault=none
ProctrackType=proctrack/linuxproc
TaskPlugin=task/none
SelectType=select/linear
SchedulerType=sched/backfill
JobAcctGatherType=jobacct_gather/none
AccountingStorageType=accounting_storage/none
ReturnToService=2
MaxJobCount=10000
StateSaveLocation={folder}/state
SlurmdSpoolDir={folder}/spool-%n
SlurmctldPidFile={folder}/slurmctld.pid
SlurmdPidFile={folder}/slurmd-%n.pid
SlurmctldLogFile={folder}/slurmctld.log
SlurmdLogFile={folder}/slurmd-%n.log
{nodes}
PartitionName=batch Nodes=ALL Default=YES MaxTime=INFINITE State=UP
"""
GROUPS = (("/sys/fs/cgroup/cpuacct", "cpuacct.usage"), ("/sys/fs/cgroup", "cpu.stat"), ("/sys/fs/cgroup/unified", "cpu.stat"))


class NoCluster(Exception):
    """A cluster can't be had here. The text tells why."""


class Group:
    """A control group that counts the processor time of all that is started in it."""

    def __init__(self, name):
        self.place, self.file = "", ""
        for place, file in GROUPS:
            if os.path.exists(f"{place}/cgroup.procs"):
                try:
                    os.mkdir(f"{place}/{name}")
                except OSError:
                    continue
                if os.path.exists(f"{place}/{name}/{file}"):
                    self.place, self.file = f"{place}/{name}", f"{place}/{name}/{file}"
                    return
                os.rmdir(f"{place}/{name}")

    def enter(self):
        """Has this process count; in a child, before it becomes another program."""
        if self.place:
            with open(f"{self.place}/cgroup.procs", "w", encoding="ascii") as file:
                file.write("0")

    def seconds(self):
        """The processor seconds; None where they can't be counted."""
        if not self.place:
            return None
        with open(self.file, encoding="ascii") as file:
            words = file.read().split()
        return int(words[0]) / 1e9 if len(words) == 1 else int(words[1]) / 1e6

    def processes(self):
        """The processes in it."""
        if not self.place:
            return []
        with open(f"{self.place}/cgroup.procs", encoding="ascii") as file:
            return [int(it) for it in file.read().split()]

    def remove(self):
        """Ends what is in it, and removes it."""
        end = time.monotonic() + 10
        while self.place and time.monotonic() < end:
            for pid in self.processes():
                end_process(pid)
            try:
                os.rmdir(self.place)
                return
            except OSError:
                time.sleep(0.05)


def end_process(pid):
    """Kills a process that may have gone."""
    try:
        os.kill(pid, signal.SIGKILL)
    except ProcessLookupError:
        pass


class Cluster:
    """What both clusters have."""

    name = ""
    environment = {}

    def __init__(self, folder, nodes):
        self.folder = folder
        self.hosts = [f"n{number}" for number in range(1, nodes + 1)]
        self.group = Group(f"bench-{self.name}-{os.getpid()}")
        self.daemons = []
        os.makedirs(folder, mode=0o755)

    def run(self, words, script=None):
        """Calls a program: its status and its output."""
        environment = {**os.environ, **self.environment}
        done = subprocess.run(words, input=script, text=True, capture_output=True, env=environment, cwd=self.folder, check=False)
        return done.returncode, done.stdout

    def start_daemon(self, *words):
        """Starts a process of the cluster."""
        with open(f"{self.folder}/daemons.log", "ab") as log:
            environment = {**os.environ, **self.environment}
            null = subprocess.DEVNULL
            self.daemons.append(
                subprocess.Popen(words, stdin=null, stdout=log, stderr=log, env=environment, preexec_fn=self.group.enter)
            )

    def kill(self):
        """Ends all of its processes by `kill -9`, but what tells who a user is."""
        for daemon in self.daemons:
            daemon.kill()
        for pid in self.group.processes():
            if pid not in self.kept():
                end_process(pid)
        for daemon in self.daemons:
            daemon.wait()
        self.daemons.clear()

    def kept(self):
        """Processes that no kill ends."""
        return ()

    def start_all(self, seconds=120):
        """Starts it; after how many seconds it answers."""
        began = time.monotonic()
        self.start()
        while time.monotonic() < began + seconds:
            if self.is_ready():
                spent = time.monotonic() - began
                self.start_nodes()
                return spent
            time.sleep(0.01)
        raise NoCluster(f"{self.name} doesn't answer: look at {self.folder}")

    def count(self):
        """How many jobs are listed."""
        status, text = self.run(self.listing())
        return len(text.splitlines()) if status == 0 else -1

    def wait_empty(self, seconds=1800):
        """Waits until no job is listed."""
        end = time.monotonic() + seconds
        while self.count() != 0:
            if time.monotonic() > end:
                raise NoCluster(f"{self.name} doesn't come to an end: look at {self.folder}")
            time.sleep(0.1)

    def end(self):
        """Ends it."""
        self.kill()
        self.group.remove()


class Slurm(Cluster):
    """Slurm, with a daemon for each node, and a munge of its own."""

    name = "slurm"

    def __init__(self, folder, nodes):
        super().__init__(folder, nodes)
        missing = [it for it in ("slurmctld", "slurmd", "sbatch", "squeue", "scontrol", "munged") if not shutil.which(it)]
        if missing:
            raise NoCluster(f"there is no {', '.join(missing)} here: Debian's packages slurm-wlm and munge have them")
        self.environment = {"SLURM_CONF": f"{folder}/slurm.conf"}
        host = os.uname().nodename.split(".")[0]
        lines = [
            f"NodeName={name} NodeHostname={host} NodeAddr=127.0.0.1 Port={FIRST_PORT + number} CPUs=1 State=UNKNOWN"
            for number, name in enumerate(self.hosts, 1)
        ]
        os.mkdir(f"{folder}/state")
        with open(f"{folder}/slurm.conf", "w", encoding="ascii") as file:
            file.write(SLURM.format(host=host, port=FIRST_PORT, folder=folder, nodes="\n".join(lines)))
        with open(os.open(f"{folder}/munge.key", os.O_WRONLY | os.O_CREAT, 0o600), "wb") as file:
            file.write(os.urandom(1024))
        files = [f"--{kind}={folder}/munge.{end}" for kind, end in (("socket", "socket"), ("key-file", "key"), ("pid-file", "pid"), ("log-file", "log"), ("seed-file", "seed"))]
        self.munge = subprocess.Popen(["munged", "--foreground", "--force", *files], stderr=subprocess.DEVNULL)

    def start(self):
        """Starts what answers users."""
        self.start_daemon("slurmctld", "-D")

    def start_nodes(self):
        """Starts the nodes."""
        for host in self.hosts:
            self.start_daemon("slurmd", "-D", "-N", host)

    def is_ready(self):
        """Whether it answers."""
        return self.run(["squeue", "-h"])[0] == 0

    def wait_nodes(self):
        """Waits until all nodes are there."""
        end = time.monotonic() + 120
        while self.run(["sinfo", "-h", "-t", "idle", "-o", "%D"])[1].strip() != str(len(self.hosts)):
            if time.monotonic() > end:
                raise NoCluster(f"Slurm's nodes aren't up: look at {self.folder}")
            time.sleep(0.1)

    def submit(self, script, nodes=1, name="x", held=False):
        """Submits a job; its identifier, or nothing."""
        hold = ["--hold"] if held else []
        words = ["sbatch", "--parsable", "-o", "/dev/null", "-J", name, "-N", str(nodes), *hold]
        status, text = self.run(words, f"#!/bin/sh\n{script}")
        return text.strip() if status == 0 else ""

    def listing(self):
        """The words of a listing."""
        return ["squeue", "-h"]

    def known(self):
        """The names of the jobs that are listed."""
        return set(self.run(["squeue", "-h", "-o", "%j"])[1].split())

    def pause(self):
        """Has no job start."""
        self.run(["scontrol", "update", "partition=batch", "state=down"])

    def resume(self):
        """Has jobs start."""
        self.run(["scontrol", "update", "partition=batch", "state=up"])

    def end(self):
        """Ends it."""
        super().end()
        self.munge.terminate()
        self.munge.wait()
