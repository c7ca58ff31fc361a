"""Nodes on one machine, for tests: each with a folder and a boot of its own, and a link that can be cut."""
import json
import os
import signal
import time

from tests.service.scenes import read
from tests.service.sites import SERVICE, TOP, stat_of

NODE = f"{SERVICE}/nettlebeam-node"
NODE_CONFIG = """\
[node]
folder = {folder}/{host}
boot = {folder}/{host}.boot
start = env NODE={host}
least_uid = 0
grace = 4
free_bytes = 65536
login = no
"""
SCRIPT = "echo $NODE $PBS_JOBID $(cat $PBS_NODEFILE) >> {ran}\nsleep {seconds}\nexit {status}\n"


class Cluster:
    """Nodes on this machine, each with a folder and a boot of its own."""

    def __init__(self, folder, hosts=("n1", "n2", "n3")):
        self.folder = folder
        self.hosts = hosts
        self.ran = f"{folder}/ran"
        for host in hosts:
            self.boot(host)
            self.configure(host)

    def configure(self, host, **more):
        """Writes the settings of a node."""
        text = NODE_CONFIG.format(folder=self.folder, host=host)
        for key, value in more.items():
            text = "".join(line for line in text.splitlines(True) if not line.startswith(key)) + f"{key} = {value}\n"
        with open(f"{self.folder}/{host}.conf", "w", encoding="ascii") as file:
            file.write(text)

    def boot(self, host):
        """Gives a node another run of its machine."""
        with open(f"{self.folder}/{host}.boot", "w", encoding="ascii") as file:
            file.write(f"{host}-{time.monotonic_ns()}\n")

    def link(self):
        """The words that reach a node, by what can be cut."""
        return f"{TOP}/tests/service/relay {self.folder} {{host}} {NODE} --config {self.folder}/{{host}}.conf"

    def trap(self, host, ask, how, **more):
        """Has the next request of a kind lost."""
        with open(f"{self.folder}/{host}.trap.new", "w", encoding="ascii") as file:
            json.dump({"ask": ask, "how": how, **more}, file)
        os.rename(f"{self.folder}/{host}.trap.new", f"{self.folder}/{host}.trap")

    def is_sprung(self, host):
        """Whether the trap was used."""
        return not os.path.exists(f"{self.folder}/{host}.trap")

    def cut(self, host):
        """Cuts the link to a node."""
        with open(f"{self.folder}/{host}.cut", "w", encoding="ascii"):
            pass

    def mend(self, host):
        """Restores the link."""
        if os.path.exists(f"{self.folder}/{host}.cut"):
            os.remove(f"{self.folder}/{host}.cut")

    def switch_off(self, host):
        """Ends all processes of a node, as where it is switched off, and keeps it off."""
        self.cut(host)
        for pid in processes_with(f"{self.folder}/{host}.conf"):
            end_process(pid)  # before they see that the runners have gone
        for name in os.listdir(f"{self.folder}/{host}") if os.path.exists(f"{self.folder}/{host}") else ():
            for kind in ("runner", "started"):
                try:
                    pid = json.loads(read(f"{self.folder}/{host}/{name}/{kind}"))["pid"]
                except (OSError, ValueError, KeyError):
                    continue
                kill_session(pid)
        self.signal(host, signal.SIGKILL)

    def signal(self, host, number):
        """Sends a signal to all of the service that is on a node: its program, and the runners of its jobs."""
        for pid in processes_with(f"{self.folder}/{host}.conf") + processes_with(f"{self.folder}/{host}/"):
            try:
                os.kill(pid, number)
            except ProcessLookupError:
                pass

    def switch_on(self, host):
        """Has it start again."""
        self.boot(host)
        self.mend(host)

    def submit(self, site, *words, seconds=0, status=0):
        """Submits a job that tells where it runs."""
        if isinstance(seconds, int) and seconds >= 60:
            # where the signal that ends it comes to the first one before it comes to the shell, the shell doesn't end by itself
            seconds = f"{seconds}; sleep {seconds}"
        return site.submit(SCRIPT.format(ran=self.ran, seconds=seconds, status=status), *words)

    def submit_three(self, site):
        """Submits three jobs, each of which waits until all have begun, and ends with another status."""
        wait = f"$(until [ $(wc -l < {self.ran}) -ge 3 ]; do sleep 0.1; done; echo 0)"
        return [self.submit(site, seconds=wait, status=number) for number in (1, 2, 3)]

    def where(self, job):
        """The nodes where a job's script ran, once for each time."""
        lines = read(self.ran).splitlines() if os.path.exists(self.ran) else []
        return [line.split()[0] for line in lines if line.split()[1] == job]


def end_process(pid):
    """Kills a process that may have gone."""
    try:
        os.kill(pid, signal.SIGKILL)
    except ProcessLookupError:
        pass


def kill_session(session):
    """Ends the processes of a session."""
    for name in os.listdir("/proc"):
        if name.isdigit():
            stat = stat_of(int(name))
            if int(name) == session or (stat and stat[0] == session):
                end_process(int(name))


def processes_with(text):
    """The processes that have a text in their words."""
    found = []
    for name in os.listdir("/proc"):
        if name.isdigit() and int(name) != os.getpid():
            try:
                with open(f"/proc/{name}/cmdline", "rb") as file:
                    found += [int(name)] if text.encode() in file.read() else []
            except OSError:
                pass
    return found
