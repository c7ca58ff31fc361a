"""Our cluster of simulated nodes on this machine, for `bench/slurm`."""
import json
import os
import shutil
import signal
import subprocess
import time

from slurm_clusters import Cluster, NoCluster

TOP = os.path.dirname(os.path.dirname(os.path.abspath(__file__)))
SERVICE = f"{TOP}/service"
SITE = """\
[site]
directory = {folder}/site
program = {program}
spool = {folder}/spool
socket = {folder}/site.sock
[clients]
most_of_user = 900
sites = any
[jobs]
run = {run}
hosts = {hosts}
link = sh -c "exec {service}/nettlebeam-node --config {folder}/{{host}}.conf"
[house]
every = 0
"""
NODE = """\
[node]
folder = {folder}/{host}
least_uid = 0
start = {start}
"""


class Nettlebeam(Cluster):
    """Ours, with a program for each node, which runs jobs by sudo where that is there."""

    name = "nettlebeam"

    def __init__(self, folder, nodes, program):
        super().__init__(folder, nodes)
        self.program = program
        self.environment = {"NETTLEBEAM_SOCKET": f"{folder}/site.sock"}
        start = "sudo -n -u {user} --" if shutil.which("sudo") else "env"
        for host in self.hosts:
            with open(f"{folder}/{host}.conf", "w", encoding="ascii") as file:
                file.write(NODE.format(folder=folder, host=host, start=start))
        subprocess.run([program, "init", f"{folder}/site", "bench", f"bench:{nodes}"], check=True)
        self.configure("yes")

    def configure(self, run):
        """Writes its settings."""
        text = SITE.format(folder=self.folder, program=self.program, hosts=" ".join(self.hosts), service=SERVICE, run=run)
        with open(f"{self.folder}/site.conf.new", "w", encoding="ascii") as file:
            file.write(text)
        os.rename(f"{self.folder}/site.conf.new", f"{self.folder}/site.conf")
        for daemon in self.daemons:
            daemon.send_signal(signal.SIGHUP)

    def start(self):
        """Starts what answers users, which starts what is at the nodes."""
        self.start_daemon(f"{SERVICE}/nettlebeamd", f"{self.folder}/site.conf")

    def start_nodes(self):
        """Starts nothing."""

    def is_ready(self):
        """Whether it answers."""
        return self.run(self.listing())[0] == 0

    def wait_nodes(self):
        """Waits until all nodes are there."""
        end = time.monotonic() + 120
        while self.run([f"{SERVICE}/qask", "nodes"])[1].count(" up\n") != len(self.hosts):
            if time.monotonic() > end:
                raise NoCluster(f"the nodes aren't up: look at {self.folder}")
            time.sleep(0.1)

    def submit(self, script, nodes=1, name="x", held=False):
        """Submits a job; its identifier, or nothing."""
        hold = ["-h"] if held else []
        words = [f"{TOP}/bin/qsub", "-o", "/dev/null", "-e", "/dev/null", "-N", name, "-l", f"nodes={nodes}", *hold]
        status, text = self.run(words, script)
        return text.strip() if status == 0 else ""

    def listing(self):
        """The words of a listing."""
        return [f"{TOP}/bin/qstat"]

    def known(self):
        """The names of the jobs that are listed."""
        return {json.loads(line)["name"] for line in self.run([f"{SERVICE}/qask", "jobs"])[1].splitlines()}

    def count(self):
        """How many jobs are listed."""
        status, text = self.run(self.listing())
        return sum(line[:1].isdigit() for line in text.splitlines()) if status == 0 else -1

    def pause(self):
        """Has no job start."""
        self.configure("no")

    def resume(self):
        """Has jobs start."""
        self.configure("yes")
