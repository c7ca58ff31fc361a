"""Sites with their services, in a folder, for the tests of the service: real programs, sockets and processes."""
import json
import os
import random
import signal
import socket
import subprocess
import sys
import time

from tests.playing import PROGRAM, TOP

SERVICE = f"{TOP}/service"
# another interpreter for the daemons, such as the oldest that is to do
PYTHON = [os.environ["NETTLEBEAM_PYTHON"], "-IS"] if "NETTLEBEAM_PYTHON" in os.environ else []
sys.path.insert(0, SERVICE)

from nettlebeam_service.common import config  # noqa: E402
from nettlebeam_service.common.ask import Told, Unasked, ask  # noqa: E402
from nettlebeam_service.common.processes import stat_of  # noqa: E402
from nettlebeam_service.housekeeping import accounting  # noqa: E402
from nettlebeam_service.node import settings  # noqa: E402
from nettlebeam_service.peers import seal  # noqa: E402

LINK = """\
#!/bin/sh
# link FROM TO WORD ..: what FROM asks TO, in place of ssh; there is no link where a file says so
from=$1 to=$2
shift 2
[ ! -e "{folder}/cut.$from.$to" ] || {{ echo "no route" >&2; exit 255; }}
NETTLEBEAM_SOCKET={folder}/$to.sock exec {service}/nettlebeam-peer "$from" "$@"
"""
CONFIG = """\
{site}
directory = {home}/site
program = {program}
spool = {home}/spool
socket = {folder}/{name}.sock
free_bytes = 65536
operators = {operators}
admins = {admins}
[jobs]
every = 1
grace = 5
elsewhere = {folder}
{jobs}
"""
PEER = """\
[peer {peer}]
{way}
soon = 0.3
every = 3
seconds = 10
retry = 0.5
retry_most = 2
"""


class NoEnd(Exception):
    """What was waited for doesn't come about."""


def until(holds, seconds, what):
    """Waits until something holds; what it gave."""
    end = time.monotonic() + seconds
    while True:
        value = holds()
        if value:
            return value
        if time.monotonic() > end:
            raise NoEnd(f"after {seconds} s not: {what}")
        time.sleep(0.05)


def free_port():
    """A port of the loopback that nobody has, of those that no connection gets by itself."""
    while True:
        port = random.randrange(20_000, 32_000)
        with socket.socket() as found:
            try:
                found.bind(("127.0.0.1", port))
                return port
            except OSError:
                continue


KINDS = ("runner_server", "nettlebeamd", "service/relay", "nettlebeam-node", "nettlebeam-peer", "link", "serve", "compact")


def kind_of(pid):
    """What kind of process of the service this is: a runner by the name that it gives itself, others by their words; nothing
    where it has gone."""
    try:
        with open(f"/proc/{pid}/comm", encoding="utf-8", errors="replace") as file:
            name = file.read()
        with open(f"/proc/{pid}/cmdline", "rb") as file:
            words = file.read().decode("utf-8", "replace")
    except OSError:
        return ""
    return "runner" if name.startswith("run ") else next((it for it in KINDS if it in words), "other")


def as_told(line):
    """A line of accounting as the site told it, without what the job has used."""
    front, mark, _ = line.partition(',"used":{')
    return front + "}" if mark else line


def with_login(jobs):
    """The settings of jobs, without a login shell unless they say so: what the profile of who plays this does is no part of a scene."""
    return jobs if "login = " in jobs else f"login = no\n{jobs}"


class ServedSite:
    """A site with its service."""

    def __init__(self, federation, name, home):
        self.federation = federation
        self.name = name
        self.home = home
        self.config = f"{federation.folder}/{name}.conf"
        self.socket = f"{federation.folder}/{name}.sock"
        self.log = f"{federation.folder}/{name}.log"
        self.process = None

    def make(self, program, roster, jobs, more, operators="", admins="", site="[site]", sites="any"):
        """Makes the site, and its configuration, where `site` names the folder of the site as `{home}`. A job that names no site may
        run at all, unless `sites` or a section of clients says another."""
        os.makedirs(self.home, exist_ok=True)
        subprocess.run([program, "init", f"{self.home}/site", self.name, *roster], check=True)
        folder = self.federation.folder
        site = site.format(home=self.home)
        text = CONFIG.format(
            home=self.home, folder=folder, name=self.name, program=program, jobs=with_login(jobs), operators=operators, admins=admins, site=site
        )
        for peer in (entry.split(":")[0] for entry in roster):
            if peer != self.name and (self.federation.has_links or self.federation.folders):
                text += self.peer_section(peer)
        if "[clients]" not in text + more:
            more += f"[clients]\nsites = {sites}\n"
        with open(self.config, "w", encoding="ascii") as file:
            file.write(text + more)

    def peer_section(self, peer):
        """The section of another site."""
        folder, shared = self.federation.folder, self.federation.folders
        way = f"folder = {shared}\nkey = {self.federation.key(self.name, peer)}" if shared else f"command = {folder}/link {self.name} {peer}"
        return PEER.format(peer=peer, way=way)

    def start(self):
        """Starts the service."""
        with open(self.log, "ab") as log:
            self.process = subprocess.Popen(
                [*PYTHON, f"{SERVICE}/nettlebeamd", self.config],
                stdin=subprocess.DEVNULL,
                stderr=log,
                env={**os.environ, "NETTLEBEAM_TEST": self.federation.mark},
            )

    def wait_ready(self, seconds=30):
        """Waits until it answers."""

        def answers():
            try:
                return self.ask("seen").status == 0
            except Unasked:
                return False

        until(answers, seconds, f"{self.name} answers")

    def kill(self, number=signal.SIGKILL):
        """Ends the service's own process."""
        if self.process:
            self.process.send_signal(number)
            self.process.wait()

    def is_up(self):
        """Whether the service's own process is there."""
        return self.process is not None and self.process.poll() is None

    def ask(self, *words, role=None, body=None, facts=None):
        """Asks as this user."""
        return ask(self.socket, list(words), role, facts, body)

    def said(self, *words):
        """The answer to words, as a text."""
        return self.ask(*words).answer.decode()

    def submit(self, script, *words, folder=None, **facts):
        """Submits a script; its identifier. Unasked where none is told."""
        facts = {"folder": folder or self.federation.folder, "umask": "022", **facts}
        told = self.ask("qsub", *words, body=script.encode(), facts=facts)
        if told.status:
            raise Unasked(told.words or told.answer.decode())
        return told.answer.decode().strip()

    def utility(self, name, *words, given="", **how):
        """Calls a program of the service, or a utility as a user does: its status, its output, with the site's own answers, and its
        words."""
        program = f"{SERVICE}/{name}"
        called = [program] if os.path.exists(program) else [f"{SERVICE}/qask", "--as", name]
        environment = {**os.environ, "NETTLEBEAM_SOCKET": self.socket, "NETTLEBEAM_ANSWERS": "1", **how.pop("environment", {})}
        done = subprocess.run(
            [*how.pop("before", []), *called, *words],
            input=given, capture_output=True, text=True, env=environment, check=False, **how,
        )
        return done.returncode, done.stdout, done.stderr

    def jobs(self, *names):
        """What the site tells of its jobs, by identifiers."""
        return {job["id"]: job for job in map(json.loads, self.said("jobs", *names).splitlines())}

    def finished(self, job, seconds=30):
        """Waits until a job is finished; its status."""
        return until(lambda: self.jobs(job)[job]["finished"], seconds, f"{job} is finished")["status"]

    def logged(self):
        """What the service has logged."""
        with open(self.log, encoding="utf-8") as file:
            return file.read()


class ServedFederation:
    """Sites with their services, of which each reaches each by `link`."""

    def __init__(self, folder, program=PROGRAM, has_links=True):
        self.folder = folder
        self.program = program
        self.has_links = has_links
        self.folders = None
        self.mark = f"{os.getpid()}.{random.randrange(10**9)}"
        self.sites = {}
        with open(f"{folder}/link", "w", encoding="ascii") as file:
            file.write(LINK.format(folder=folder, service=SERVICE))
        os.chmod(f"{folder}/link", 0o755)

    def make(self, *roster, **how):
        """Makes and starts the sites of a roster, with their pages at the ports that are given by their names."""
        for entry in roster:
            self.add(entry.split(":")[0], *roster, **how)
        for site in self.sites.values():
            site.wait_ready()
        return list(self.sites.values())

    def add(self, name, *roster, jobs="", more="", home=None, pages=None, **how):
        """Makes and starts one site of a roster."""
        place = f"{self.folder}/{name}" if home is None else home(name)
        site = self.sites[name] = ServedSite(self, name, place)
        port = (pages or {}).get(name)
        site.make(self.program, roster, jobs, more + (f"[page]\nport = {port}\n" if port else ""), **how)
        site.start()
        return site

    def key(self, one, other):
        """The file with the key of a pair of sites."""
        path = f"{self.folder}/{'-'.join(sorted((one, other)))}.key"
        if not os.path.exists(path):
            with open(os.open(path, os.O_WRONLY | os.O_CREAT, 0o600), "w", encoding="ascii") as file:
                file.write(f"{random.getrandbits(256):064x}\n")
        return path

    def cut(self, one, other):
        """Cuts the link from one site to another."""
        with open(f"{self.folder}/cut.{one}.{other}", "w", encoding="ascii"):
            pass

    def join(self, one, other):
        """Restores the link."""
        if os.path.exists(f"{self.folder}/cut.{one}.{other}"):
            os.remove(f"{self.folder}/cut.{one}.{other}")

    def processes(self):
        """All processes of these services, by their mark: those of jobs have none."""
        mark, found = f"NETTLEBEAM_TEST={self.mark}".encode(), []
        for name in os.listdir("/proc"):
            if name.isdigit() and int(name) != os.getpid():
                try:
                    with open(f"/proc/{name}/environ", "rb") as file:
                        if mark in file.read().split(b"\0"):
                            found.append(int(name))
                except OSError:
                    pass
        return found

    def end(self):
        """Ends all services, and what is left of them."""
        for site in self.sites.values():
            if site.is_up():
                site.kill(signal.SIGTERM)
        for pid in self.processes():
            try:
                os.kill(pid, signal.SIGKILL)
            except ProcessLookupError:
                pass


__all__ = ["accounting", "seal", "NoEnd", "SERVICE", "ServedFederation", "ServedSite", "TOP", "Told", "Unasked", "as_told", "ask", "config", "free_port", "kind_of", "settings", "stat_of", "until"]
