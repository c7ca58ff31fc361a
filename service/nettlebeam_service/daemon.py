"""The service of one site: `nettlebeamd CONFIG`."""
from __future__ import annotations

import asyncio
import contextlib
import os
import signal
import socket
import sys
import time
from dataclasses import replace
from typing import Any, List, Optional, Sequence

from .clients.clients import Clients, listen
from .clients.destinations import Destinations
from .clients.node_requests import NodeRequests
from .clients.requests import Requests
from .clients.signals import Signals
from .clients.user_limits import UserLimits
from .clients.users import Users
from .common.config import Config, ConfigFault, read_config
from .common.processes import allow_many_files, hold_version
from .config_check import faults, notes, roster_of
from .housekeeping.capacity import Capacity
from .housekeeping.compacting import Compacting
from .housekeeping.daily import Housekeeping
from .jobs.active_runs import Runs
from .jobs.node_reports import NodeReports
from .jobs.scheduler import Scheduler
from .jobs.starting import Starts
from .node_checks import of_nodes
from .nodes.nodes import Nodes
from .page.metrics import Metrics
from .page.page import Page
from .peers.eligibility import Eligibility
from .peers.peers import Peers
from .peers.unheard_changes import Unheard
from .site import pairing
from .site.backup import Backup
from .site.exchange import Exchange
from .site.lost_state import LostState
from .site.site import Site
from .site.spool import Spool
from .site.unanswered import for_somebody
from .waits.waits import Waits

FIRST_INHERITED = 3
MOST_WAITING = 128  # clients that aren't served yet
FIXED_KEYS = ("directory", "program", "spool", "socket", "backup", "backup_seconds", "free_bytes")
ORDERLY_SECONDS = 10
SWITCH_SECONDS = 0.001  # for which a thread at work may keep the loop waiting
WATCHDOG_PARTS = 4  # as often within the time of systemd
USAGE = "usage: nettlebeamd CONFIG, or nettlebeamd --check CONFIG [USER ..], which says what is wrong with it, and tries what jobs need"


def log(text: str) -> None:
    """Writes an event as one line, with the time where no journal of systemd adds it."""
    # what others tell may have what a terminal obeys
    line = "".join(it if it.isprintable() else f"\\x{ord(it):02x}" for it in " ".join(text.split()))
    stamp = "" if "JOURNAL_STREAM" in os.environ else time.strftime("%Y-%m-%dT%H:%M:%S ")
    try:
        sys.stderr.write(f"{stamp}{line}\n")
        sys.stderr.flush()
    except OSError:
        pass  # where nobody can be told, the service goes on


def notify(state: str) -> None:
    """Tells systemd of a state, where it asks for that."""
    path = os.environ.get("NOTIFY_SOCKET")
    if path:
        with contextlib.suppress(OSError), socket.socket(socket.AF_UNIX, socket.SOCK_DGRAM) as speaker:
            speaker.sendto(state.encode(), "\0" + path[1:] if path[0] == "@" else path)


async def tell_watchdog() -> None:
    """Tells systemd again and again that this loop goes on, where it asks for that."""
    asked = os.environ.get("WATCHDOG_USEC", "")
    while asked.isdigit() and int(asked):
        notify("WATCHDOG=1")
        await asyncio.sleep(int(asked) / 1e6 / WATCHDOG_PARTS)
    await asyncio.Event().wait()


def inherited_socket() -> Optional[socket.socket]:
    """The socket that systemd hands over."""
    if os.environ.get("LISTEN_PID") != str(os.getpid()) or os.environ.get("LISTEN_FDS") != "1":
        return None
    os.set_inheritable(FIRST_INHERITED, False)
    return socket.socket(fileno=FIRST_INHERITED)


def make_socket(path: str) -> socket.socket:
    """A socket at a path, that everybody may connect to. The spool's lock says that no other service has it."""
    os.makedirs(os.path.dirname(path), mode=0o755, exist_ok=True)
    listener = socket.socket(socket.AF_UNIX, socket.SOCK_STREAM)
    with contextlib.suppress(FileNotFoundError):
        os.remove(f"{path}.new")
    listener.bind(f"{path}.new")
    os.chmod(f"{path}.new", 0o666)
    listener.listen(MOST_WAITING)
    os.rename(f"{path}.new", path)
    return listener


class Service:
    """All parts of the service."""

    def __init__(self, path: str, config: Config):
        self.path = path
        self.config = config
        keys = config.site
        self.spool = Spool(keys.spool, keys.free_bytes)
        self.lost_state = LostState(keys.spool, log)
        self.site = Site(keys.program, keys.directory, keys.free_bytes, self.lost_state, log)
        self.backup = Backup(keys.backup, keys.backup_seconds, os.path.join(keys.spool, "backup.lock"), keys.program, log)
        self.nodes = Nodes(config.jobs, keys.spool, log, self.changed)
        self.runs = Runs(config.jobs, self.site, self.spool, self.nodes, log, self.changed)
        node_reports = NodeReports(self.nodes, self.runs, self.spool, log)
        starts = Starts(self.spool, self.backup, self.runs, node_reports, log)
        signals = Signals(config.name, self.site, self.runs)
        told = NodeRequests(self.nodes, self.runs, log)
        compacting = Compacting(config.house, self.site, self.backup, keys.spool, log)
        self.waits = Waits(config, self.site, self.spool, self.runs, log, self.changed)
        self.unheard = Unheard(config.name, self.site, keys.spool, log)
        capacity, needed = Capacity(config.name, self.site, log), self.waits.groups.needed
        had = (capacity, os.getuid(), self.waits.groups.pairs_of, self.waits.details.read_for, self.waits.arrays.named)
        self.user_limits = UserLimits(config.name, config.clients, self.site, self.spool, *had)
        exchange = Exchange(self.site, self.spool, self.backup)
        eligibility = Eligibility(config.name, self.site)
        parts = (self.site, self.spool, exchange, signals, compacting, told, self.waits)
        self.destinations = Destinations(config, self.site, self.spool)
        self.requests = Requests(*parts, self.unheard, self.user_limits, eligibility, self.destinations, self.changed)
        self.users = Users(config.site, self.site.known)
        self.clients = Clients(config.clients, self.users, self.requests, os.getuid(), log)
        self.peers = Peers(config.name, config.peers, self.site, exchange, eligibility, log, self.changed)
        self.unheard.is_silent = self.peers.is_silent
        self.scheduler = Scheduler(config, self.site, self.spool, self.backup, self.peers, self.nodes, self.runs, starts, log)
        self.waits.leave_alone(self.scheduler.begins.logged)
        self.housekeeping = Housekeeping(config.name, config.house, self.site, self.spool, compacting, capacity, needed, log)
        self.waits.details.records = self.housekeeping.accounting
        node_count = self.scheduler.node_count
        metrics = Metrics(capacity, self.spool, self.peers, self.backup, self.clients, lambda: node_count.looked_at, self.nodes.states)
        told_here = (capacity, metrics, self.waits.reasons, self.unheard)
        self.page = Page(config, self.site, self.backup, self.peers, self.runs, *told_here, log)
        self.stopping = asyncio.Event()
        self.held = -1  # the lock of the site, once it is taken

    def changed(self) -> None:
        """Something may have changed what starts here."""
        self.scheduler.wake()
        self.waits.releasing.wake()

    def reload(self) -> None:
        """Reads the configuration anew. What a running service can't change is told, and kept."""
        try:
            config = read_config(self.path)
        except ConfigFault as fault:
            log(f"the configuration stays as it was: {fault}")
            return
        old, new = self.config, config
        fixed = [it for it in FIXED_KEYS if getattr(new.site, it) != getattr(old.site, it)]
        fixed += [it for it in ("peers", "page", "house") if getattr(new, it) != getattr(old, it)]
        if fixed:
            log(f"a new {', '.join(fixed)} is used when the service starts anew")
        self.users.keys, self.users.known = config.site, {}
        self.clients.use(config.clients)
        self.user_limits.keys = config.clients
        self.destinations.config = config
        self.page.config = replace(self.page.config, jobs=config.jobs)
        self.scheduler.use(config)
        self.waits.use(config)
        log("the configuration is read anew")

    def open(self) -> None:
        """Takes the spool and the site, and reads what is there. Foreign where another service has one of them."""
        pairing.check(self.config.site.directory, self.spool.folder)
        if self.spool.open() is None:
            raise pairing.Foreign(f"another service has the spool {self.spool.folder}")
        self.held = pairing.claim(self.config.site.directory, self.spool.folder)
        self.lost_state.look()
        self.nodes.open()
        self.waits.open()
        self.unheard.open()

    async def run(self) -> int:
        """Runs until it is told to stop."""
        log(f"the service of {self.config.name} starts")
        try:
            self.open()
        except pairing.Foreign as fault:
            log(str(fault))
            return 3
        loop = asyncio.get_running_loop()
        for number in (signal.SIGTERM, signal.SIGINT):
            loop.add_signal_handler(number, self.stopping.set)
        loop.add_signal_handler(signal.SIGHUP, self.reload)
        serving = asyncio.ensure_future(self.site.run())
        # clients that come before the site answers wait for it; where it can't, they are told so
        listener = inherited_socket() or make_socket(self.config.site.socket)
        await asyncio.wait(
            [asyncio.ensure_future(self.site.ready.wait()), asyncio.ensure_future(self.stopping.wait())],
            timeout=30,
            return_when=asyncio.FIRST_COMPLETED,
        )
        server = await listen(listener, self.clients)
        parts: List["asyncio.Task[Any]"] = [asyncio.ensure_future(it) for it in self.peers.loops()]
        parts.append(asyncio.ensure_future(self.scheduler.run()))
        parts.append(asyncio.ensure_future(self.nodes.run()))
        parts.append(asyncio.ensure_future(self.waits.releasing.run()))
        parts.append(asyncio.ensure_future(tell_watchdog()))
        if self.config.house.every:
            parts.append(asyncio.ensure_future(self.housekeeping.run()))
        if self.config.page.port:
            parts.append(asyncio.ensure_future(for_somebody(self.page.run())))
        notify("READY=1")
        log("ready")
        stop = asyncio.ensure_future(self.stopping.wait())
        done, _ = await asyncio.wait([stop, serving, *parts], return_when=asyncio.FIRST_COMPLETED)
        for task in done - {stop}:
            log(f"a part of the service failed: {task.exception()!r}")
        await self.stop(server, [*parts, serving])
        return 0 if stop in done else 3

    async def stop(self, server: asyncio.AbstractServer, parts: List["asyncio.Task[Any]"]) -> None:
        """Ends in order: what was asked is answered, jobs are left running."""
        notify("STOPPING=1")
        log("the service stops; jobs go on")
        server.close()
        end = time.monotonic() + ORDERLY_SECONDS
        for part in parts[:-1]:  # all but the site, which answers first
            part.cancel()
        while time.monotonic() < end and (self.clients.all or self.runs.tasks):
            await asyncio.sleep(0.05)
        await self.nodes.close_all()
        await self.site.stop()
        await asyncio.wait(parts, timeout=ORDERLY_SECONDS)


def main(words: List[str]) -> int:
    """The program."""
    if words == ["--help"]:
        print(USAGE)
        return 0
    is_check = words[:1] == ["--check"]
    paths = words[1:] if is_check else words
    if not paths or (len(paths) > 1 and not is_check) or paths[0].startswith("-"):
        print(USAGE, file=sys.stderr)
        return 2
    path = paths[0]
    try:
        config = read_config(path)
    except ConfigFault as fault:
        print(f"nettlebeamd: {path}: {fault}", file=sys.stderr)
        return 2
    if is_check:
        return check(path, config, paths[1:])
    hold_version()
    os.umask(0o077)
    sys.setswitchinterval(SWITCH_SECONDS)
    allow_many_files()
    try:
        return asyncio.run(run(path, config))
    except OSError as fault:
        log(f"the service can't run: {fault}")
        return 3


def check(path: str, config: Config, users: Sequence[str]) -> int:
    """Tells what is wrong with a configuration, what has to be made first, and whether jobs would start, as those of these users."""
    roster = roster_of(config)
    found, first = faults(config, roster), notes(config)
    wrong, may_be = of_nodes(config, users) if not found and not first else ([], [])
    found += wrong
    for line in [*found, *first, *may_be]:
        print(f"nettlebeamd: {path}: {line}", file=sys.stderr)
    if found:
        return 2
    others = f"{len(roster) - 1} other sites" if roster else "the other sites, which the program doesn't tell now"
    print(f"{path}: the configuration of {config.name}, with {len(config.peers)} of {others}")
    return 0


async def run(path: str, config: Config) -> int:
    """Makes the service inside its loop, and runs it."""
    return await Service(path, config).run()
