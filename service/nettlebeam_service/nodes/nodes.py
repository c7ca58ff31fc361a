"""The nodes of a site: which are up, which are drained, and the links to them.

A node is a machine that is named in `[jobs] hosts` and reached by `[jobs] link`. Without a link there is one node, the service's
own machine, whose program is a child of the service, and `hosts` are names for jobs alone.
"""
from __future__ import annotations

import asyncio
import json
import os
import sys
import time
from typing import Any, Callable, Dict, List, NamedTuple, Optional, Sequence, Set

from ..common.config import JobKeys
from ..common.files import read_json, sync, write
from ..common.processes import FILES_OF_JOBS
from ..node.settings import own_node_keys
from .link import Answer, NodeFault
from .node import KEPT_SECONDS, OWN, Node, Parts

PROGRAM = os.path.join(os.path.dirname(os.path.dirname(os.path.dirname(os.path.abspath(__file__)))), "nettlebeam-node")
MOST_IDLE = 200
TICK_SECONDS = 1.0
UP = "up"


class HostState(NamedTuple):
    """How a host stands: the jobs on it, and whether it is up, in words."""

    name: str
    jobs: List[str]
    state: str
    is_down: bool
    is_drained: bool
    is_in_trouble: bool = False  # whether somebody's jobs can't be started there

    @property
    def is_up(self) -> bool:
        """Whether jobs begin on it."""
        return not self.is_down and not self.is_drained

    def line(self) -> str:
        """The line that tells it at the socket."""
        return f"{self.name} {','.join(self.jobs) or '-'} {self.state}\n"

    def told(self) -> Dict[str, Any]:
        """The same as an object of JSON."""
        down = {"is_down": self.is_down, "is_drained": self.is_drained, "is_in_trouble": self.is_in_trouble}
        return {"name": self.name, "jobs": self.jobs, "told": self.state, **down}


class Nodes(Parts):
    """All nodes. `on_hello` and `on_told` are called with what they say, `changed` where one has come up or gone down."""

    def __init__(self, keys: JobKeys, folder: str, log: Callable[[str], None], changed: Callable[[], None]):
        super().__init__(keys, log, changed)
        self.folder = folder
        self.all: Dict[str, Node] = {}
        self.drained: Dict[str, List[str]] = {}  # whose word it was, and why
        self.has_runs: Callable[[str], bool] = lambda _: False  # whether a script runs on a node
        self.jobs_on: Callable[[str], List[str]] = lambda _: []  # the jobs that have a host
        self.may_ask = asyncio.Event()  # once the site has told which jobs run here

    @property
    def path(self) -> str:
        """The file with the nodes that are drained."""
        return os.path.join(self.folder, "drained")

    def open(self) -> None:
        """Reads which nodes are drained."""
        self.drained = read_json(self.path) or {}

    def use(self, keys: JobKeys) -> None:
        """Goes on with other settings: where they change how a node is reached, its link is opened anew."""
        self.keys = keys
        for node in self.all.values():
            words = self.words(node.name)
            if words != node.words:
                node.words = words
                node.close()
                node.check_at = node.heard = 0.0

    def words(self, name: str) -> List[str]:
        """The command that reaches a node."""
        if name == OWN:
            told = own_node_keys(self.keys, os.path.join(self.folder, "runs"), FILES_OF_JOBS)
            return [sys.executable, "-IS", PROGRAM, "--settings", told]
        return [word.replace("{host}", name) for word in self.keys.link]

    def get(self, name: str) -> Node:
        """A node; of a run that an earlier configuration had, too."""
        if name not in self.all:
            self.all[name] = Node(name, self.words(name), self)
        return self.all[name]

    def home(self, hosts: Sequence[str]) -> Node:
        """The node on which the script of a job with these hosts runs."""
        return self.get(hosts[0] if self.keys.link else OWN)

    def names(self) -> List[str]:
        """The nodes of this configuration."""
        return list(self.keys.hosts) if self.keys.link else [OWN]

    def is_free(self, host: str) -> bool:
        """Whether a job may begin on a host, where no other job has it."""
        if host in self.drained:
            return False
        node = self.get(host) if self.keys.link else None
        return node is None or not (node.trouble or node.haunted or node.troubles.is_aside())

    def shunned(self, owner: str) -> Set[str]:
        """The nodes on which no job of an owner is tried for a while, since none could be started there."""
        return {name for name in self.names() if name in self.all and self.all[name].troubles.rest(owner) > 0}

    async def ask_any(self, head: Dict[str, Any]) -> Optional[Answer]:
        """What one of the nodes answers that are up; None where none does."""
        for name in self.names():
            node = self.get(name)
            if name == OWN or not node.trouble:
                try:
                    return await node.ask(head)
                except NodeFault:
                    continue
        return None

    # Hellos

    async def run(self) -> None:
        """Asks the nodes again and again, those that are down after longer and longer pauses."""
        await self.may_ask.wait()
        while True:
            now = time.monotonic()
            for name in self.names():
                node = self.get(name)
                if node.is_due(now, self.keys.health) and not node.is_being_checked:
                    node.is_being_checked = True
                    asyncio.ensure_future(self.check(node))
            self.close_idle(now)
            await asyncio.sleep(TICK_SECONDS)

    async def check(self, node: Node) -> None:
        """Asks one node."""
        try:
            await node.check()
        finally:
            node.is_being_checked = False

    def close_idle(self, now: float) -> None:
        """Closes links that nothing is asked by, and on whose nodes nothing runs."""
        idle = [it for it in self.all.values() if it.name != OWN and it.is_linked() and not self.has_runs(it.name)]
        idle.sort(key=lambda it: it.wanted)
        for place, node in enumerate(idle):
            if now - node.wanted >= KEPT_SECONDS or place < len(idle) - MOST_IDLE:
                node.close()

    async def close_all(self) -> None:
        """Ends all links; what runs goes on."""
        for node in self.all.values():
            node.close()
        if self.closing:
            await asyncio.wait(self.closing)

    # What people say

    def drain(self, host: str, user: str, why: str) -> None:
        """Has nothing begin on a host from now on."""
        self.drained[host] = [user, why]
        self.keep()

    def resume(self, host: str) -> bool:
        """Has jobs begin there again; whether it was drained."""
        was_drained = self.drained.pop(host, None) is not None
        self.keep()
        return was_drained

    def keep(self) -> None:
        """Writes which hosts are drained."""
        write(f"{self.path}.new", json.dumps(self.drained).encode())
        os.rename(f"{self.path}.new", self.path)
        sync(self.folder)
        self.changed()

    def states(self) -> List[HostState]:
        """How each host stands."""
        return [self.host_state(host) for host in self.keys.hosts or [OWN]]

    def host_state(self, host: str) -> HostState:
        """How a host stands."""
        node, name = self.get(host if self.keys.link else OWN), host or os.uname().nodename
        is_down = bool(node.trouble or node.haunted or node.troubles.is_aside())
        return HostState(name, sorted(self.jobs_on(host)), self.state(host), is_down, host in self.drained, bool(node.troubles.told()))

    def state(self, host: str) -> str:
        """Whether a host is up, in words."""
        node = self.get(host if self.keys.link else OWN)
        since = time.strftime("%Y-%m-%dT%H:%M:%S", time.localtime(node.since))
        state = f"down {since} {' '.join(node.trouble.split())}" if node.trouble else node.troubles.told() or UP
        if node.haunted:
            state = f"down {since} {node.haunted} runs there still, which doesn't run here any more; it is ended"
        if host in self.drained:
            user, why = self.drained[host]
            state = f"drained by {user}: {why}" + (f"; {state}" if state != UP else "")
        return state

    def count(self) -> Optional[int]:
        """How many hosts can be planned with: those that are up, and those on which jobs run. None where that isn't known yet."""
        if not all(self.get(name).is_checked for name in self.names()):
            return None
        return sum(1 for host in self.keys.hosts if self.is_free(host) or self.jobs_on(host))
