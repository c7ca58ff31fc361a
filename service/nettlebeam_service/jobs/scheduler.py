"""The scheduler: it asks the site for its plan, and has begun what may start, or prepared what isn't here yet."""
from __future__ import annotations

import asyncio
import errno
import time
from typing import Callable, Dict, List, Sequence

from ..common.config import Config
from ..node.store import boot_time
from ..nodes.accounts import Accounts
from ..nodes.nodes import Nodes
from ..peers.peers import Peers
from ..site.backup import Backup
from ..site.looks import Job, is_granted_to, machine_of, now, origin_of, told_of
from ..site.site import Site, Stopped
from ..site.spool import Spool
from .active_runs import Runs
from .beginning import Begins
from .grants import Grants
from .node_count import NodeCount
from .replanning import Replanning
from .starting import Starts

SHORTEST_GAP = 0.05
LONGEST_GAP = 10.0
RETRY_SECONDS = 10
LISTING_SECONDS = 60
MOST_AT_ONCE = 100  # jobs that one origin is asked for by one call


class Scheduler:
    """Starts jobs at this site."""

    def __init__(
        self,
        config: Config,
        site: Site,
        spool: Spool,
        backup: Backup,
        peers: Peers,
        nodes: Nodes,
        runs: Runs,
        starts: Starts,
        log: Callable[[str], None],
    ):
        self.config = config
        self.site = site
        self.spool = spool
        self.backup = backup
        self.log = log
        self.woken = asyncio.Event()
        self.nodes = nodes
        self.runs = runs
        self.node_count = NodeCount(config, site, nodes, log)
        self.grants = Grants(config, site, spool, peers, runs, log)
        self.accounts = Accounts(nodes, self.wake)
        self.begins = Begins(config, site, spool, self.accounts, runs, starts, log)
        self.replanning = Replanning(config.name, site, self.grants, self.begins)
        self.listed = 0.0
        self.counts = (0, 0)  # of the hosts that are named, and of the nodes, when they were compared last
        self.trouble = ""
        self.planned = 0.0  # the processor time of the plan of a look

    def use(self, config: Config) -> None:
        """Goes on with another configuration."""
        self.config = self.grants.config = self.begins.config = self.node_count.config = config
        self.runs.keys = config.jobs
        self.nodes.use(config.jobs)
        self.begins.left_alone.clear()
        self.accounts.forget()
        self.wake()

    def wake(self) -> None:
        """Something may have changed what starts."""
        self.woken.set()

    async def run(self) -> None:
        """Looks again and again, and soon after whatever may change what starts."""
        gap = SHORTEST_GAP
        while True:
            self.planned = 0.0
            try:
                if self.config.jobs.run != "no" and not self.site.lost_state.loss:
                    await self.look()
                    self.trouble = ""
            except Stopped:
                await self.site.ready.wait()
            except Exception as fault:  # whatever one look meets, there is a next one
                trouble, gap = str(fault) or repr(fault), RETRY_SECONDS
                if trouble != self.trouble:
                    self.log(f"no job begins now, and this is looked at again: {trouble}")
                self.trouble = trouble
            # at most a fifth of a processor's time is spent on plans, however often it is woken; begins, syncs and what other
            # work makes of the clock don't count
            await asyncio.sleep(max(gap, min(LONGEST_GAP, 4 * self.planned)))
            gap = SHORTEST_GAP
            try:
                await asyncio.wait_for(self.woken.wait(), self.config.jobs.every)
            except asyncio.TimeoutError:
                pass
            self.woken.clear()

    async def look(self) -> None:
        """One look: what runs, what is deleted, what starts."""
        asked = boot_time()
        machine = await machine_of(self.site, now())
        self.compare_hosts(machine.nodes)
        self.runs.sweep([job["id"] for job in machine.running], asked)
        await self.node_count.tell(machine.nodes)
        for job in machine.running:
            if job["deleted"]:
                self.runs.end(job["id"])
        if not self.site.has_room():
            raise OSError(errno.ENOSPC, "the disk of the site is full")
        if self.config.jobs.run == "yes":
            await self.backup.check()
            await self.start(machine.free)
        if time.monotonic() - self.listed >= LISTING_SECONDS or self.config.jobs.run == "drain":
            self.listed = time.monotonic()
            self.begins.forget(await self.grants.hand_back())

    def compare_hosts(self, nodes: int) -> None:
        """Logs where fewer hosts are named than the site has nodes, which a roster may change while the service runs."""
        counts = (len(self.config.jobs.hosts), nodes)
        if counts != self.counts and 0 < counts[0] < counts[1]:
            self.log(f"[jobs] hosts names {counts[0]} machines, and the site has {nodes} nodes: a job that finds too few waits")
        self.counts = counts

    async def start(self, free: int) -> None:
        """Begins what starts now. Jobs that can't be had now don't keep the machine from others."""
        names = {*self.grants.not_before, *self.begins.left_alone, *self.begins.put_off}
        blocked = [name for name in names if self.is_blocked(name)]
        before = self.site.processor_seconds()
        starts = await self.replanning.starts(blocked)
        self.planned = max(0.0, self.site.processor_seconds() - before)
        await self.begin(starts)
        if any(self.is_blocked(job["id"]) for job in starts):
            await self.begin(await self.replanning.try_others(starts, free))

    def is_blocked(self, name: str) -> bool:
        """Whether a job couldn't be had a short while ago."""
        return self.grants.is_put_off(name) or self.begins.is_left_alone(name)

    async def begin(self, starts: Sequence[Job]) -> None:
        """Begins the jobs of a plan that can be begun now, and has the others prepared."""
        mine: List[Job] = []
        theirs: Dict[str, List[Job]] = {}
        for job in starts:
            name = job["id"]
            if name in self.grants.preparing or self.runs.is_busy(name) or self.grants.is_put_off(name):
                continue
            if not await self.begins.has_account(job):
                continue
            if self.begins.is_mine(name):
                # one without a script only ends, unless its script is just being named
                if self.begins.has_script(job) or not self.spool.submissions:
                    mine.append(job)
            elif is_granted_to(job, self.config.name) and name in self.grants.fetched:
                mine.append(job)
            else:
                theirs.setdefault(origin_of(name), []).append(job)
        for origin, jobs in theirs.items():
            self.grants.prepare(origin, jobs[:MOST_AT_ONCE])
        has_grant = [job for job in mine if is_granted_to(job, self.config.name)]
        asked = [job["id"] for job in mine if job not in has_grant]
        # both are written in this order, and answered line by line, so that the site tells of the jobs as they are granted: until
        # then their owners may alter what a node is told of them
        grants = [self.site.ask(f"grant {name} {self.config.name}") for name in asked]
        *_, told = await asyncio.gather(*grants, told_of(self.site, asked))
        for job in (*has_grant, *told.values()):
            if is_granted_to(job, self.config.name) and not self.runs.is_busy(job["id"]):
                self.runs.spawn(self.begins.begin(job))  # the next look doesn't wait for it
