"""The runs of jobs on their nodes: watched and told to end; and how they ended is told to the site. `starting.py` starts them."""
from __future__ import annotations

import asyncio
import contextlib
import math
from typing import Any, Awaitable, Callable, Dict, List, Optional, Sequence, Set

from ..common.config import JobKeys
from ..node.store import ENDED, READY, RUNS, UNKNOWN, State, boot_time
from ..nodes.link import NodeFault, NodeLink
from ..nodes.node import OWN, Node
from ..nodes.nodes import Nodes
from ..site.site import Site
from ..site.spool import Spool
from .run_record import Exit, Run, hosts_without_names, lost, run_of_record

REMEMBERED_SECONDS = 120.0  # for which it is known that a node has told the end of a run


async def do_nothing(run: Run, *more: Any) -> None:
    """Stands for what starts runs, until that is there."""


class Runs:
    """All runs of this site. `wake` has the scheduler look anew."""

    def __init__(
        self,
        keys: JobKeys,
        site: Site,
        spool: Spool,
        nodes: Nodes,
        log: Callable[[str], None],
        wake: Callable[[], None],
    ):
        self.keys = keys
        self.site = site
        self.spool = spool
        self.nodes = nodes
        self.log = log
        self.wake = wake
        self.all: Dict[str, Run] = {}
        self.starting: Set[str] = set()
        self.settling: Set[str] = set()
        self.taking: Set[str] = set()  # jobs whose nonces are taken back
        self.stuck: Set[str] = set()  # jobs of which something is left that can't be ended
        self.tasks: Set["asyncio.Task[None]"] = set()
        self.heard_ends: Dict[str, float] = {}  # jobs whose ends their nodes have told lately, and when
        self.knows_all = False  # whether the site has told which jobs run here
        self.take_back: Callable[[Run], Awaitable[None]] = do_nothing
        self.start_again: Callable[[Run], Awaitable[None]] = do_nothing
        self.start_elsewhere: Callable[[Run, str, bool], Awaitable[None]] = do_nothing
        nodes.jobs_on = lambda host: [run.job for run in self.all.values() if host in run.hosts]
        nodes.has_runs = lambda name: any(run.node.name == name for run in self.all.values())

    def spawn(self, work: Any) -> "asyncio.Task[None]":
        """Does something beside all else."""
        task: "asyncio.Task[None]" = asyncio.ensure_future(work)
        self.tasks.add(task)
        task.add_done_callback(self.ended)
        return task

    def ended(self, task: "asyncio.Task[None]") -> None:
        """A task is done; what it failed by is logged, and the next look at the site begins again from what is there."""
        self.tasks.discard(task)
        if not task.cancelled() and task.exception():
            self.log(f"a run is left to the next look: {task.exception()!r}")

    def is_busy(self, job: str) -> bool:
        """Whether a job is being started, taken back or settled."""
        return job in self.starting or job in self.taking or job in self.settling

    # Hosts

    def free_hosts(self, job: str, nodes: int, but: Set[str]) -> Optional[List[str]]:
        """Hosts for a job that are up and that no other job has; None where there are too few."""
        if not self.keys.link and OWN in but:
            return None
        if not self.keys.hosts:
            return hosts_without_names(nodes)
        used = {host for run in self.all.values() if run.job != job for host in run.hosts}
        free = [host for host in self.keys.hosts if host not in used and host not in but and self.nodes.is_free(host)]
        return free[:nodes] if len(free) >= nodes else None

    def place(self, job: str, nodes: int, but: Set[str]) -> Optional[Run]:
        """Takes hosts for a job; None where there are too few."""
        hosts = self.free_hosts(job, nodes, but)
        if hosts is None:
            return None
        self.all[job] = Run(job, self.nodes.home(hosts), hosts, touched=boot_time())
        return self.all[job]

    def move(self, run: Run, but: Set[str]) -> bool:
        """Takes other hosts for a run that isn't started; whether there are some on which its owner's jobs may be tried now."""
        hosts = self.free_hosts(run.job, len(run.hosts), but | self.nodes.shunned(run.owner))
        if hosts is not None:
            run.hosts, run.node, run.link, run.doubt = hosts, self.nodes.home(hosts), None, ""
        return hosts is not None

    async def ask_aside(self, node: Node, head: Dict[str, Any], body: bytes = b"") -> None:
        """Asks a node for what it may leave undone, since its next hello tells of it."""
        try:
            await node.ask(head, body)
        except NodeFault:
            pass

    # What is there

    def sweep(self, running: Sequence[str], asked: float) -> None:
        """Looks after each job that the site said runs here when it was asked."""
        for job in self.all.keys() - set(running):
            if not self.is_busy(job) and self.all[job].began < asked:
                del self.all[job]
        for job in running:
            if job not in self.all and not self.is_busy(job):
                self.all[job] = self.known(job)
        if not self.knows_all:
            self.knows_all = True
            self.nodes.may_ask.set()
        runs = [self.all[job] for job in running if job in self.all]
        for run in runs:
            if not (run.is_looked_after or run.is_watched() and not run.exit):
                self.spawn(self.look(run))  # nobody waits for a node that says nothing

    def known(self, job: str) -> Run:
        """The run of a job that an earlier process began."""
        record = self.spool.record(job)
        if record is None:  # its start was never sent; but an older service kept no records, and had one node
            return Run(job, self.nodes.get(OWN), self.spool.hosts_without_record(job), prepared=math.inf)
        return run_of_record(job, self.nodes.get(record["node"]), record)

    async def look(self, run: Run) -> None:
        """Settles a run whose end is known, and asks its node where its end wouldn't be told."""
        if self.is_busy(run.job) or self.all.get(run.job) is not run:
            return
        if run.exit:
            self.spawn(self.settle(run))
        elif not run.is_watched():
            run.is_looked_after, node, nonce = True, run.node, run.nonce
            try:
                link = await node.linked()
                answer = await node.ask({"ask": "look", "ids": [run.job]})
                if (run.node, run.nonce) == (node, nonce):  # else it was started elsewhere meanwhile
                    self.apply(run, answer["runs"][run.job], link)
            except NodeFault as fault:
                self.doubt_of(run, str(fault))
            finally:
                run.is_looked_after = False

    def apply(self, run: Run, state: State, link: Optional[NodeLink]) -> None:
        """What a node says of a run by a link."""
        if self.is_busy(run.job) or run.exit:
            return
        is_same = not run.nonce or not state.get("nonce") or state["nonce"] == run.nonce
        what = state["state"] if is_same else UNKNOWN
        if what == RUNS:
            run.link = link
            if run.doubt:
                run.doubt = ""
                self.log(f"{run.job}: it runs at {run.node.shown}")
        elif what == READY:
            self.taking.add(run.job)
            self.spawn(self.take_back(run))
        elif what == ENDED:
            self.remember(run.job)
            if state.get("log"):
                self.log(f"{run.job}: its runner told: {state['log']}")
            if "unrun" in state:
                self.starting.add(run.job)
                self.spawn(self.start_elsewhere(run, str(state["unrun"]), bool(state.get("of_owner"))))
                return
            run.node.has_run(run.owner)
            why = run.why_ended(str(state.get("ended_by", "")))
            run.exit = Exit(int(state["status"]), int(state["moment"]), state.get("used"), why)
            self.spawn(self.settle(run))
        elif run.may_start_again():
            self.starting.add(run.job)
            self.spawn(self.start_again(run))
        else:
            if run.nonce:
                self.log(f"{run.job}: at {run.node.shown} it is {what}")
            run.exit = lost(run.why_lost(what))
            self.spawn(self.settle(run))

    def doubt_of(self, run: Run, why: str) -> None:
        """A node can't be asked of a run. It is taken for running as long as it may."""
        if not run.doubt:
            run.doubt = why
            self.log(f"{run.job}: it isn't known whether it runs, since {run.node.shown} can't be asked: {why}")
        if run.is_over():
            self.log(f"{run.job}: {run.node.shown} has ended it by now")
            run.exit = lost(f"lost: {run.node.shown} couldn't be asked of it, and its time is over")

    # Ends

    async def settle(self, run: Run) -> None:
        """Tells the site how a job ended, and has its node forget it."""
        if self.is_busy(run.job) or not self.site.has_room() or run.exit is None:
            return  # the next sweep looks again
        self.settling.add(run.job)
        try:
            self.spool.add_exit(run.job, list(run.exit))
            if run.exit.why:
                with contextlib.suppress(OSError, ValueError):
                    await asyncio.to_thread(self.spool.annotate, run.job, {"comment": f"nettlebeam: {run.exit.why}"})
            answer = await self.site.ask(f"finish {run.job} {run.exit.moment} {run.exit.status}")
            self.log(f"{run.job}: ended with status {run.exit.status}: {answer.shown()}")
            self.all.pop(run.job, None)
            self.stuck.discard(run.job)
            self.spawn(self.leave(run))
            self.wake()
        finally:
            self.settling.discard(run.job)

    async def leave(self, run: Run) -> None:
        """Has a node forget a run that has ended. If it didn't end by itself, its owner reads why, as far as that can be written."""
        if run.exit and run.exit.why:
            text = f"nettlebeam: {run.exit.why}"
            await self.ask_aside(run.node, {"ask": "message", "id": run.job, "files": ["err"]}, text.encode())
        await self.ask_aside(run.node, {"ask": "forget", "id": run.job, "nonce": run.nonce})

    def remember(self, job: str) -> None:
        """Keeps for a while that a node has told the end of a run, since it may still say what it was before."""
        moment = boot_time()
        while self.heard_ends and next(iter(self.heard_ends.values())) < moment - REMEMBERED_SECONDS:
            del self.heard_ends[next(iter(self.heard_ends))]
        self.heard_ends[job] = moment

    def lose(self, job: str, user: str) -> str:
        """Somebody says that a job's node is off: why it isn't believed, or nothing."""
        run = self.all.get(job)
        if run is None:
            return f"{job} doesn't run here"
        if run.is_watched() or not run.doubt:
            return f"{run.node.shown} answers: the job is ended by qdel"
        self.log(f"{job}: {run.node.shown} is off, as somebody says")
        run.exit = lost(f"lost: {run.node.shown} is off, as {user} says")
        self.spawn(self.settle(run))
        return ""

    def end(self, job: str) -> None:
        """Has a job ended that was deleted, once."""
        run = self.all.get(job)
        if run and self.is_busy(job):
            run.is_unwanted = True
        elif run and not run.is_told_to_end and not run.exit:
            self.spawn(self.tell_to_end(run))

    async def tell_to_end(self, run: Run) -> None:
        """Has the runner of a job end it."""
        try:
            if (await run.node.ask({"ask": "end", "id": run.job}))["answer"] == "done" and not run.is_told_to_end:
                run.is_told_to_end = True
                self.log(f"{run.job}: deleted, so it is ended")
        except NodeFault:
            pass  # the next look tries again
