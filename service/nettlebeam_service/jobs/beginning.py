"""The begin of a job: the one place where a script comes to be started.

Jobs whose nodes are ready at one time are begun together: their notes are written, the site is asked for all of them at once, so
that it syncs them together, and one sync keeps that they may be started.
"""
from __future__ import annotations

import asyncio
import time
from dataclasses import dataclass
from typing import Callable, Dict, List, Optional, Sequence, Set, Tuple

from ..common.batching import Batched
from ..common.config import Config
from ..common.wire import OF_RUNS
from ..node.job_files import shown_number, whole_name
from ..node.store import boot_time
from ..node.wrapper import Order
from ..nodes.accounts import Accounts
from ..nodes.link import NodeFault
from ..site.answers import Answer
from ..site.looks import Job, now, origin_of, told_of_many
from ..site.site import Site, Stopped
from ..site.spool import Spool
from .active_runs import Runs
from .run_record import AGAIN_SECONDS, Run
from .starting import Starts

ALONE_SECONDS = 60
TOGETHER_SECONDS = 0.02  # for which a job that is ready waits for others that are being prepared
MOST_NODES = 3  # that are asked to prepare a job in one plan


@dataclass
class Ready:
    """A job whose node is ready, or that only ends, and what the site made of its begin."""

    job: Job
    run: Run
    may_start: bool
    answer: Optional[Answer] = None
    begun: Optional[Job] = None
    fault: Optional[BaseException] = None

    def is_begun(self) -> bool:
        """Whether the site answered that it begins now, which it does once."""
        return self.answer is not None and self.answer.is_just("done")

    def is_as_prepared(self) -> bool:
        """Whether it has begun, and as its node was told."""
        if not self.is_begun() or self.begun is None:
            return False
        return (self.begun["nodes"], self.begun["end"] - self.begun["moment"]) == (self.job["nodes"], self.job["limit"])


class Begins:
    """Begins jobs that are granted here."""

    def __init__(
        self, config: Config, site: Site, spool: Spool, accounts: Accounts, runs: Runs, starts: Starts, log: Callable[[str], None]
    ):
        self.config = config
        self.site = site
        self.spool = spool
        self.accounts = accounts
        self.runs = runs
        self.starts = starts
        self.log = log
        self.left_alone: Dict[str, float] = {}  # jobs whose owners nothing is run as, and when that is looked at again
        self.put_off: Dict[str, float] = {}  # jobs that no node could start, and when that is tried again
        self.logged: Set[str] = set()
        self.preparing = 0
        self.all_prepared = asyncio.Event()
        self.ready: List[Ready] = []
        self.together = Batched(self.begin_together)

    def is_left_alone(self, name: str) -> bool:
        """Whether nothing was run as the owner of a job a short while ago, or no node could start it."""
        return max(self.left_alone.get(name, 0.0), self.put_off.get(name, 0.0)) > time.monotonic()

    def forget(self, living: Set[str]) -> None:
        """Keeps nothing of jobs that aren't among these."""
        self.left_alone = {name: later for name, later in self.left_alone.items() if name in living}
        self.put_off = {name: later for name, later in self.put_off.items() if name in living}
        self.logged &= living

    def is_mine(self, name: str) -> bool:
        """Whether a job was submitted here."""
        return origin_of(name) == self.config.name

    def has_script(self, job: Job) -> bool:
        """Whether the script of a job is here, and is that of its owner."""
        facts = self.spool.facts(job["id"])
        return facts is not None and facts.get("owner") == job["owner"]

    async def has_account(self, job: Job) -> bool:
        """Whether something is run here as the owner of a job, as the nodes tell. Where none of them can be asked
        nothing is run."""
        is_known = await self.accounts.has(job["owner"])
        if is_known:
            self.left_alone.pop(job["id"], None)
            self.logged.discard(job["id"])
        elif is_known is not None:
            self.leave_alone(job)
        return bool(is_known)

    def leave_alone(self, job: Job) -> None:
        """Does without a job for a while, since nothing is run as its owner."""
        self.left_alone[job["id"]] = time.monotonic() + ALONE_SECONDS
        if job["id"] not in self.logged:
            self.logged.add(job["id"])
            self.runs.wake()  # the next plan does without it
            self.log(f"{job['id']}: left alone, since nothing is run here as {job['owner']}")

    def put_off_for(self, job: Job) -> None:
        """Does without a job as long as no node is there that may be tried as its owner."""
        rests = [self.runs.nodes.get(name).troubles.rest(job["owner"]) for name in self.runs.nodes.names()]
        pause = min([it for it in rests if it > 0], default=1.0)
        self.put_off[job["id"]] = time.monotonic() + min(pause, float(ALONE_SECONDS))
        self.runs.wake()  # the next plan does without it
        if job["id"] not in self.logged:
            self.logged.add(job["id"])
            self.log(f"{job['id']}: left alone for a while, since no node that is free starts jobs of {job['owner']}")

    async def begin(self, job: Job) -> None:
        """Begins a job that is granted here, and starts it where the site's answer to that was `done`.

        Its node is ready before the site is asked, so that a dead node, a full disk or a missing account costs no job.
        """
        name = job["id"]
        if self.runs.is_busy(name):
            return
        self.runs.starting.add(name)
        run: Optional[Run] = None
        is_begun = False
        try:
            may_start = self.has_script(job) and not self.spool.was_started(name)
            run = await self.prepare_one(job) if may_start else self.runs.place(name, job["nodes"], set())
            if run is not None:
                ready = Ready(job, run, may_start)
                self.ready.append(ready)
                await self.together.done()
                is_begun = await self.go_on(ready)
        except (OSError, Stopped) as fault:
            self.log(f"{name}: it isn't begun now: {fault!r}")
        finally:
            if not is_begun:
                if run is not None:
                    self.starts.release(run)
                self.runs.starting.discard(name)
                self.runs.wake()

    async def prepare_one(self, job: Job) -> Optional[Run]:
        """Has a job prepared; those that are ready meanwhile wait for it, though not for long."""
        self.preparing += 1
        self.all_prepared.clear()
        try:
            return await self.prepare(job)
        finally:
            self.preparing -= 1
            if not self.preparing:
                self.all_prepared.set()

    async def begin_together(self) -> None:
        """Asks the site to begin all jobs that are ready."""
        if self.preparing:
            await asyncio.wait([asyncio.ensure_future(self.all_prepared.wait())], timeout=TOGETHER_SECONDS)
        batch, self.ready = self.ready, []
        await asyncio.to_thread(self.draft_records, [it.run for it in batch if it.may_start])
        # all lines together, so that a site that stops between them leaves no job begun and unknown here
        names, moment = [it.job["id"] for it in batch], now()
        *answers, told = await asyncio.gather(
            *(self.site.ask(f"begin {name} {moment}") for name in names), told_of_many(self.site, names), return_exceptions=True
        )
        for ready, answer in zip(batch, answers):
            if isinstance(answer, BaseException):
                ready.fault = answer
            elif isinstance(told, BaseException):
                ready.fault = told
            else:
                ready.answer, ready.begun = answer, told[ready.job["id"]]["begun"]
        await asyncio.to_thread(self.spool.name_records, [it.job["id"] for it in batch if it.may_start and it.is_as_prepared()])

    def draft_records(self, runs: Sequence[Run]) -> None:
        """Writes the notes of runs."""
        for run in runs:
            self.spool.draft_record(run.job, run.record())

    async def prepare(self, job: Job) -> Optional[Run]:
        """Has a node prepare a job, and another one where that can't; None where none of them is ready."""
        name, but = job["id"], set()  # type: Tuple[str, Set[str]]
        stored = self.spool.stored(name)
        for _ in range(MOST_NODES):
            run = self.runs.place(name, job["nodes"], but | self.runs.nodes.shunned(job["owner"]))
            if run is None:
                if self.runs.free_hosts(name, job["nodes"], set()) is not None:
                    self.put_off_for(job)
                return None
            run.mark = self.spool.mark(name)
            try:
                answer = await self.starts.prepare(run, self.order_of(job), stored.partition(b"\n")[2])
                if answer == "ready":
                    return run
            except NodeFault as fault:
                answer = str(fault)
            self.starts.release(run)
            if answer == "no account":
                self.leave_alone(job)
                return None
            self.log(f"{name}: {run.node.shown} isn't ready: {answer}")
            if answer != "no start":
                if not run.node.name:
                    return None
                but.add(run.node.name)
        return None

    async def go_on(self, ready: Ready) -> bool:
        """Starts a job that has begun; whether it has."""
        name, begun = ready.job["id"], ready.begun
        if ready.fault:
            raise ready.fault
        if not ready.is_begun() or begun is None:
            self.log(f"{name}: begin is answered {ready.answer.shown() if ready.answer else 'nothing'}")
            return False
        run: Optional[Run] = ready.run
        if not ready.may_start:
            self.log(f"{name}: it has no script, or one was started under its name, so it is finished unrun")
            run = None
        elif not ready.is_as_prepared():
            self.starts.release(ready.run)
            run = await self.prepare_begun({**ready.job, "nodes": begun["nodes"], "limit": begun["end"] - begun["moment"]})
            if run is None:
                self.log(f"{name}: it was altered while it began, and no node is ready for it")
            else:
                await asyncio.to_thread(self.spool.keep_records, {name: run.record()})
        if run is None:
            self.starts.give_up(name)
            return True
        run.is_mine, run.began = True, boot_time()
        self.runs.spawn(self.starts.start(run))
        return True

    async def prepare_begun(self, job: Job) -> Optional[Run]:
        """Has a job prepared that has begun, as long as it may be started; None if no node is ready by then."""
        end = boot_time() + AGAIN_SECONDS
        while True:
            run = await self.prepare(job)
            if run is not None or boot_time() > end:
                return run
            await asyncio.sleep(1.0)

    def order_of(self, job: Job) -> Order:
        """What a node is told of a job."""
        name, keys = job["id"], self.config.jobs
        facts, is_here = self.spool.facts(name) or {}, self.is_mine(name)
        folder = facts.get("folder", "") if is_here else keys.elsewhere.replace("{user}", job["owner"])
        return {
            "name": whole_name(job, facts),
            "owner": job["owner"],
            "nodes": job["nodes"],
            "limit": job["limit"],
            "facts": {key: value for key, value in facts.items() if key in OF_RUNS},
            "folder": folder,
            "number": shown_number(name, facts, is_here),
        }
