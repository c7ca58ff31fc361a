"""Starts of runs: a run is prepared by its node, begun at the site, and started once.

A job's script is started only by the process that was itself answered `done` when it asked the site to begin the job, by the nonce
that the job's node gave for that, which the node takes once. Any other process takes the nonce away before it says anything of
the job. So where a node answers `dropped` nothing of the job ran or will run there, and that one process may ask for another nonce.
The same is so when a node says that the script hasn't run (`unrun`): its owner's shell runs nothing without an answer that it
never got. Then another node may get it, or the same one later.
"""
from __future__ import annotations

import asyncio
import math
from typing import Any, Callable, Dict, Set

from ..node.store import boot_time
from ..nodes.link import NodeFault
from ..nodes.node import OWN
from ..site.backup import Backup
from ..site.spool import Spool
from .active_runs import Runs
from .node_reports import NodeReports
from .run_record import Run, lost

MOST_TRIES = 3  # of a start that a node answers to be late
FRESH_SECONDS = 30.0  # after so many a nonce is asked for anew before it is used
RETRY_SECONDS = 5.0
LOOK_SECONDS = 1.0
LEAVING_TRIES, LEAVING_SECONDS = 10, 0.1  # while a node forgets a run


class Starts:
    """Has nodes prepare and start runs."""

    def __init__(self, spool: Spool, backup: Backup, runs: Runs, node_reports: NodeReports, log: Callable[[str], None]):
        self.spool = spool
        self.backup = backup
        self.runs = runs
        self.node_reports = node_reports
        self.log = log
        runs.take_back, runs.start_again, runs.start_elsewhere = self.take_back, self.start_again, self.start_elsewhere

    async def prepare(self, run: Run, order: Dict[str, Any], script: bytes) -> str:
        """Asks the home node of a run to prepare it: `ready`, or why it can't."""
        run.order = {**order, "hosts": run.hosts, "alone": run.node.name != OWN}
        run.limit = order["limit"]
        head = {"ask": "prepare", "id": run.job, "order": run.order}
        answer = await run.node.ask(head, script)
        for _ in range(LEAVING_TRIES):
            if answer["answer"] != "busy" or answer["by"] not in self.runs.heard_ends:
                break
            await asyncio.sleep(LEAVING_SECONDS)  # what ran there has ended, and is just being forgotten
            answer = await run.node.ask(head, script)
        if answer["answer"] == "ready":
            run.nonce, run.grace, run.node_boot, run.prepared = answer["nonce"], answer["grace"], answer["boot"], boot_time()
        elif answer["answer"] == "busy" and run.node.name != OWN:
            self.node_reports.haunt(run.node, answer["by"])
        elif answer["answer"] == "no room":
            run.node.fail(f"it has no room: {answer['why']}")
        elif answer["answer"] == "no start":
            run.node.cannot_start(order["owner"], answer["why"])
        return str(answer["answer"])

    def release(self, run: Run) -> None:
        """Gives up a run that wasn't begun."""
        if self.runs.all.get(run.job) is run:
            del self.runs.all[run.job]
        if run.nonce:
            self.runs.spawn(self.runs.ask_aside(run.node, {"ask": "drop", "id": run.job, "nonce": run.nonce}))

    def give_up(self, job: str) -> None:
        """A job has begun that isn't started: what is known of it, as of one that an earlier service started, tells its end."""
        self.runs.starting.discard(job)
        self.runs.all[job] = self.runs.known(job)
        self.runs.spawn(self.runs.look(self.runs.all[job]))

    # Starts

    async def start(self, run: Run) -> None:
        """Starts a job that the site has begun.

        A backup that doesn't know of the begin would have the job begun anew: as a packet, a start waits for a newer one.
        """
        try:
            await self.backup.insist()
            answer = await self.try_start(run)
            if answer == "started":
                self.log(f"{run.job}: started on {len(run.hosts)} nodes" + (f", at {run.node.name}" if run.node.name else ""))
            else:
                self.log(f"{run.job}: {run.node.shown} doesn't start it: {answer}")
            if not run.is_sent:
                await self.try_others(run, answer, set())
        except NodeFault as fault:
            self.runs.doubt_of(run, str(fault))
        except OSError as fault:
            self.log(f"{run.job}: its start is tried again, since what is to be known of it can't be kept: {fault}")
            await asyncio.sleep(RETRY_SECONDS)
        finally:
            run.touched = boot_time()
            self.runs.starting.discard(run.job)
            await self.runs.look(run)  # which also hears of an end that was told meanwhile

    async def try_start(self, run: Run) -> str:
        """Has the node start a run. A nonce that is too old is replaced, which only this process may do, and only where the
        node hasn't used it."""
        script = b""
        for number in range(MOST_TRIES):
            if number or boot_time() - run.prepared > FRESH_SECONDS:
                script = script or self.spool.stored(run.job).partition(b"\n")[2]
                answer = await self.prepare(run, run.order, script)
                if answer != "ready":
                    return answer
                await asyncio.to_thread(self.spool.keep_records, {run.job: run.record()})
            run.is_sent = True
            answer = (await run.node.ask({"ask": "start", "id": run.job, "nonce": run.nonce}))["answer"]
            if answer not in ("late", "busy"):
                break
            run.is_sent = False
        return str(answer)

    async def start_again(self, run: Run) -> None:
        """Has a run started by another nonce, since none of its nonces was used."""
        self.log(f"{run.job}: its start didn't reach {run.node.shown}, so it is sent again")
        run.prepared = -math.inf  # it needs another nonce
        await self.start(run)

    async def start_elsewhere(self, run: Run, why: str, is_of_owner: bool) -> None:
        """Has a run that its node couldn't start, so that nothing of it ran, started by another node, or by the same one later,
        as long as this process may ask for another nonce. What its owner alone can repair is tried once at each node."""
        run.is_sent, run.doubt = False, ""
        before, nonce = run.node, run.nonce
        self.note_failure(run, why, is_of_owner)
        await self.try_others(run, why, {before.name} if is_of_owner else set())
        if run.is_sent and before is not run.node:
            self.runs.spawn(self.runs.ask_aside(before, {"ask": "forget", "id": run.job, "nonce": nonce}))
        elif not run.is_sent:
            run.node, run.nonce = before, nonce  # whose message says why
        run.touched = boot_time()
        self.runs.starting.discard(run.job)
        await self.runs.look(run)

    async def try_others(self, run: Run, why: str, but: Set[str]) -> None:
        """Tries nodes until a start is sent, or the run has an end: but for these, of which each is tried once if there are some."""
        unrun = f"this job never ran, since {run.node.shown} couldn't start it: {why}"
        while run.may_start_again() and not run.is_unwanted and not run.exit:
            if self.runs.move(run, but):
                but |= {run.node.name} if but else set()
                run.prepared = -math.inf  # it needs another nonce
                if await self.try_there(run):
                    return
            elif but:
                break
            await asyncio.sleep(LOOK_SECONDS)
        run.exit = run.exit or (run.deletion() if run.is_unwanted else lost(unrun))

    async def try_there(self, run: Run) -> bool:
        """Has a run started by its node; whether a start was sent."""
        try:
            answer = await self.try_start(run)
            if answer == "started":
                self.log(f"{run.job}: started by another try, at {run.node.shown}")
        except NodeFault as fault:
            answer = str(fault)
            if run.is_sent:
                self.runs.doubt_of(run, answer)
        except OSError as fault:
            answer = str(fault)
        if not run.is_sent:
            self.log(f"{run.job}: {run.node.shown} doesn't start it either: {answer}")
        return run.is_sent

    def note_failure(self, run: Run, why: str, is_of_owner: bool) -> None:
        """Keeps that a node couldn't start a run."""
        self.log(f"{run.job}: {run.node.shown} couldn't start it, so it hasn't run: {why}")
        if not is_of_owner:
            run.node.cannot_start(run.owner or str((self.spool.facts(run.job) or {}).get("owner", "")), why)

    async def take_back(self, run: Run) -> None:
        """Takes the nonce of a run away that isn't started. A start that is on its way may come before."""
        try:
            answer = await run.node.ask({"ask": "drop", "id": run.job, "nonce": run.nonce})
        except NodeFault as fault:
            self.runs.doubt_of(run, str(fault))
            return
        finally:
            self.runs.taking.discard(run.job)
        if answer["answer"] != "dropped":
            return
        # what another run of its machine has kept doesn't tell whether the nonce was used
        run.is_sent = run.is_sent and answer["boot"] != run.node_boot
        if run.may_start_again():
            self.runs.starting.add(run.job)
            await self.start_again(run)
        else:
            self.log(f"{run.job}: its start didn't reach {run.node.shown}, so it is never started")
            run.exit = lost(f"this job never ran, since its start didn't reach {run.node.shown}")
            await self.runs.settle(run)
