"""Housekeeping, at the start and once a day: jobs that are gone are recorded, the grants of those that were deleted before
they began are declined, their files in the spool removed, those that were recorded long ago are retired, and the journal is
compacted."""
from __future__ import annotations

import asyncio
import math
import time
from typing import Callable, Dict, Iterable, List, Sequence, Set

from ..common.config import HouseKeys
from ..site.looks import Job, is_granted_to, jobs_told, origin_of, reservations_of
from ..site.site import Site, Stopped
from ..site.spool import Spool
from .accounting import Accounting
from .capacity import Capacity
from .compacting import Compacting
from .retiring import Range, counter_of, names_within, oldest, ranges_to_retire

FIRST_SECONDS = 2
RETRY_SECONDS = 60
LOOK_SECONDS = 60


class Housekeeping:
    """Keeps house for one site."""

    def __init__(
        self,
        name: str,
        keys: HouseKeys,
        site: Site,
        spool: Spool,
        compacting: Compacting,
        capacity: Capacity,
        needed: Callable[[], Set[str]],
        log: Callable[[str], None],
    ):
        self.name = name
        self.keys = keys
        self.site = site
        self.spool = spool
        self.compacting = compacting
        self.capacity = capacity
        self.needed = needed  # the jobs that others wait for
        self.log = log
        self.accounting = Accounting(keys.accounting, name)

    async def run(self) -> None:
        """Keeps house again and again."""
        pause: float = min(FIRST_SECONDS, self.keys.every)
        while True:
            try:
                await self.rest(pause)
                await self.keep()
                pause = self.keys.every
            except Stopped:
                await self.site.ready.wait()
                pause = FIRST_SECONDS
            except Exception as fault:  # whatever goes wrong once, it is done again
                self.log(f"the house is kept later: {fault!r}")
                pause = min(RETRY_SECONDS, self.keys.every)

    async def rest(self, seconds: float) -> None:
        """Waits so long, or until the site is so full that what is gone is retired early."""
        end = time.monotonic() + seconds
        while end > time.monotonic():
            await asyncio.sleep(min(LOOK_SECONDS, end - time.monotonic()))
            if self.may_retire() and await self.capacity.is_high():
                return

    async def keep(self) -> None:
        """Keeps house once."""
        # what is in the spool before the site is asked is of jobs that it knows, unless it has lost or retired them
        names = await asyncio.to_thread(self.spool.names_kept)
        last = await self.capacity.last()  # so that each job of this site up to there is among those told next
        jobs = await jobs_told(self.site)
        if self.keys.accounting and not self.site.lost_state.loss:
            count = await asyncio.to_thread(self.accounting.record, jobs, self.completed, self.submitted)
            if count:
                self.log(f"{count} jobs that are gone are recorded in {self.keys.accounting}")
            self.capacity.retired = await asyncio.to_thread(self.accounting.retired, jobs)
        self.capacity.note(jobs, last)
        await self.decline(jobs)
        removed = await asyncio.to_thread(self.clear, names, jobs)
        if removed:
            self.log(f"the files of {removed} jobs that are gone are removed from the spool")
        if self.may_retire():
            await self.retire(last, jobs)
        await self.compacting.keep()

    def submitted(self, name: str) -> str:
        """The second in which a job was submitted, as far as it is known here."""
        second = str((self.spool.facts(name) or {}).get("ctime", ""))
        return second if second.isascii() and second.isdigit() else ""

    def completed(self, job: Job) -> Job:
        """A job with what the site doesn't tell: why the service deleted it, and what it used."""
        comment = (self.spool.facts(job["id"]) or {}).get("comment")
        used = self.spool.used(job["id"]) if job["finished"] else None
        return {**job, **{key: value for key, value in (("comment", comment), ("used", used)) if value}}

    def may_retire(self) -> bool:
        """Whether something is retired now. Nothing is that isn't recorded."""
        return bool(self.keys.retire and self.keys.accounting) and not self.site.lost_state.loss

    async def retire(self, last: int, jobs: Sequence[Job]) -> None:
        """Retires the jobs of this site up to this counter that were recorded long enough ago; of a site that is nearly full
        also the oldest of the others that are recorded, and where these can't be retired enough of all that are."""
        mine, needed = [job for job in jobs if origin_of(job["id"]) == self.name], self.needed()
        recorded = self.accounting.recorded_before(mine, time.time()) - needed
        may_leave = self.accounting.recorded_before(mine, time.time() - self.keys.retire) - needed
        surplus = self.capacity.surplus()
        if surplus > len(may_leave):
            may_leave |= set(oldest(recorded - may_leave, self.accounting.known)[: surplus - len(may_leave)])
        standing = [it["id"] for it in await reservations_of(self.site)]
        gone = await self.retire_those(last, mine, standing, may_leave, len(mine))
        if len(gone) < surplus:
            mine = [job for job in mine if job["id"] not in gone]
            gone |= await self.retire_those(last, mine, standing, recorded - gone, surplus - len(gone))
        if gone:
            self.log(f"{len(gone)} jobs of {self.name} that are recorded are retired")

    async def retire_those(self, last: int, mine: Sequence[Job], standing: Sequence[str], leaving: Set[str], most: int) -> Set[str]:
        """Retires of these jobs of this site those that leave, about so many at most; those that are retired."""
        left, refused = ranges_to_retire(self.name, last, mine, standing, leaving, self.capacity.retired), 0
        done: List[Range] = []
        while left and len(left) != refused:  # again as long as there are fewer: what joins others has made room for them
            asked, left, refused = left, [], len(left)
            for each in asked:
                if sum(it.jobs for it in done) >= most:
                    break
                answer = await self.site.ask(f"retire {each.first} {each.last}")
                (done if answer.is_just("done") else left).append(each)
        if left:
            others = f", as are {len(left) - 1} others" if left[1:] else ""
            self.log(f"{self.name}: retire {left[0].first} {left[0].last} is answered {answer.shown()}{others}")
        gone = names_within(leaving, done)
        self.capacity.retired = sorted([*self.capacity.retired, *map(counter_of, gone)])
        return gone

    async def decline(self, jobs: Iterable[Job]) -> None:
        """Declines the grants of jobs that were deleted before they began: their origins can't tell else that such a job never
        begins."""
        for job in jobs:
            if job["deleted"] and not job["begun"] and is_granted_to(job, self.name):
                answer = await self.site.ask(f"decline {job['id']}")
                self.log(f"{job['id']}: it was deleted before it began, so its grant is declined: {answer.shown()}")

    def clear(self, names: Sequence[str], jobs: Sequence[Job]) -> int:
        """Removes the scripts and the runs of jobs that are gone for long enough; of how many."""
        since: Dict[str, float] = {}
        for job in jobs:
            is_gone = job["letter"] is None
            since[job["id"]] = math.inf if not is_gone else job["finished"]["moment"] if job["finished"] else 0.0
        before = time.time() - self.keys.keep
        return sum(self.spool.forget(name, before) for name in names if since.get(name, 0.0) <= before)
