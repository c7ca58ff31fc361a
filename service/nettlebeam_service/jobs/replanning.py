"""Plans around jobs that can't be had now: the origin of one can't be asked, its owner has no account here, or it was refused.

The site's plan starts such a job all the same, and keeps its nodes from others for as long as it stays so. So it is asked for the
plan without these jobs, as many as the line may name. Jobs beyond those are met by another plan: since the jobs that are granted
to this site stand first in it, some that would fit are granted to this site, and what the plan doesn't start even so is handed
back.
"""
from __future__ import annotations

import asyncio
import time
from typing import Dict, List, Sequence, Set

from ..site.looks import Job, living, now, origin_of, plan_of
from ..site.site import Site
from .beginning import Begins
from .grants import Grants

MOST_BUT = 1000
LEAST_GAP = 5
PASSED_SECONDS = 300
MOST_TRIED = 20


class Replanning:
    """Finds what starts here when some jobs can't be had."""

    def __init__(self, name: str, site: Site, grants: Grants, begins: Begins):
        self.name = name
        self.site = site
        self.grants = grants
        self.begins = begins
        self.names_all = True  # whether the last plan was asked for without all jobs that can't be had
        self.last = 0.0
        self.tried: Dict[str, float] = {}

    async def starts(self, blocked: Sequence[str]) -> List[Job]:
        """The jobs that start now where these can't be had."""
        self.names_all = len(blocked) <= MOST_BUT
        return (await plan_of(self.site, now(), blocked[:MOST_BUT])).starts

    async def try_others(self, starts: Sequence[Job], free: int) -> List[Job]:
        """Where some couldn't be named: grants some jobs to this site that fit its free nodes, in place of those which the plan
        starts and that can't be had, and hands back those that the plan doesn't start even so; the jobs that start now."""
        if self.names_all or time.monotonic() - self.last < LEAST_GAP:
            return []
        self.last = time.monotonic()
        mine = await self.grant_others({job["id"] for job in starts}, free)
        found = (await plan_of(self.site, now())).starts
        for name in set(mine) - {job["id"] for job in found}:
            await self.site.ask(f"handback {name}")
            self.tried[name] = time.monotonic() + PASSED_SECONDS  # each try is kept in the journal
        return found

    async def grant_others(self, starts: Set[str], free: int) -> List[str]:
        """Grants jobs of this site that fit, and has one of another site prepared, since its grant keeps it from others."""
        self.tried = {name: later for name, later in self.tried.items() if later > time.monotonic()}
        waiting = [job for job in await living(self.site) if self.may_try(job, free) and job["id"] not in starts]
        waiting.sort(key=lambda job: -int(job["priority"]))
        mine: List[str] = []
        others: List[Job] = []
        for job in waiting[:MOST_TRIED]:
            if not await self.begins.has_account(job):
                continue
            if not self.begins.is_mine(job["id"]):
                others.append(job)
            elif job["nodes"] <= free:
                free -= job["nodes"]
                mine.append(job["id"])
        await asyncio.gather(*(self.site.ask(f"grant {name} {self.name}") for name in mine))
        others = [job for job in others if job["id"] not in self.grants.preparing]
        if others:
            self.grants.prepare(origin_of(others[0]["id"]), others[:1])
        return mine

    def may_try(self, job: Job, free: int) -> bool:
        """Whether a job waits that would fit here, and that wasn't tried a while ago."""
        is_free = job["letter"] == "Q" and self.name in job["sites"] and job["nodes"] <= free
        return is_free and job["id"] not in self.tried and not self.grants.is_put_off(job["id"])
