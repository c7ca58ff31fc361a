"""The look `details`: jobs with what this service knows of them besides the site, for listings as PBS has them.

`details now [JOB ..]` tells those that aren't gone, `details all ..` also those that are gone, as long as the site or the
accounting has them, `details now,why ..` and `details all,why ..` also why each waits. Each is a line of JSON: what the look `jobs`
tells, and under `more` the facts of its submission, its hosts, its place in an array and what it waits for. Variables, and the
words of the submission, which may have some, are told to owners and operators alone.
"""
from __future__ import annotations

import asyncio
import json
import re
from typing import AbstractSet, Any, Dict, List, Optional, Sequence, Tuple

from ..common.slices import Slices
from ..housekeeping.accounting import Accounting
from ..housekeeping.gone_jobs import MOST_BYTES, month_of, months, newest, recorded, size_of
from ..jobs.active_runs import Runs
from ..site.answers import Answer
from ..site.facts import Budget
from ..site.looks import STARTS, Job, full_name, jobs_told, now
from ..site.lines import JOB, Client, Denied, name_of
from ..site.site import Site
from ..site.spool import Spool
from .groups import Groups

KINDS = (["now"], ["all"], ["now", "why"], ["all", "why"])
MOST_REASONS = 100
READING_AT_ONCE = 2
MOST_PAIRS = 100  # of what one job waits for
LEFT_ALONE = "left alone, since nothing is run here as its owner"
PRIVATE = ("arguments", "variables")
ONE_JOB = re.compile(f"{JOB}\\Z")


class Details:
    """Answers the look."""

    def __init__(self, here: str, site: Site, spool: Spool, groups: Groups, runs: Runs, accounting: str):
        self.here = here
        self.site = site
        self.spool = spool
        self.groups = groups
        self.runs = runs
        self.accounting = accounting
        self.left_alone: AbstractSet[str] = frozenset()
        self.records: Optional[Accounting] = None  # which keeps the list of all that are recorded
        self.reading = asyncio.Semaphore(READING_AT_ONCE)

    async def answer(self, client: Client, words: Sequence[str], role: Optional[str]) -> bytes:
        """The lines for these words."""
        kind, names = words[1].split(",") if len(words) > 1 else [], list(words[2:])
        if kind not in KINDS or not all(map(ONE_JOB.match, names)):
            raise Denied("the words of details are wrong")
        jobs = await jobs_told(self.site, names)
        if "all" in kind and self.accounting:
            jobs = await self.with_older(jobs, names)
        elif "all" not in kind:
            jobs = [job for job in jobs if job["letter"]]
        reasons = await self.reasons(jobs) if "why" in kind else {}
        user = name_of(client)
        is_trusted = role is not None and role in client.roles
        return await asyncio.to_thread(self.lines, jobs, reasons, user, is_trusted)

    def read_for(self, words: Sequence[str]) -> Tuple[int, int]:
        """How many bytes of the accounting are searched at most for these words, and how many are taken."""
        if words[:1] == ["usage"]:
            return size_of(self.accounting, months(self.accounting)), 0
        if words[:1] != ["details"] or len(words) < 2 or "all" not in words[1].split(",") or not self.accounting:
            return 0, 0
        if not words[2:]:
            return 0, min(MOST_BYTES, size_of(self.accounting, months(self.accounting)))
        recorded_in = self.recorded_in({full_name(name, self.here) for name in words[2:]})
        return size_of(self.accounting, months(self.accounting) if recorded_in is None else recorded_in), 0

    def recorded_in(self, names: AbstractSet[str]) -> Optional[List[str]]:
        """The files of the months in which jobs of these names were recorded; None where that isn't known."""
        if self.records is None or not self.records.is_open:
            return None
        known = self.records.known
        return sorted({month_of(known[name].moment) for name in names if name in known})

    async def with_older(self, jobs: Sequence[Job], names: Sequence[str]) -> List[Job]:
        """Jobs with those that the accounting alone has, of these names where there are some."""
        known = {job["id"] for job in jobs}
        wanted = {full_name(name, self.here) for name in names} - known
        recorded_in = self.recorded_in(wanted)
        if names and (not wanted or recorded_in == []):
            return list(jobs)
        async with self.reading:
            if names:
                older = await asyncio.to_thread(recorded, self.accounting, wanted, recorded_in or ())
            else:
                older = await asyncio.to_thread(newest, self.accounting)
        return [job for job in older if job["id"] not in known] + list(jobs)

    async def reasons(self, jobs: Sequence[Job]) -> Dict[str, str]:
        """Why jobs wait, as the site tells it, of the first of them."""
        names = [job["id"] for job in jobs if job["letter"] in ("Q", "T")][:MOST_REASONS]
        answers = await asyncio.gather(*(self.site.look(f"why {name} {now()}") for name in names))
        return {name: self.reason(name, answer) for name, answer in zip(names, answers)}

    def reason(self, job: str, answer: Answer) -> str:
        """Why a job waits, for which the site gives this answer."""
        return LEFT_ALONE if job in self.left_alone and answer.is_just(STARTS) else answer.shown()

    def lines(self, jobs: Sequence[Job], reasons: Dict[str, str], user: str, is_trusted: bool) -> bytes:
        """The lines of jobs."""
        found: List[str] = []
        stored, budget, slices = set(self.spool.names_kept()), Budget(), Slices()
        for job in jobs:
            slices.pause()
            more = self.more(job, budget) if job["id"] in stored or job["begun"] or job["holds"] else {}
            if job["owner"] != user and not is_trusted:
                more = {key: value for key, value in more.items() if key not in PRIVATE}
            if job["id"] in reasons:
                more["why"] = reasons[job["id"]]
            found.append(json.dumps({**job, "more": more}))
        return "".join(f"{line}\n" for line in found).encode("ascii")

    def more(self, job: Job, budget: Budget) -> Dict[str, Any]:
        """What is known here of a job besides."""
        name = job["id"]
        more: Dict[str, Any] = dict(self.spool.listed_facts(name, job["owner"], budget))
        for key in ("owner", "group"):
            more.pop(key, None)
        group = self.groups.by_job.get(name)
        if group and group.is_waiting and "s" in job["holds"]:
            more["waits"], more["waits_until"] = group.waits_for(MOST_PAIRS), group.at
            if group.comment:
                more["comment"] = group.comment
        elif group and group.most and "s" in job["holds"]:
            more["waits_turn"] = True
        used = job.get("used") or (self.spool.used(name) if job["finished"] else None)
        if used:
            more["used"] = used
        if job["begun"] and job["begun"]["site"] == self.here:
            run = self.runs.all.get(name)
            if run and run.doubt:
                more["comment"] = f"It isn't known whether it runs, since {run.node.shown} can't be asked: {' '.join(run.doubt.split())}"
            hosts = run.hosts if run else self.spool.hosts(name)
            if hosts:
                more["hosts"] = hosts
            session = self.spool.session(name) if job["letter"] else None
            if session:
                more["session"] = session
        return more
