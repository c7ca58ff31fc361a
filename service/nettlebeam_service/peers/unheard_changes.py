"""Jobs that were deleted or held here, of which the site that may begin them hasn't heard yet.

The origin of a job alone grants it. Until it has heard of a deletion or a hold, or the site that it granted the job to, the job may
still begin, so people are told.
"""
from __future__ import annotations

import asyncio
import json
import os
import re
from typing import Callable, Dict, List, Optional, Sequence, Tuple

from ..common.files import put, read_json
from ..site.answers import Answer
from ..site.lines import JOB
from ..site.looks import Job, counter_of, full_name, origin_of, seen_by, told_of_many
from ..site.site import Site, Stopped

VERBS = ("qdel", "qhold")
ONE_JOB = re.compile(f"{JOB}\\Z")


def holder_of(job: Job) -> str:
    """The site that has a job begin, or where it runs."""
    return str((job["begun"] or job["grant"] or {"site": origin_of(job["id"])})["site"])


def hint(job: str, site: str) -> str:
    """What people are told of a job."""
    which = f"its origin {site}" if site == origin_of(job) else f"{site}, which it is granted to,"
    return f"{job}: {which} hasn't heard of it yet, so that it may still run there"


class Unheard:
    """Keeps which these are. `is_silent` tells of a site whether it can't be reached now."""

    def __init__(self, here: str, site: Site, folder: str, log: Callable[[str], None]):
        self.here = here
        self.site = site
        self.path = os.path.join(folder, "unheard")
        self.log = log
        self.is_silent: Callable[[str], bool] = lambda _: False
        self.since: Dict[str, Tuple[str, int]] = {}  # of each job the site, and the counter of this one when it was changed

    def open(self) -> None:
        """Reads them."""
        self.since = {job: (str(site), int(counter)) for job, (site, counter) in (read_json(self.path) or {}).items()}

    def keep(self) -> None:
        """Writes them. Where the disk is full, or the machine stops, a hint is lost and nothing else."""
        try:
            put(f"{self.path}.new", json.dumps(self.since).encode())
            os.rename(f"{self.path}.new", self.path)
        except OSError as fault:
            self.log(f"which sites haven't heard of deletions isn't kept: {fault}")

    async def with_words(self, words: Sequence[str], answer: Answer) -> Answer:
        """The answer to words of a user, with a hint for each job whose origin can't be told now."""
        if words[0] not in VERBS:
            return answer
        named = dict.fromkeys(full_name(word, self.here) for word in words[1:] if ONE_JOB.match(word))
        names = answer.is_about_each(list(named), "done")
        if not names:
            return answer
        try:
            jobs = await told_of_many(self.site, names)
            counter = await counter_of(self.site, self.here)
        except Stopped:
            return answer  # what was asked is done all the same
        holders = {name: holder_of(job) for name, job in jobs.items() if not job["finished"]}
        others = {name: site for name, site in holders.items() if site != self.here}
        if not others:
            return answer
        self.since.update({name: (site, counter) for name, site in others.items()})
        await asyncio.to_thread(self.keep)
        told = [hint(name, site) for name, site in others.items() if self.is_silent(site)]
        return answer.with_words(*told)

    async def with_hint(self, job: Optional[Job], answer: Answer) -> Answer:
        """The site's answer to why a job waits, with hints where it is held or deleted."""
        if job is None or not (job["deleted"] or job["letter"] == "H"):
            return answer
        return answer.with_words(*(await self.of([job["id"]])).values())

    async def of(self, jobs: Sequence[str]) -> Dict[str, str]:
        """What people are told of those of these jobs of which the other site hasn't heard yet."""
        found: List[str] = [job for job in jobs if job in self.since]
        if not found:
            return {}
        seen = await seen_by(self.site)
        heard = [job for job in found if self.since[job][0] not in seen or seen[self.since[job][0]]["told"] >= self.since[job][1]]
        if heard:
            for job in heard:
                del self.since[job]
            await asyncio.to_thread(self.keep)
        return {job: hint(job, self.since[job][0]) for job in found if job in self.since}
