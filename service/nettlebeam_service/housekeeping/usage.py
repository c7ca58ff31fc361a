"""The look `usage [-u USER] [--since DATE]`: how many jobs of a user ended at each site, and how many node seconds they took.

It is read from the accounting, and from the site what isn't recorded yet. A user is told of the own jobs alone; who asks in a role,
and the site's own account, of all users or of one.
"""
from __future__ import annotations

import asyncio
import datetime
import os
from typing import Dict, Iterator, List, NamedTuple, Optional, Sequence, Tuple

from ..common.slices import Slices
from ..site.lines import USER, Client, Denied, asker, name_of
from ..site.looks import Job, jobs_told
from ..site.site import Site
from .accounting import job_in
from .gone_jobs import SUFFIX

Sums = Dict[Tuple[str, str], List[int]]


class Asked(NamedTuple):
    """What is summed up: the jobs of a user, or of all, that ended in this second or later."""

    user: Optional[str]
    since: int


def second_of(text: str) -> int:
    """The first second of a day, by this machine's clock."""
    try:
        return int(datetime.datetime.strptime(text, "%Y-%m-%d").timestamp())
    except (ValueError, OverflowError, OSError):
        raise Denied(f"--since {text[:40]}: no date as 2026-11-30") from None


def read_words(words: Sequence[str]) -> Asked:
    """What the words behind `usage` ask."""
    user, since, left = None, 0, list(words)
    while left:
        if len(left) < 2 or left[0] not in ("-u", "--since"):
            raise Denied("the words are: usage [-u USER] [--since DATE]")
        if left[0] == "-u":
            user = left[1]
        else:
            since = second_of(left[1])
        left = left[2:]
    if user is not None and not USER.match(user):
        raise Denied(f"-u {user[:40]}: no user's name")
    return Asked(user, since)


def has_ended(job: Job, asked: Asked) -> bool:
    """Whether a job is one of those that are asked for."""
    if not job.get("begun") or not job.get("finished"):
        return False
    return asked.user in (None, job["owner"]) and job["finished"]["moment"] >= asked.since


def recorded_jobs(folder: str, asked: Asked) -> Iterator[Job]:
    """The jobs of the months that may have some which ended since then: none is recorded before it ends."""
    since, slices = asked.since, Slices()
    first = datetime.datetime.fromtimestamp(since).strftime("%Y-%m") + SUFFIX if since else ""
    for name in sorted(os.listdir(folder)) if os.path.isdir(folder) else []:
        if name.endswith(SUFFIX) and name >= first:
            with open(os.path.join(folder, name), encoding="ascii", errors="replace") as file:
                for line in file:
                    slices.pause()
                    if asked.user is None or asked.user in line:
                        yield job_in(line.encode())


def key_of(job: Job) -> Tuple[str, int, int]:
    """What tells a job from all others, also from one of its name."""
    return job["id"], job["begun"]["moment"], job["finished"]["moment"]


def summed(folder: str, told: Sequence[Job], asked: Asked) -> Sums:
    """The jobs and the node seconds of each user and site, of what the site tells and of what else is recorded."""
    sums: Sums = {}
    living = [job for job in told if has_ended(job, asked)]
    known = {key_of(job) for job in living}
    recorded = (job for job in recorded_jobs(folder, asked) if has_ended(job, asked))
    for jobs in (living, (job for job in recorded if key_of(job) not in known)):
        for job in jobs:
            begun = job["begun"]
            sum_ = sums.setdefault((job["owner"], begun["site"]), [0, 0])
            sum_[0] += 1
            sum_[1] += begun["nodes"] * max(0, job["finished"]["moment"] - begun["moment"])
    return sums


class Usage:
    """Answers the look."""

    def __init__(self, site: Site, accounting: str):
        self.site = site
        self.accounting = accounting

    async def answer(self, client: Client, words: Sequence[str], role: Optional[str]) -> bytes:
        """A line for each user and site: the user, the site, how many jobs, how many node seconds."""
        asked, user = read_words(words[1:]), name_of(client)
        asker(client, role)  # whether this role may be taken
        if role is None and not client.is_site:
            if asked.user not in (None, user):
                raise Denied(f"{user} may ask for the own usage alone, or as operator or admin")
            asked = asked._replace(user=user)
        if not self.accounting:
            raise Denied("there is no accounting here")
        told = await jobs_told(self.site)
        sums = await asyncio.to_thread(summed, self.accounting, told, asked)
        return "".join(f"{name} {site} {jobs} {seconds}\n" for (name, site), (jobs, seconds) in sorted(sums.items())).encode("ascii")
