"""How full a site is. It may have 10,000 jobs of its own, those that are gone counted until they are retired."""
from __future__ import annotations

import time
from collections import Counter
from typing import Callable, Counter as Counts, Optional, Sequence, Set

from ..site.looks import Job, counter_of, jobs_told, origin_of
from ..site.site import Site
from .retiring import HALF, MOST_RANGES, counter_of as counter_in, kept_apart

MOST_JOBS = 10_000
HIGH = 7_500  # from here on what is gone is retired early
LOW = 7_000  # until there are so many
KEPT_SECONDS = 10.0
GONE = "gone"


class Capacity:
    """How many jobs a site has, as it was counted last."""

    def __init__(self, here: str, site: Site, log: Callable[[str], None]):
        self.here = here
        self.site = site
        self.log = log
        self.own = 0
        self.gone = 0
        self.states: Counts[str] = Counter()  # of all jobs that are known here
        self.counter = 0  # of this site, before the jobs were counted
        self.counted_at: Optional[float] = None
        self.logged = 0
        self.retired: Sequence[int] = ()  # the counters of the jobs that are, ascending, as far as they are recorded
        self.apart: Counts[str] = Counter()  # how many ranges end at jobs of each user
        self.crowding: Set[str] = set()  # the users whose jobs keep too many apart

    async def last(self) -> int:
        """The greatest counter of this site. Each of its jobs has one of its own."""
        return await counter_of(self.site, self.here)

    def note(self, jobs: Sequence[Job], counter: int) -> None:
        """Counts jobs that were told behind this counter, and logs how full the site is where that is much."""
        mine = [job for job in jobs if origin_of(job["id"]) == self.here]
        self.own, self.gone = len(mine), sum(job["letter"] is None for job in mine)
        self.states = Counter(job["letter"] or GONE for job in jobs)
        self.counter, self.counted_at = counter, time.monotonic()
        if self.own >= HIGH and self.own != self.logged:
            self.log(f"the site has {self.in_words()}")
        self.logged = self.own
        self.note_ranges(mine)

    def note_ranges(self, mine: Sequence[Job]) -> None:
        """Counts how many ranges of what is gone the jobs of each user keep apart, and logs whose are too many."""
        living = {counter_in(job["id"]): str(job["owner"]) for job in mine if job["letter"]}
        gone = [counter_in(job["id"]) for job in mine if not job["letter"]]
        self.apart = kept_apart(living, sorted(gone), self.retired)
        crowding = {user for user, count in self.apart.items() if count > HALF}
        for user in sorted(crowding - self.crowding):
            self.log(f"{self.in_ranges(user)}: no more of them are taken until some are gone")
        self.crowding = crowding

    def in_ranges(self, user: str) -> str:
        """What a user's jobs keep apart, in words."""
        return f"jobs of {user} that aren't gone keep {self.apart[user]} of {MOST_RANGES} ranges of ended jobs apart"

    def in_words(self) -> str:
        """How full the site is."""
        return f"{self.own} of {MOST_JOBS} jobs, and {self.gone} of them are gone and not retired"

    def surplus(self) -> int:
        """How many jobs that are gone are retired early."""
        return self.own - LOW if self.own >= HIGH else 0

    async def is_high(self) -> bool:
        """Whether the site may be so full that something is to be done."""
        return self.own + await self.last() - self.counter >= HIGH

    async def count(self) -> None:
        """Counts, unless that was done a short while ago."""
        if self.counted_at is None or time.monotonic() - self.counted_at >= KEPT_SECONDS:
            counter = await self.last()
            self.note(await jobs_told(self.site), counter)
