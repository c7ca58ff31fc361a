"""What one user may have here: so many jobs that aren't gone, so many bytes of scripts in the spool, so many jobs that others wait
for, and which priorities; and how much of the loop's time what a user asks may take.

What users have is counted anew only where one seems to have too much. Meanwhile what they submit is added, so that the count is
never below what they have. Each request costs what it has the loop do; who has spent more than a share waits before the next is
done, while others don't. The site's own account, whose word is as good as the site's, has no bound.
"""
from __future__ import annotations

import asyncio
import contextlib
import re
import time
from collections import Counter
from typing import AsyncIterator, Awaitable, Callable, Counter as Counts, Dict, Iterator, Optional, Sequence, Tuple

from ..common.config import ClientKeys
from ..common.wire import Request
from ..housekeeping.capacity import Capacity
from ..site.lines import Client, Denied
from ..site.looks import jobs_told, origin_of
from ..site.site import Site
from ..site.spool import Spool
from ..waits.group_submission import MOST_PAIRS
from ..words.options import Fault, parse
from ..words.ranges import read_range

# what a request costs, in seconds of the loop
REQUEST = 0.0003
BYTE_OF_HEAD = 50e-9
BYTE_OF_BODY = 10e-9
BYTE_OF_ANSWER = 10e-9
BYTE_SEARCHED = 4e-9
BYTE_TAKEN = 60e-9  # of the accounting, as jobs
WORD = 10e-6
PAIR = 50e-6
PAIRS_OF_ARRAY = 20
MEMBER = 0.0003  # of an array
ALTERED = 0.003
SHARE = 0.2  # of its time is each user's
SAVED = 1.0  # seconds that a user has at most who asked nothing for a while
MOST_LOOKED_AT = 1000  # scripts, for their bytes

NUMBER = re.compile(r"[+-]?[0-9]{1,20}\Z")
MOST_KNOWN = 1000
JOBS_GAP, BYTES_GAP = 1.0, 5.0  # seconds between two counts at least


class Exceeded(Exception):
    """A user would have more here than one may. The text tells of what."""


class Work:
    """How much of the loop's time each user has taken of late, by user numbers."""

    def __init__(self, own: int):
        self.own = own
        self.left: Dict[int, Tuple[float, float]] = {}  # seconds, and when that was

    def charge(self, uid: int, cost: float) -> float:
        """Takes so many seconds of a user's; for how long the user is to wait."""
        now = time.monotonic()
        before, moment = self.left.get(uid, (SAVED, now))
        left = min(SAVED, before + SHARE * (now - moment)) - cost
        if len(self.left) > MOST_KNOWN:
            self.left = {it: kept for it, kept in self.left.items() if kept[0] + SHARE * (now - kept[1]) < SAVED}
        self.left[uid] = (left, now)
        return max(0.0, -left / SHARE)

    async def spend(self, uid: int, cost: float) -> None:
        """Takes so many seconds of a user's, once that many are left."""
        seconds = self.charge(uid, cost) if uid != self.own else 0.0
        if seconds:
            await asyncio.sleep(seconds)


class Share:
    """How much of something each user has."""

    def __init__(self, count: Callable[[], Awaitable[Counts[str]]], gap: float):
        self.count = count
        self.gap = gap
        self.counted: Counts[str] = Counter()
        self.earlier: Counts[str] = Counter()  # what came before the count that is under way
        self.since: Counts[str] = Counter()
        self.under_way: Counts[str] = Counter()
        self.counted_at: Optional[float] = None
        self.counting = asyncio.Lock()

    def total(self, user: str) -> int:
        """What a user has at most."""
        return self.counted[user] + self.earlier[user] + self.since[user] + self.under_way[user]

    async def count_anew(self) -> None:
        """Counts what is there, unless another has done so since this was called."""
        called = time.monotonic()
        async with self.counting:
            if self.counted_at is not None and self.counted_at > called:
                return
            if self.counted_at is not None:
                await asyncio.sleep(max(0.0, self.counted_at + self.gap - called))
            began = time.monotonic()
            self.earlier, self.since = self.earlier + self.since, Counter()
            self.counted = await self.count()
            self.earlier, self.counted_at = Counter(), began

    @contextlib.asynccontextmanager
    async def hold(self, user: str, amount: int, most: int, words: str) -> AsyncIterator[None]:
        """Adds so much to what a user has, where that isn't too much."""
        if self.counted_at is None or self.total(user) + amount > most:
            await self.count_anew()
        if self.total(user) + amount > most:
            raise Exceeded(f"{user} would have more than {most} {words}")
        self.under_way[user] += amount
        try:
            yield
        finally:
            self.under_way[user] -= amount
            self.since[user] += amount


def priority_of(words: Sequence[str]) -> int:
    """The greatest priority that a submission or an alteration asks for; the site says what is wrong with one that is none."""
    given = [argument for letter, argument in parse(words[0], list(words[1:]))[0] if letter == "p" and argument]
    return max((int(it) for it in given if NUMBER.match(it)), default=0)


def members_of(request: Request) -> int:
    """How many jobs a submission makes."""
    try:
        return len(read_range(request.facts["array"])[0]) if "array" in request.facts else 1
    except Fault:
        return 1  # it is refused


def pairs_of(request: Request) -> int:
    """How many jobs a request names for one to wait for, an array as some."""
    depend = str(request.facts.get("depend", ""))
    return depend.count(":") + PAIRS_OF_ARRAY * depend.count("[")


class UserLimits:
    """The shares of all users of a site. What else is counted it is told: how many jobs a user's jobs wait for, how many bytes of
    the accounting words have searched and taken, and how many members of arrays words name."""

    def __init__(
        self,
        here: str,
        keys: ClientKeys,
        site: Site,
        spool: Spool,
        capacity: Capacity,
        own: int,
        pairs: Callable[[str], int],
        reading: Callable[[Sequence[str]], Tuple[int, int]],
        members: Callable[[Sequence[str]], int],
    ):
        self.here = here
        self.keys = keys
        self.site = site
        self.spool = spool
        self.capacity = capacity
        self.work = Work(own)
        self.pairs = pairs
        self.pairs_under_way: Counts[str] = Counter()
        self.reading = reading
        self.members = members
        self.jobs = Share(self.count_jobs, JOBS_GAP)
        self.bytes = Share(lambda: asyncio.to_thread(spool.bytes_of_owners, here), BYTES_GAP)

    def cost_of(self, request: Request) -> float:
        """What a request costs, but for the bytes of its head."""
        words, verb = request.words, request.words[:1]
        cost = REQUEST + BYTE_OF_BODY * (request.size or 0) + WORD * len(words) + PAIR * pairs_of(request)
        cost += MEMBER * (members_of(request) + self.members(words))
        if verb == ["alter"]:
            altered = set(words[1:])
            cost += ALTERED * len(altered) + BYTE_OF_BODY * self.spool.bytes_of(list(altered)[:MOST_LOOKED_AT], self.here)
        searched, taken = self.reading(words)
        return cost + BYTE_SEARCHED * searched + BYTE_TAKEN * taken

    async def count_jobs(self) -> Counts[str]:
        """How many jobs of this site each user has that aren't gone."""
        mine = [job for job in await jobs_told(self.site) if origin_of(job["id"]) == self.here]
        self.capacity.note_ranges(mine)
        return Counter(job["owner"] for job in mine if job["letter"])

    async def check_ranges(self, user: str) -> None:
        """Exceeded where jobs of this user that aren't gone keep more than half of the ranges apart that can be retired: with
        more of them the site might be full for good."""
        if user in self.capacity.crowding:
            await self.jobs.count_anew()
        if user in self.capacity.crowding:
            raise Exceeded(f"{self.capacity.in_ranges(user)}: delete some, or let some end")

    @contextlib.contextmanager
    def hold_pairs(self, user: str, pairs: int) -> Iterator[None]:
        """Adds so many to what a user's jobs wait for, where that isn't too much."""
        if pairs and self.pairs(user) + self.pairs_under_way[user] + pairs > MOST_PAIRS:
            raise Exceeded(f"jobs of {user} would wait for others {MOST_PAIRS} times and more")
        self.pairs_under_way[user] += pairs
        try:
            yield
        finally:
            self.pairs_under_way[user] -= pairs

    @contextlib.asynccontextmanager
    async def hold(self, client: Client, request: Request) -> AsyncIterator[None]:
        """Lets a request through that makes jobs or scripts of a client, where that has room for them."""
        verb, user = request.words[0], client.user
        if verb not in ("qsub", "qalter", "alter") or client.is_site or user is None:
            yield
            return
        has_role = request.role is not None and request.role in client.roles
        if verb != "alter" and not has_role and priority_of(request.words) > self.keys.priority:
            raise Denied(f"a priority above {self.keys.priority} is asked as operator or admin")
        jobs, size = members_of(request) if verb == "qsub" else 0, request.size or 0
        if verb == "alter":
            size = await asyncio.to_thread(self.spool.growth, list(dict.fromkeys(request.words[1:])), size, self.here)
        async with self.jobs.hold(user, jobs, self.keys.jobs_of_user, "jobs here that aren't gone"):
            if jobs:
                await self.check_ranges(user)
            with self.hold_pairs(user, pairs_of(request)):
                async with self.bytes.hold(user, size, self.keys.spool_of_user, "bytes of scripts here"):
                    yield
