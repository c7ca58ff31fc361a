"""Whose jobs a node couldn't start lately, and why; and from whom it is kept for a while by that."""
from __future__ import annotations

import re
import time
from typing import Dict, List, NamedTuple, Optional, Set

KEPT_SECONDS = 600.0  # for which a failure counts, and is shown
FIRST_PAUSE, LONGEST_PAUSE = 5.0, 300.0  # from a failure to the owner's next try there
ASIDE_SECONDS, LONGEST_ASIDE = 60.0, 3600.0
MOST_OWNERS, MOST_OF_OWNER = 3, 5  # who fail by one fault before the node is set aside


class Failure(NamedTuple):
    """A start that failed."""

    moment: float
    owner: str
    why: str

    def fault(self) -> str:
        """What it has in common with others of its kind."""
        return re.sub(r"[0-9a-f-]{6,}|[0-9]+", "#", self.why.replace(self.owner, "USER"))


class Troubles:
    """The failures of one node. Those of one owner keep it from that owner, those of several from all."""

    def __init__(self) -> None:
        self.failures: List[Failure] = []
        self.since = 0.0  # the second of the first of them
        self.not_before: Dict[str, float] = {}
        self.pauses: Dict[str, float] = {}
        self.kept_from: Set[str] = set()  # the owners for whom alone it is set aside
        self.aside = 0.0
        self.aside_pause = ASIDE_SECONDS

    def add(self, owner: str, why: str) -> bool:
        """A job of an owner couldn't be started; whether the node is set aside by that, for all or for the owner."""
        now = time.monotonic()
        self.drop_old(now)
        if not self.failures:
            self.since = time.time()
        failure = Failure(now, owner, " ".join(why.split()))
        self.failures.append(failure)
        pause = self.pauses.get(owner, FIRST_PAUSE)
        same = [it for it in self.failures if it.fault() == failure.fault()]
        of_owner, owners = sum(it.owner == owner for it in same), len({it.owner for it in same})
        longest = LONGEST_PAUSE
        if of_owner >= MOST_OF_OWNER:
            self.kept_from.add(owner)
            pause, longest = max(pause, ASIDE_SECONDS), LONGEST_ASIDE
        if of_owner == MOST_OF_OWNER or self.not_before.get(owner, 0.0) <= now:  # else it was tried before that failure was known
            self.not_before[owner], self.pauses[owner] = now + pause, min(2 * pause, longest)
        if owners >= MOST_OWNERS and self.aside <= now:
            self.aside, self.aside_pause = now + self.aside_pause, min(2 * self.aside_pause, LONGEST_ASIDE)
        return self.aside > now or of_owner == MOST_OF_OWNER

    def clear(self, owner: str) -> bool:
        """A job of an owner ran; whether that is news."""
        had = any(it.owner == owner for it in self.failures)
        self.failures = [it for it in self.failures if it.owner != owner]
        self.forget(owner)
        if had:
            self.aside, self.aside_pause = 0.0, ASIDE_SECONDS
        return had

    def forget(self, owner: str) -> None:
        """Keeps nothing from an owner."""
        self.not_before.pop(owner, None)
        self.pauses.pop(owner, None)
        self.kept_from.discard(owner)

    def drop_old(self, now: float) -> None:
        """Forgets what is long ago."""
        self.failures = [it for it in self.failures if it.moment > now - KEPT_SECONDS or self.not_before.get(it.owner, 0.0) > now]
        for owner in self.not_before.keys() - {it.owner for it in self.failures}:
            self.forget(owner)

    def rest(self, owner: str) -> float:
        """For how many seconds no job of an owner is tried here."""
        return max(self.aside, self.not_before.get(owner, 0.0)) - time.monotonic()

    def is_aside(self) -> bool:
        """Whether no job begins here for a while."""
        return self.aside > time.monotonic()

    def told(self) -> Optional[str]:
        """What is wrong, in words; None if nothing is."""
        now = time.monotonic()
        self.drop_old(now)
        if not self.failures:
            return None
        whose, last = ", ".join(sorted({it.owner for it in self.failures})), self.failures[-1]
        state = f"trouble since {clock(self.since)}: no job of {whose} is started: {last.owner}: {last.why}"
        kept = sorted(it for it in self.kept_from if self.not_before[it] > now)
        until = max(self.not_before.get(it.owner, 0.0) for it in self.failures)
        if self.is_aside():
            return f"set aside until {clock(time.time() + self.aside - now)}, {state}"
        if kept:
            return f"set aside for {', '.join(kept)} until {clock(time.time() + until - now)}, {state}"
        return f"{state}; tried again at {clock(time.time() + until - now)}" if until > now else state


def clock(moment: float) -> str:
    """A moment as people write it."""
    return time.strftime("%Y-%m-%dT%H:%M:%S", time.localtime(moment))
