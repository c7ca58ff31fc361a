"""Which of a site's own identifiers are retired: nothing is kept of them any more, here and at each site that hears of it.

A job is retired once it has been recorded for a while in the accounting, and once it is settled: no site can begin it any more.
The site takes ranges of counters. A range ends where something is that stays: a job that isn't retired yet, or a reservation
that stands. So there are as few ranges as may be, and a line of its own retires each.

A site has 1,000 ranges at most. Those that join or lengthen what is retired already need no new place. Of the others the longest
come first, and once half of the places are used those alone that take away as many jobs as each has to on average.
"""
from __future__ import annotations

from bisect import bisect_right
from collections import Counter
from typing import Collection, Counter as Counts, Iterable, List, Mapping, NamedTuple, Sequence, Set

from ..site.looks import Job, origin_of
from .accounting import Entry


MOST_RANGES = 1000
HALF = MOST_RANGES // 2
WORTH_A_PLACE = 10  # jobs: so many ranges of so many are all that a site may have


class Range(NamedTuple):
    """Counters from the first to the last, how many jobs have them, and whether some of it is retired already."""

    first: int
    last: int
    jobs: int
    is_joined: bool = False


def counter_of(name: str) -> int:
    """The counter in an identifier."""
    return int(name.partition(".")[0])


def counters_to(last: int, names: Iterable[str]) -> List[int]:
    """The counters of these, without those that were given since the last one was told."""
    return [counter for counter in map(counter_of, names) if counter <= last]


def count_between(counters: Sequence[int], first: int, last: int) -> int:
    """How many of these ascending counters are in a range."""
    return bisect_right(counters, last) - bisect_right(counters, first - 1)


def ranges_of(last: int, staying: Iterable[int], leaving: Iterable[int], retired: Sequence[int] = ()) -> List[Range]:
    """The widest ranges from 1 to the last counter that have none of the counters of what stays, each with one at least of what
    leaves or is retired."""
    edges, counters, found = [0, *sorted(staying), last + 1], sorted(leaving), []
    for before, after in zip(edges, edges[1:]):
        count = count_between(counters, before + 1, after - 1)
        is_joined = count_between(retired, before + 1, after - 1) > 0
        if count or is_joined:
            found.append(Range(before + 1, after - 1, count, is_joined))
    return found


def worth_asking(ranges: Sequence[Range]) -> List[Range]:
    """Those of all ranges that are to be asked, in their order: what joins others first, since it frees places."""
    used = sum(it.is_joined for it in ranges)
    new = sorted((it for it in ranges if it.jobs and not it.is_joined), key=lambda it: -it.jobs)
    worth = [it for place, it in enumerate(new, used) if place < MOST_RANGES and (place < HALF or it.jobs >= WORTH_A_PLACE)]
    return [it for it in ranges if it.jobs and it.is_joined] + worth


def kept_apart(living: Mapping[int, str], gone: Sequence[int], retired: Sequence[int]) -> Counts[str]:
    """How many ranges of what is gone or retired, as ascending counters, end at jobs of each user that aren't: these are told by
    their counters and their owners."""
    found: Counts[str] = Counter()
    before = 0
    for counter in sorted(living):
        if any(count_between(its, before + 1, counter - 1) for its in (gone, retired)):
            found[living[counter]] += 1
        before = counter
    return found


def names_within(names: Iterable[str], ranges: Iterable[Range]) -> Set[str]:
    """The identifiers of one site whose counters are in these ranges."""
    ordered = sorted(ranges)
    firsts = [it.first for it in ordered]
    places = ((name, counter_of(name)) for name in names)
    return {name for name, counter in places if firsts and firsts[0] <= counter <= ordered[bisect_right(firsts, counter) - 1].last}


def oldest(names: Iterable[str], recorded: Mapping[str, Entry]) -> List[str]:
    """These identifiers, those first that were recorded first."""
    return sorted(names, key=lambda name: (recorded[name].moment, counter_of(name)))


def ranges_to_retire(
    here: str, last: int, mine: Sequence[Job], standing: Sequence[str], leaving: Collection[str], retired: Sequence[int] = ()
) -> List[Range]:
    """The ranges of this site that are to be asked, where it has these jobs, these reservations stand, these are the jobs that
    leave, and these counters are retired."""
    names = [job["id"] for job in mine]
    staying = [name for name in names if name not in leaving] + [name for name in standing if origin_of(name) == here]
    counters = counters_to(last, (name for name in names if name in leaving))
    return worth_asking(ranges_of(last, counters_to(last, staying), counters, retired))
