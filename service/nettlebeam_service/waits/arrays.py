"""The operands that mean members of arrays: `12[]`, `12[3]`, `12[1-9:2]`, and `12`, which is all of the array, each with its site or
without."""
from __future__ import annotations

import re
from typing import Dict, List, Optional, Sequence

from ..common.slices import Slices
from ..site.looks import full_name, told_of_many
from ..site.lines import NAME, Denied
from ..site.site import Site
from ..words.options import Fault, parse
from ..words.ranges import read_range
from .groups import Groups

OPERAND = re.compile(rf"([0-9]{{1,10}})\[([0-9,:-]*)\](?:\.({NAME}))?\Z")
# of these a job that is gone is refused; an array means its other members
OF_LIVING = ("qalter", "qhold", "qrls", "qdel", "qsig", "qmsg", "alter")
# in these a number alone means an array, too
OF_NUMBERS = (*OF_LIVING, "qstat", "details")
TAKING = (*OF_NUMBERS, "jobs", "script", "why")


def first_operand(words: Sequence[str]) -> int:
    """The place of the first word that names a job."""
    if words[0] in ("qsig", "details"):
        return 2  # after a signal, or what is to be listed
    return len(words) - len(parse(words[0], list(words[1:]))[1])


class Arrays:
    """Puts the members of arrays in their places."""

    def __init__(self, here: str, site: Site, groups: Groups):
        self.here = here
        self.site = site
        self.groups = groups

    def called(self) -> Dict[str, str]:
        """What each member of an array is called in listings."""
        return {job: name for group in self.groups if group.indices for job, name in group.shown_names().items()}

    def all_of(self, word: str) -> Optional[List[str]]:
        """The members of an array that is named by its number alone."""
        group = self.groups.array(full_name(word, self.here))
        return list(group.jobs) if group else None

    def named(self, words: Sequence[str]) -> int:
        """How many members the arrays have that words name."""
        parts = (word.partition("[") for word in words[1:])
        names = (full_name(number + rest.partition("]")[2], self.here) for number, _, rest in parts)
        return sum(len(group.jobs) for group in map(self.groups.array, names) if group)

    def members(self, word: str) -> Optional[List[str]]:
        """The jobs that a word means, by its brackets; None where it has none."""
        found = OPERAND.match(word)
        if not found:
            return None
        number, span, origin = found.groups()
        group = self.groups.array(f"{int(number)}.{origin or self.here}")
        if group is None:
            raise Denied(f"{word} is no array that is known here")
        try:
            wanted = set(read_range(span)[0]) if span else set(group.indices)
        except Fault as fault:
            raise Denied(f"{word}: {fault}") from None
        jobs = [job for index, job in zip(group.indices, group.jobs) if index in wanted]
        if not jobs:
            raise Denied(f"{word}: the array has no such member")
        return jobs

    async def expanded(self, words: Sequence[str]) -> List[str]:
        """The words with the members in the places of arrays."""
        has_numbers = words[0] in OF_NUMBERS and any(group.indices for group in self.groups)
        if words[0] not in TAKING or not (has_numbers or any("[" in word for word in words)):
            return list(words)
        found: List[str] = [words[0]]
        slices = Slices()
        start = first_operand(words) if has_numbers else len(words)
        for place, word in enumerate(words[1:], 1):
            await slices.rest()
            jobs = self.members(word)
            is_all = jobs is None and place >= start
            if is_all:
                jobs = self.all_of(word)
            if jobs is None:
                found.append(word)
            elif words[0] in OF_LIVING and (is_all or "[]" in word):
                told = await told_of_many(self.site, jobs)
                found += [job for job in jobs if job in told and told[job]["letter"]] or jobs
            else:
                found += jobs
        return found
