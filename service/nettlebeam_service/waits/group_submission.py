"""Submitting jobs that wait, and arrays: so that at no moment, whatever is killed, a job could begin too early, or some of an
array without the others.

Each job is submitted with a user hold. Once all are, those that wait get a system hold, and then the user holds are released;
each step is answered before the next. What was under way when a process was killed is found at the next start: jobs of which
nobody was told are deleted, and else what is missing is set.
"""
from __future__ import annotations

import asyncio
from dataclasses import replace
from typing import Any, Callable, Dict, List, Optional, Sequence, Set, Tuple

from ..common.files import remove
from ..common.identifiers import IDENTIFIER
from ..common.slices import Slices
from ..site.answers import Answer
from ..site.lines import Denied
from ..site.looks import full_name, jobs_told, living, origin_of, seen_by, told_of_many
from ..site.site import Site
from ..site.spool import Spool
from ..words.dependencies import read_depends
from ..words.options import Fault, parse
from ..words.ranges import MOST_MEMBERS, read_range
from .groups import ENTERED, MADE, MAKING, Group, Groups

SERVICE = "service/admin"  # as whom the service sets holds and deletes
JOBS_OF_LINE = 100
FEW_MEMBERS = 1000  # of an array for which nobody counts all jobs of the site
AT_ONCE = 250
UNDO_GAP = 0.01
MOST_PAIRS = 20_000  # of jobs and those that they wait for, of one user
WAITING_FACTS = ("array", "at", "depend")
HELD_OR_OVER = ("done", "refused 3", "refused 4")  # of a hold that is set, or isn't needed: the job is gone, or granted


async def ask_each(site: Site, words: str, jobs: Sequence[str]) -> List[Tuple[Sequence[str], Answer]]:
    """What the site answers to words of the service for some jobs, of which there are many in a line."""
    parts = [jobs[place : place + JOBS_OF_LINE] for place in range(0, len(jobs), JOBS_OF_LINE)]
    return list(zip(parts, await asyncio.gather(*(site.ask(f"{SERVICE} {words} {' '.join(part)}") for part in parts))))


class NotEntered(Exception):
    """A hold can't be set. The text tells of which job, and why."""


class GroupSubmission:
    """Submits groups."""

    def __init__(self, here: str, site: Site, spool: Spool, groups: Groups, log: Callable[[str], None]):
        self.here = here
        self.site = site
        self.spool = spool
        self.groups = groups
        self.log = log
        self.busy: Set[str] = set()  # the keys of groups that are being submitted
        self.making = 0  # how many of them have jobs that may have no name yet
        self.may_make = asyncio.Event()
        self.may_make.set()

    async def group_for(self, facts: Dict[str, Any], words: Sequence[str]) -> Group:
        """The group that facts ask for. Denied where it waits for a job that isn't known."""
        given = dict(parse("qsub", list(words[1:]))[0])
        group = Group(owner=facts["owner"], held="h" in given, name=given.get("N") or "STDIN", after=await self.counter())
        group.depend = await self.depends_of(facts.get("depend", ""))
        group.at = moment_in(facts.get("at", "0"))
        if "array" in facts:
            try:
                group.indices, group.most = read_range(facts["array"])
            except Fault as fault:
                raise Denied(f"-J {fault}") from None
        return group

    async def counter(self) -> int:
        """The counter of this site's last operation."""
        return max(it["known"] for it in (await seen_by(self.site)).values())

    async def depends_of(self, text: str) -> List[List[str]]:
        """What a list of dependencies waits for, arrays by their members. Denied where a job isn't known here."""
        try:
            pairs = read_depends(text) if text else []
        except Fault as fault:
            raise Denied(str(fault)) from None
        found: Dict[Tuple[str, str], None] = {}
        slices = Slices()
        for kind, word in dict.fromkeys(pairs):
            await slices.rest()
            number, bracket, rest = word.partition("[")
            name = full_name(word, self.here)
            group = None if bracket else self.groups.array(name)
            if not bracket and not IDENTIFIER.match(name):
                raise Denied(f"depend: {word[:40]!r} is no identifier of a job")
            jobs = self.members_of(number, rest) if bracket else group.jobs if group else [name]
            found.update(dict.fromkeys((kind, job) for job in jobs))
            if len(found) > MOST_PAIRS:
                raise Denied(f"depend: more than {MOST_PAIRS} jobs are named")
        names = list(dict.fromkeys(job for _, job in found))
        told = await told_of_many(self.site, [name for name in names if origin_of(name) in self.site.roster])
        missing = [name for name in names if name not in told]
        if missing:
            raise Denied(f"depend: {missing[0]} isn't known here")
        return [list(pair) for pair in found]

    def members_of(self, number: str, rest: str) -> List[str]:
        """The members of an array, whose identifier is in two parts."""
        span, _, origin = rest.partition("]")
        group = self.groups.array(f"{number}{origin or '.' + self.here}")
        if group is None:
            raise Denied(f"depend: {number}[{rest} is no array that is known here")
        jobs = [job for index, job in zip(group.indices, group.jobs) if not span or span == str(index)]
        if not jobs:
            raise Denied(f"depend: {number}[{rest}: the array has no such member")
        return jobs

    # Submitting

    async def submit(self, asker: str, words: Sequence[str], facts: Dict[str, Any], script: bytes) -> Tuple[Answer, List[str]]:
        """Submits a job that waits, or an array; the answer with its identifier, or the first refusal, and the jobs."""
        group = await self.group_for(facts, words)
        full = await self.without_room(len(group.indices))
        if full:
            return full, []
        facts = {**facts, "group": group.key}
        line = " ".join([asker, *words[:1], *([] if group.held else ["-h"]), *words[1:]])
        while not self.may_make.is_set():
            await self.may_make.wait()  # behind it another group may be undone already
        self.busy.add(group.key)
        self.making += 1
        self.spool.submissions += 1
        try:
            await asyncio.to_thread(self.groups.save, group)
            self.groups.know(group)
            refusal = await self.submit_all(group, line, facts, script)
            if refusal is not None:
                await self.delete(group, group.jobs)
                return refusal, []
            await self.spool.names.done()
            await self.advance(group, MADE)
        finally:
            self.spool.submissions -= 1
            self.making -= 1
            self.busy.discard(group.key)
        await self.enter(group)
        return Answer(f"{group.array_id if group.indices else group.jobs[0]}\n".encode("ascii")), group.jobs

    async def without_room(self, members: int) -> Optional[Answer]:
        """The refusal of a large array for which the site has no room. What is deleted in the middle takes its room, too, until it
        is retired."""
        if members <= FEW_MEMBERS:
            return None
        left = MOST_MEMBERS - sum(origin_of(job["id"]) == self.here for job in await jobs_told(self.site, []))
        words = f"refused 14 (SiteFull): {self.here} has room for {left} jobs, and the array has {members}"
        return Answer(b"refused 14\n", words, 1) if members > left else None

    async def submit_all(self, group: Group, line: str, facts: Dict[str, Any], script: bytes) -> Optional[Answer]:
        """Submits all jobs of a group, with their scripts; the first refusal, where there is one."""
        left, refusal = len(group.indices) or 1, None
        draft = await asyncio.to_thread(self.spool.draft, facts, script)
        try:
            while left and refusal is None:
                some, left = min(left, AT_ONCE), left - min(left, AT_ONCE)
                answers = await asyncio.gather(*(self.site.ask(line) for _ in range(some)), return_exceptions=True)
                refusal = self.take_answers(group, draft, answers)
        finally:
            remove(draft)
            group.jobs.sort(key=lambda job: int(job.partition(".")[0]))
            self.groups.know(group)
        return refusal

    def take_answers(self, group: Group, draft: str, answers: Sequence[Any]) -> Optional[Answer]:
        """Gives a group's jobs their script, which they share; the first refusal. What an answer failed by is raised behind."""
        others: List[Any] = []
        for answer in answers:
            job = answer.identifier() if isinstance(answer, Answer) else ""
            if job:
                self.groups.disown(job)
                self.spool.share(draft, job)
                group.jobs.append(job)
            else:
                others.append(answer)
        for answer in others:
            if isinstance(answer, BaseException):
                raise answer
        return others[0] if others else None

    async def enter(self, group: Group) -> None:
        """Sets the system holds of a group's jobs that wait, and then releases their user holds."""
        self.busy.add(group.key)
        try:
            told = await told_of_many(self.site, group.jobs)
            living = [job for job in group.jobs if job in told and told[job]["letter"]]
            waiting = living if group.is_waiting else living[group.most :] if group.most else []
            answers = await ask_each(self.site, "qhold -h s", [job for job in waiting if "s" not in told[job]["holds"]])
            for jobs, answer in answers:
                over = [job for text in HELD_OR_OVER for job in answer.is_about_each(jobs, text)]
                for job in set(jobs).difference(over):
                    raise NotEntered(f"{job}: its system hold isn't set: {answer.beside()}")
            if not group.held:
                await ask_each(self.site, "qrls -h u", [job for job in living if "u" in told[job]["holds"]])
            await self.advance(group, ENTERED)
        finally:
            self.busy.discard(group.key)

    async def advance(self, group: Group, state: str) -> None:
        """Brings a group to its next state, once the disk has it."""
        await asyncio.to_thread(self.groups.save, replace(group, state=state))
        group.state = state

    # What was cut short

    async def undo(self, group: Group) -> None:
        """Deletes what was made of a group of which nobody was told. No other is made meanwhile, whose jobs are as like."""
        self.may_make.clear()
        try:
            while self.making:
                await asyncio.sleep(UNDO_GAP)
            await self.delete(group, sorted(set(group.jobs) | set(await self.found(group))))
        finally:
            self.may_make.set()

    async def delete(self, group: Group, jobs: Sequence[str]) -> None:
        """Deletes these jobs of a group, and forgets it."""
        await ask_each(self.site, "qdel", jobs)
        await asyncio.to_thread(self.groups.remove, group)

    async def found(self, group: Group) -> List[str]:
        """The jobs of a group that isn't made: those whose scripts name it, and those that were submitted since it was begun,
        for the same owner by the same name, with a user hold, and have no script: the service was killed before it named it."""
        mine = [job for job in await living(self.site) if is_since(job["id"], self.here, group.after)]
        found: List[str] = []
        for job in mine:
            facts = self.spool.facts(job["id"])
            is_like = job["owner"] == group.owner and job["name"] == group.name and job["holds"] == ["u"]
            if (facts or {}).get("group") == group.key or (facts is None and is_like and not job["grant"]):
                found.append(job["id"])
        return found


def is_since(job: str, here: str, counter: int) -> bool:
    """Whether a job was submitted here after the counter."""
    number, _, origin = job.partition(".")
    return origin == here and int(number) > counter


def moment_in(text: str) -> int:
    """The second in a job's facts."""
    if not text.isascii() or not text.isdigit() or len(text) > 12:
        raise Denied(f"-a: {text[:40]!r} is no second")
    return int(text)


__all__ = ["MAKING", "SERVICE", "WAITING_FACTS", "GroupSubmission", "NotEntered", "ask_each"]
