"""What waits for other jobs, for its time, or for its turn in an array: released by the service when that has come."""
from __future__ import annotations

import asyncio
import time
from typing import AbstractSet, Callable, Dict, Optional, Sequence, Set, Tuple

from ..common.slices import Slices
from ..site.looks import Job, Seen, seen_by, told_of_many
from ..site.site import Site, Stopped
from ..site.spool import Spool
from .fulfilment import Deletions, verdict
from .group_submission import GroupSubmission, NotEntered, ask_each
from .groups import ENTERED, MADE, MAKING, Group, Groups
from .mail import Mail

Pair = Tuple[str, str]  # a kind and a job
SHORTEST_GAP = 0.1
RETRY_SECONDS = 5.0
WHOLE_SECONDS = 30.0


class Releasing:
    """Looks again and again at what waits."""

    def __init__(
        self,
        here: str,
        site: Site,
        spool: Spool,
        group_submission: GroupSubmission,
        mail: Mail,
        every: float,
        log: Callable[[str], None],
        changed: Callable[[], None],
    ):
        self.here = here
        self.site = site
        self.spool = spool
        self.group_submission = group_submission
        self.mail = mail
        self.every = every
        self.log = log
        self.changed = changed
        self.deletions = Deletions(here)
        self.looked = -WHOLE_SECONDS
        self.woken = asyncio.Event()
        self.lock = asyncio.Lock()

    @property
    def groups(self) -> Groups:
        """What waits."""
        return self.group_submission.groups

    def wake(self) -> None:
        """Something may have come true."""
        self.woken.set()

    async def run(self) -> None:
        """Looks again and again."""
        gap = SHORTEST_GAP
        while True:
            began = time.monotonic()
            try:
                if not self.site.lost_state.loss and self.site.has_room():
                    async with self.lock:
                        await self.look()
                    await self.mail.look()
                gap = SHORTEST_GAP
            except Stopped:
                await self.site.ready.wait()
            except Exception as fault:  # whatever one look meets, there is a next one
                self.log(f"what waits is looked at again: {fault!r}")
                gap = RETRY_SECONDS
            # at most a fifth of the time is spent on it, however often it is woken
            await asyncio.sleep(max(gap, 4 * (time.monotonic() - began)))
            try:
                await asyncio.wait_for(self.woken.wait(), self.pause())
            except asyncio.TimeoutError:
                pass
            self.woken.clear()

    def pause(self) -> float:
        """Until the next look at most, so that what waits for its time begins in time."""
        now = time.time()
        return min([self.every, *(group.at - now for group in self.groups if group.at > now)])

    # One look

    async def look(self) -> None:
        """Does for each group what is to be done."""
        idle = [group for group in self.groups if group.key not in self.group_submission.busy]
        for group in idle:
            if group.state == MAKING:
                self.log(f"{', '.join(group.jobs) or 'a submission'}: it was cut short and nobody was told, so it is deleted")
                await self.group_submission.undo(group)
            elif group.state == MADE:
                try:
                    await self.group_submission.enter(group)
                except NotEntered as fault:
                    self.log(str(fault))
        is_whole = time.monotonic() - self.looked >= WHOLE_SECONDS
        await self.look_at([group for group in idle if group.state == ENTERED and (is_whole or not group.over)], is_whole)
        if is_whole:
            self.looked = time.monotonic()

    async def look_at(self, groups: Sequence[Group], is_whole: bool) -> None:
        """Does what is to be done for groups that have entered: of those for which something has come about, or of all."""
        needed, slices = await self.needed(groups), Slices()
        told = await told_of_many(self.site, {job for _, job in needed})
        seen = await seen_by(self.site) if told else {}
        settled: Set[Pair] = set()
        for pair in needed:
            await slices.rest()
            if self.verdict(pair, told, seen) is not None:
                settled.add(pair)
        touched = []
        for group in groups:
            await slices.rest()
            if is_whole or group.most or self.has_news(group, settled):
                touched.append(group)
        told.update(await told_of_many(self.site, {job for group in touched for job in group.jobs}))
        for group in touched:
            await slices.rest()
            await self.check(group, told, seen, settled)

    async def needed(self, groups: Sequence[Group]) -> Set[Pair]:
        """What these groups wait for, each pair once, whatever many wait for it."""
        found: Set[Pair] = set()
        slices = Slices()
        for group in groups:
            await slices.rest()
            found.update((kind, job) for kind, job in group.depend)
        return found

    def has_news(self, group: Group, settled: AbstractSet[Pair]) -> bool:
        """Whether something has come true of what a group waits for, or can't any more."""
        if settled and any((kind, job) in settled for kind, job in group.depend):
            return True
        return not group.depend and bool(group.at) and group.at <= time.time()

    async def check(self, group: Group, told: Dict[str, Job], seen: Seen, settled: AbstractSet[Pair]) -> None:
        """Releases of a group what may go on, and deletes it where that can't come true any more."""
        living = [told[job] for job in group.jobs if job in told and told[job]["letter"]]
        if not living:
            await self.forget(group)
            return
        held = [job for job in living if "s" in job["holds"]]
        if group.is_waiting and not held:
            self.log(f"{living[0]['id']}: its system hold was released by others, so that it waits no more")
            group.depend, group.at = [], 0
        if not await self.resolve(group, told, seen, settled):
            await self.give_up(group, held)
        elif not group.depend and group.at <= time.time():
            await self.release(group, living)

    async def resolve(self, group: Group, told: Dict[str, Job], seen: Seen, settled: AbstractSet[Pair]) -> bool:
        """Takes off what has come true; False where something can't any more."""
        unknown = next((name for _, name in group.depend if name not in told), None)
        if unknown and not group.comment:
            group.comment = f"{unknown}, which is waited for, isn't known any more: qalter -W depend= has it wait for another"
            self.log(f"{', '.join(group.jobs[:5])}: {group.comment}")
        over = [(kind, name) for kind, name in group.depend if (kind, name) in settled]
        failed = next((pair for pair in over if self.verdict(pair, told, seen) is False), None)
        if failed:
            group.comment = f"{failed[0]}:{failed[1]} can't come true"
            return False
        if over:
            group.depend = [[kind, name] for kind, name in group.depend if (kind, name) not in settled]
            await asyncio.to_thread(self.groups.save, group)
        return True

    def verdict(self, pair: Pair, told: Dict[str, Job], seen: Seen) -> Optional[bool]:
        """Whether a dependency has come true. One of a job that isn't known any more waits for a person."""
        kind, name = pair
        job = told.get(name)
        if job is None:
            return None
        is_gone = job["deleted"] and not job["begun"]
        return verdict(kind, job, is_gone and self.deletions.is_final(job, seen))

    async def give_up(self, group: Group, held: Sequence[Job]) -> None:
        """Deletes the jobs of a group that would wait for ever."""
        names = [job["id"] for job in held]
        self.log(f"{', '.join(names[:5])}{' ..' if names[5:] else ''}: deleted, since {group.comment}")
        for name in names:
            self.mail.comment(name, group.comment)
        if group.indices:
            await asyncio.to_thread(self.groups.save, group)
        elif names:
            await asyncio.to_thread(self.spool.annotate, names[0], {"comment": group.comment})
        await ask_each(self.site, "qdel", names)
        self.changed()

    async def release(self, group: Group, living: Sequence[Job]) -> None:
        """Releases the system holds of those whose turn it is."""
        waiting = [job["id"] for job in living if "s" in job["holds"]]
        if group.most:
            waiting = waiting[: max(0, group.most - (len(living) - len(waiting)))]
        if waiting:
            await ask_each(self.site, "qrls -h s", waiting)
            self.log(f"{', '.join(waiting[:5])}{' ..' if waiting[5:] else ''}: released, since nothing is waited for any more")
            self.changed()
        if not group.indices:
            await asyncio.to_thread(self.groups.remove, group)
        elif group.at:
            group.at = 0
            await asyncio.to_thread(self.groups.save, group)

    async def forget(self, group: Group) -> None:
        """Forgets a group whose jobs are all gone, an array as soon as their scripts are removed from the spool."""
        is_kept = group.indices and any(self.spool.facts(job) is not None for job in group.jobs)
        if not is_kept:
            await asyncio.to_thread(self.groups.remove, group)
        elif not group.over:
            group.depend, group.at, group.over = [], 0, True
            await asyncio.to_thread(self.groups.save, group)
