"""What the service keeps besides the site and the runs: arrays, jobs that wait, mail, and the listings of these."""
from __future__ import annotations

import asyncio
from typing import AbstractSet, Any, Callable, Dict, Optional, Sequence

from ..common.config import Config
from ..housekeeping.usage import Usage
from ..jobs.active_runs import Runs
from ..site.answers import Answer
from ..site.looks import STARTS, Job
from ..site.site import Site
from ..site.spool import Spool
from .alterations import Alterations
from .arrays import Arrays
from .details import LEFT_ALONE, Details
from .group_submission import GroupSubmission
from .groups import Groups
from .mail import NO_MAIL, Mail, points_of
from .releasing import Releasing


class Waits:
    """All of them."""

    def __init__(
        self,
        config: Config,
        site: Site,
        spool: Spool,
        runs: Runs,
        log: Callable[[str], None],
        changed: Callable[[], None],
    ):
        name = self.here = config.name
        self.groups = Groups(config.site.spool)
        self.group_submission = GroupSubmission(name, site, spool, self.groups, log)
        self.mail = Mail(name, config.jobs, site, spool, log)
        self.releasing = Releasing(name, site, spool, self.group_submission, self.mail, config.jobs.every, log, changed)
        self.altering = Alterations(name, site, spool, self.releasing, self.mail, changed)
        self.arrays = Arrays(name, site, self.groups)
        self.usage = Usage(site, config.house.accounting)
        self.details = Details(name, site, spool, self.groups, runs, config.house.accounting)
        self.left_alone: AbstractSet[str] = frozenset()
        spool.added = self.groups.added

    def leave_alone(self, jobs: AbstractSet[str]) -> None:
        """Takes the set of the jobs that are left alone, which changes."""
        self.left_alone = self.details.left_alone = jobs

    def open(self) -> None:
        """Reads what is in the spool."""
        self.groups.open()
        self.mail.open()

    def use(self, config: Config) -> None:
        """Goes on with another configuration."""
        self.mail.keys = config.jobs
        self.releasing.every = config.jobs.every
        self.releasing.wake()

    async def with_mail(self, answer: Answer, jobs: Sequence[str], facts: Dict[str, Any]) -> Answer:
        """The answer to the submission of these jobs, once the mail is noted that its facts ask for; with words where none is
        sent."""
        if not jobs or not points_of(facts):
            return answer
        if not self.mail.keys.mail:
            return answer.with_words(NO_MAIL)
        if self.groups.array(jobs[0]) and "j" not in str(facts.get("mail", "")):
            return answer.with_words("of an array mail is sent for each member, where -m has a j, and none else")
        for job in jobs:
            await asyncio.to_thread(self.mail.know, job)
        return answer

    def with_reason(self, answer: Answer, job: Optional[Job]) -> Answer:
        """The site's answer to why a job waits, with words for what the service has it wait for, or why it is left alone."""
        if job is None:
            return answer
        if job["id"] in self.left_alone and answer.is_just(STARTS):
            return answer.with_words(f"{job['id']} doesn't: {LEFT_ALONE}")
        group = self.groups.by_job.get(job["id"])
        if group is None or not group.is_waiting or job["letter"] != "H":
            return answer
        return answer.with_words(group.in_words())

    def reasons(self, jobs: Sequence[str]) -> Dict[str, str]:
        """What those of these jobs wait for that wait by the service, or are left alone by it."""
        alone = {job: LEFT_ALONE for job in jobs if job in self.left_alone}
        found = {job: self.groups.by_job[job] for job in jobs if job in self.groups.by_job}
        return {**alone, **{job: group.in_words() for job, group in found.items() if group.is_waiting}}
