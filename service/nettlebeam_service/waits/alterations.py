"""What users alter of jobs that wait: what the service tells a job when it begins, and what it has it wait for."""
from __future__ import annotations

import asyncio
import re
from typing import Any, Callable, Dict, List, Optional, Tuple

from ..common.wire import MOST_VARIABLES, OF_OPTIONS, Reply, Request, are_variables, split_body
from ..site.looks import origin_of, told_of
from ..site.lines import JOB, Client, Denied, asker
from ..site.site import Site
from ..site.spool import Spool
from .group_submission import SERVICE, GroupSubmission, moment_in
from .groups import ENTERED, MADE, Group, Groups
from .mail import NO_MAIL, Mail, points_of
from .releasing import Releasing

ONE_JOB = re.compile(f"{JOB}\\Z")
WAITS = ("depend", "at")
FIXED = ("arguments", "array", "queue", "variables", *WAITS)


class Alterations:
    """Answers `alter JOB ..`, whose facts are what is altered: a line for each job."""

    def __init__(self, here: str, site: Site, spool: Spool, releasing: Releasing, mail: Mail, changed: Callable[[], None]):
        self.here = here
        self.site = site
        self.spool = spool
        self.releasing = releasing
        self.mail = mail
        self.changed = changed

    @property
    def group_submission(self) -> GroupSubmission:
        """What sets holds."""
        return self.releasing.group_submission

    @property
    def groups(self) -> Groups:
        """What waits."""
        return self.releasing.groups

    async def answer(self, client: Client, request: Request) -> Reply:
        """The reply: a line for each job, and why what isn't done isn't."""
        if len(request.words) < 2 or not all(map(ONE_JOB.match, request.words[1:])):
            raise Denied("the words of alter are wrong")
        variables, _ = split_body(request)
        facts: Dict[str, Any] = {key: it for key, it in request.facts.items() if key in OF_OPTIONS and key not in FIXED}
        if variables:
            facts["variables"] = variables
        waits = {key: it for key, it in request.facts.items() if key in WAITS}
        who, told = asker(client, request.role), {}
        for word in dict.fromkeys(request.words[1:]):  # one that is named again is altered already
            told[word] = await self.alter(who, word, facts, waits)
        lines = [f"{told[word][0]}\n" for word in request.words[1:]]
        words = [why for _, why in told.values() if why]
        self.releasing.wake()
        self.changed()
        is_done = all(line == "done\n" for line in lines)
        return Reply(0 if is_done else 1, "".join(lines).encode("ascii"), "\n".join(words))

    async def alter(self, who: str, word: str, facts: Dict[str, Any], waits: Dict[str, str]) -> Tuple[str, str]:
        """Alters a job; the line that answers for it, and why it isn't done."""
        told = next(iter((await told_of(self.site, [word])).values()), None)
        answer = await self.site.ask(f"{who} qalter {word}")  # whether this user may, and the job isn't granted yet
        if not answer.is_just("done") or told is None:
            return answer.shown(), answer.beside()
        job = told["id"]
        if origin_of(job) != self.here:
            return "refused 5", f"{job} was submitted at {origin_of(job)}: ask there"
        refusal = await self.keep(job, facts) if facts else None
        if refusal:
            return refusal
        if waits:
            depend = await self.group_submission.depends_of(waits["depend"]) if "depend" in waits else None
            async with self.releasing.lock:
                return await self.await_others(told, waits, depend)
        return "done", NO_MAIL if points_of(facts) and not self.mail.keys.mail else ""

    async def keep(self, job: str, facts: Dict[str, Any]) -> Optional[Tuple[str, str]]:
        """Puts facts into those of a job; why that isn't so, where it isn't."""
        older = self.spool.facts(job)
        if older is None:
            return "failed", f"{job} has no script here"
        if not are_variables({**older.get("variables", {}), **facts.get("variables", {})}):
            return "failed", f"{job} would have more than {MOST_VARIABLES} bytes of variables"
        await asyncio.to_thread(self.spool.annotate, job, facts)
        if "mail" in facts or "mail_to" in facts:
            await asyncio.to_thread(self.mail.know, job)
        now = (await told_of(self.site, [job])).get(job)
        if now is None or now["grant"] or not now["letter"]:
            return "refused 4", f"{job} was granted meanwhile, so that it may run as it was before"
        return None

    async def await_others(self, told: Dict[str, Any], waits: Dict[str, str], depend: Optional[List[List[str]]]) -> Tuple[str, str]:
        """Sets what a job waits for, these jobs where some are given."""
        job, group = told["id"], self.groups.by_job.get(told["id"])
        if group is None or (not group.indices and "s" not in told["holds"]):
            group = Group(state=MADE, held=True, owner=told["owner"], name=told["name"], jobs=[job])
        elif group.indices:
            raise Denied(f"{job} is a member of an array, and waits as all of it")
        if depend is not None:
            group.depend = depend
        if "at" in waits:
            group.at = moment_in(waits["at"])
        group.comment = ""
        await asyncio.to_thread(self.groups.save, group)
        self.groups.know(group)
        return await self.hold(group, job) if group.state == MADE else ("done", "")

    async def hold(self, group: Group, job: str) -> Tuple[str, str]:
        """Sets the system hold of a job that didn't wait; what the site answers."""
        answer = await self.site.ask(f"{SERVICE} qhold -h s {job}")
        if not answer.is_just("done"):
            await asyncio.to_thread(self.groups.remove, group)
            return answer.shown(), answer.beside()
        await self.group_submission.advance(group, ENTERED)
        return "done", ""
