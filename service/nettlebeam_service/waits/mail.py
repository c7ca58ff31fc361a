"""Mail about jobs that were submitted here: when one begins, ends, is lost or deleted, as its owner asked.

    mail/1.argonne      whom, when, and what was sent already

What is sent is noted before, so that no mail comes twice, whatever is killed.
"""
from __future__ import annotations

import asyncio
import contextlib
import json
import os
import signal
import time
from typing import Any, Callable, Dict, List, Optional, Tuple

from ..common.config import JobKeys
from ..common.files import read_json, remove, write
from ..common.identifiers import IDENTIFIER
from ..housekeeping.accounting import is_settled
from ..node.job_files import shown_id, whole_name
from ..site.looks import Job, told_of_many
from ..site.site import Site
from ..site.spool import Spool

POINTS = "abe"
DEFAULT_POINTS = "a"  # as PBS has it where a user is named and no point
LOST = 255
SECONDS = 60
LOOK_SECONDS = 2.0
AT_ONCE = 4
ADDRESS_MARKS = "@.-_+%=/!"


def addresses(text: str, owner: str) -> List[str]:
    """The addresses in a list; the owner's name where there is none."""
    found = [it for it in text.split(",") if it and all(char.isalnum() or char in ADDRESS_MARKS for char in it)]
    return [it for it in found if not it.startswith("-")] or [owner]


def points_of(facts: Dict[str, Any]) -> str:
    """When mail is asked for; nothing where it isn't."""
    points = str(facts.get("mail") or (DEFAULT_POINTS if facts.get("mail_to") else ""))
    return "".join(point for point in POINTS if point in points)


def event_of(job: Job, sent: str, here: str) -> Optional[Tuple[str, str]]:
    """The next point of a job that no mail was sent of, and its words."""
    ended = job["finished"]
    if job["begun"] and "b" not in sent:
        return "b", "Begun execution"
    if ended and (job["deleted"] or ended["status"] == LOST) and "a" not in sent:
        return "a", "Aborted: deleted" if job["deleted"] else "Aborted: lost, or ended with 255"
    if ended and "e" not in sent:
        return "e", f"Execution terminated\nExit_status={ended['status']}"
    if not job["begun"] and job["deleted"] and is_settled(job, here) and "a" not in sent:
        return "a", "Aborted: deleted before it began"
    return None


NO_MAIL = "mail is without effect, since this site sends none"


class Mail:
    """Sends it."""

    def __init__(self, here: str, keys: JobKeys, site: Site, spool: Spool, log: Callable[[str], None]):
        self.here = here
        self.keys = keys
        self.site = site
        self.spool = spool
        self.log = log
        self.folder = os.path.join(spool.folder, "mail")
        self.asked: Dict[str, Dict[str, Any]] = {}
        self.comments: Dict[str, str] = {}
        self.tasks: "set[asyncio.Task[None]]" = set()
        self.places = asyncio.Semaphore(AT_ONCE)
        self.next_look = 0.0

    def open(self) -> None:
        """Reads what was asked before."""
        os.makedirs(self.folder, mode=0o700, exist_ok=True)
        for name in os.listdir(self.folder):
            asked = read_json(os.path.join(self.folder, name)) if IDENTIFIER.match(name) else None
            if asked is not None:
                self.asked[name] = asked

    def know(self, job: str) -> None:
        """Takes what a job's owner asks for."""
        facts = self.spool.facts(job) or {}
        points = points_of(facts)
        if self.keys.mail and points:
            asked = {"points": points, "to": addresses(facts.get("mail_to", ""), facts.get("owner", "")), "sent": ""}
            self.keep(job, asked)

    def keep(self, job: str, asked: Dict[str, Any]) -> None:
        """Has the disk keep what was asked and sent."""
        write(os.path.join(self.folder, job), json.dumps(asked).encode())
        self.asked[job] = asked

    def comment(self, job: str, text: str) -> None:
        """Keeps why a job is deleted, for its mail."""
        self.comments[job] = text

    async def look(self) -> None:
        """Sends what is to be sent. How jobs stand is asked for now and then alone, since many may be looked at."""
        if not self.asked or time.monotonic() < self.next_look:
            return
        self.next_look = time.monotonic() + LOOK_SECONDS
        told = await told_of_many(self.site, self.asked)
        for name, asked in list(self.asked.items()):
            job = told.get(name)
            event = event_of(job, asked["sent"], self.here) if job else None
            while job and event:
                self.keep(name, {**asked, "sent": asked["sent"] + event[0]})
                asked = self.asked[name]
                if event[0] in asked["points"]:
                    self.send(job, asked["to"], event[1])
                event = event_of(job, asked["sent"], self.here)
            if job is None or job["finished"] or (job["deleted"] and is_settled(job, self.here)):
                self.asked.pop(name)
                remove(os.path.join(self.folder, name))

    def send(self, job: Job, people: List[str], text: str) -> None:
        """Sends one mail, beside all else."""
        facts, why = self.spool.facts(job["id"]) or {}, self.comments.pop(job["id"], "")
        name = shown_id(job["id"], facts)
        head = f"To: {', '.join(people)}\nSubject: PBS JOB {name}\nAuto-Submitted: auto-generated\n"
        body = f"PBS Job Id: {name}\nJob Name:   {whole_name(job, facts)}\n{text}\n{why}{chr(10) if why else ''}"
        task = asyncio.ensure_future(self.run(name, f"{head}\n{body}".encode("utf-8", "replace")))
        self.tasks.add(task)
        task.add_done_callback(self.tasks.discard)

    async def run(self, name: str, message: bytes) -> None:
        """Runs the command that takes a mail."""
        pipe, null = asyncio.subprocess.PIPE, asyncio.subprocess.DEVNULL
        async with self.places:
            began = time.monotonic()
            try:
                process = await asyncio.create_subprocess_exec(
                    *self.keys.mail, stdin=pipe, stdout=null, stderr=pipe, cwd="/", start_new_session=True
                )
            except OSError as fault:
                self.log(f"{name}: no mail is sent: {self.keys.mail[0]}: {fault.strerror}")
                return
            try:
                _, errors = await asyncio.wait_for(process.communicate(message), SECONDS)
            except asyncio.TimeoutError:
                with contextlib.suppress(OSError):
                    os.killpg(process.pid, signal.SIGKILL)
                errors = f"no end after {time.monotonic() - began:.0f} s".encode()
            if process.returncode:
                self.log(f"{name}: no mail is sent: {errors.decode('utf-8', 'replace').strip()[-200:]}")
