"""What users ask of jobs that run here: `qsig` sends a signal, `qmsg` writes a message into a job's files.

The queue isn't changed by them, so the site is asked for the job's state alone, and the service answers: for each job a line,
`done`, the refusal that the site would give a command which needs a job that runs here, or `failed`.
"""
from __future__ import annotations

import re
import signal
from typing import Any, Dict, NamedTuple, Optional, Sequence

from ..common.wire import Reply, Request
from ..jobs.active_runs import Runs
from ..nodes.link import Answer, NodeFault
from ..site.answers import Answer as SiteAnswer
from ..site.looks import Job, full_name, told_of
from ..site.lines import JOB, Client, Denied, asker, name_of
from ..site.site import Site

TO_RUNNING = ("qsig", "qmsg")
MOST_SIGNAL = 64
MOST_JOBS = 1000
MOST_MESSAGE = 65_536
ASKED_SECONDS = 40.0  # more than a node takes for it
FILES = {"-E": ("err",), "-O": ("out",), "-EO": ("err", "out")}
ONE_JOB = re.compile(f"{JOB}\\Z")


class Refusal(NamedTuple):
    """The line that answers for a job for which nothing is done, and why in words."""

    answer: str
    words: str


def signal_of(word: str) -> int:
    """The number of a signal: `TERM`, `SIGTERM` or `15`."""
    if word.isascii() and word.isdigit() and len(word) <= 2 and int(word) <= MOST_SIGNAL:
        return int(word)
    name = word.upper()
    try:
        return int(signal.Signals[name if name.startswith("SIG") else f"SIG{name}"])
    except KeyError:
        raise Denied(f"{word[:40]!r} is no signal") from None


class Signals:
    """Answers `qsig SIGNAL JOB ..` and `qmsg FILES JOB ..`, whose message is the body of the request."""

    def __init__(self, name: str, site: Site, runs: Runs):
        self.name = name
        self.site = site
        self.runs = runs

    async def answer(self, client: Client, request: Request) -> Reply:
        """The reply: a line for each job, and why what isn't done isn't."""
        words = request.words
        if not 3 <= len(words) <= 2 + MOST_JOBS or not all(map(ONE_JOB.match, words[2:])):
            raise Denied(f"the words of {words[0]} are wrong")
        asker(client, request.role)  # whether this role may be taken
        if words[0] == "qsig":
            number = signal_of(words[1])
        elif words[1] not in FILES or not request.size or request.size > MOST_MESSAGE:
            raise Denied(f"a message has 1 to {MOST_MESSAGE} bytes, and is for -E, -O or both")
        lines, told = [], []
        for word in words[2:]:
            job = next(iter((await told_of(self.site, [word])).values()), None)
            refusal = self.refusal(client, request.role, job) if job else Refusal("refused 1", f"{word} isn't known here")
            if job and refusal is None and words[0] == "qsig":
                refusal = await self.signal(job["id"], number)
            elif job and refusal is None:
                refusal = await self.message(job["id"], FILES[words[1]], request.body)
            lines.append(f"{refusal.answer}\n" if refusal else "done\n")
            told += [refusal.words] if refusal else []
        return Reply(1 if told else 0, "".join(lines).encode("ascii"), "\n".join(told))

    def refusal(self, client: Client, role: Optional[str], job: Job) -> Optional[Refusal]:
        """Why a job can't be sent anything by this client: of several reasons that with the least number."""
        user = name_of(client)
        if job["owner"] != user and role is None:
            return Refusal("refused 2", f"{user} may not send anything to {job['id']}, whose owner is {job['owner']}")
        if job["letter"] is None:
            return Refusal("refused 3", f"{job['id']} is gone")
        if job["begun"] and job["begun"]["site"] != self.name:
            return Refusal("refused 9", f"{job['id']} runs at {job['begun']['site']}: ask there")
        if not job["begun"]:
            return Refusal("refused 11", f"{job['id']} hasn't begun")
        return None

    def note(self, client: Client, words: Sequence[str], answer: SiteAnswer) -> None:
        """Keeps who deleted jobs that run here, which is said of their ends."""
        names = list(dict.fromkeys(full_name(word, self.name) for word in words[1:] if ONE_JOB.match(word)))
        for name in answer.is_about_each(names, "done") if words[0] == "qdel" else ():
            if name in self.runs.all:
                self.runs.all[name].deleter = name_of(client)

    async def signal(self, job: str, number: int) -> Optional[Refusal]:
        """Has a job's runner send a signal to all processes of the job."""
        answer = await self.ask_node(job, {"ask": "signal", "id": job, "number": number})
        if answer["answer"] == "done":
            return None
        return Refusal("failed", f"{job} has no process that it could be sent to")

    async def message(self, job: str, files: Sequence[str], text: bytes) -> Optional[Refusal]:
        """Has a message written into files of a job, as its owner."""
        answer = await self.ask_node(job, {"ask": "message", "id": job, "files": list(files)}, text)
        if answer["answer"] == "done":
            return None
        return Refusal("failed", f"{job}: the message isn't written: {answer.get('why', answer['answer'])}")

    async def ask_node(self, job: str, head: Dict[str, Any], body: bytes = b"") -> Answer:
        """What the home node of a job answers."""
        run = self.runs.all.get(job)
        if run is None:
            return {"answer": "failed", "why": "it has no process"}
        try:
            return await run.node.ask(head, body, ASKED_SECONDS)
        except NodeFault as fault:
            return {"answer": "failed", "why": f"{run.node.shown} can't be asked: {fault}"}
