"""The page: a small server for browsers on this machine, which reads the looks of the site and changes nothing."""
from __future__ import annotations

import asyncio
import json
import re
import time
from typing import Any, Awaitable, Callable, Dict, List, NamedTuple, Sequence, Tuple
from urllib.parse import parse_qs, urlsplit

from ..clients.clients import Busy
from ..common.config import Config
from ..housekeeping.capacity import MOST_JOBS, Capacity
from ..jobs.active_runs import Runs
from ..peers.peers import Peers
from ..peers.unheard_changes import Unheard
from ..nodes.nodes import HostState
from ..site.backup import Backup
from ..site.lines import JOB
from ..site.looks import STARTS, jobs_told, living, machine_of, plan_of, reservations_of, told_of
from ..site.site import Site, Stopped
from . import html
from .connections import Connections
from .metrics import KIND, Metrics

ADDRESS = "127.0.0.1"
BACKLOG = 32
MOST_HEAD = 8192
Reasons = Callable[[Sequence[str]], Dict[str, str]]
SECONDS = 10.0
RETRY_SECONDS = 10.0
KEPT_SECONDS = 2.0
HEADERS = {
    "Cache-Control": "no-store",
    "Connection": "close",
    "Content-Security-Policy": "default-src 'none'; style-src 'unsafe-inline'",
    "Referrer-Policy": "no-referrer",
    "X-Content-Type-Options": "nosniff",
}
REASONS = {
    200: "OK",
    400: "Bad Request",
    403: "Forbidden",
    404: "Not Found",
    405: "Method Not Allowed",
    500: "Internal Server Error",
    503: "Service Unavailable",
}
RUN_NOTICES = {
    "drain": "No job begins here; those that run are left to their ends.",
    "no": "Jobs aren't run here by this service.",
}
# by whatever port it is reached, as behind `ssh -L`
OF_THIS_MACHINE = re.compile(r"(127\.0\.0\.1|localhost|\[::1\])(:[0-9]{1,5})?\Z", re.IGNORECASE)
JOB_PATH = re.compile(rf"/jobs/({JOB})\Z")


class Response(NamedTuple):
    """What a browser is told."""

    status: int
    body: str
    kind: str = "text/html; charset=utf-8"

    def data(self, with_body: bool) -> bytes:
        """Its bytes."""
        body = self.body.encode("utf-8")
        headers = {**HEADERS, "Content-Type": self.kind, "Content-Length": str(len(body))}
        lines = [f"HTTP/1.1 {self.status} {REASONS[self.status]}", *(f"{it}: {value}" for it, value in headers.items()), "", ""]
        return "\r\n".join(lines).encode("ascii") + (body if with_body else b"")


def held_of(jobs: Sequence[Dict[str, Any]]) -> List[str]:
    """Those of jobs that were deleted or are held."""
    return [job["id"] for job in jobs if job["deleted"] or job["holds"]]


def problem(status: int, text: str) -> Response:
    """A page that tells why there is no other."""
    return Response(status, html.document("Nettlebeam", html.paragraph(text)))


class Page:
    """Answers browsers."""

    def __init__(
        self,
        config: Config,
        site: Site,
        backup: Backup,
        peers: Peers,
        runs: Runs,
        capacity: Capacity,
        metrics: Metrics,
        waits: Reasons,
        unheard: Unheard,
        log: Callable[[str], None],
    ):
        self.config = config
        self.site = site
        self.backup = backup
        self.peers = peers
        self.runs = runs
        self.capacity = capacity
        self.metrics = metrics
        self.waits = waits  # what the service has jobs wait for
        self.unheard = unheard
        self.log = log
        self.connections = Connections()
        self.kept: Dict[str, Tuple[float, "asyncio.Future[Any]"]] = {}

    async def run(self) -> None:
        """Listens for browsers of this machine. Where the port isn't free, the queue goes on without a page."""
        told = ""
        while True:
            try:
                server = await asyncio.start_server(self.serve, ADDRESS, self.config.page.port, limit=MOST_HEAD, backlog=BACKLOG)
            except OSError as fault:
                if told != str(fault):
                    told = str(fault)
                    self.log(f"there is no page now: {told}")
                await asyncio.sleep(RETRY_SECONDS)
                continue
            await server.serve_forever()

    async def serve(self, reader: asyncio.StreamReader, writer: asyncio.StreamWriter) -> None:
        """Serves one connection: one request."""
        try:
            with self.connections.until_heard(writer):
                head = await asyncio.wait_for(reader.readuntil(b"\r\n\r\n"), SECONDS)
            async with self.connections.place(writer):
                response, with_body = await self.respond(head.decode("latin-1"))
                writer.transport.set_write_buffer_limits(high=0)
                writer.write(response.data(with_body))
                await asyncio.wait_for(writer.drain(), SECONDS)
        except Busy as fault:
            writer.write(problem(503, f"{fault}.").data(True))
        except (OSError, asyncio.IncompleteReadError, asyncio.LimitOverrunError, asyncio.TimeoutError):
            writer.transport.abort()  # the browser has gone, is too slow, or asks too much
        finally:
            writer.close()

    async def respond(self, head: str) -> Tuple[Response, bool]:
        """The response to the head of a request, and whether its body is wanted."""
        lines = head.split("\r\n")
        words = lines[0].split(" ")
        hosts = [line.partition(":")[2].strip() for line in lines[1:] if line.lower().startswith("host:")]
        if len(words) != 3 or len(hosts) != 1:
            return problem(400, "This is no request of a browser."), True
        method, target, _ = words
        # a page elsewhere whose name leads to this machine must not read this one
        if not OF_THIS_MACHINE.match(hosts[0]):
            return problem(403, "This page is asked by another name."), True
        if method not in ("GET", "HEAD"):
            return problem(405, "This page is for reading alone."), True
        try:
            return await self.page(target), method == "GET"
        except Stopped as fault:
            return problem(503, f"The site stopped: {fault}."), method == "GET"
        except Exception as fault:  # a fault of the page is told, and ends nothing else
            self.log(f"the page {target[:100]!r} can't be made: {fault!r}")
            return problem(500, "This page can't be made; the log of the service tells why."), method == "GET"

    async def page(self, target: str) -> Response:
        """The page of a path."""
        try:
            parts = urlsplit(target)
            start = int(parse_qs(parts.query).get("from", ["1"])[0])
        except ValueError:
            return problem(404, "There is no such page.")
        found = JOB_PATH.match(parts.path)
        if parts.path == "/":
            return await self.queue(max(1, min(start, 10**9)))
        if parts.path == "/jobs.json":
            jobs = await self.kept_of("jobs", lambda: jobs_told(self.site))
            return Response(200, "[" + ",\n".join(json.dumps(it, separators=(",", ":")) for it in jobs) + "]\n", "application/json")
        if parts.path == "/metrics":
            return Response(200, await self.metrics.text(), KIND)
        if found:
            return await self.job(found.group(1))
        return problem(404, "There is no such page.")

    async def kept_of(self, what: str, look: Callable[[], Awaitable[Any]]) -> Any:
        """What the site tells, kept for some seconds, so that many browsers cost no more than one."""
        now = time.monotonic()
        self.kept = {it: kept for it, kept in self.kept.items() if kept[0] > now}
        if what not in self.kept:
            self.kept[what] = (now + KEPT_SECONDS, asyncio.ensure_future(look()))
        return await asyncio.shield(self.kept[what][1])

    async def queue(self, start: int) -> Response:
        """The site: its machine, its queue from the job of this place on, its reservations and its peers."""
        moment, site = int(time.time() / KEPT_SECONDS) * int(KEPT_SECONDS), self.site
        machine, plan, reservations, queued = await asyncio.gather(
            self.kept_of("machine", lambda: machine_of(site, moment)),
            self.kept_of("plan", lambda: plan_of(site, moment)),
            self.kept_of("reservations", lambda: reservations_of(site)),
            self.kept_of("queue", lambda: living(site)),
        )
        jobs = queued[start - 1 : start - 1 + self.config.page.jobs]
        shown, known = [job["id"] for job in jobs], {job["id"]: job for job in queued}
        waits, hosts, unheard = self.waits(shown), self.hosts(), await self.unheard.of(held_of(jobs))
        await self.capacity.count()
        places, notices = (self.capacity.own, MOST_JOBS), self.notices()
        view = html.View(self.config.name, moment, notices, machine, plan, reservations, known, waits, places, hosts, unheard)
        body = html.queue(view, jobs, start, len(queued), self.config.page.jobs, list(self.peers))
        return Response(200, html.document(f"{self.config.name}: the queue", body))

    def hosts(self) -> List[HostState]:
        """The nodes on which jobs run; none where all run on this machine."""
        return self.runs.nodes.states() if self.config.jobs.link else []

    def notices(self) -> List[str]:
        """What keeps this site from its work, in words."""
        found = []
        if self.site.lost_state.loss:
            found.append(f"Nothing changes this site: {self.site.lost_state.loss}.")
        if self.config.jobs.run != "yes":
            found.append(RUN_NOTICES[self.config.jobs.run])
        if not self.site.has_room():
            found.append("The disk of the site is full, so nothing that changes it is taken.")
        if not self.runs.spool.has_room():
            found.append("The disk of the spool is full, so no script is taken.")
        if self.capacity.surplus():
            found.append(f"The site is nearly full: it has {self.capacity.in_words()}.")
        doubts = sorted(run.job for run in self.runs.all.values() if run.doubt)
        if doubts:
            found.append(f"It isn't known whether these jobs run, since their nodes can't be asked: {', '.join(doubts)}.")
        silent = [peer.name for peer in self.peers if peer.trouble]
        if silent:
            found.append(f"Not reached: {', '.join(silent)}.")
        if self.backup.trouble:
            found.append(f"The backup fails, so no packet leaves and no job begins: {self.backup.trouble}")
        return found

    async def job(self, name: str) -> Response:
        """One job."""
        job = next(iter((await told_of(self.site, [name])).values()), None)
        if job is None:
            return problem(404, f"This site knows no job {name}.")
        answer = await self.site.look(f"why {name} {int(time.time())}")
        why = answer.shown()
        if job["letter"] == "H" or answer.is_just(STARTS):
            why = self.waits([job["id"]]).get(job["id"], why)
        why = "; ".join([why, *(await self.unheard.of(held_of([job]))).values()])
        return Response(200, html.document(f"{job['id']}: a job", html.job(job, why)))
