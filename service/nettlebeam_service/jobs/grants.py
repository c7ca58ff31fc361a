"""Grants of jobs that were submitted at other sites, with their scripts; and grants that aren't used."""
from __future__ import annotations

import asyncio
import time
from typing import Callable, Dict, Sequence, Set

from ..common.config import Config
from ..peers.folder_link import ASKED
from ..peers.links import NotNow, PeerFault
from ..peers.peers import Peers
from ..site.looks import Job, is_granted_to, living
from ..site.site import Site, Stopped
from ..site.spool import Spool
from .active_runs import Runs

RETRY_SECONDS = 10


class Grants:
    """Asks for grants, and hands back what isn't begun."""

    def __init__(self, config: Config, site: Site, spool: Spool, peers: Peers, runs: Runs, log: Callable[[str], None]):
        self.config = config
        self.site = site
        self.spool = spool
        self.peers = peers
        self.runs = runs
        self.log = log
        self.preparing: Set[str] = set()
        self.fetched: Set[str] = set()  # scripts of other sites: an older one of the same name may be of another job
        self.not_before: Dict[str, float] = {}
        self.since: Dict[str, float] = {}

    def is_put_off(self, name: str) -> bool:
        """Whether a job couldn't be had a short while ago."""
        return self.not_before.get(name, 0.0) > time.monotonic()

    def prepare(self, origin: str, jobs: Sequence[Job]) -> None:
        """Gets the grants and the scripts of jobs that were submitted at another site, beside all else."""
        self.preparing.update(job["id"] for job in jobs)
        self.runs.spawn(self.prepare_all(origin, jobs))

    async def prepare_all(self, origin: str, jobs: Sequence[Job]) -> None:
        """Asks the origin of jobs for their grants, takes its packet, and fetches the scripts of those that it granted."""
        got = [job["id"] for job in jobs if is_granted_to(job, self.config.name)]
        try:
            asked = [job["id"] for job in jobs if job["id"] not in got]
            if asked:
                got += await self.ask(origin, asked)
            for name in got:
                facts, script = await self.peers.script(origin, name)
                self.spool.name(await asyncio.to_thread(self.spool.draft, facts, script), name)
                await self.spool.names.done()
                self.fetched.add(name)
        except NotNow:
            pass  # which was logged when it couldn't be reached
        except (PeerFault, Stopped, OSError) as fault:
            self.log(f"{origin}: {len(jobs)} jobs can't be prepared: {fault}")
        finally:
            for job in jobs:
                self.preparing.discard(job["id"])
                if job["id"] not in self.fetched:
                    self.not_before[job["id"]] = time.monotonic() + RETRY_SECONDS
            self.runs.wake()

    async def ask(self, origin: str, names: Sequence[str]) -> Sequence[str]:
        """Asks for grants, and takes the packet that tells of them, or of whom the jobs are granted to; those that it got."""
        answers = await self.peers.grants(origin, list(names))
        await self.peers.fetch(origin)
        got = [name for name, answer in answers.items() if answer in ("granted", "yours")]
        refused = [f"{name} {answer}" for name, answer in answers.items() if name not in got and answer != ASKED]
        if refused:
            self.log(f"{origin} doesn't grant {', '.join(refused)}")
        return got

    async def hand_back(self) -> Set[str]:
        """Hands back each grant that could not be begun for long; the jobs that aren't gone."""
        jobs, moment = await living(self.site), time.monotonic()
        names = {job["id"] for job in jobs}
        self.not_before = {name: later for name, later in self.not_before.items() if later > moment}
        self.fetched &= names
        here = [job["id"] for job in jobs if job["letter"] in "TH" and is_granted_to(job, self.config.name)]
        self.since = {name: self.since.get(name, moment) for name in here if not self.runs.is_busy(name)}
        for name, since in self.since.items():
            if moment - since >= self.config.jobs.handback or self.config.jobs.run == "drain":
                answer = await self.site.ask(f"handback {name}")
                self.log(f"{name}: it isn't begun here, so its grant is handed back: {answer.shown()}")
        return names
