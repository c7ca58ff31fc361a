"""What is measured, in the text format of Prometheus: `/metrics` on the page's port."""
from __future__ import annotations

import asyncio
import os
import time
from typing import Callable, Dict, Iterator, List, Mapping, Optional, Tuple

from ..clients.clients import Clients
from ..housekeeping.capacity import GONE, MOST_JOBS, Capacity
from ..nodes.nodes import HostState
from ..peers.peers import Peers
from ..site.backup import Backup
from ..site.spool import Spool

KIND = "text/plain; version=0.0.4; charset=utf-8"
KEPT_SECONDS = 60.0
STATES = {"Q": "waiting", "H": "held", "T": "granted", "R": "running", "E": "ending", GONE: "gone"}
Samples = Mapping[str, float]


def bytes_below(folder: str) -> int:
    """How many bytes the files below a folder have."""
    total = 0
    for place, _, names in os.walk(folder):
        for name in names:
            try:
                total += os.lstat(os.path.join(place, name)).st_size
            except OSError:
                pass  # it is gone meanwhile
    return total


def family(name: str, kind: str, about: str, samples: Samples) -> Iterator[str]:
    """The lines of one thing that is measured, with the labels of each of its values."""
    yield f"# HELP nettlebeam_{name} {about}"
    yield f"# TYPE nettlebeam_{name} {kind}"
    for labels, value in samples.items():
        yield f"nettlebeam_{name}{labels} {value:.12g}"


def age(since: Optional[float], now: float) -> Dict[str, float]:
    """The sample of an age; none where it never was."""
    return {} if since is None else {"": max(0.0, now - since)}


class Metrics:
    """Tells what is measured."""

    def __init__(
        self,
        capacity: Capacity,
        spool: Spool,
        peers: Peers,
        backup: Backup,
        clients: Clients,
        looked_at: Callable[[], Optional[float]],
        hosts: Callable[[], List[HostState]],
    ):
        self.capacity = capacity
        self.spool = spool
        self.peers = peers
        self.backup = backup
        self.clients = clients
        self.looked_at = looked_at
        self.hosts = hosts
        self.spool_bytes: Tuple[float, int] = (0.0, 0)  # until when it is kept, and how many

    async def text(self) -> str:
        """All lines."""
        await self.capacity.count()
        now = time.monotonic()
        if self.spool_bytes[0] <= now:
            self.spool_bytes = (now + KEPT_SECONDS, await asyncio.to_thread(bytes_below, self.spool.folder))
        lines = [*self.jobs(), *self.disk(), *self.ages(time.monotonic()), *self.packets(), *self.nodes(), *self.answers()]
        return "".join(f"{line}\n" for line in lines)

    def jobs(self) -> Iterator[str]:
        """The jobs, as they were counted within the last ten seconds."""
        states = {f'{{state="{name}"}}': float(self.capacity.states[letter]) for letter, name in STATES.items()}
        yield from family("jobs", "gauge", "Jobs of all sites that are known here.", states)
        yield from family("site_jobs", "gauge", "Jobs of this site that are not retired.", {"": self.capacity.own})
        yield from family("site_jobs_limit", "gauge", "How many jobs of this site there may be.", {"": MOST_JOBS})

    def disk(self) -> Iterator[str]:
        """The spool."""
        state = os.statvfs(self.spool.folder)
        free = state.f_bavail * state.f_frsize
        yield from family("spool_bytes", "gauge", "Bytes of the files in the spool.", {"": self.spool_bytes[1]})
        yield from family("spool_free_bytes", "gauge", "Bytes that are free on its disk.", {"": free})

    def ages(self, now: float) -> Iterator[str]:
        """How long ago things were done."""
        yield from family("last_look_age_seconds", "gauge", "Since the last look for jobs that start.", age(self.looked_at(), now))
        yield from family("last_backup_age_seconds", "gauge", "Since the last backup that succeeded.", age(self.backup.copies.last, now))

    def packets(self) -> Iterator[str]:
        """The packets to and from other sites."""
        samples: Dict[str, float] = {}
        for peer in self.peers:
            for way, moment in (("given", peer.last_given), ("taken", peer.last_taken)):
                if moment is not None:
                    samples[f'{{peer="{peer.name}",way="{way}"}}'] = max(0.0, time.time() - moment)
        yield from family("peer_packet_age_seconds", "gauge", "Since the last packet to and from another site.", samples)
        reached = {f'{{peer="{peer.name}"}}': float(not peer.trouble) for peer in self.peers}
        yield from family("peer_reached", "gauge", "Whether another site was reached when it was asked last.", reached)

    def nodes(self) -> Iterator[str]:
        """The nodes."""
        hosts = self.hosts()
        down = {f'{{node="{it.name}"}}': float(it.is_down) for it in hosts}
        trouble = {f'{{node="{it.name}"}}': float(it.is_in_trouble) for it in hosts}
        yield from family("node_down", "gauge", "Whether no job begins on a node, drained ones left out.", down)
        yield from family("node_trouble", "gauge", "Whether somebody's jobs couldn't be started on a node lately.", trouble)

    def answers(self) -> Iterator[str]:
        """What users and peers were answered at the socket."""
        counts = {f'{{status="{status}"}}': float(count) for status, count in sorted(self.clients.answers.items())}
        yield from family("answers_total", "counter", "Answers at the socket, by their status.", counts)
        yield from family("answer_seconds_total", "counter", "Seconds from requests to these answers.", {"": self.clients.seconds})
        yield from family("clients", "gauge", "Clients that are connected.", {"": self.clients.all})


__all__: List[str] = ["KIND", "Metrics"]
