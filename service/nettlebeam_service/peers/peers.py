"""The other sites: packets that come and go, grants that are asked for, scripts that are fetched."""
from __future__ import annotations

import asyncio
import hashlib
import json
import random
import time
from typing import Any, Callable, Coroutine, Dict, Iterator, List, Mapping, Optional, Tuple

from ..common.config import PeerKeys
from ..common.identifiers import IDENTIFIER
from ..common.wire import ADDED, FACTS, are_variables, is_fact
from ..site.exchange import Exchange
from ..site.looks import counter_of, origin_of
from ..site.packets import BadPacket
from ..site.site import Site, Stopped
from .eligibility import Eligibility
from .folder_link import FolderLink
from .links import CommandLink, Link, NotNow, PeerFault

LEAST_PAUSE = 0.05


class Peer:
    """Another site, and how the exchange with it stands."""

    def __init__(self, name: str, here: str, keys: PeerKeys, log: Callable[[str], None]):
        self.name = name
        self.keys = keys
        self.link: Link = CommandLink(keys)
        if keys.folder:
            self.link = FolderLink(keys.folder, keys.key, here, name, log)
        self.given = 0  # the counter of this site up to which the peer has taken packets
        self.shipped: Optional[str] = None  # the digest of the packet that the peer took last
        self.taken: Optional[str] = None  # the digest of the packet that was last taken of the peer
        self.last_given: Optional[float] = None
        self.last_taken: Optional[float] = None
        self.trouble = ""
        self.failures = 0
        self.next_try = 0.0
        self.next_round = time.monotonic() + random.uniform(0, 0.1) * keys.every

    def succeeded(self) -> None:
        """An exchange is done."""
        self.trouble, self.failures, self.next_try = "", 0, 0.0

    def failed(self, trouble: str) -> float:
        """An exchange isn't done; after how long it is tried again."""
        pause: float = min(self.keys.retry * 2**self.failures, self.keys.retry_most)
        self.trouble, self.failures, self.next_try = trouble, min(self.failures + 1, 10), time.monotonic() + pause
        return pause


class Peers:
    """All other sites that the configuration names."""

    def __init__(
        self,
        here: str,
        all_keys: Mapping[str, PeerKeys],
        site: Site,
        exchange: Exchange,
        eligibility: Eligibility,
        log: Callable[[str], None],
        wake: Callable[[], None],
    ):
        self.here = here
        self.site = site
        self.exchange = exchange
        self.eligibility = eligibility
        self.log = log
        self.wake = wake
        self.peers = {name: Peer(name, here, keys, log) for name, keys in all_keys.items()}

    def __iter__(self) -> Iterator[Peer]:
        return iter(self.peers.values())

    def peer(self, name: str) -> Peer:
        """The peer of a name, where it can be asked now."""
        peer = self.peers.get(name)
        if peer is None:
            raise PeerFault("the configuration doesn't say how it is reached")
        if time.monotonic() < peer.next_try:
            raise NotNow(f"it couldn't be reached: {peer.trouble}")
        return peer

    def is_silent(self, name: str) -> bool:
        """Whether another site can't be reached now, as far as is known."""
        return name not in self.peers or bool(self.peers[name].trouble)

    # Exchange

    def loops(self) -> Iterator[Coroutine[Any, Any, None]]:
        """What exchanges packets with each peer, as long as the service runs."""
        return (self.run_peer(peer) for peer in self)

    async def run_peer(self, peer: Peer) -> None:
        """Exchanges packets with a peer: soon after each change here, and every few minutes."""
        while True:
            await asyncio.sleep(max(peer.keys.soon, LEAST_PAUSE))
            # what a site says that has lost its memory might contradict what it has said, and a full disk takes no packet
            if self.site.lost_state.loss or not self.site.has_room():
                continue
            try:
                counter = await counter_of(self.site, self.here)
                self.check_known(peer)
                is_late = time.monotonic() >= peer.next_round
                if (counter > peer.given or is_late) and time.monotonic() >= peer.next_try:
                    await self.exchange_with(peer, counter)
                    peer.next_round = time.monotonic() + peer.keys.every
                elif await peer.link.has_news():
                    await self.fetch(peer.name)
                for job in await peer.link.asks():
                    await self.give(peer, job)
            except Stopped:
                await self.site.ready.wait()
            except Exception as fault:  # whatever a peer answers, it is asked again
                known = peer.trouble
                pause = peer.failed(str(fault))
                if known != str(fault):
                    self.log(f"{peer.name}: {fault}; it is tried again in {pause:g} s, and later ever less often")

    def check_known(self, peer: Peer) -> None:
        """PeerFault where the site's roster hasn't this peer."""
        if peer.name not in self.site.roster:
            raise PeerFault(f"it is no other site of the roster: {' '.join(self.site.roster)}")

    async def exchange_with(self, peer: Peer, counter: int) -> None:
        """Takes what the peer has, and gives it what it lacks. Each take is kept in a journal for good, so that a packet
        which both sides know word for word isn't taken again."""
        has_news = await self.fetch(peer.name)
        packet = (await self.exchange.packet(peer.name)).whole()
        digest = hashlib.sha256(packet).hexdigest()
        if has_news or digest != peer.shipped:
            told = await peer.link.call("take", given=packet)
            if told.strip() not in (b"taken", b"known"):
                raise PeerFault(f"it answers {told[:100].decode('ascii', 'replace').strip() or 'nothing'} to a packet")
            peer.shipped = digest
            peer.last_given = time.time()
        peer.given = max(peer.given, counter)
        if peer.failures:
            self.log(f"{peer.name}: it is reached again")
        peer.succeeded()

    async def fetch(self, name: str) -> bool:
        """Takes what a peer has, unless it is word for word what was taken last; whether it was something else."""
        peer = self.peer(name)
        packet = await peer.link.call("ship")
        if packet:
            peer.last_taken = time.time()
        digest = hashlib.sha256(packet).hexdigest()
        has_news = bool(packet) and digest != peer.taken
        if has_news:
            try:
                answer = await self.exchange.take_packet(packet, name)
            except BadPacket as fault:
                raise PeerFault(str(fault)) from None
            if not answer.is_just("taken", "known"):
                raise PeerFault(f"its packet is answered {answer.shown()}")
            peer.taken = digest
            if answer.is_just("taken"):
                self.wake()
        return has_news

    # Grants and scripts

    async def give(self, peer: Peer, job: str) -> None:
        """Grants a job to a peer that asks by a file, and puts the script there."""
        if not IDENTIFIER.match(job) or origin_of(job) != self.here:
            return
        if (await self.eligibility.grant(job, peer.name)).is_just("granted", "yours"):
            await peer.link.give_script(job, await self.exchange.script_text(job))

    async def grants(self, name: str, jobs: List[str]) -> Dict[str, str]:
        """Asks the origin of jobs for their grants; its answers."""
        answers = (await self.peer(name).link.call("grant", *jobs)).decode("ascii", "replace").splitlines()
        if len(answers) != len(jobs):
            raise PeerFault(f"it gives {len(answers)} answers to grant, for {len(jobs)} jobs")
        return dict(zip(jobs, (answer[:100] for answer in answers)))

    async def script(self, name: str, job: str) -> Tuple[Dict[str, Any], bytes]:
        """The facts and the script of a job, from its origin; no owner is among them where it was lost there."""
        head, _, script = (await self.peer(name).link.call("script", job)).partition(b"\n")
        try:
            facts = json.loads(head)
        except (ValueError, RecursionError):
            raise PeerFault("what it answers to script is no script") from None
        if not isinstance(facts, dict):
            raise PeerFault("what it answers to script is no script")
        told = {key: facts[key] for key in (*FACTS, *ADDED) if is_fact(facts.get(key), key)}
        return {**told, "variables": facts["variables"]} if are_variables(facts.get("variables")) else told, script
