"""What goes to other sites and comes from them: packets, and the scripts of jobs."""
from __future__ import annotations

import asyncio

from .answers import Answer
from .backup import Backup
from .packets import parts_of_line
from .site import Site
from .spool import Spool

FORGOTTEN = "forgotten"


class Exchange:
    """Makes packets and takes them, and hands out scripts."""

    def __init__(self, site: Site, spool: Spool, backup: Backup):
        self.site = site
        self.spool = spool
        self.backup = backup

    async def packet(self, peer: str) -> Answer:
        """The site's answer with a packet for a peer, once a backup is as new."""
        answer = await self.site.ask(f"ship {peer}")
        await self.backup.made()
        return answer

    async def take_packet(self, packet: bytes, peer: str) -> Answer:
        """The site's answer to the text of a packet, which must be of this peer where one is named."""
        answer = await self.site.ask_parts(parts_of_line(packet, peer), True)
        if answer.is_just(FORGOTTEN):
            self.site.lost_state.lose(peer or "a site")
        return answer

    async def script_text(self, job: str) -> bytes:
        """The facts of a job as a line of JSON, and its script behind it; or that it was lost."""
        try:
            return await asyncio.to_thread(self.spool.told, job)
        except FileNotFoundError:
            return b'{"lost": true}\n'
