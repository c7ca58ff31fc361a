"""Tells the site how many nodes can be planned with, so that no job waits at the head of the queue for nodes that aren't there."""
from __future__ import annotations

import time
from typing import Callable, Optional

from ..common.config import Config
from ..nodes.nodes import Nodes
from ..site.site import Site

STEADY_SECONDS = 30.0


class NodeCount:
    """Compares the nodes that are up with those that the site plans with, and tells the site of a difference that lasts."""

    def __init__(self, config: Config, site: Site, nodes: Nodes, log: Callable[[str], None]):
        self.config = config
        self.site = site
        self.nodes = nodes
        self.log = log
        self.differs_since: Optional[float] = None
        self.wanted = 0
        self.looked_at: Optional[float] = None

    async def tell(self, planned: int) -> None:
        """Tells a roster with the number of this site's nodes, where it has been another one for a while. It is 1 at least."""
        self.looked_at = time.monotonic()
        jobs = self.config.jobs
        count = self.nodes.count() if jobs.link and jobs.count == "yes" else None
        wanted = planned if count is None else max(1, count)
        if wanted == planned or wanted != self.wanted:
            self.wanted, self.differs_since = wanted, None if wanted == planned else time.monotonic()
            return
        if self.differs_since is None or time.monotonic() - self.differs_since < STEADY_SECONDS or not self.site.has_room():
            return
        roster = {**self.site.roster, self.config.name: wanted}
        answer = await self.site.ask("roster " + " ".join(f"{site}:{nodes}" for site, nodes in roster.items()))
        await self.site.learn_roster()
        self.log(f"the site plans with {wanted} nodes from now on, and not with {planned}: {answer.shown()}")
        self.differs_since = None
