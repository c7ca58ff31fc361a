"""Whether a job is run as its owner here, as the nodes tell it."""
from __future__ import annotations

import asyncio
import time
from typing import Callable, Dict, Optional, Tuple

from .nodes import Nodes

KEPT_SECONDS = 30.0
PATIENCE_SECONDS = 2.0  # for which somebody waits for an answer that isn't known yet


class Accounts:
    """The answers of nodes, kept for a while. `wake` is called with what is known later than somebody has waited for it."""

    def __init__(self, nodes: Nodes, wake: Callable[[], None]):
        self.nodes = nodes
        self.wake = wake
        self.known: Dict[str, Tuple[float, bool]] = {}  # until when it is kept, and the answer
        self.asked: Dict[str, "asyncio.Task[None]"] = {}

    async def has(self, owner: str) -> Optional[bool]:
        """Whether something is run here as an owner; None where no node has said so by now."""
        until, answer = self.known.get(owner, (0.0, False))
        if until >= time.monotonic():
            return answer
        if owner not in self.asked:
            self.asked[owner] = asyncio.ensure_future(self.ask(owner))
        task = self.asked[owner]
        done, _ = await asyncio.wait([task], timeout=PATIENCE_SECONDS)
        if not done:
            task.add_done_callback(lambda _: self.wake())
        until, answer = self.known.get(owner, (0.0, False))
        return answer if until >= time.monotonic() else None

    async def ask(self, owner: str) -> None:
        """Asks a node."""
        try:
            told = await self.nodes.ask_any({"ask": "account", "owner": owner})
            if told is not None:
                self.known[owner] = (time.monotonic() + KEPT_SECONDS, told["answer"] == "known")
        finally:
            del self.asked[owner]

    def forget(self) -> None:
        """Keeps no answer."""
        self.known.clear()
