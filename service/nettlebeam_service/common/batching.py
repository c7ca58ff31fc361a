"""An action that is done for many at once, such as a sync."""
from __future__ import annotations

import asyncio
import time
from typing import Awaitable, Callable, Optional


class Batched:
    """Does an action again and again, once for all who ask for it while the one before is done."""

    def __init__(self, action: Callable[[], Awaitable[None]]):
        self.action = action
        self.current: Optional["asyncio.Future[None]"] = None
        self.next: Optional["asyncio.Future[None]"] = None
        self.last: Optional[float] = None  # when one succeeded

    async def done(self) -> None:
        """Waits for an action that began after this was called; what it fails by, all who wait for it fail by."""
        if self.next is None:
            self.next = asyncio.ensure_future(self.once(self.current))
        await asyncio.shield(self.next)

    async def once(self, before: Optional["asyncio.Future[None]"]) -> None:
        """One action, behind the one before."""
        if before:
            await asyncio.wait([before])
        self.current, self.next = self.next, None
        await self.action()
        self.last = time.monotonic()
