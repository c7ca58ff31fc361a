"""Long work in slices, so that nobody waits for all of it: of the loop, and of a thread, which has the interpreter alone while it
works."""
from __future__ import annotations

import asyncio
import time

LOOP_SECONDS = 0.01
THREAD_SECONDS = 0.005


class Slices:
    """The slices of one piece of work."""

    def __init__(self) -> None:
        self.began = time.monotonic()

    async def rest(self) -> None:
        """Lets the loop do other things, where a slice is over."""
        if time.monotonic() - self.began > LOOP_SECONDS:
            await asyncio.sleep(0)
            self.began = time.monotonic()

    def pause(self) -> None:
        """Lets other threads work as long as this one has, where a slice is over."""
        spent = time.monotonic() - self.began
        if spent > THREAD_SECONDS:
            time.sleep(min(spent, LOOP_SECONDS))
            self.began = time.monotonic()
