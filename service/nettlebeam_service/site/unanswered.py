"""Those who wait for answers of the site's program, and what they are told where it stands still."""
from __future__ import annotations

import asyncio
import contextvars
import time
from collections import deque
from typing import Any, Callable, Deque, Optional, Set

SILENT_SECONDS = 30.0
LOOK_SECONDS = 0.5
# Whether somebody waits for what is asked here, so that it fails where the site stands still. What the service asks for itself waits.
IS_FOR_SOMEBODY: "contextvars.ContextVar[bool]" = contextvars.ContextVar("is_for_somebody", default=False)


class Unanswered:
    """Those who wait, in the order in which the program answers. Who no longer waits keeps the place in it."""

    def __init__(self, fault: Callable[[], Exception], log: Callable[[str], None]):
        self.all: Deque[asyncio.Future[Any]] = deque()
        self.impatient: Set[asyncio.Future[Any]] = set()
        self.fault = fault
        self.log = log
        self.heard = 0.0  # when the program answered last, or was asked when nobody waited
        self.silent = asyncio.Event()

    def add(self) -> "asyncio.Future[Any]":
        """One more who waits."""
        if not self.all:
            self.heard = time.monotonic()
        asked: "asyncio.Future[Any]" = asyncio.get_running_loop().create_future()
        self.all.append(asked)
        if IS_FOR_SOMEBODY.get():
            self.impatient.add(asked)
        return asked

    def next(self) -> Optional["asyncio.Future[Any]"]:
        """The one whose answer has come; None where nobody waits."""
        moment, before = time.monotonic(), self.heard
        self.heard = moment
        if self.silent.is_set():
            self.silent.clear()
            self.log(f"the site answers again, after {moment - before:.0f} s")
        if not self.all:
            return None
        asked = self.all.popleft()
        self.impatient.discard(asked)
        return asked

    def fail(self, fault: Callable[[], Exception]) -> None:
        """Tells all that wait that no answer comes."""
        self.silent.clear()
        self.impatient.clear()
        while self.all:
            asked = self.all.popleft()
            if not asked.done():
                asked.set_exception(fault())

    async def watch(self) -> None:
        """Notices where the program stands still, and tells those for whom something was asked."""
        while True:
            await asyncio.sleep(LOOK_SECONDS)
            if not self.all or time.monotonic() - self.heard < SILENT_SECONDS:
                continue
            if not self.silent.is_set():
                self.silent.set()
                self.log(f"the site does not answer for {SILENT_SECONDS:g} s; who asks is told so until it does")
            while self.impatient:
                asked = self.impatient.pop()
                if not asked.done():
                    asked.set_exception(self.fault())


async def for_somebody(work: Any) -> None:
    """Does something by whose questions somebody waits, such as the page."""
    IS_FOR_SOMEBODY.set(True)
    await work
