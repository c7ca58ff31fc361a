"""One node as the service sees it: whether it is up, and the link to it."""
from __future__ import annotations

import asyncio
import time
from typing import Any, Callable, Dict, Optional, Sequence, Set

from ..common.config import JobKeys
from ..node.store import boot_time
from ..node.work import VERSION
from .link import Answer, NodeFault, NodeLink
from .troubles import Troubles

OWN = ""  # the name of the node that is the service's own machine
HELLO_SECONDS = 15.0
FIRST_PAUSE = 5.0
OWN_PAUSE = 0.5  # of the child that is the node of this machine
OPENED_AT_ONCE = 16
KEPT_SECONDS = 60.0  # how long a link is kept that nothing is asked by, and after how many a used one is asked for a hello


class Parts:
    """What all nodes share."""

    def __init__(self, keys: JobKeys, log: Callable[[str], None], changed: Callable[[], None]):
        self.keys = keys
        self.log = log
        self.changed = changed
        # what the node tells of its runs, by which link, and when it was asked that
        self.on_hello: Callable[["Node", NodeLink, Dict[str, Any], float], None] = lambda *_: None
        self.on_told: Callable[["Node", Answer], None] = lambda *_: None
        self.places = asyncio.Semaphore(OPENED_AT_ONCE)
        self.closing: Set["asyncio.Task[None]"] = set()  # links that are at their ends


class Node:
    """One node, and the link to it."""

    def __init__(self, name: str, words: Sequence[str], parts: Parts):
        self.name = name
        self.words = list(words)
        self.parts = parts
        self.link: Optional[NodeLink] = None
        self.opening = asyncio.Lock()
        self.trouble = "it hasn't been asked yet"  # nothing where it is up
        self.since = time.time()
        self.troubles = Troubles()  # of starts
        self.haunted = ""  # a run of a job that doesn't run here, as far as the site knows
        self.pause = FIRST_PAUSE
        self.check_at = 0.0
        self.heard = 0.0
        self.wanted = 0.0
        self.is_checked = False
        self.is_being_checked = False

    @property
    def shown(self) -> str:
        """The node's name in words."""
        return self.name or "this machine"

    def is_linked(self) -> bool:
        """Whether there is a link now."""
        return self.link is not None and self.link.is_open

    async def ask(self, head: Dict[str, Any], body: bytes = b"", seconds: float = HELLO_SECONDS) -> Answer:
        """The node's answer to a request. NodeFault where it can't be asked, or isn't asked before its next hello."""
        self.wanted = time.monotonic()
        link = await self.linked()
        try:
            answer = await link.ask(head, body, seconds)
        except NodeFault as fault:
            self.fail(str(fault))
            raise
        self.heard = time.monotonic()
        return answer

    async def linked(self) -> NodeLink:
        """The link, which is opened where there is none."""
        async with self.opening:
            if self.link is not None and self.link.is_open:
                return self.link
            if self.trouble and time.monotonic() < self.check_at:
                raise NodeFault(self.trouble)
            async with self.parts.places:
                self.link = await self.opened()
            return self.link

    async def opened(self) -> NodeLink:
        """A new link, by which the node has said what runs there."""
        link = NodeLink(self.words, self.on_told, self.on_end)
        try:
            await link.open()
            await self.greet(link)
        except NodeFault as fault:
            link.close(str(fault))
            self.fail(str(fault))
            raise
        return link

    async def greet(self, link: NodeLink) -> None:
        """Says hello, and hears what runs there."""
        asked = boot_time()
        hello = await link.ask_now({"ask": "hello"}, seconds=HELLO_SECONDS)
        if hello.get("version") != VERSION:
            raise NodeFault(f"its program says {str(hello.get('version', hello))[:100]}, and {VERSION} is wanted")
        self.heard = time.monotonic()
        self.is_checked = True
        if hello["has_room"]:
            self.rise()
        else:
            self.fail(f"its folder has no room: {hello['bytes']} bytes are free")
        self.parts.on_hello(self, link, hello["runs"], asked)

    async def check(self) -> None:
        """Says hello, by the link that is there or a new one."""
        try:
            if self.link is not None and self.link.is_open:
                await self.greet(self.link)
            else:
                self.check_at = 0.0
                await self.linked()
        except NodeFault as fault:
            self.fail(str(fault))

    def rise(self) -> None:
        """The node is up."""
        if self.trouble:
            self.parts.log(f"{self.shown} is up")
            self.trouble, self.since, self.pause = "", time.time(), FIRST_PAUSE
            self.parts.changed()

    def cannot_start(self, owner: str, why: str) -> None:
        """A job of an owner couldn't be started here."""
        is_aside = self.troubles.add(owner, why)
        self.parts.log(f"{self.shown} is in trouble: no job of {owner} is started there: {why}")
        if is_aside:
            self.parts.log(f"{self.shown} is set aside for a while: {self.troubles.told()}")
        self.parts.changed()

    def has_run(self, owner: str) -> None:
        """A job of an owner ran here."""
        if self.troubles.clear(owner):
            self.parts.log(f"{self.shown} starts jobs of {owner} again")
            self.parts.changed()

    def fail(self, why: str) -> None:
        """The node is down: it is asked again after a pause."""
        self.is_checked = True
        if not self.trouble or self.trouble != why:
            self.parts.log(f"{self.shown} is down: {why}")
        if not self.trouble:
            self.since = time.time()
            self.parts.changed()
        self.trouble = why
        if time.monotonic() >= self.check_at:
            self.check_at = time.monotonic() + (min(self.pause, self.parts.keys.retry_most) if self.name != OWN else OWN_PAUSE)
            self.pause = min(2 * self.pause, self.parts.keys.retry_most)

    def on_told(self, told: Answer) -> None:
        """The node says something by itself."""
        self.heard = time.monotonic()
        self.parts.on_told(self, told)

    def on_end(self, link: NodeLink, why: str) -> None:
        """A link has ended."""
        if link.reaping:
            self.parts.closing.add(link.reaping)
            link.reaping.add_done_callback(self.parts.closing.discard)
        if self.link is link:
            self.link = None
            self.heard = 0.0  # so that it is asked soon

    def close(self) -> None:
        """Ends the link."""
        if self.link:
            self.link.close("it was closed")
        self.heard = time.monotonic()

    def is_due(self, now: float, health: float) -> bool:
        """Whether it is time for a hello."""
        if self.trouble or self.haunted:
            return now >= max(self.check_at, self.heard + FIRST_PAUSE if self.haunted else 0.0)
        return now - self.heard >= (min(KEPT_SECONDS, health) if self.is_linked() else health)
