"""A link to a node: the process of a command, such as ssh, whose other end is `nettlebeam-node`."""
from __future__ import annotations

import asyncio
import contextlib
import itertools
import json
import os
import signal
from typing import Any, Callable, Dict, Iterator, Optional, Sequence

Answer = Dict[str, Any]
LONGEST_ANSWER = 16 * 1024 * 1024
ENDING_SECONDS = 5
AT_ONCE = 12  # fewer than the node does at once, so that it always has a place for a hello


class NodeFault(Exception):
    """A node can't be asked. What was asked may be done or not. The text tells why."""


class NodeLink:
    """One process. `on_told` is called with what the node says by itself, and `on_end` once the link has ended."""

    def __init__(self, words: Sequence[str], on_told: Callable[[Answer], None], on_end: Callable[["NodeLink", str], None]):
        self.words = list(words)
        self.on_told = on_told
        self.on_end = on_end
        self.process: Optional[asyncio.subprocess.Process] = None
        self.asked: Dict[int, "asyncio.Future[Answer]"] = {}
        self.numbers: Iterator[int] = itertools.count(1)
        self.places = asyncio.Semaphore(AT_ONCE)
        self.is_open = False
        self.trouble = ""
        self.reading: Optional["asyncio.Task[None]"] = None
        self.reaping: Optional["asyncio.Task[None]"] = None

    async def open(self) -> None:
        """Starts the process."""
        if not self.words:
            raise NodeFault("no link leads there any more")
        pipe = asyncio.subprocess.PIPE
        try:
            self.process = await asyncio.create_subprocess_exec(
                *self.words, stdin=pipe, stdout=pipe, stderr=pipe, start_new_session=True, limit=LONGEST_ANSWER
            )
        except OSError as fault:
            raise NodeFault(f"{self.words[0]}: {fault.strerror}") from None
        self.is_open = True
        self.reading = asyncio.ensure_future(self.read())

    async def ask(self, head: Dict[str, Any], body: bytes = b"", seconds: float = 15.0) -> Answer:
        """The answer to a request. Where none comes in time the link is closed, since what is behind it can't be known."""
        async with self.places:
            return await self.ask_now(head, body, seconds)

    async def ask_now(self, head: Dict[str, Any], body: bytes = b"", seconds: float = 15.0) -> Answer:
        """The answer to a request that waits for no other."""
        if not self.is_open or self.process is None or self.process.stdin is None:
            raise NodeFault(self.trouble or "the link is closed")
        number = next(self.numbers)
        future: "asyncio.Future[Answer]" = asyncio.get_running_loop().create_future()
        self.asked[number] = future
        line = json.dumps({"n": number, **head, **({"size": len(body)} if body else {})}).encode() + b"\n"
        try:
            self.process.stdin.write(line + body)
            return await asyncio.wait_for(asyncio.shield(future), seconds)
        except asyncio.TimeoutError:
            self.close(f"no answer within {seconds:g} s")
            raise NodeFault(self.trouble) from None
        finally:
            self.asked.pop(number, None)
            if future.done() and not future.cancelled():
                future.exception()  # it is told to nobody else

    async def read(self) -> None:
        """Hands out what the node says, until it ends."""
        assert self.process and self.process.stdout and self.process.stderr
        errors = asyncio.ensure_future(self.process.stderr.read(4096))
        try:
            while True:
                line = await self.process.stdout.readline()
                if not line.endswith(b"\n"):
                    break
                told = json.loads(line)
                future = self.asked.get(told.get("n"))
                if "told" in told:
                    self.on_told(told)
                elif future and not future.done():
                    future.set_result(told)
        except (OSError, ValueError, AttributeError) as fault:
            self.trouble = self.trouble or f"it says what can't be read: {fault}"
        with contextlib.suppress(asyncio.TimeoutError):
            words = (await asyncio.wait_for(errors, 1)).decode("utf-8", "replace").split()
            self.trouble = self.trouble or " ".join(words)[-200:]
        self.close(self.trouble or "the link ended")

    def close(self, why: str) -> None:
        """Ends the process, and tells all that wait."""
        if not self.is_open:
            return
        self.is_open = False
        self.trouble = self.trouble or why
        for future in self.asked.values():
            if not future.done():
                future.set_exception(NodeFault(self.trouble))
        if self.process and self.process.stdin:
            self.process.stdin.close()
        if self.process and self.process.returncode is None:
            self.reaping = asyncio.ensure_future(self.reap())
        self.on_end(self, self.trouble)

    async def reap(self) -> None:
        """Waits for the process, which may have something to bring to its end, and kills it where it stays."""
        assert self.process
        try:
            await asyncio.wait_for(self.process.wait(), ENDING_SECONDS)
        except asyncio.TimeoutError:
            with contextlib.suppress(OSError):
                os.killpg(self.process.pid, signal.SIGKILL)
            await self.process.wait()
