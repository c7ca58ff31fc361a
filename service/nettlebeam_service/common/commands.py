"""Commands that the service calls: each in a session of its own, which is ended whole where it takes too long or writes too much."""
from __future__ import annotations

import asyncio
import contextlib
from typing import Any, Mapping, NamedTuple, Optional, Sequence, Tuple

from .processes import end_session, started_at

CHUNK = 1 << 16
MOST_ERRORS = 65_536  # the last bytes of standard error are kept
ENDING_SECONDS = 5.0


class TooLong(Exception):
    """A command has written more than it may."""


class Done(NamedTuple):
    """How a command ended, what it wrote, and the last that it told on standard error."""

    status: int
    out: bytes | bytearray
    errors: bytes | bytearray


class Output:
    """What a command writes to one stream. All of it is read, so that the command never waits for a reader."""

    def __init__(self, stream: Optional[asyncio.StreamReader]):
        self.stream = stream
        self.kept = bytearray()
        self.is_over = asyncio.Event()

    async def read_first(self, most: int) -> None:
        """Reads to the end, and keeps the first bytes."""
        while self.stream:
            data = await self.stream.read(CHUNK)
            if not data:
                return
            if len(self.kept) + len(data) > most:
                self.is_over.set()
            else:
                self.kept += data

    async def read_last(self, most: int) -> None:
        """Reads to the end, and keeps the last bytes."""
        while self.stream:
            data = await self.stream.read(CHUNK)
            if not data:
                return
            self.kept += data
            del self.kept[:-most]


async def write_all(stream: asyncio.StreamWriter, data: bytes | bytearray) -> None:
    """Writes what may be long, piece by piece, so that none of it is held twice."""
    whole = memoryview(data)
    for place in range(0, len(whole), CHUNK):
        stream.write(whole[place : place + CHUNK])
        await stream.drain()
    await stream.drain()


async def feed(stream: Optional[asyncio.StreamWriter], given: bytes | bytearray) -> None:
    """Writes the input of a process, which may end before it has read all."""
    if stream is None:
        return
    with contextlib.suppress(ConnectionError):
        await write_all(stream, given)
    stream.close()
    with contextlib.suppress(ConnectionError):
        await stream.wait_closed()


def drop(gathering: "asyncio.Future[Any]") -> None:
    """Cancels what nobody waits for any more, and takes what it ends with, which the loop would else log as a fault."""
    gathering.cancel()
    gathering.add_done_callback(lambda ended: ended.cancelled() or ended.exception())


def start_tick(pid: int) -> int:
    """The tick at which a child started; 0 where it has ended already."""
    try:
        return started_at(pid)
    except OSError:
        return 0


async def call(
    words: Sequence[str],
    seconds: float,
    given: bytes | bytearray = b"",
    most: int = 0,
    env: Optional[Mapping[str, str]] = None,
    pass_fds: Tuple[int, ...] = (),
) -> Done:
    """Calls a command. OSError where it can't be started, asyncio.TimeoutError, which may be one too, where it doesn't end in time,
    and TooLong where it writes more than `most` bytes to standard output, which is dropped where that is 0."""
    pipe, null = asyncio.subprocess.PIPE, asyncio.subprocess.DEVNULL
    process = await asyncio.create_subprocess_exec(
        *words,
        stdin=pipe if given else null,
        stdout=pipe if most else null,
        stderr=pipe,
        start_new_session=True,
        limit=CHUNK,
        env=env,
        pass_fds=pass_fds,
    )
    since = start_tick(process.pid)
    out, errors = Output(process.stdout), Output(process.stderr)
    feeding = asyncio.ensure_future(feed(process.stdin, given))
    ended: "asyncio.Future[Any]" = asyncio.gather(out.read_first(most), errors.read_last(MOST_ERRORS), process.wait())
    over: "asyncio.Future[Any]" = asyncio.ensure_future(out.is_over.wait())
    try:
        await asyncio.wait([ended, over], timeout=seconds, return_when=asyncio.FIRST_COMPLETED)
        if out.is_over.is_set():
            raise TooLong
        if not ended.done() or process.returncode is None:
            raise asyncio.TimeoutError
        return Done(process.returncode, out.kept, errors.kept)
    finally:
        feeding.cancel()
        over.cancel()
        if not ended.done():
            await asyncio.to_thread(end_session, process.pid, since)
            await asyncio.wait([ended], timeout=ENDING_SECONDS)  # which what has left the session may keep from its end
            drop(ended)
