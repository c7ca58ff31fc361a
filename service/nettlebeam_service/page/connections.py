"""The connections of browsers: who has one is told by the kernel, and none who is silent keeps others out."""
from __future__ import annotations

import asyncio
import contextlib
import socket
import struct
from typing import AsyncIterator, Dict, Iterator, Tuple

from ..clients.clients import Places

MOST = 32
MOST_OF_USER = 16
MOST_SILENT = 256
NOBODY = -1  # whom the kernel doesn't tell any more
TABLE = "/proc/net/tcp"
UID_PLACE = 7


def in_table(address: Tuple[str, int]) -> str:
    """An address as the kernel's table writes it."""
    (number,) = struct.unpack("=I", socket.inet_aton(address[0]))
    return f"{number:08X}:{address[1]:04X}"


def uid_of(theirs: Tuple[str, int], ours: Tuple[str, int]) -> int:
    """The user at the other end of a connection of this machine."""
    wanted = [in_table(theirs), in_table(ours)]
    try:
        with open(TABLE, encoding="ascii") as table:
            rows = (line.split() for line in table)
            return next((int(row[UID_PLACE]) for row in rows if row[1:3] == wanted), NOBODY)
    except OSError:
        return NOBODY


class Connections:
    """Those that are silent yet, of which the oldest gives way, and those that are answered, of each user so many."""

    def __init__(self) -> None:
        self.silent: Dict[asyncio.StreamWriter, None] = {}
        self.places = Places(MOST, MOST_OF_USER)

    @contextlib.contextmanager
    def until_heard(self, writer: asyncio.StreamWriter) -> Iterator[None]:
        """Keeps a connection among the silent ones, as long as the block runs."""
        if len(self.silent) >= MOST_SILENT:
            oldest = next(iter(self.silent))
            del self.silent[oldest]
            oldest.transport.abort()
        self.silent[writer] = None
        try:
            yield
        finally:
            self.silent.pop(writer, None)

    @contextlib.asynccontextmanager
    async def place(self, writer: asyncio.StreamWriter) -> AsyncIterator[None]:
        """Holds a place of the user at the other end. Busy where that user has too many."""
        ends = writer.get_extra_info("peername"), writer.get_extra_info("sockname")
        uid = await asyncio.to_thread(uid_of, *ends) if all(ends) else NOBODY
        with self.places.hold(uid):
            yield
