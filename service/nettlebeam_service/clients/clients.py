"""The socket: many clients at once, of whom none can hold up another."""
from __future__ import annotations

import asyncio
import contextlib
import socket
import sys
import time
from collections import Counter
from typing import Any, AsyncIterator, Callable, ContextManager, Counter as Counts, Dict, Iterator, Sequence, Tuple

from ..common.commands import write_all
from ..common.config import ClientKeys
from ..common.wire import LONGEST_HEAD, Malformed, Reply, Request, read_head
from ..site.lines import is_costly
from ..site.packets import LONGEST_PACKET
from .requests import Requests
from .user_limits import BYTE_OF_ANSWER, BYTE_OF_HEAD
from .users import Users, uid_of

LINES_OF_USER = 16
COSTLY_LINES = 2
ALTERING, COSTLY = "alter", "costly"  # lines of which one user has one at a time


class Busy(Exception):
    """A user takes more of the service than one may."""


class Meter:
    """Counts what is held for each user, up to a bound."""

    def __init__(self, most: int):
        self.most = most
        self.held: Counts[int] = Counter()

    @contextlib.contextmanager
    def hold(self, uid: int, amount: int, what: str) -> Iterator[None]:
        """Holds so much for a user, as long as the block runs."""
        if self.held[uid] + amount > self.most:
            raise Busy(f"too many {what} of one user at once")
        self.held[uid] += amount
        try:
            yield
        finally:
            self.held[uid] -= amount
            if not self.held[uid]:
                del self.held[uid]


class Places:
    """The places of clients. A user who has some gets another only as long as more are left than that user has, and not of the
    last tenth, which are for users who have none: so however many places some take, there are others for who comes."""

    def __init__(self, most: int, most_of_user: int):
        self.most = most
        self.users = Meter(most_of_user)

    def has_one(self, uid: int) -> bool:
        """Whether there is a place for this user, as far as the others are concerned."""
        mine, left = self.users.held[uid], self.most - sum(self.users.held.values())
        return left > 0 if not mine else mine < left - self.most // 10

    @contextlib.contextmanager
    def hold(self, uid: int) -> Iterator[None]:
        """Holds a place, as long as the block runs."""
        if not self.has_one(uid):
            raise Busy("too many clients at once")
        with self.users.hold(uid, 1, "clients"):
            yield


class Gates:
    """Lets so many lines of one user at a time to the site, so that one who asks much doesn't hold up the others.

    The site answers one line behind the other. So of lines that cost it the whole board few are under way at a time, of one
    user one, and the users take turns.
    """

    def __init__(self) -> None:
        self.users: Dict[Tuple[int, str], asyncio.Semaphore] = {}
        self.waiting: Counts[Tuple[int, str]] = Counter()
        self.costly = asyncio.Semaphore(COSTLY_LINES)

    @contextlib.asynccontextmanager
    async def through(self, uid: int, words: Sequence[str]) -> AsyncIterator[None]:
        """Waits for this user's turn."""
        # an alteration writes scripts anew, and goes through few jobs of the board
        kind = ALTERING if words[:1] == ["alter"] else COSTLY if is_costly(words) else ""
        key = (uid, kind)
        gate = self.users.setdefault(key, asyncio.Semaphore(1 if kind else LINES_OF_USER))
        self.waiting[key] += 1
        try:
            async with gate:
                if kind != COSTLY:
                    yield
                    return
                async with self.costly:
                    yield
        finally:
            self.waiting[key] -= 1
            if not self.waiting[key]:
                del self.waiting[key], self.users[key]


class Clients:
    """The clients that are connected."""

    def __init__(self, keys: ClientKeys, users: Users, requests: Requests, own: int, log: Callable[[str], None]):
        self.keys = keys
        self.users = users
        self.requests = requests
        self.own = own
        self.log = log
        self.all = 0
        self.places = Places(keys.most, keys.most_of_user)
        self.own_places = Meter(keys.most)
        self.bytes = Meter(keys.user_bytes)
        self.own_bytes = Meter(4 * LONGEST_PACKET)
        self.gates = Gates()
        self.answers: Counts[int] = Counter()  # by their status
        self.seconds = 0.0  # that they took

    def use(self, keys: ClientKeys) -> None:
        """Goes on with other bounds."""
        self.keys = keys
        self.places.most, self.places.users.most, self.bytes.most = keys.most, keys.most_of_user, keys.user_bytes
        self.own_places.most = keys.most

    def place(self, uid: int) -> ContextManager[None]:
        """A place for this user; those of the site's own account are apart."""
        return self.own_places.hold(uid, 1, "clients") if uid == self.own else self.places.hold(uid)

    def meter(self, uid: int) -> Meter:
        """What counts the bytes of this user."""
        return self.own_bytes if uid == self.own else self.bytes

    async def serve(self, reader: asyncio.StreamReader, writer: asyncio.StreamWriter) -> None:
        """Serves one client, to its end."""
        self.all += 1
        try:
            uid = uid_of(writer.get_extra_info("socket"))
            writer.transport.set_write_buffer_limits(high=0)
            try:
                with self.place(uid):
                    await self.converse(uid, reader, writer)
            except Busy as fault:
                await self.send(writer, Reply(3, words=str(fault)))
        except (OSError, asyncio.IncompleteReadError, asyncio.TimeoutError):
            pass  # the client has gone, or is too slow
        except Exception as fault:  # a fault of this service must not end it
            self.log(f"a client was dropped for a fault of the service: {fault!r}")
        finally:
            self.all -= 1
            writer.transport.abort() if writer.transport.get_write_buffer_size() else writer.close()

    async def converse(self, uid: int, reader: asyncio.StreamReader, writer: asyncio.StreamWriter) -> None:
        """Reads a request, and answers it."""
        limits = self.requests.user_limits
        try:
            line = await asyncio.wait_for(self.line(reader), self.keys.seconds)
            await limits.work.spend(uid, BYTE_OF_HEAD * len(line))
            request = self.request(uid, line)
            await limits.work.spend(uid, limits.cost_of(request))
        except Malformed as fault:
            await self.send(writer, Reply(2, words=str(fault)))
            return
        with self.meter(uid).hold(uid, request.size or 0, "bytes"):
            if request.size:
                request.body = await asyncio.wait_for(reader.readexactly(request.size), self.keys.seconds)
            began = time.monotonic()
            client = await self.users.client(uid)
            async with self.gates.through(uid, request.words):
                reply = await self.requests.answer(client, request)
            request.body = b""
            self.answers[reply.status] += 1
            self.seconds += time.monotonic() - began
        limits.work.charge(uid, BYTE_OF_ANSWER * len(reply.answer))
        with self.meter(uid).hold(uid, len(reply.answer), "bytes"):
            await self.send(writer, reply)

    async def line(self, reader: asyncio.StreamReader) -> bytes:
        """The line of a request."""
        try:
            return await reader.readuntil(b"\n")
        except asyncio.LimitOverrunError:
            raise Malformed(f"the line of a request has at most {LONGEST_HEAD} bytes") from None

    def request(self, uid: int, line: bytes) -> Request:
        """The request in a line."""
        request = read_head(line)
        most = LONGEST_PACKET if uid == self.own else self.keys.script_bytes
        if request.size is not None and request.size > most:
            raise Malformed(f"a script has at most {most} bytes")
        return request

    async def send(self, writer: asyncio.StreamWriter, reply: Reply) -> None:
        """Sends a reply, unless the client reads it too slowly."""
        writer.write(reply.head())
        await asyncio.wait_for(write_all(writer, reply.answer), self.keys.seconds)


async def listen(listener: socket.socket, clients: Clients) -> asyncio.AbstractServer:
    """Serves the clients of a socket."""
    # a socket that was handed over stays where it is
    how: Dict[str, Any] = {"cleanup_socket": False} if sys.version_info >= (3, 13) else {}
    return await asyncio.start_unix_server(clients.serve, sock=listener, limit=LONGEST_HEAD, backlog=1000, **how)
