"""A peer that is reached by a command, and what both kinds of peers are asked by: `take`, `ship`, `grant ID ..`, `script ID`."""
from __future__ import annotations

import asyncio
from typing import List, Protocol

from ..common.commands import TooLong, call
from ..common.config import PeerKeys
from ..site.packets import LONGEST_PACKET


class Link(Protocol):
    """How a peer is asked."""

    refused: str  # why something that came from the peer was refused last

    async def call(self, *words: str, given: bytes | bytearray = b"") -> bytes | bytearray:
        """What the peer answers."""

    async def has_news(self) -> bool:
        """Whether something came that nobody asked for."""

    async def asks(self) -> List[str]:
        """The jobs that the peer asks for."""

    async def give_script(self, job: str, data: bytes) -> None:
        """Gives the peer the script of a job that was granted to it."""


class PeerFault(Exception):
    """A peer can't be reached, or answers what it may not. The text tells which."""


class NotNow(PeerFault):
    """A peer isn't asked, since it couldn't be reached a short while ago."""


class CommandLink:
    """A peer that is reached by a command, such as ssh: its words are put behind, standard input and output are its."""

    def __init__(self, keys: PeerKeys):
        self.keys = keys
        self.refused = ""

    async def call(self, *words: str, given: bytes | bytearray = b"") -> bytes | bytearray:
        """What the peer answers. One call is one process, which is ended when it hangs."""
        try:
            done = await call([*self.keys.command, *words], self.keys.seconds, given, LONGEST_PACKET)
        except asyncio.TimeoutError:
            raise PeerFault(f"no answer to {words[0]} within {self.keys.seconds:g} s") from None
        except OSError as fault:
            raise PeerFault(f"{self.keys.command[0]}: {fault.strerror}") from None
        except TooLong:
            raise PeerFault("the answer is longer than a packet may be") from None
        if done.status:
            told = done.errors.decode("utf-8", "replace").strip().splitlines() or [f"status {done.status}"]
            raise PeerFault(f"{words[0]}: {told[-1][:300]}")
        return done.out

    async def has_news(self) -> bool:
        """Whether something came that nobody asked for: never, by a command."""
        return False

    async def asks(self) -> List[str]:
        """The jobs that the peer asks for: none, since it asks by a command of its own."""
        return []

    async def give_script(self, job: str, data: bytes) -> None:
        """Nothing: the peer asks for it."""
