"""What the program answers, and the one place of the service where its texts are read.

The program tells its status, fixed answers such as `done`, identifiers, and JSON. All else of what it says is for people, and is
handed on as it is. No other module sees the bytes of an answer (tools/texts).
"""
from __future__ import annotations

import json
import re
from typing import Any, Dict, List, Mapping, Optional, Sequence, Set

from ..common.identifiers import IDENTIFIER
from ..common.wire import Reply

NOT_KEPT = 3
# the identifiers in both listings
LISTED = re.compile(rb"^(Job Id: )?([0-9]{1,10}\.[A-Za-z0-9-]+)( *)", re.MULTILINE)
LONG = 1 << 20  # bytes from which on an answer isn't copied out of what came, since a packet may have a gibibyte


class Answer:
    """What the program said to a line, the words beside it, and the status: 0, and 1 where the line isn't done as it asks."""

    __slots__ = ("_said", "_words", "status")

    def __init__(self, said: bytes | bytearray, words: str = "", status: int = 0):
        self._said = said
        self._words = words
        self.status = status

    # What programs read

    def is_just(self, *texts: str) -> bool:
        """Whether it is one of these fixed answers, to the last byte."""
        return self._said in [f"{text}\n".encode("ascii") for text in texts]

    def is_about_each(self, names: Sequence[str], text: str) -> List[str]:
        """Those of the jobs that a line names, each once, of which this is said: of each there is a line, in their order."""
        lines = self._said.splitlines()
        return [name for name, line in zip(names, lines) if line == text.encode("ascii")] if len(lines) == len(names) else []

    def identifier(self) -> str:
        """The identifier of what was made; nothing where nothing was."""
        text = self.shown() if not self.status else ""
        return text if IDENTIFIER.match(text) else ""

    def json(self) -> Any:
        """The value of an answer that is one of JSON; None where the line isn't done as it asks."""
        return None if self.status else json.loads(self._said)

    def json_lines(self) -> List[Any]:
        """The values of an answer that has one of JSON a line; none where the line isn't done as it asks."""
        return [] if self.status else [json.loads(line) for line in self._said.splitlines()]

    def roster(self) -> Dict[str, int]:
        """The sites and their nodes, of an answer that names them as a roster does."""
        pairs = [word.split(":") for word in self._said.decode("ascii").split()] if not self.status else []
        return {name: int(nodes) for name, nodes in pairs}

    def by_kinds(self) -> Dict[str, Set[str]]:
        """The words that the program tells of its lines: a kind and a word in each line."""
        found: Dict[str, Set[str]] = {}
        for kind, word in (line.split() for line in self._said.decode("ascii").splitlines()):
            found.setdefault(kind, set()).add(word)
        return found

    # What is handed on

    def shown(self) -> str:
        """What was said, for people to read."""
        return self._said.decode("ascii", "replace").strip()

    def beside(self) -> str:
        """The words beside it, for people to read."""
        return self._words

    def whole(self) -> bytes | bytearray:
        """All bytes, for who asked for them, or as a packet for another site."""
        return self._said

    def reply(self) -> Reply:
        """The reply that hands it to a client."""
        return Reply(self.status, self._said, self._words)

    def with_names(self, names: Mapping[str, str]) -> Answer:
        """The same listing with other names of these jobs."""

        def named(found: re.Match[bytes]) -> bytes:
            """A line's beginning."""
            front, job, gap = found.groups()
            name = names.get(job.decode("ascii"))
            return found[0] if name is None else (front or b"") + name.encode("ascii").ljust(len(job + gap) - 1) + gap[:1]

        return Answer(LISTED.sub(named, self._said), self._words, self.status) if names and not self.status else self

    def with_words(self, *words: str) -> Answer:
        """The same with more words beside it, a line each."""
        return Answer(self._said, "\n".join(filter(None, [self._words, *words])), self.status)


class FrameReader:
    """Cuts the output of `serve --frames` into answers: each has a head line, its status and two numbers of bytes, and behind
    it so many bytes of the answer, and of the words beside it."""

    def __init__(self) -> None:
        self.held = bytearray()
        self.wanted = 0  # the bytes of the frame whose head has come

    def feed(self, data: bytes) -> None:
        """Takes bytes that came."""
        self.held += data

    def next(self) -> Optional[Answer]:
        """The next answer that is whole."""
        if len(self.held) < self.wanted:
            return None
        end = self.held.find(b"\n") + 1
        if not end:
            return None
        status, answer, words = map(int, self.held[:end].split())
        self.wanted = end + answer + words
        if len(self.held) < self.wanted:
            return None
        words_place, behind, self.wanted = end + answer, self.wanted, 0
        told = self.held[words_place:behind].decode("ascii", "replace")
        if answer < LONG:
            said: bytes | bytearray = bytes(memoryview(self.held)[end:words_place])
            del self.held[:behind]
        else:
            said, self.held = self.held, self.held[behind:]
            del said[words_place:], said[:end]
        return Answer(said, told, status)
