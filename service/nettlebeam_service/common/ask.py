"""Asking the service at its socket: what the utilities and `nettlebeam-peer` share.

A user waits for the start of these programs at each call, so they import little: `typing` for the checker alone.
"""
from __future__ import annotations

import os

try:
    from _socket import AF_UNIX, SOCK_STREAM, socket  # what the library's `socket` is made of, which takes longer to load
except ImportError:
    from socket import AF_UNIX, SOCK_STREAM, socket  # type: ignore[assignment]

from .small_json import dumps, loads

TYPE_CHECKING = False
if TYPE_CHECKING:
    from typing import Any, Dict, List, Optional

SOCKETS = "/run/nettlebeam"
CHUNK = 1 << 18
CUT = "the service stopped before it answered"


class Unasked(Exception):
    """The service couldn't be asked, or gave no answer."""


class Told:
    """What the service told. The answer and the words are handed on as they are; what a program reads of them, these methods give."""

    def __init__(self, status: int, answer: bytes, words: str):
        self.status = status
        self.answer = answer
        self.words = words

    def is_just(self, *texts: str) -> bool:
        """Whether the answer is one of these fixed ones, to the last byte."""
        return self.answer in [f"{text}\n".encode() for text in texts]

    def has_line(self, text: str) -> bool:
        """Whether one of the answer's lines is this fixed one: of each job that is named there is a line."""
        return text.encode() in self.answer.splitlines()

    def begins(self, text: str) -> bool:
        """Whether the words begin so."""
        return self.words.startswith(text)

    def others_than(self, text: str) -> List[str]:
        """For people: the lines of the answer that aren't this fixed one, each with its place, if there are several."""
        lines = self.answer.decode("ascii", "replace").splitlines()
        return [f"number {place} of {len(lines)} jobs: {line}" for place, line in enumerate(lines, 1) if line != text and lines[1:]]

    def name(self) -> str:
        """The answer, where it is a name."""
        return self.answer.decode("ascii", "replace").strip()

    def words_of(self, utility: str) -> str:
        """The words, with the name of the utility that tells them in front of each line."""
        return "".join(f"{utility}: {line}\n" for line in self.words.splitlines())

    def json_lines(self) -> List[Any]:
        """The values of an answer with one of JSON a line; none where it isn't done as asked."""
        return [] if self.status else [loads(line) for line in self.answer.decode().splitlines()]


def find_socket() -> Optional[str]:
    """The service's socket: the one that is named, or the only one of this machine."""
    named = os.environ.get("NETTLEBEAM_SOCKET")
    if named:
        return named
    try:
        found = [name for name in os.listdir(SOCKETS) if name.endswith(".sock")]
    except OSError:
        return None
    return os.path.join(SOCKETS, found[0]) if len(found) == 1 else None


def ask(
    path: str,
    words: List[str],
    role: Optional[str] = None,
    facts: Optional[Dict[str, str]] = None,
    body: Optional[bytes] = None,
) -> Told:
    """Asks the service; the body is the script of a qsub, or the packet of a take."""
    head: Dict[str, Any] = {"words": words, "role": role, "facts": facts or {}, "size": None if body is None else len(body)}
    stream = socket(AF_UNIX, SOCK_STREAM)
    try:
        stream.connect(path)
        try:
            stream.sendall(dumps(head).encode() + b"\n" + (body or b""))
        except BrokenPipeError:
            pass  # it answers before it has read all
        return read_reply(stream)
    except OSError as fault:
        raise Unasked(f"{path}: {fault.strerror}") from None
    finally:
        stream.close()


def read_reply(stream: socket) -> Told:
    """Reads a reply to its end."""
    held, line, wanted = bytearray(), b"", -1
    head: Dict[str, Any] = {}
    while len(held) != wanted:
        data = stream.recv(CHUNK)
        if not data:
            raise Unasked(CUT if line else f"{CUT}; what was asked may be done or not")
        held += data
        if not line and b"\n" in data:
            line, _, rest = bytes(held).partition(b"\n")
            head, held = loads(line.decode()), bytearray(rest)
            wanted = head["size"]
    return Told(head["status"], bytes(held), head["words"])
