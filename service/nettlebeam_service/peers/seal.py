"""Seals: a file in a shared folder says in its first line for whom it is and of what, and that a holder of the key wrote it.

    nettlebeam-seal 1 lemont argonne packet - 1764314534000000000 9f86d0..
    (the bytes of the packet)

The digest is the HMAC-SHA256, by the key of the pair of sites, of the words before it and of all bytes behind the line. So a
file can't be made or changed without the key, nor put in the place of another one: of another pair, direction, kind or job.
"""
from __future__ import annotations

import hashlib
import hmac
import os
import stat
from typing import NamedTuple, Tuple

MAGIC = ("nettlebeam-seal", "1")
LONGEST_LINE = 300
LEAST_KEY = 16


class BadSeal(Exception):
    """A file isn't sealed as it must be. The text tells how not."""


class Label(NamedTuple):
    """What a sealed file is: who wrote it for whom, of what kind, of which job (`-` for none), and when it was written."""

    sender: str
    receiver: str
    kind: str
    job: str
    number: int

    def words(self) -> str:
        """The words before the digest."""
        return " ".join([*MAGIC, self.sender, self.receiver, self.kind, self.job, str(self.number)])


def read_key(path: str) -> bytes:
    """The key in a file that nobody but its owner may read."""
    with open(path, "rb") as file:
        if os.fstat(file.fileno()).st_mode & (stat.S_IRWXG | stat.S_IRWXO):
            raise BadSeal(f"the key {path} may be read or written by others than its owner: chmod 600")
        key = file.read(4097).strip()
    if not LEAST_KEY <= len(key) <= 4096:
        raise BadSeal(f"the key {path} hasn't {LEAST_KEY} to 4096 bytes")
    return key


def digest_of(key: bytes, words: str, data: bytes) -> str:
    """The digest of a file's words and bytes."""
    return hmac.new(key, words.encode("ascii") + b"\n" + data, hashlib.sha256).hexdigest()


def seal(key: bytes, label: Label, data: bytes) -> bytes:
    """The sealed file of some bytes."""
    words = label.words()
    return f"{words} {digest_of(key, words, data)}\n".encode("ascii") + data


def unseal(key: bytes, wanted: Label, sealed: bytes) -> Tuple[int, bytes]:
    """The number and the bytes of a sealed file, which must be what is wanted, whatever its number is."""
    line, _, data = sealed.partition(b"\n")
    words = line[: LONGEST_LINE + 1].decode("ascii", "replace").split(" ")
    if not line.isascii() or len(line) > LONGEST_LINE or len(words) != 8 or tuple(words[:2]) != MAGIC or not words[6].isdigit():
        raise BadSeal("it has no seal")
    found = Label(words[2], words[3], words[4], words[5], int(words[6]))
    if not hmac.compare_digest(digest_of(key, " ".join(words[:7]), data).encode(), words[7].encode("ascii", "replace")):
        raise BadSeal("its seal is wrong: it was changed, or another key made it")
    if found[:4] != wanted[:4]:
        raise BadSeal(f"it is sealed as {' '.join(found[:4])}, and not as {' '.join(wanted[:4])}")
    return found.number, data
