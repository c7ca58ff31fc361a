"""A peer that is reached by a folder which both sites can write: packets, questions and scripts are files, each sealed.

    FOLDER/lemont/argonne.packet       argonne's newest packet for lemont
    FOLDER/argonne/lemont.asks         the jobs of argonne that lemont asks for, a line each
    FOLDER/lemont/1.argonne.script     the facts and the script of a job that was granted to lemont

A file without the right seal is refused, and so is a packet or a question that is older than one that was read before. Who
can write the folder and has no key can keep files from arriving, and nothing else. Who can read it can read the scripts.
"""
from __future__ import annotations

import asyncio
import contextlib
import errno
import threading
import time
from typing import Callable, Dict, List, Optional, Tuple

from .safe_folder import SafeFolder, State
from .seal import BadSeal, Label, read_key, seal, unseal

ASKED = "asked"
ASKED_SECONDS = 60
MOST_ASKED = 1000
NO_JOB = "-"


class FolderLink:
    """The files of a pair of sites. It answers what a peer that is reached by a command would, as far as files can."""

    def __init__(self, folder: str, key: str, here: str, peer: str, log: Callable[[str], None]):
        self.key = key
        self.here = here
        self.peer = peer
        self.log = log
        self.ours, self.theirs = SafeFolder(folder, here), SafeFolder(folder, peer)
        self.packet_of_them, self.asks_of_them = f"{peer}.packet", f"{peer}.asks"
        self.asked: Dict[str, float] = {}
        self.asking = threading.Lock()
        self.packet_seen: State = None
        self.asks_seen: State = None
        self.numbers: Dict[str, int] = {}
        self.refused = ""  # why a file of the peer was refused, until one isn't

    # Files

    def write(self, name: str, kind: str, job: str, data: bytes | bytearray) -> None:
        """Writes a sealed file for the peer. Its number is above that of the file in whose place it comes."""
        key, label = read_key(self.key), Label(self.here, self.peer, kind, job, 0)
        before = 0
        with contextlib.suppress(BadSeal, OSError):
            before = unseal(key, label, self.theirs.get(name) or b"")[0]
        self.theirs.put(name, seal(key, label._replace(number=max(time.time_ns(), before + 1)), data))

    def read(self, name: str, kind: str, job: str = NO_JOB) -> Optional[bytes]:
        """What a sealed file of the peer has; None where it isn't there, or is refused, which is told."""
        try:
            key = read_key(self.key)
            sealed = self.ours.get(name)
            if sealed is None:
                return None
            number, data = unseal(key, Label(self.peer, self.here, kind, job, 0), sealed)
            if job == NO_JOB and number < self.numbers.get(kind, 0):
                raise BadSeal("it is older than one that was read before")
        except BadSeal as fault:
            self.refuse(name, str(fault))
            return None
        except OSError as fault:
            if fault.errno != errno.ELOOP:
                raise
            self.refuse(name, "it is a symbolic link")
            return None
        self.numbers[kind] = max(number, self.numbers.get(kind, 0))
        self.refused = ""
        return data

    def refuse(self, name: str, why: str) -> None:
        """Tells that a file is refused, once."""
        text = f"{self.ours.path(name)} is refused: {why}"
        if text != self.refused:
            self.refused = text
            self.log(f"{self.peer}: {text}")

    # What a peer is asked

    async def call(self, *words: str, given: bytes | bytearray = b"") -> bytes | bytearray:
        """Does by files what these words ask, in a thread, since the folder may be far away."""
        return await asyncio.to_thread(self.do, words, given)

    def do(self, words: Tuple[str, ...], given: bytes | bytearray) -> bytes:
        """Does it."""
        if words[0] == "take":
            self.write(f"{self.here}.packet", "packet", NO_JOB, given)
            return b"known"  # it will be taken, sooner or later
        if words[0] == "ship":
            self.packet_seen = self.ours.state(self.packet_of_them)
            return self.read(self.packet_of_them, "packet") or b""
        if words[0] == "grant":
            self.ask(words[1:])
            return f"{ASKED}\n".encode() * (len(words) - 1)
        return self.script(words[1])

    def ask(self, jobs: Tuple[str, ...]) -> None:
        """Asks for jobs by a file, in which a job stands as long as it is asked for; a packet will tell of the grants."""
        now = time.monotonic()
        with self.asking:
            before = list(self.asked)
            self.asked = {job: since for job, since in self.asked.items() if now - since < ASKED_SECONDS}
            self.asked.update({job: now for job in jobs})
            if jobs or before != list(self.asked):
                lines = "".join(f"{job}\n" for job in self.asked).encode()
                self.write(f"{self.here}.asks", "asks", NO_JOB, lines)

    def script(self, job: str) -> bytes:
        """The script of a job that is granted here. It is taken out of the folder; where it isn't there it is asked for."""
        name = f"{job}.script"
        data = self.read(name, "script", job)
        if data is None:
            self.ask((job,))
            raise OSError(errno.ENOENT, f"{job}.script isn't there yet")
        self.ours.remove(name)
        return data

    async def has_news(self) -> bool:
        """Whether the peer has put a packet there since the last was read."""
        return await asyncio.to_thread(self.ours.state, self.packet_of_them) != self.packet_seen

    async def asks(self) -> List[str]:
        """The jobs that the peer asks for, where it has asked since this was last looked at."""
        return await asyncio.to_thread(self.read_asks)

    def read_asks(self) -> List[str]:
        """Reads them, and takes out of the file of this site what it asks for no longer."""
        self.ask(())
        seen = self.ours.state(self.asks_of_them)
        if seen == self.asks_seen:
            return []
        self.asks_seen = seen
        return (self.read(self.asks_of_them, "asks") or b"").decode("ascii", "replace").split()[:MOST_ASKED]

    async def give_script(self, job: str, data: bytes) -> None:
        """Gives the peer the script of a job that was granted to it."""
        await asyncio.to_thread(self.write, f"{job}.script", "script", job, data)
