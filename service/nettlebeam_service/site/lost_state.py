"""Whether the site has lost what other sites know of it, as one of their packets told: then nothing changes it any more.

The site answers `forgotten` to such a packet: its directory is an old copy, or there are two of one name. Whatever it would
say from then on could contradict what it has said before. So no line that changes anything is asked, no job is begun, no end
is told, and no packet leaves, also after the service is started again, until a person has removed the note.
"""
from __future__ import annotations

import os
import time
from typing import Callable

from ..common.files import read_text, sync, write


class LostState:
    """The note of a loss."""

    def __init__(self, folder: str, log: Callable[[str], None]):
        self.folder = folder
        self.path = os.path.join(folder, "forgotten")
        self.log = log
        self.loss = ""

    def look(self) -> None:
        """Reads the note, at the start."""
        self.loss = read_text(self.path).strip()
        if self.loss:
            self.log(f"nothing changes this site: {self.loss}")

    def lose(self, sender: str) -> None:
        """Keeps that a packet was answered `forgotten`."""
        moment = time.strftime("%Y-%m-%d %H:%M:%S", time.localtime())
        self.loss = (
            f"at {moment} a packet of {sender} was answered `forgotten`: this directory is an old copy, or two have one name. "
            f"Stop the service, put the newest journal back and remove {self.path}; then start it"
        )
        self.log(f"nothing changes this site any more: {self.loss}")
        write(self.path, self.loss.encode() + b"\n")
        sync(self.folder)
