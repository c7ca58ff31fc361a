"""Tries what a start needs before a job begins: the configured command, as the job's owner, with a shell that makes a folder."""
from __future__ import annotations

import os
import pwd
import secrets
import shlex
import threading
import time
from typing import Dict, NamedTuple, Optional

from ..common.files import put
from .job_start import plain
from .owner_calls import call
from .settings import NodeKeys
from .shown import READ, show
from .wrapper import as_owner, environment_of, other_than_this, places_text

KEPT_SECONDS = 300.0
SECONDS = 8.0  # shorter than the service waits for an answer
TEXT = """\
{is_other}
{places}
rm -rf "$TMPDIR"
[ ! -r {probe} ] || echo {word}-shown
echo {word}-able
"""


class Trial(NamedTuple):
    """Whether an owner's shell reads what it is shown, and why no job of the owner can be started, or nothing."""

    is_shown: bool
    why: str = ""


class Trials:
    """What was tried, which is kept for a while if it succeeded."""

    def __init__(self, keys: NodeKeys):
        self.keys = keys
        self.guard = threading.Lock()
        self.passed: Dict[str, Trial] = {}
        self.until: Dict[str, float] = {}

    def of(self, owner: pwd.struct_passwd) -> Trial:
        """Tries a start of an owner, unless that succeeded a short while ago."""
        with self.guard:
            found: Optional[Trial] = self.passed.get(owner.pw_name)
            if found and self.until[owner.pw_name] > time.monotonic():
                return found
        trial = self.attempt(owner)
        with self.guard:
            self.passed.pop(owner.pw_name, None)
            if not trial.why:
                self.passed[owner.pw_name], self.until[owner.pw_name] = trial, time.monotonic() + KEPT_SECONDS
        return trial

    def forget(self, owner: str) -> None:
        """A start of an owner failed: it is tried anew before the next."""
        with self.guard:
            self.passed.pop(owner, None)

    def attempt(self, owner: pwd.struct_passwd) -> Trial:
        """Runs a shell as the owner."""
        name, word = f"trial-{secrets.token_hex(4)}", secrets.token_hex(8)
        probe = os.path.join(self.keys.folder, f"shown-{owner.pw_uid}")
        try:
            put(probe, b"")
            show(probe, owner.pw_uid, READ)
        except OSError:
            pass  # then it isn't shown, and all is carried
        text = TEXT.format(
            is_other=other_than_this(owner.pw_name), places=places_text(name), probe=shlex.quote(probe), word=word
        )
        words = [*as_owner(self.keys.start, owner.pw_name, name), "/bin/sh", "-c", text]
        status, said = call(words, environment_of(owner), seconds=SECONDS)
        if f"{word}-able" in said:
            return Trial(f"{word}-shown" in said)
        return Trial(False, plain(said.encode()) or f"{words[0]}: status {status}")
