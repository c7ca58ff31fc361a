"""The backup of a site's journal, which has to be as new as the newest packet that has left, and the last start of a job."""
from __future__ import annotations

import asyncio
import os
import time
from typing import Callable, Tuple

from ..common.batching import Batched
from ..common.commands import call
from ..common.processes import end_holders, lock

RETRY_SECONDS = 5.0
LOOK_SECONDS = 0.05
LOCK = "NETTLEBEAM_BACKUP_LOCK"  # tells the command the descriptor of the lock
PROGRAM = "NETTLEBEAM"


class NoBackup(Exception):
    """The journal wasn't copied, so no packet may leave. The text tells why."""


class Backup:
    """Runs the configured command before packets leave and jobs start: one run for all that waited when it began.

    Each process of a copy has a lock as an open file, which the next copy waits for, also that of another service: so no copy
    goes on that could be put over a newer one. A copy that takes too long is ended with all of its processes.
    """

    def __init__(self, command: Tuple[str, ...], seconds: float, lock_path: str, program: str, log: Callable[[str], None]):
        self.command = command
        self.seconds = seconds
        self.lock_path = lock_path
        self.program = program
        self.log = log
        self.copies = Batched(self.copy)
        self.trouble = ""
        self.copying = asyncio.Lock()  # locked while a copy is made, and while another journal is put in the place of this one

    async def made(self) -> None:
        """Waits until a copy is made that was begun after this was called."""
        if self.command:
            await self.copies.done()

    async def check(self) -> None:
        """NoBackup where the last run of the command failed, unless it succeeds now."""
        if self.trouble:
            await self.made()

    async def insist(self) -> None:
        """Waits until a copy is made, however often the command fails."""
        while True:
            try:
                await self.made()
                return
            except NoBackup:
                await asyncio.sleep(RETRY_SECONDS)

    async def copy(self) -> None:
        """Runs the command, and keeps whether it failed."""
        try:
            async with self.copying:
                await self.run()
            self.trouble = ""
        except NoBackup as fault:
            self.trouble = str(fault)
            raise

    async def run(self) -> None:
        """Runs the command, once no other copy is made."""
        held = await self.locked()
        try:
            environment = {**os.environ, LOCK: str(held), PROGRAM: self.program}
            done = await call(self.command, self.seconds, env=environment, pass_fds=(held,))
        except asyncio.TimeoutError:
            raise NoBackup(f"no end within {self.seconds:g} s") from None
        except OSError as fault:
            raise NoBackup(f"{self.command[0]}: {fault.strerror}") from None
        finally:
            os.close(held)
        if done.status:
            raise NoBackup(done.errors.decode("utf-8", "replace").strip()[-300:] or f"status {done.status}")

    async def locked(self) -> int:
        """Takes the lock. An earlier copy that has it is waited for, and ended where it takes too long."""
        end = time.monotonic() + self.seconds
        while time.monotonic() < end:
            held = lock(self.lock_path)
            if held is not None:
                return held
            await asyncio.sleep(LOOK_SECONDS)
        self.log(f"an earlier copy of the journal has no end within {self.seconds:g} s, so it is ended")
        await asyncio.to_thread(end_holders, self.lock_path)
        held = lock(self.lock_path)
        if held is None:
            raise NoBackup("an earlier copy can't be ended, and may still be put in place")
        return held
