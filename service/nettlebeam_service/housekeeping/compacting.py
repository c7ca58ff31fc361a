"""Compacting the site's journal, which else keeps every line and the whole text of every packet that was taken.

`serve` is started with --keep-history, so that the journal is put in the place of another one at no other moment than here:
behind a backup, and with another one behind it. No copy is made meanwhile. A packet that is made behind it, and a job that
begins then, wait for a copy of the new journal, since each waits for a copy that was begun behind it.
"""
from __future__ import annotations

import asyncio
import json
import os
import time
from typing import Callable, List, Optional, Tuple

from ..common.config import HouseKeys
from ..common.files import read_json, write
from ..site.backup import Backup, NoBackup
from ..site.site import Site, Stopped

SECONDS = 600.0
GROWTH = 2  # a journal is worth compacting once it is so many times as long as it was when that was done last


class Uncompacted(Exception):
    """The journal is as it was. The text tells why."""


class Compacting:
    """Compacts the journal of one site."""

    def __init__(self, keys: HouseKeys, site: Site, backup: Backup, spool: str, log: Callable[[str], None]):
        self.keys = keys
        self.site = site
        self.backup = backup
        self.log = log
        self.journal = os.path.join(site.folder, "journal")
        self.note = os.path.join(spool, "compacted")  # how long the journal was when the program had done with it
        self.not_before = 0.0
        self.one = asyncio.Lock()

    async def keep(self) -> None:
        """Compacts the journal where it is time, and worth it. What keeps it from that is logged."""
        if not self.keys.compact or self.site.lost_state.loss or time.monotonic() < self.not_before:
            return
        try:
            if await asyncio.to_thread(self.is_long):
                self.not_before = time.monotonic() + self.keys.compact
                self.log(f"the journal is {await self.compact()}")
        except Uncompacted as fault:
            self.log(f"the journal isn't compacted: {fault}")

    def is_long(self) -> bool:
        """Whether the journal has grown enough since it was compacted, or was found to be as short as it can be."""
        before = (read_json(self.note) or {}).get("bytes", 0)
        return os.path.getsize(self.journal) > max(self.keys.compact_bytes, GROWTH * before)

    async def compact(self) -> str:
        """Compacts the journal, however long it is; what the program says. Uncompacted where it can't be done."""
        if self.site.lost_state.loss:
            raise Uncompacted(self.site.lost_state.loss)
        async with self.one:
            try:
                await self.backup.made()
                async with self.backup.copying, self.site.alone():
                    said = await self.run()
            except NoBackup as fault:
                raise Uncompacted(f"the backup failed: {fault}") from None
            except Stopped as fault:
                raise Uncompacted(f"the site stopped: {fault}") from None
            await asyncio.to_thread(self.keep_size)
            await self.back_up()
            return said

    def keep_size(self) -> None:
        """Notes how long the journal is now. Where that can't be kept, it is compacted once more than it is worth."""
        try:
            write(self.note, json.dumps({"bytes": os.path.getsize(self.journal)}).encode())
        except OSError as fault:
            self.log(f"the length of the compacted journal isn't kept: {fault}")

    async def back_up(self) -> None:
        """Has the new journal copied before anybody waits for that. Where that fails no packet leaves, as ever."""
        try:
            await self.backup.made()
        except NoBackup as fault:
            self.log(f"the backup of the compacted journal failed: {fault}")

    async def run(self) -> str:
        """Runs the program; what it says. Where it is killed, or the service is, the journal is the old or the new one."""
        status, output, errors = await self.call()
        if status:
            raise Uncompacted(errors or f"the program ended with status {status}")
        if errors:
            self.log(f"site: {errors}")
        return output

    def keep_options(self) -> List[str]:
        """What has the program keep the old journal, under a name with this moment, where a folder is configured for that."""
        if not self.keys.history:
            return []
        moment = time.strftime("%Y-%m-%dT%H:%M:%SZ", time.gmtime())
        return ["--keep", os.path.join(self.keys.history, f"journal.{moment}")]

    async def call(self) -> Tuple[Optional[int], str, str]:
        """The program's status, its output and its words on standard error."""
        pipe, null = asyncio.subprocess.PIPE, asyncio.subprocess.DEVNULL
        words = [self.site.program, "compact", *self.keep_options(), self.site.folder]
        try:
            process = await asyncio.create_subprocess_exec(*words, stdin=null, stdout=pipe, stderr=pipe, start_new_session=True)
        except OSError as fault:
            raise Uncompacted(f"{self.site.program}: {fault.strerror}") from None
        try:
            output, errors = await asyncio.wait_for(process.communicate(), SECONDS)
        except asyncio.TimeoutError:
            raise Uncompacted(f"no end within {SECONDS:g} s") from None
        finally:
            if process.returncode is None:
                process.kill()
                await process.wait()
        return process.returncode, output.decode("ascii", "replace").strip(), errors.decode("utf-8", "replace").strip()
