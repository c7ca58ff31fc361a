"""What a node keeps of each run, in a folder of its own. Several processes of the node may work in it at one time.

    FOLDER/1.argonne/lock      held by the runner as long as it lives, and by who changes what stands here
                     run.json  what the runner is told
                     input     what the script's command reads: a text for the shell, and after it what `own` hasn't
                     own       if the owner can read it, the names of the hosts and the script
                     nonce     lets the run be started once; becomes `taken` by a rename when it is, and `used-..` where another
                               run of the name is prepared behind it
                     ready     becomes `started`, once, when the script is about to start
                     runner    the process of the runner
                     started   the process of the script
                     waiting   becomes `going` before the script may run
                     exit      how the script ended, when, what it used, and what ended it; or why it hasn't run
                     log       the first of what went wrong before the script had its own files

So a run that has a `nonce` isn't started; one that has none and whose lock is held runs; and where the lock is free no runner is
there or will be. Beside the runs FOLDER/starting is held by who starts a run if a node has one at a time, FOLDER/gone-.. is
a run that is being removed, and FOLDER/shown-.. tries whether an owner reads what is shown.

Nothing here but the end of a run is synced. After a crash of the machine its boot has another name, and a run of an earlier boot
is lost, whatever the disk has kept of it: it is never started again.
"""
from __future__ import annotations

import errno
import json
import os
import re
import secrets
import shutil
import time
from typing import Any, Dict, List, Optional

from ..common import processes
from ..common.files import put, read_json, remove, sync, write
from ..common.identifiers import IDENTIFIER

NONCE = re.compile(r"[0-9a-f]{32}\Z")
RESERVED_BYTES = 512
LEAST_INODES = 64
WINDOW_SECONDS = 60.0
LOCK_SECONDS = 5.0
LONGEST_LOG = 300  # bytes of a log that are passed on
READY, RUNS, LEFT, ENDED, LOST, UNKNOWN = "ready", "runs", "left", "ended", "lost", "unknown"
State = Dict[str, Any]


def boot_time() -> float:
    """Seconds since the machine started, those in which it was suspended counted."""
    return time.clock_gettime(time.CLOCK_BOOTTIME)


class NoRoom(Exception):
    """The disk has no room for a run. The text tells why."""


class Store:
    """The folder of all runs of a node, in one run of its machine."""

    def __init__(self, folder: str, boot: str, free_bytes: int):
        self.folder = folder
        self.boot = boot
        self.free_bytes = free_bytes

    def path(self, job: str, name: str = "") -> str:
        """The folder of a run, or a file in it."""
        if not IDENTIFIER.match(job):
            raise ValueError(f"{job[:40]!r} is no identifier")
        return os.path.join(self.folder, job, name) if name else os.path.join(self.folder, job)

    def names(self) -> List[str]:
        """The runs of which something is here."""
        try:
            return sorted(name for name in os.listdir(self.folder) if IDENTIFIER.match(name))
        except FileNotFoundError:
            return []

    def read(self, job: str, name: str) -> Dict[str, Any]:
        """The object in a file of a run; an empty one where it isn't there."""
        return read_json(self.path(job, name)) or {}

    # The lock

    def lock(self, job: str, seconds: float = LOCK_SECONDS) -> Optional[int]:
        """Takes the lock of a run whose folder is there; None where another has it for so long."""
        end = time.monotonic() + seconds
        path = self.path(job, "lock")
        while True:
            held = processes.lock(path)
            if held is not None:
                try:
                    if os.fstat(held).st_ino == os.stat(path).st_ino:
                        return held
                except FileNotFoundError:
                    pass  # the folder was removed while this waited
                os.close(held)
            elif time.monotonic() > end:
                return None
            time.sleep(0.01)

    def lock_starts(self, seconds: float = LOCK_SECONDS) -> Optional[int]:
        """Takes the lock that one start at a time has; None where another has it for so long."""
        end = time.monotonic() + seconds
        while True:
            held = processes.lock(os.path.join(self.folder, "starting"))
            if held is not None or time.monotonic() > end:
                return held
            time.sleep(0.01)

    # What is there

    def state(self, job: str, has_lock: bool = False) -> State:
        """What became of a run; who has its lock says so. The order of these looks is that in which a start changes what stands
        here."""
        nonce = self.read(job, "nonce")
        if nonce:
            return {"state": READY if nonce["boot"] == self.boot else LOST, "nonce": nonce["nonce"]}
        if not os.path.isdir(self.path(job)):
            return {"state": UNKNOWN}
        is_locked = not has_lock and processes.is_locked(self.path(job, "lock"))
        taken = self.read(job, "taken") or self.read(job, "started")  # older services had no `taken`
        known = {"nonce": taken.get("nonce", "")}
        if is_locked:
            return {"state": RUNS, **known}
        ended = self.read(job, "exit")
        if ended:
            return {"state": ENDED, **known, **ended}
        if taken:
            return {"state": LEFT if taken["boot"] == self.boot else LOST, **known}
        return {"state": UNKNOWN}

    def others_running(self, job: str) -> List[str]:
        """The other runs that aren't at their ends. The lock of one that is just being prepared or forgotten is held, too."""
        return [name for name in self.names() if name != job and self.is_running(name)]

    def is_running(self, job: str) -> bool:
        """Whether processes of a run may be there."""
        state = self.state(job)["state"]
        if state != RUNS:
            return bool(state == LEFT)
        return bool(self.read(job, "taken") or self.read(job, "started")) and not self.read(job, "exit")

    def log(self, job: str) -> str:
        """The end of what a runner has written of what went wrong."""
        try:
            with open(self.path(job, "log"), "rb") as file:
                file.seek(max(0, os.fstat(file.fileno()).st_size - LONGEST_LOG))
                return file.read(LONGEST_LOG).decode("utf-8", "replace").strip()
        except FileNotFoundError:
            return ""

    # Changes, by who has the lock

    def check_room(self, size: int) -> None:
        """NoRoom where a run with so many bytes would leave too little."""
        state = os.statvfs(self.folder)
        if state.f_bavail * state.f_frsize < size + self.free_bytes:
            raise NoRoom(f"{self.folder} has {state.f_bavail * state.f_frsize} bytes free")
        if state.f_files and state.f_favail < LEAST_INODES:
            raise NoRoom(f"{self.folder} has {state.f_favail} inodes free")

    def prepare(self, job: str, run: Dict[str, Any], data: bytes) -> str:
        """Writes what the runner is told, and takes the room that it needs, so that no full disk stops it later; the nonce
        that lets it start."""
        self.check_room(len(data))
        before = self.read(job, "taken").get("nonce", "")
        if NONCE.match(before):
            os.rename(self.path(job, "taken"), self.path(job, f"used-{before}"))
        for name in ("nonce", "taken", "started", "going", "exit", "signal"):
            remove(self.path(job, name))
        nonce = {"nonce": secrets.token_hex(16), "boot": self.boot, "until": boot_time() + WINDOW_SECONDS}
        put(self.path(job, "run.json"), json.dumps({**run, "until": nonce["until"]}).encode())
        put(self.path(job, "input"), data)
        for name in ("ready", "exit.new", "runner", "waiting"):
            put(self.path(job, name), b"", RESERVED_BYTES)
        put(self.path(job, "log"), b"")
        put(self.path(job, "nonce.new"), json.dumps(nonce).encode())
        os.rename(self.path(job, "nonce.new"), self.path(job, "nonce"))
        return str(nonce["nonce"])

    def take(self, job: str, nonce: str) -> bool:
        """Uses the nonce, the one time that it can be used; whether it could."""
        found = self.read(job, "nonce")
        if found.get("nonce") != nonce or found["boot"] != self.boot or boot_time() > found["until"]:
            return False
        try:
            os.rename(self.path(job, "nonce"), self.path(job, "taken"))
        except FileNotFoundError:
            return False  # it was dropped meanwhile
        return True

    def was_taken(self, job: str, nonce: str) -> bool:
        """Whether a run of this name was started by this nonce."""
        if self.read(job, "taken").get("nonce") == nonce:
            return True
        return bool(NONCE.match(nonce)) and os.path.exists(self.path(job, f"used-{nonce}"))

    def drop(self, job: str, nonce: str) -> bool:
        """Takes a nonce away, also where another process has the lock; whether it can't be used any more and wasn't."""
        if self.read(job, "nonce").get("nonce") == nonce:
            try:
                os.rename(self.path(job, "nonce"), self.path(job, "dropped"))
            except FileNotFoundError:
                pass  # it was used, or dropped, meanwhile
        return not self.was_taken(job, nonce)

    def end(self, job: str, status: int, **more: str) -> None:
        """Writes how a run ended that has no runner to do so."""
        ended = {"status": status, "moment": int(time.time()), **more}
        write(self.path(job, "exit.new"), json.dumps(ended).encode(), RESERVED_BYTES)
        os.rename(self.path(job, "exit.new"), self.path(job, "exit"))
        sync(self.path(job))

    def remove(self, job: str) -> None:
        """Removes the folder of a run: all of it at once, so that nobody sees a part of it."""
        gone = os.path.join(self.folder, f"gone-{secrets.token_hex(8)}")
        try:
            os.rename(self.path(job), gone)
        except FileNotFoundError:
            return
        shutil.rmtree(gone, ignore_errors=True)

    def tidy(self) -> None:
        """Removes what a process that was killed has left half removed."""
        for name in os.listdir(self.folder):
            if name.startswith("gone-"):
                shutil.rmtree(os.path.join(self.folder, name), ignore_errors=True)

    def clear_empty(self, job: str) -> None:
        """Removes a folder that has nothing of a run, as an answer of an older program left it."""
        if time.time() - os.stat(self.path(job)).st_mtime < WINDOW_SECONDS or any("used-" in it for it in os.listdir(self.path(job))):
            return
        held = processes.lock(self.path(job, "lock"))
        if held is not None:
            try:
                if self.state(job, has_lock=True)["state"] == UNKNOWN:
                    self.remove(job)
            finally:
                os.close(held)


def is_full(fault: OSError) -> bool:
    """Whether a fault says that the disk takes nothing more."""
    return fault.errno in (errno.ENOSPC, errno.EDQUOT, errno.EROFS, errno.EIO)
