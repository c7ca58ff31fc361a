"""The spool: of each job that was submitted here or is to run here its script, and of each that was started a record.

    scripts/1.argonne        a line of JSON with the owner and what the client told, and behind it the bytes of the script
    scripts/new-..           a submission that had no answer yet
    begun/1.argonne          of a job that its node was told to start a line with its hosts, its nonce and its limit, and another
                             one with how it ended
    begun/1.argonne.new      the same, before the site was asked to begin it
    runs/                    the folder of the node that is this machine (`node/store.py`)
    drained                  the hosts on which nothing begins
"""
from __future__ import annotations

import asyncio
import errno
import hashlib
import json
import os
import tempfile
import threading
from collections import Counter
from typing import Any, Callable, Counter as Counts, Dict, List, Mapping, Optional, Sequence, Tuple

from ..common import processes
from ..common.batching import Batched
from ..common.files import read_json, remove, sync, write
from ..common.identifiers import IDENTIFIER
from .facts import Budget, ShortFacts

ANNOTATED_AT_ONCE = 64


class Spool:
    """The folder of all jobs."""

    def __init__(self, folder: str, free_bytes: int = 0):
        self.folder = folder
        self.free_bytes = free_bytes
        self.owners: Dict[Tuple[int, int], str] = {}  # of the stored scripts, by file and size
        self.scripts = os.path.join(folder, "scripts")
        self.runs = os.path.join(folder, "runs")
        self.begun = os.path.join(folder, "begun")
        self.names = Batched(lambda: asyncio.to_thread(sync, self.scripts))
        self.submissions = 0  # how many are asked, and not named yet
        self.added: Callable[[str], Dict[str, Any]] = lambda job: {}  # what is told of a job besides its own facts
        self.short = ShortFacts(self.script_path)
        self.annotating = [threading.Lock() for _ in range(ANNOTATED_AT_ONCE)]

    def open(self) -> Optional[int]:
        """Makes the folder, and takes its lock, so that one service has it; clears what an earlier one left half made."""
        os.makedirs(self.folder, mode=0o711, exist_ok=True)
        if os.stat(self.folder).st_uid == os.geteuid():
            os.chmod(self.folder, 0o711)  # owners of jobs read their own below it, in `runs`
        held = processes.lock(os.path.join(self.folder, "lock"))
        if held is not None:
            for path in (self.scripts, self.runs, self.begun):
                os.makedirs(path, mode=0o700, exist_ok=True)
            sync(self.folder)
            for folder in (self.scripts, self.begun):
                for name in os.listdir(folder):
                    if name.startswith("new-") or name.endswith(".new"):
                        os.remove(os.path.join(folder, name))
        return held

    # Scripts

    def script_path(self, job: str) -> str:
        """The file of a job's script."""
        if not IDENTIFIER.match(job):
            raise ValueError(f"{job!r} is no identifier")
        return os.path.join(self.scripts, job)

    def has_room(self, size: int = 0) -> bool:
        """Whether the disk has room for so many bytes, and leaves what the configuration wants free."""
        state = os.statvfs(self.folder)
        return state.f_bavail * state.f_frsize >= self.free_bytes + size

    def bytes_of_owners(self, here: str) -> Counts[str]:
        """How many bytes of scripts that were submitted here are stored of each owner. One that an array shares counts once."""
        found: Counts[str] = Counter()
        owners: Dict[Tuple[int, int], str] = {}
        for entry in os.scandir(self.scripts):
            if not entry.name.endswith(f".{here}"):
                continue
            try:
                state = entry.stat()
            except FileNotFoundError:
                continue
            key = (state.st_ino, state.st_size)
            if key not in owners:
                owners[key] = self.owners.get(key) or self.owner_of(entry.name)
                found[owners[key]] += state.st_size
        self.owners = owners
        return found

    def owner_of(self, job: str) -> str:
        """The owner of a job's script; nothing where it has gone."""
        kept = self.short.of(job) if IDENTIFIER.match(job) else None
        return str(kept.short.get("owner", "")) if kept else ""

    def growth(self, jobs: Sequence[str], size: int, here: str) -> int:
        """How many bytes the spool grows by at most where each of these jobs is told so many more: a shared script is copied."""
        total = 0
        for job in jobs:
            name = job if "." in job else f"{job}.{here}"
            try:
                state = os.stat(self.script_path(name))
            except (OSError, ValueError):
                continue
            total += size + (state.st_size if state.st_nlink > 1 else 0)
        return total

    def bytes_of(self, jobs: Sequence[str], here: str) -> int:
        """How many bytes the scripts of these jobs have."""
        total = 0
        for job in jobs:
            try:
                total += os.stat(self.script_path(job if "." in job else f"{job}.{here}")).st_size
            except (OSError, ValueError):
                continue
        return total

    def draft(self, facts: Dict[str, Any], script: bytes) -> str:
        """Stores a script that has no name yet; its file."""
        if not self.has_room(len(script)):
            raise OSError(errno.ENOSPC, "its disk is full")
        descriptor, path = tempfile.mkstemp(prefix="new-", dir=self.scripts)
        try:
            with open(descriptor, "wb") as file:
                file.write(json.dumps(facts).encode() + b"\n" + script)
                file.flush()
                os.fsync(file.fileno())
        except BaseException:
            os.remove(path)
            raise
        return path

    def name(self, draft: str, job: str) -> None:
        """Gives a stored script the name of its job; `names` has the disk keep that. A file of the name is of another job,
        which a site that was restored from a backup has lost."""
        os.rename(draft, self.script_path(job))

    def share(self, draft: str, job: str) -> None:
        """Gives a job a stored script that others have, too."""
        remove(self.script_path(job))
        os.link(draft, self.script_path(job))

    def facts(self, job: str) -> Optional[Dict[str, Any]]:
        """What was told when the job was submitted; None where its script isn't here."""
        found = read_json(self.script_path(job), is_line=True)
        return None if found is None else {**found, **self.added(job)}

    def listed_facts(self, job: str, owner: str, budget: Budget) -> Dict[str, Any]:
        """The facts of a job of this owner for a listing: all, or the short ones where the listing has too many."""
        kept = self.short.of(job)
        if kept is None:
            return {}
        return (self.facts(job) or {}) if budget.has(owner, kept.size) else {**kept.short, **self.added(job)}

    def annotate(self, job: str, added: Dict[str, Any]) -> None:
        """Puts something into a job's facts, one after another of one job. It is called in a thread."""
        with self.annotating[hash(job) % len(self.annotating)]:
            line, _, script = self.stored(job).partition(b"\n")
            facts = json.loads(line)
            if "variables" in added:
                added = {**added, "variables": {**facts.get("variables", {}), **added["variables"]}}
            self.name(self.draft({**facts, **added}, script), job)
            sync(self.scripts)

    def stored(self, job: str) -> bytes:
        """The facts and the script of a job, as they are stored."""
        with open(self.script_path(job), "rb") as file:
            return file.read()

    def told(self, job: str) -> bytes:
        """The facts and the script of a job for another site, which knows nothing of its group."""
        data, added = self.stored(job), self.added(job)
        if not added:
            return data
        facts, _, script = data.partition(b"\n")
        return json.dumps({**json.loads(facts), **added}).encode() + b"\n" + script

    # Jobs that are gone

    def names_kept(self) -> List[str]:
        """The jobs of which something is here."""
        return sorted({name for path in (self.scripts, self.begun) for name in os.listdir(path) if IDENTIFIER.match(name)})

    def forget(self, job: str, before: float) -> bool:
        """Removes what is here of a job that is gone, unless some of it is newer than that."""
        places = [path for path in (self.script_path(job), self.record_path(job)) if os.path.exists(path)]
        if any(os.stat(path).st_mtime > before for path in places):
            return False
        for path in places:
            remove(path)
        return True

    # Starts

    def record_path(self, job: str) -> str:
        """The file that tells of a job's start."""
        if not IDENTIFIER.match(job):
            raise ValueError(f"{job!r} is no identifier")
        return os.path.join(self.begun, job)

    def mark(self, job: str) -> str:
        """What tells a job from another of its name: the digest of its owner and its script."""
        facts, _, script = self.stored(job).partition(b"\n")
        return hashlib.sha256(json.loads(facts)["owner"].encode() + b"\n" + script).hexdigest()

    def was_started(self, job: str) -> bool:
        """Whether the script of a job may have been started already. The site says that such a job hasn't begun only where it was
        restored from a backup; then another job may have the name, too."""
        record = self.record(job)
        return record is not None and record.get("mark") == self.mark(job)

    def draft_record(self, job: str, record: Dict[str, Any]) -> None:
        """Writes what is to be known of a job's start, before the site is asked to begin it, so that no full disk stops it then."""
        write(f"{self.record_path(job)}.new", json.dumps(record).encode() + b"\n")

    def name_records(self, jobs: Sequence[str]) -> None:
        """Keeps that the nodes of jobs may be told to start them, before they are: all at once."""
        for job in jobs:
            os.rename(f"{self.record_path(job)}.new", self.record_path(job))
        sync(self.begun)

    def keep_records(self, records: Mapping[str, Dict[str, Any]]) -> None:
        """Keeps other records in the places of those that are there."""
        for job, record in records.items():
            self.draft_record(job, record)
        self.name_records(list(records))

    def record(self, job: str) -> Optional[Dict[str, Any]]:
        """What is known of a job's start, and of its end; None where its node was never told to start it."""
        record = read_json(self.record_path(job), is_line=True)
        return None if record is None else {**record, **self.exit_of(job)}

    def add_exit(self, job: str, ended: List[Any]) -> None:
        """Writes behind a record how the job ended. The site is told that, and its node knows it until then, so that it may be
        missing here where the disk is full or the machine stops."""
        if self.exit_of(job).get("exit") == ended:
            return
        try:
            with open(os.open(self.record_path(job), os.O_WRONLY | os.O_APPEND | os.O_CLOEXEC), "ab") as file:
                file.write(json.dumps({"exit": ended}).encode() + b"\n")
        except OSError:
            pass

    def exit_of(self, job: str) -> Dict[str, Any]:
        """What the last whole line behind a record tells of the job's end."""
        try:
            with open(self.record_path(job), "rb") as file:
                lines = file.read().split(b"\n")[1:-1]
            return dict(json.loads(lines[-1])) if lines else {}
        except (FileNotFoundError, ValueError):
            return {}

    def hosts(self, job: str) -> List[str]:
        """The hosts of a job that runs or ran here, where they are known still."""
        record = read_json(self.record_path(job), is_line=True)
        return list(record["hosts"]) if record else self.hosts_without_record(job)

    def session(self, job: str) -> Optional[int]:
        """The first process of a job that runs on this machine."""
        started = read_json(os.path.join(self.runs, job, "started"))
        return int(started["pid"]) if started else None

    def hosts_without_record(self, job: str) -> List[str]:
        """The hosts of a run of this machine that an older service has begun."""
        run = read_json(os.path.join(self.runs, job, "run.json"))
        return list(run["hosts"]) if run else []

    def used(self, job: str) -> Optional[Dict[str, int]]:
        """What a job that ended here has used, where that is known."""
        ended = self.exit_of(job).get("exit")
        return ended[2] if ended and ended[2] else None
