"""Accounting: a line of JSON for each job that is gone, as the site tells it, in a file for each month; no job twice. Of a job that
ran here it has `used` behind that: the seconds of processors (`cput`), the kilobytes of the greatest of its processes (`mem`), and
the seconds that it took (`walltime`), as far as its node could tell; of one that didn't end by itself `comment`, why.

    accounting/2026-11.jsonl    the jobs that were recorded in that month
    accounting/recorded         the identifiers of all of them, so that files of months may be moved away, each with the second in
                                which it was written there, and what tells the job from another of its name

A job is recorded once nothing can change how it went. A finished one is so at every site. One that was deleted before it
began is so at its origin, where no other site has its grant, and at the site that has its grant: the origin alone grants, and
a deleted job is begun nowhere that knows of it. Other sites can't tell, and leave it to these two.

A site that was restored from a backup gives identifiers again. A job is another than the one that was recorded under its name where
its owner, its begin, its end or the second of its submission is another; then it is recorded, too.

Lines are written in one piece and synced before their identifiers are. So where a kill cuts this short, what was written is
found when it is read again, the piece of a line at a file's end is cut, and what isn't there is written then.
"""
from __future__ import annotations

import hashlib
import json
import os
import time
from typing import Any, Callable, Dict, List, Mapping, NamedTuple, Optional, Sequence, Set, Tuple

from ..common.files import sync

INDEX = "recorded"
SUFFIX = ".jsonl"


def is_settled(job: Dict[str, Any], here: str) -> bool:
    """Whether a job is gone, and nothing changes that, as far as this site can tell."""
    if job["finished"]:
        return True
    if job["begun"] or not job["deleted"]:
        return False
    holder = (job["grant"] or {}).get("site")  # none where it was handed back
    return holder == here or (holder is None and str(job["id"]).partition(".")[2] == here)


def whole_lines(path: str) -> List[bytes]:
    """The lines of a file, behind whose last whole line whatever stands there is cut."""
    try:
        with open(path, "r+b") as file:
            data = file.read()
            end = data.rfind(b"\n") + 1
            if end < len(data):
                file.truncate(end)
                os.fsync(file.fileno())
            return data[:end].splitlines()
    except FileNotFoundError:
        return []


def append(path: str, data: bytes) -> None:
    """Puts lines behind a file's, and syncs it. Where that fails the file is as long as it was."""
    descriptor = os.open(path, os.O_WRONLY | os.O_CREAT | os.O_APPEND | os.O_CLOEXEC, 0o600)
    try:
        before = os.fstat(descriptor).st_size
        try:
            written = 0
            while written < len(data):
                written += os.write(descriptor, data[written:])
            os.fsync(descriptor)
        except OSError:
            os.ftruncate(descriptor, before)
            raise
    finally:
        os.close(descriptor)


class Entry(NamedTuple):
    """What the list of all tells of a job: when it was recorded, and what tells it from another of its name, where that is known."""

    moment: int
    mark: str = ""
    second: str = ""  # of its submission

    def is_of(self, mark: str, second: str) -> bool:
        """Whether it is of the job with this mark that was submitted in this second. What isn't known is no difference."""
        return all(not mine or not theirs or mine == theirs for mine, theirs in ((self.mark, mark), (self.second, second)))


def mark_of(job: Dict[str, Any]) -> str:
    """What tells a job that is gone from another of its name. Nothing changes it any more."""
    begun, finished = job.get("begun") or {}, job.get("finished") or {}
    told = [job.get("owner"), begun.get("site"), begun.get("moment"), finished.get("moment"), finished.get("status")]
    return hashlib.sha256(json.dumps(told).encode()).hexdigest()[:16]


def index_lines(entries: Mapping[str, Entry]) -> bytes:
    """The lines of these identifiers in the list of all."""
    return "".join(f"{name} {it.moment} {it.mark or '-'} {it.second or '-'}\n" for name, it in entries.items()).encode("ascii")


def read_index(lines: Sequence[bytes]) -> List[Tuple[str, Optional[Entry]]]:
    """The identifiers of a list, each with what it tells; older lists tell no marks, and the oldest no moments."""
    found: List[Tuple[str, Optional[Entry]]] = []
    for row in (line.decode("ascii", "replace").split() for line in lines):
        rest = ["" if word == "-" else word for word in row[2:4]]
        if row:
            found.append((row[0], Entry(int(row[1]), *rest) if len(row) > 1 and row[1].isdigit() else None))
    return found


def job_in(line: bytes) -> Dict[str, Any]:
    """The job in a line of a month; nothing where the line is none of this program."""
    try:
        value = json.loads(line)
    except ValueError:
        return {}
    return value if isinstance(value, dict) and value.get("id") else {}


class Accounting:
    """The files of one site. Its calls are made in a thread, one behind the other."""

    def __init__(self, folder: str, here: str):
        self.folder = folder
        self.here = here
        self.known: Dict[str, Entry] = {}  # by identifiers, of the job that had it last
        self.is_open = False

    def path(self, name: str) -> str:
        """A file of the folder."""
        return os.path.join(self.folder, name)

    def open(self) -> None:
        """Reads what is recorded, and completes the list of identifiers."""
        os.makedirs(self.folder, mode=0o700, exist_ok=True)
        self.known, self.is_open = {}, False
        entries: Dict[str, List[Entry]] = {}
        moment = int(time.time())
        missing: Dict[str, Entry] = {}
        listed = read_index(whole_lines(self.path(INDEX)))
        for name, entry in listed:
            if entry is not None:
                entries.setdefault(name, []).append(entry)
        for name, _ in listed:
            if name not in entries:
                missing[name] = Entry(moment)
                entries[name] = [missing[name]]
        for file in sorted(os.listdir(self.folder)):
            for job in map(job_in, whole_lines(self.path(file)) if file.endswith(SUFFIX) else []):
                name, mark = str(job.get("id", "")), mark_of(job)
                if name and not any(it.is_of(mark, "") for it in entries.get(name, [])):
                    missing[name] = Entry(moment, mark)
                    entries.setdefault(name, []).append(missing[name])
        if missing:
            append(self.path(INDEX), index_lines(missing))
        sync(self.folder)
        self.known = {name: its[-1] for name, its in entries.items()}
        self.is_open = True

    def record(
        self,
        jobs: Sequence[Dict[str, Any]],
        tell: Callable[[Dict[str, Any]], Dict[str, Any]] = lambda job: job,
        submitted: Callable[[str], str] = lambda name: "",
    ) -> int:
        """Records those of these jobs that are settled and not recorded yet, each as `tell` tells of it; how many."""
        if not self.is_open:
            self.open()
        moment = int(time.time())
        texts: List[str] = []
        new: Dict[str, Entry] = {}
        for job in jobs:
            if not is_settled(job, self.here):
                continue
            name, mark = job["id"], mark_of(job)
            known, second = self.known.get(name), submitted(name)
            if known is None or not known.is_of(mark, second):
                new[name] = Entry(moment, mark, second)
                texts.append(json.dumps(tell(job), separators=(",", ":")))
        if new:
            self.is_open = False  # where one of these fails, what is there is read again
            append(self.path(time.strftime("%Y-%m") + SUFFIX), "".join(f"{text}\n" for text in texts).encode("ascii"))
            sync(self.folder)
            append(self.path(INDEX), index_lines(new))
            self.known.update(new)
            self.is_open = True
        return len(new)

    def recorded_before(self, jobs: Sequence[Dict[str, Any]], moment: float) -> Set[str]:
        """The identifiers of those jobs that are settled, and were recorded at the moment or before."""
        names = [job["id"] for job in jobs if is_settled(job, self.here)]
        return {name for name in names if name in self.known and self.known[name].moment <= moment}

    def retired(self, jobs: Sequence[Dict[str, Any]]) -> List[int]:
        """The counters of the recorded jobs of this site, ascending, that it doesn't tell any more among these."""
        told = {job["id"] for job in jobs}
        mine = (name.partition(".") for name in self.known if name not in told)
        return sorted(int(number) for number, _, origin in mine if origin == self.here and number.isdigit())
