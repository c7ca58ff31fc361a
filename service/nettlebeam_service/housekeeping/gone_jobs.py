"""Jobs that are gone, in the files of the accounting.

A job is looked for in the file of the month in which it was recorded, as the list of all tells, and then in the others, the newest
first; one that isn't in the list in none. Without names the newest jobs are told, as many as an answer may have.
"""
from __future__ import annotations

import json
import mmap
import os
import re
import time
from typing import Any, Collection, Dict, Iterator, List, Sequence, Set

from ..common.slices import Slices

SUFFIX = ".jsonl"
CHUNK = 1 << 18
MOST_BYTES = 32 * 1024 * 1024  # of the newest jobs
IDENTIFIED = re.compile(rb'"id": ?"([^"\n]{1,40})"')


def month_of(moment: int) -> str:
    """The file of the jobs that were recorded in a second."""
    return time.strftime("%Y-%m", time.localtime(moment)) + SUFFIX


def months(folder: str, first: Collection[str] = ()) -> List[str]:
    """The files of months: these first, then the others, the newest first."""
    try:
        names = [name for name in os.listdir(folder) if name.endswith(SUFFIX)]
    except OSError:
        return []
    return sorted(names, key=lambda name: (name in first, name), reverse=True)


def size_of(folder: str, names: Sequence[str]) -> int:
    """How many bytes these files have."""
    total = 0
    for name in names:
        try:
            total += os.stat(os.path.join(folder, name)).st_size
        except OSError:
            pass  # moved away meanwhile
    return total


def recorded(folder: str, names: Set[str], first: Collection[str] = ()) -> List[Dict[str, Any]]:
    """The jobs of these names, each as it was recorded last in the first file that has it."""
    found: Dict[str, Dict[str, Any]] = {}
    for name in months(folder, first):
        wanted = {it.encode() for it in names.difference(found)}
        if not wanted:
            break
        for line in lines_with(os.path.join(folder, name), wanted):
            job = job_in(line)
            if job.get("id") in names:
                found[job["id"]] = job
    return list(found.values())


def lines_with(path: str, wanted: Collection[bytes]) -> Iterator[bytes]:
    """The lines of a file that tell of one of these."""
    slices, rest = Slices(), b""
    try:
        with open(path, "rb") as file:
            while True:
                data = file.read(CHUNK)
                whole, mark, rest_of = (rest + data).rpartition(b"\n") if data else (rest, b"", b"")
                for hit in IDENTIFIED.finditer(whole) if mark or not data else ():
                    if hit.group(1) in wanted:
                        end = whole.find(b"\n", hit.end())
                        yield whole[whole.rfind(b"\n", 0, hit.start()) + 1 : len(whole) if end < 0 else end]
                rest = rest_of if mark else rest + data
                if not data:
                    return
                slices.pause()
    except OSError:
        return  # moved away meanwhile


def newest(folder: str) -> List[Dict[str, Any]]:
    """The jobs that were recorded last, each once, the oldest of them first."""
    found: Dict[str, Dict[str, Any]] = {}
    slices, left = Slices(), MOST_BYTES
    for name in months(folder):
        for line in last_lines(os.path.join(folder, name), left):
            left -= len(line)
            job = job_in(line)
            if job:
                found.setdefault(job["id"], job)
            slices.pause()
        if left <= 0:
            break
    return list(found.values())[::-1]


def last_lines(path: str, most: int) -> Iterator[bytes]:
    """The last whole lines of a file that have so many bytes, the last of them first."""
    try:
        with open(path, "rb") as file, mmap.mmap(file.fileno(), 0, access=mmap.ACCESS_READ) as data:
            end = data.rfind(b"\n") + 1
            stop = max(0, end - most)
            while end > stop:
                place = data.rfind(b"\n", stop, end - 1)
                if place < 0 < stop:
                    return
                start = place + 1 if place >= 0 else 0
                yield data[start:end]
                end = start
    except (OSError, ValueError):
        return  # moved away meanwhile, or empty


def job_in(line: bytes) -> Dict[str, Any]:
    """The job of a line; nothing where it has none."""
    try:
        job = json.loads(line)
    except ValueError:
        return {}
    return job if isinstance(job, dict) and "id" in job else {}
