"""The facts of jobs for listings, which are asked often: kept in memory without those that are long, as long as the file is the same.

What one user has told of many jobs must make no listing of others long. So of each owner's jobs so many bytes of facts are told whole,
and of the others of that owner the short ones.
"""
from __future__ import annotations

import os
from collections import Counter
from typing import Any, Callable, Counter as Counts, Dict, NamedTuple, Optional, Tuple

from ..common.files import read_json

LONGEST_SHORT = 256  # characters
BYTES_OF_OWNER = 1024 * 1024
BYTES_OF_ALL = 16 * BYTES_OF_OWNER
MOST_KEPT = 20_000

Facts = Dict[str, Any]


class Kept(NamedTuple):
    """What is kept of a file: what tells it from another, how long its facts are, and the short ones."""

    mark: Tuple[int, int, int]
    size: int
    short: Facts


class ShortFacts:
    """The short facts of the jobs in a folder."""

    def __init__(self, path_of: Callable[[str], str]):
        self.path_of = path_of
        self.kept: Dict[str, Kept] = {}

    def of(self, job: str) -> Optional[Kept]:
        """Those of a job; None where there are none."""
        path = self.path_of(job)
        try:
            state = os.stat(path)
        except FileNotFoundError:
            self.kept.pop(job, None)
            return None
        mark = (state.st_ino, state.st_mtime_ns, state.st_size)
        found = self.kept.get(job)
        if found is None or found.mark != mark:
            facts = read_json(path, is_line=True) or {}
            short = {key: it for key, it in facts.items() if isinstance(it, str) and len(it) <= LONGEST_SHORT}
            size = sum(len(str(it)) for it in facts.values())
            if len(self.kept) >= MOST_KEPT:
                self.kept.clear()
            found = self.kept[job] = Kept(mark, size, short)
        return found


class Budget:
    """How many bytes of facts one listing tells whole."""

    def __init__(self) -> None:
        self.told: Counts[str] = Counter()
        self.all = 0

    def has(self, owner: str, size: int) -> bool:
        """Takes so many of an owner's jobs, where they are left."""
        if self.told[owner] + size > BYTES_OF_OWNER or self.all + size > BYTES_OF_ALL:
            return False
        self.told[owner] += size
        self.all += size
        return True
