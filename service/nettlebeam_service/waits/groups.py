"""What waits: jobs that were submitted together, with what they wait for, each group in a file of the spool.

    groups/KEY.json     one job that waits for others or for its time, or the members of an array

A group is written before its jobs are submitted, so that after a kill it is known what was under way. Its states:

    making      its jobs are being submitted, each with a user hold; nobody was answered
    made        all are submitted; the system holds of those that wait are being set, and then the user holds released
    entered     done; what has a system hold waits

In the facts of a job's script stands the key of its group; of a member of an array the group tells the index.
"""
from __future__ import annotations

import json
import os
import re
import secrets
import time
from dataclasses import asdict, dataclass, field
from typing import Any, Dict, Iterator, List, Optional, Set

from ..common.files import read_json, remove, sync, write
from ..words.dependencies import text_of
from ..words.ranges import range_text

SUFFIX = ".json"
KEY = re.compile(r"[0-9a-f]{16}\Z")
MOST_SHOWN = 20  # pairs of what is waited for, for people
MAKING, MADE, ENTERED = "making", "made", "entered"


@dataclass
class Group:
    """Jobs that were submitted together."""

    key: str = field(default_factory=lambda: secrets.token_hex(8))
    state: str = MAKING
    owner: str = ""
    name: str = ""
    after: int = 0  # the site's counter before they were submitted
    depend: List[List[str]] = field(default_factory=list)  # pairs of a type and a job, without those that came true
    at: int = 0
    most: int = 0
    held: bool = False  # whether they keep their user holds
    indices: List[int] = field(default_factory=list)
    jobs: List[str] = field(default_factory=list)
    over: bool = False  # whether all are gone
    comment: str = ""

    @property
    def array_id(self) -> str:
        """The identifier of an array: that of its first member, with brackets."""
        number, _, site = self.jobs[0].partition(".")
        return f"{number}[].{site}"

    def __post_init__(self) -> None:
        """Prepares what is worked out once for an array, since there may be thousands of members."""
        self.told: Dict[str, Dict[str, str]] = {}

    def shown_names(self) -> Dict[str, str]:
        """What its members are called in listings."""
        return {job: self.array_id.replace("[]", f"[{index}]") for index, job in zip(self.indices, self.jobs)}

    @property
    def is_waiting(self) -> bool:
        """Whether something has to come true."""
        return bool(self.depend or self.at)

    def waits_for(self, most: int) -> str:
        """So much of what has to come true, in words for a listing."""
        return text_of([(kind, job) for kind, job in self.depend[:most]])

    def in_words(self) -> str:
        """What is waited for, for people."""
        shown, more = self.depend[:MOST_SHOWN], len(self.depend) - MOST_SHOWN
        jobs = ", ".join([*(f"{job} ({kind})" for kind, job in shown), *([f"{more} others"] if more > 0 else [])])
        moment = time.strftime("%Y-%m-%d %H:%M:%S", time.localtime(self.at)) if self.at else ""
        return " and ".join(f"waits for {it}" for it in (jobs, moment) if it)

    def added(self, job: str) -> Dict[str, str]:
        """What is told of a job of the group besides its own facts."""
        if len(self.told) != len(self.jobs) or (self.jobs and self.jobs[0] not in self.told):
            fixed = {"array_id": self.array_id, "array": range_text(self.indices, self.most)} if self.jobs else {}
            self.told = {member: {"index": str(index), **fixed} for index, member in zip(self.indices, self.jobs)}
        told = self.told.get(job, {})
        return {**told, "comment": self.comment} if told and self.comment else dict(told)


def group_of(value: Optional[Dict[str, Any]]) -> Optional[Group]:
    """The group that a file tells; None where it is none."""
    try:
        return Group(**value) if value else None
    except TypeError:
        return None


class Groups:
    """All groups of a site."""

    def __init__(self, spool: str):
        self.folder = os.path.join(spool, "groups")
        self.all: Dict[str, Group] = {}
        self.by_job: Dict[str, Group] = {}

    def __iter__(self) -> Iterator[Group]:
        return iter(list(self.all.values()))

    def open(self) -> None:
        """Reads what is there, and clears what was half written."""
        os.makedirs(self.folder, mode=0o700, exist_ok=True)
        for name in sorted(os.listdir(self.folder)):
            path = os.path.join(self.folder, name)
            group = group_of(read_json(path)) if name.endswith(SUFFIX) and KEY.match(name[: -len(SUFFIX)]) else None
            if group is not None:
                self.know(group)
            elif not name.endswith(SUFFIX):
                remove(path)

    def know(self, group: Group) -> None:
        """Takes a group, or its new jobs, into the indices."""
        self.all[group.key] = group
        self.by_job.update(dict.fromkeys(filter(None, group.jobs), group))

    def path(self, group: Group) -> str:
        """The file of a group."""
        return os.path.join(self.folder, group.key + SUFFIX)

    def save(self, group: Group) -> None:
        """Has the disk keep a group. It is called in a thread."""
        path = self.path(group)
        write(f"{path}.new", json.dumps(asdict(group)).encode())
        os.rename(f"{path}.new", path)
        sync(self.folder)

    def remove(self, group: Group) -> None:
        """Forgets a group. A kill may bring its file back, which says then what has come true already."""
        self.all.pop(group.key, None)
        for job in group.jobs:
            self.by_job.pop(job, None)
        remove(self.path(group))

    def disown(self, job: str) -> None:
        """Forgets the group of a job whose identifier is given anew, which a site does that was restored from a backup."""
        group = self.by_job.get(job)
        if group:
            self.remove(group)

    def added(self, job: str) -> Dict[str, str]:
        """What a job's group tells of it."""
        group = self.by_job.get(job)
        return group.added(job) if group and group.state != MAKING else {}

    def needed(self) -> Set[str]:
        """The jobs that others wait for."""
        return {job for group in self for _, job in group.depend}

    def pairs_of(self, user: str) -> int:
        """How many pairs of what is waited for a user's groups have that are made."""
        return sum(len(group.depend) for group in self.all.values() if group.owner == user and group.state != MAKING)

    def array(self, first: str) -> Optional[Group]:
        """The array whose first member this is."""
        group = self.by_job.get(first)
        return group if group and group.indices and group.jobs[0] == first else None
