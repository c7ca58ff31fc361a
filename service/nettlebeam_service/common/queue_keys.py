"""[queues]: names for sites, with limits: `short = here, walltime<=3600, nodes<=2, walltime=600, users=ann+bob, groups=chem`."""
from __future__ import annotations

import re
from dataclasses import dataclass
from typing import Mapping, Tuple

NAME = re.compile(r"[A-Za-z][A-Za-z0-9_-]{0,14}\Z")
SITES = re.compile(r"[A-Za-z][A-Za-z0-9-]{0,14}(?:\+[A-Za-z][A-Za-z0-9-]{0,14})*\Z")
LIMIT = re.compile(r"(walltime|nodes)<=([1-9][0-9]{0,7})\Z")
USUAL_SECONDS = 3600  # of a job that names no limit


class NoQueue(ValueError):
    """A line is no queue. The text says why."""


@dataclass(frozen=True)
class Queue:
    """A name for sites, and what its jobs may ask for."""

    name: str
    sites: str = "here"
    most_nodes: int = 0
    most_seconds: int = 0
    seconds: int = 0
    users: Tuple[str, ...] = ()
    groups: Tuple[str, ...] = ()

    def usual_seconds(self) -> int:
        """The limit of a job that names none."""
        return self.seconds or min(USUAL_SECONDS, self.most_seconds or USUAL_SECONDS)


def check_sites(text: str) -> str:
    """Names of sites joined by +, or `here` or `any` among them."""
    if not SITES.match(text):
        raise NoQueue(f"{text or 'nothing'} is neither here nor any, nor names of sites joined by +")
    return text


def read_queue(name: str, text: str) -> Queue:
    """The queue of a line."""
    if not NAME.match(name):
        raise NoQueue("a queue's name is a letter and up to 14 letters, digits, _ and -")
    values = {}
    for part in filter(None, (it.strip() for it in text.split(","))):
        limit = LIMIT.match(part)
        key, mark, value = part.partition("=")
        if limit:
            values["most_nodes" if limit[1] == "nodes" else "most_seconds"] = int(limit[2])
        elif key == "walltime" and value.isdigit() and 0 < int(value):
            values["seconds"] = int(value)
        elif key in ("users", "groups") and value:
            values[key] = tuple(value.split("+"))
        elif not mark:
            values["sites"] = check_sites(part)
        else:
            raise NoQueue(f"{part} is none of sites, walltime<=SECONDS, nodes<=NUMBER, walltime=SECONDS, users=A+B and groups=A+B")
    queue = Queue(name, **values)  # type: ignore[arg-type]
    if queue.most_seconds and queue.seconds > queue.most_seconds:
        raise NoQueue(f"walltime={queue.seconds} is above walltime<={queue.most_seconds}")
    return queue


def read_queues(items: Mapping[str, str]) -> Tuple[Queue, ...]:
    """All queues, of which the first is that of jobs which name none."""
    found = []
    for name, text in items.items():
        try:
            found.append(read_queue(name, text))
        except NoQueue as fault:
            raise NoQueue(f"[queues] {name} = {text}: {fault}") from None
    return tuple(found)
