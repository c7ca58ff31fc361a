"""What the site tells by its looks: jobs, its machine, its plan, what other sites know. Each is asked as JSON."""
from __future__ import annotations

import asyncio
import time
from typing import Any, Dict, Iterable, List, NamedTuple, Optional, Sequence

from .answers import Answer
from .site import Site

Job = Dict[str, Any]  # as the look `jobs` tells it
Reservation = Dict[str, Any]  # `id`, `site`, `start`, `end`, `nodes`
Seen = Dict[str, Dict[str, Any]]
NAMES_OF_LINE = 10  # who asks between two such lines waits for one of them
MOST_AT_ONCE = 250  # jobs that the loop reads in one slice
STARTS = "starts"  # the answer to why a job waits that starts now


class NoPlan(Exception):
    """The site can't tell what runs or starts, for a board that no run of a federation leaves."""


class Machine(NamedTuple):
    """The machine of the site: its nodes, those that are free, the jobs that run on it, and what is reserved of it."""

    nodes: int
    free: int
    running: List[Job]
    reserved: List[Reservation]


class Plan(NamedTuple):
    """The jobs that start now, and the head of the queue with the second at which it starts at the latest, if there is one."""

    starts: List[Job]
    head: Optional[str]
    second: int


def now() -> int:
    """The present second."""
    return int(time.time())


def origin_of(name: str) -> str:
    """The site that a job was submitted at."""
    return name.split(".")[1]


def full_name(name: str, here: str) -> str:
    """The identifier that a user's word means here."""
    return name if "." in name else f"{name}.{here}"


def is_granted_to(job: Job, site: str) -> bool:
    """Whether a job is granted to a site."""
    return bool(job["grant"]) and job["grant"]["site"] == site


async def jobs_told(site: Site, names: Sequence[str] = ()) -> List[Job]:
    """What the site tells of jobs, or of all that it knows; of a site that there isn't it tells none."""
    answer = await site.look(" ".join(["jobs", *names]))
    return answer.json_lines() if 0 < len(names) <= MOST_AT_ONCE else await asyncio.to_thread(answer.json_lines)


async def living(site: Site) -> List[Job]:
    """All jobs that aren't gone."""
    return [job for job in await jobs_told(site) if job["letter"]]


async def told_of(site: Site, names: Sequence[str]) -> Dict[str, Job]:
    """What the site tells of jobs, by their identifiers."""
    return {job["id"]: job for job in await jobs_told(site, names)} if names else {}


async def told_of_many(site: Site, names: Iterable[str]) -> Dict[str, Job]:
    """The same of however many jobs."""
    known: Dict[str, Job] = {}
    ordered = sorted(names)
    for place in range(0, len(ordered), NAMES_OF_LINE):
        async with site.long_looks:
            began = time.monotonic()
            known.update(await told_of(site, ordered[place : place + NAMES_OF_LINE]))
            if len(ordered) > NAMES_OF_LINE:
                await asyncio.sleep(time.monotonic() - began)  # so that half of the site's time at least is for others
    return known


def told_in(answer: Answer) -> Any:
    """The value of an answer about the machine."""
    value = answer.json()
    if value is None:
        raise NoPlan(f"the site has no plan: {answer.shown()}")
    return value


async def machine_of(site: Site, moment: int) -> Machine:
    """The machine as it is at a moment."""
    value = told_in(await site.look(f"machine-json {moment}"))
    return Machine(value["nodes"], value["free"], value["running"], value["reserved"])


async def plan_of(site: Site, moment: int, but: Sequence[str] = ()) -> Plan:
    """The plan for a moment, without these jobs."""
    value = told_in(await site.look(" ".join([f"plan-json {moment}", *(["but", *but] if but else [])])))
    head = value["head"] or {"job": None, "second": 0}
    return Plan(value["starts"], head["job"], head["second"])


async def seen_by(site: Site) -> Seen:
    """Of each site the greatest counter that is `known` here, and up to which one of this site it has `told` that it knows."""
    return {it["site"]: it for it in (await site.look("seen-json")).json()}


async def counter_of(site: Site, here: str) -> int:
    """The greatest counter that this site has given."""
    return (await seen_by(site))[here]["known"]


async def reservations_of(site: Site) -> List[Reservation]:
    """The reservations that stand, of all sites."""
    reservations: List[Reservation] = (await site.look("reservations-json")).json()
    return reservations
