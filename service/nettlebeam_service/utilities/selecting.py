"""`qselect`: the identifiers of the jobs in the queue that are as its options say, one a line."""
from __future__ import annotations

import operator
import re

from ..common.ask import Told, ask
from ..words.options import OPTIONS, Fault, naming, seconds_of
from .listing import state_of
from .more_utilities import read_words

TYPE_CHECKING = False
if TYPE_CHECKING:
    from typing import Any, Callable, Dict, List

    Condition = Callable[[Dict[str, Any]], bool]

OPERATORS = {
    "eq": operator.eq,
    "ne": operator.ne,
    "ge": operator.ge,
    "gt": operator.gt,
    "le": operator.le,
    "lt": operator.lt,
}
COMPARED = re.compile(r"(?:\.(eq|ne|ge|gt|le|lt)\.)?([+-]?[0-9]+)\Z")
RESOURCE = re.compile(r"([a-z]+)(?:=|\.(eq|ne|ge|gt|le|lt)\.)(.+)\Z")
NUMBERS = {"nodes": "nodes", "walltime": "limit"}
STATES = "BEFHMQRSTUWX"  # those of PBS, of which some no job here ever has
HOLDS = "uos"
QUEUE = "batch"


def compare(text: str, key: str) -> Condition:
    """What compares a number of a job: `5` or `.ge.5`."""
    found = COMPARED.match(text)
    if not found:
        raise Fault(f"{text} is no number, with .eq., .ne., .ge., .gt., .le. or .lt. before it or without")
    decide, wanted = OPERATORS[found.group(1) or "eq"], int(found.group(2))
    return lambda job: bool(decide(job[key], wanted))


def resources(text: str) -> List[Condition]:
    """What compares the resources of a list, as `nodes.ge.4,walltime.lt.1:00:00,sites=argonne+lemont`."""
    found: List[Condition] = []
    for pair in text.split(","):
        parts = RESOURCE.match(pair)
        if parts and parts.group(1) in NUMBERS:
            value = seconds_of(parts.group(3)) if parts.group(1) == "walltime" else parts.group(3)
            found.append(compare(f".{parts.group(2) or 'eq'}.{value}", NUMBERS[parts.group(1)]))
        elif parts and parts.group(1) == "sites" and parts.group(2) in (None, "eq", "ne"):
            found.append(same_sites(set(parts.group(3).split("+")), parts.group(2) != "ne"))
        else:
            raise Fault(f"{pair} is none of nodes, walltime and sites, compared with a value")
    return found


def same_sites(wanted: Any, is_same: bool) -> Condition:
    """What compares the sites of a job, in whatever order."""
    return lambda job: bool((set(job["sites"]) == wanted) == is_same)


def letters(text: str, known: str, what: str) -> str:
    """Some of the letters that there are."""
    if not text or not set(text) <= set(known):
        raise Fault(f"{text or 'nothing'} is no list of {what}: {', '.join(known)}")
    return text


def condition(letter: str, text: str) -> List[Condition]:
    """What an option wants of a job."""
    if letter == "A":
        return [lambda job: bool(job["account"] == text)]
    if letter == "h":
        holds = set() if text == "n" else set(letters(text, HOLDS, "holds, or n"))
        return [lambda job: set(job["holds"]) == holds]
    if letter == "l":
        return resources(text)
    if letter == "N":
        return [lambda job: bool(job["name"] == text)]
    if letter == "p":
        return [compare(text, "priority")]
    if letter == "q":
        name, _, site = text.partition("@")
        # a site's name alone is taken for it
        return [lambda job: name in ("", job.get("queue")) or name in job["sites"], lambda job: not site or site in job["sites"]]
    if letter == "s":
        states = letters(text, STATES, "states")
        return [lambda job: job["letter"] in states or (job.get("state") == "W" and "W" in states)]
    users = text.split(",")
    return [lambda job: job["owner"] in users]


def named_condition(letter: str, text: str) -> List[Condition]:
    """The same; a fault names the option."""
    try:
        return condition(letter, text)
    except Fault as fault:
        raise naming(f"-{letter}", text, fault) from None


def qselect(words: List[str], path: str) -> Told:
    """Selects jobs."""
    options, operands = read_words("qselect", words, OPTIONS["qselect"])
    if operands:
        raise Fault("it has no operands")
    wanted = [holds for letter, text in options.items() for holds in named_condition(letter, text)]
    has_more = "q" in options or "A" in options or "W" in options.get("s", "")
    told = ask(path, ["details", "now"] if has_more else ["jobs"])
    if told.status:
        return told
    jobs = [job for job in told.json_lines() if job["letter"]]
    for job in jobs if has_more else ():
        more = job["more"]
        job["queue"], job["state"] = more.get("queue") or QUEUE, state_of(job)
        job["account"] = more.get("account") or job["account"]
    names = [job["id"] for job in jobs if all(holds(job) for holds in wanted)]
    shown = ask(path, ["members"]).json_lines()[0] if names else {}
    names = [shown.get(name, name) for name in names]  # since the number of an array's first member means all of it
    return Told(0, "".join(f"{name}\n" for name in names).encode(), told.words)
