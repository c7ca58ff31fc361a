"""`qstat` with the options of PBS: what is asked, and which of it is shown."""
from __future__ import annotations

from ..common.ask import Told, ask
from ..words.options import Fault, Words

TYPE_CHECKING = False
if TYPE_CHECKING:
    from typing import Any, Dict, List, Optional, Tuple

    Job = Dict[str, Any]

KNOWN = "fFDxaiHrnsu1wtTQqBGM"
STATE_OF_ARRAY = "B"
FINISHED = "F"
UNKNOWN_STATUS, FINISHED_STATUS, NO_QUEUE_STATUS = 153, 35, 170
NOT_ASKED = 2  # of words that the service takes for none, such as those of an array that isn't known


class View:
    """What is to be listed, and how."""

    def __init__(self, options: Dict[str, Optional[str]], here: str):
        self.options = options
        self.here = here
        self.letters = set(options)

    def has(self, letters: str) -> bool:
        """Whether one of these options is given."""
        return not self.letters.isdisjoint(letters)


def state_of(job: Job) -> str:
    """The letter of a job: F where it is gone, W where it waits for its time alone."""
    if job["letter"] is None:
        return FINISHED
    more = job["more"]
    if job["letter"] == "H" and more.get("waits_until") and not more.get("waits") and job["holds"] == ["s"]:
        return "W"
    return str(job["letter"])


def shown_id(job: Job) -> str:
    """How a job is called, a member of an array by its index."""
    more = job["more"]
    return str(more["array_id"]).replace("[]", f"[{more['index']}]") if "array_id" in more else str(job["id"])


def parent_of(members: List[Job]) -> Job:
    """An array as one job: its first member with what tells of all."""
    states = [it["state"] for it in members]
    first = members[0]
    has_begun = any(it["begun"] for it in members)
    state = FINISHED if set(states) == {FINISHED} else STATE_OF_ARRAY if has_begun else min(states, key="QTWH".find)
    more = {**first["more"], "states": states}
    more.pop("hosts", None)
    statuses = [it["finished"]["status"] for it in members if it["finished"]]
    ends = [it["finished"]["moment"] for it in members if it["finished"]]
    ended = {"moment": max(ends), "status": max(statuses)} if statuses else None
    starts = [it["begun"]["moment"] for it in members if it["begun"]]
    begun = {**(first["begun"] or {"site": "", "nodes": first["nodes"], "end": 0}), "moment": min(starts)} if starts else None
    finished = ended if state == FINISHED else None
    told = {"shown": more["array_id"], "state": state, "finished": finished, "begun": begun, "members": members}
    return {**first, **told, "more": more}


def with_arrays(jobs: List[Job], has_members: bool) -> List[Job]:
    """The jobs with each array as one, its members behind it where they are wanted."""
    found: List[Job] = []
    arrays: Dict[str, List[Job]] = {}
    for job in jobs:
        if "array_id" not in job["more"]:
            found.append(job)
        elif job["more"]["array_id"] in arrays:
            arrays[job["more"]["array_id"]].append(job)
        else:
            arrays[job["more"]["array_id"]] = [job]
            found.append(job)
    shown: List[Job] = []
    for job in found:
        members = arrays.get(job["more"].get("array_id", ""))
        shown += [job] if members is None else [parent_of(members), *(members if has_members else [])]
    return shown


def is_shown(job: Job, view: View) -> bool:
    """Whether the options choose a job."""
    state = job["state"]
    if "u" in view.options and job["owner"] not in [it.partition("@")[0] for it in str(view.options["u"]).split(",")]:
        return False
    if view.has("H"):
        return bool(state == FINISHED)
    if state == FINISHED and not view.has("x"):
        return False
    if view.has("i"):
        return state in "QTHW"
    return state in "REB" if view.has("r") else True


def full_name(operand: str, view: View) -> str:
    """An operand with its site."""
    return operand if "." in operand else f"{operand}.{view.here}"


def in_span(name: str, jobs: List[Job]) -> List[Job]:
    """The members of an array that a name means by a range, as `12[1-9:2].argonne`."""
    from ..words.ranges import read_range

    number, _, rest = name.partition("[")
    span, _, origin = rest.partition("]")
    indices = set(map(str, read_range(span)[0])) if span else set()
    return [job for job in jobs if job["more"].get("array_id") == f"{number}[]{origin}" and job["more"]["index"] in indices]


def named(operands: List[str], jobs: List[Job], view: View) -> Tuple[List[Job], List[str], int]:
    """The jobs of the operands that are shown, what is said of the others, and the status for that."""
    said, status = [], 0
    by_name = {name: job for job in reversed(jobs) for name in (job["id"], job["shown"])}  # an array goes before its first member
    for operand in operands:
        name = full_name(operand, view)
        found = [by_name[name]] if name in by_name else in_span(name, jobs) if "[" in name else []
        if not found:
            said.append(f"Unknown Job Id {name}")
            status = UNKNOWN_STATUS
        elif all(job["state"] == FINISHED for job in found) and not view.has("xH"):
            said.append(f"{name} Job has finished, use -x or -H to obtain historical job information")
            status = status or FINISHED_STATUS
    return [job for job in jobs if is_shown(job, view)], said, status


def known_options(words: Words) -> Dict[str, Optional[str]]:
    """The options by their letters. Fault where one isn't known, or lacks its argument."""
    found = dict(words.options)
    for letter in found:
        if letter not in KNOWN:
            raise Fault(f"there is no option -{letter} here")
    for letter in "uF":
        if letter in found and not found[letter]:
            raise Fault(f"-{letter} needs an argument")
    if found.get("F", "json") not in ("json", "dsv"):
        raise Fault(f"-F {found['F']}: there are json and dsv")
    return found


def jobs_for(path: str, view: View, operands: List[str], role: Optional[str]) -> Tuple[Optional[Told], List[Job]]:
    """The jobs that the service tells; and its fault, where it has one."""
    kind = "all" if operands or view.has("xH") else "now"
    kind += ",why" if view.has("sf") else ""
    told = ask(path, ["details", kind, *operands], role)
    if told.status:
        return told, []
    jobs = told.json_lines()
    for job in jobs:
        job["shown"], job["state"] = shown_id(job), state_of(job)
    return None, jobs


def jobs_of(path: str, view: View, operands: List[str], role: Optional[str]) -> Tuple[Optional[Told], List[Job], List[str]]:
    """The same of operands, some of which may be arrays that aren't known; and the operands without these."""
    fault, jobs = jobs_for(path, view, operands, role) if operands else (None, [])
    if not fault or fault.status != NOT_ASKED:
        return fault, jobs, operands
    left = [operand for operand in operands if "[" not in operand or not ask(path, ["details", "now", operand], role).status]
    return (fault, [], left) if left == operands else (*(jobs_for(path, view, left, role) if left else (None, [])), left)


def view_now(view: View) -> View:
    """A view of the same site that wants no more than the states of the jobs that aren't gone."""
    return View({}, view.here)


def here_of(path: str) -> str:
    """The name of the site."""
    return ask(path, ["site"]).name()


def queue_names(path: str, view: View, asked: List[str]) -> List[Optional[str]]:
    """The queues that operands name, "" for all of them and None for one that isn't known."""
    from .queues import queues_of

    known = ["", *(queue["name"] for queue in queues_of(path))]
    pairs = [operand.partition("@")[::2] for operand in asked]
    return [name if name in known and site in ("", view.here) else None for name, site in pairs]


def qstat(path: str, words: Words, role: Optional[str]) -> Told:
    """Lists what is asked for."""
    view, operands = View(known_options(words), here_of(path)), words.operands
    asked = [operand for operand in operands if not operand[:1].isdigit()]
    names = queue_names(path, view, asked) if asked else []
    if None in names:
        return Told(NO_QUEUE_STATUS, b"", f"Unknown queue destination {asked[names.index(None)]}")
    if view.has("QqB"):
        from .queues import qstat as list_queues

        return list_queues(path, view, [name for name in names if name], role)
    operands = [] if asked else [operand.partition("@")[0] for operand in operands]
    fault, jobs, _ = jobs_of(path, view, operands, role) if operands else (*jobs_for(path, view, [], role), [])
    if fault:
        return fault
    if asked and "" not in names:
        from .layouts import queue_of

        jobs = [job for job in jobs if queue_of(job) in names]
    jobs = with_arrays(jobs, view.has("t") or any("[" in it and "[]" not in it for it in operands))
    shown, said, status = named(operands, jobs, view)
    if view.has("f"):
        from .full_listing import full

        text = full(shown, view)
    else:
        from .layouts import listing

        text = listing(shown, view, planned(path) if view.has("T") else {})
    return Told(status, text.encode("utf-8", "surrogateescape"), "\n".join(said))


def known(path: str, options: List[str], operands: List[str], role: Optional[str]) -> Told:
    """The site's own listing of the jobs that it has, and PBS's words and statuses for the others."""
    view = View({}, here_of(path))
    fault, jobs, left = jobs_of(path, view, operands, role)
    if fault:
        return fault
    _, said, status = named(operands, with_arrays(jobs, True), view)
    told = ask(path, ["qstat", *options, "--", *left], role) if left else Told(0, b"", "")
    return Told(status or told.status, told.answer, "\n".join(filter(None, (*said, told.words))))


def planned(path: str) -> Dict[str, int]:
    """When jobs are planned to begin, as far as the plan tells."""
    import time

    moment = int(time.time())
    found: Dict[str, int] = {}
    for plan in filter(None, ask(path, ["plan-json", str(moment)]).json_lines()):
        found.update((job["id"], moment) for job in plan["starts"])
        found.update({plan["head"]["job"]: plan["head"]["second"]} if plan["head"] else {})
    return found
