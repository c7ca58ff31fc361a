"""`squeue`, `scancel` and `sinfo`, for those who come from Slurm."""
from __future__ import annotations

import os
import time

from ..common.ask import Told, ask
from ..words.options import Fault
from .layouts import elapsed, name_of, plain, queue_of
from .listing import UNKNOWN_STATUS, View, here_of, jobs_for, named, planned, with_arrays
from .pbsnodes import nodes_in
from .slurm import NOT_KNOWN, identifiers

TYPE_CHECKING = False
if TYPE_CHECKING:
    from typing import Dict, List, Optional, Tuple

    from .listing import Job
    from .slurm import Given

    Partitions = List[Tuple[str, str]]

STATES = {"Q": "PENDING", "H": "PENDING", "W": "PENDING", "T": "CONFIGURING", "R": "RUNNING", "E": "COMPLETING", "F": "COMPLETED"}
COMPACT = {"PENDING": "PD", "CONFIGURING": "CF", "RUNNING": "R", "COMPLETING": "CG", "COMPLETED": "CD"}
LONG_STATE = {short: state for state, short in COMPACT.items()}
FORMAT = "%.18i %.9P %.8j %.8u %.2t %.10M %.6D %R"
START_FORMAT = "%.18i %.9P %.8j %.8u %.2t %.19S %.6D %R"
HEADS = {
    **{"i": "JOBID", "A": "JOBID", "F": "ARRAY_JOB_ID", "K": "ARRAY_TASK_ID", "P": "PARTITION", "j": "NAME", "u": "USER"},
    **{"t": "ST", "T": "STATE", "M": "TIME", "l": "TIME_LIMIT", "D": "NODES", "R": "NODELIST(REASON)", "N": "NODELIST"},
    **{"r": "REASON", "a": "ACCOUNT", "Q": "PRIORITY", "S": "START_TIME", "Z": "WORK_DIR"},
}
NODES = {"down": "down", "offline": "drain", "job-exclusive": "alloc", "free": "idle"}


def clock(span: int) -> str:
    """A time as squeue has it."""
    days, hours, minutes = span // 86_400, span % 86_400 // 3600, span % 3600 // 60
    if days:
        return f"{days}-{hours:02}:{minutes:02}:{span % 60:02}"
    return f"{hours}:{minutes:02}:{span % 60:02}" if hours else f"{minutes}:{span % 60:02}"


def reason(job: Job, plan: Dict[str, int]) -> str:
    """Why a job waits."""
    more = job["more"]
    if more.get("waits") or more.get("waits_until"):
        return "Dependency" if more.get("waits") else "BeginTime"
    if more.get("waits_turn"):
        return "JobArrayTaskLimit"
    if job["holds"]:
        return "JobHeldUser" if "u" in job["holds"] else "JobHeldAdmin"
    return "None" if job["begun"] else "Resources" if job["id"] in plan else "Priority"


def fields_of(job: Job, plan: Dict[str, int]) -> Dict[str, str]:
    """What squeue tells of a job, by the letters of its format."""
    more, begun, state = job["more"], job["begun"], STATES[job["state"]]
    front, _, index = job["shown"].partition("[")
    shown = f"{front}_{index.replace(']', '')}" if index else front
    hosts = ",".join(more.get("hosts", [])) or (begun["site"] if begun else "")
    moment = begun["moment"] if begun else plan.get(job["id"], 0)
    start = time.strftime("%Y-%m-%dT%H:%M:%S", time.localtime(moment)) if moment else "N/A"
    why = reason(job, plan)
    return {
        **{"i": shown, "A": shown, "F": str(more.get("array_id", job["id"])).replace("[]", ""), "K": str(more.get("index", "N/A"))},
        **{"P": queue_of(job), "j": name_of(job), "u": job["owner"], "t": COMPACT[state], "T": state, "M": clock(elapsed(job))},
        **{"l": clock(job["limit"]), "D": str(job["nodes"]), "N": hosts, "r": why, "R": hosts or f"({why})"},
        **{"a": plain(str(more.get("account") or job["account"] or "(null)")), "Q": str(job["priority"]), "S": start},
        "Z": plain(str(more.get("folder", ""))),
    }


def line_of(form: str, fields: Dict[str, str]) -> str:
    """A line by a format: `%i`, `%8i`, and `%.8i` for what stands at the right."""
    line, place = "", 0
    while place < len(form):
        char, place = form[place], place + 1
        if char != "%":
            line += char
            continue
        begin = place
        while place < len(form) and form[place] in ".0123456789":
            place += 1
        width, letter, place = form[begin:place], form[place : place + 1], place + 1
        if letter not in fields:
            raise Fault(f"{form}: %{letter} can't be had here; there are {', '.join(f'%{it}' for it in fields)}")
        size = int(width.lstrip(".") or 0)
        text = fields[letter][:size] if size else fields[letter]
        line += text.rjust(size) if width.startswith(".") else text.ljust(size)
    return line.rstrip() + "\n"


def user_name() -> str:
    """The name of this process's user."""
    import pwd

    return pwd.getpwuid(os.geteuid()).pw_name


def chosen(given: Given, names: List[str], path: str, role: Optional[str]) -> List[Job]:
    """The jobs that options and operands choose. Fault where one isn't known."""
    view, wanted_names = View({}, here_of(path)), identifiers(path, names, role)
    fault, jobs = jobs_for(path, view, wanted_names, role)
    if fault:
        raise Fault(fault.words)
    _, said, status = named(wanted_names, with_arrays(jobs, True), view)
    if status == UNKNOWN_STATUS:
        raise Fault(f"{said[0]}: {NOT_KNOWN}")
    users = given.get("user", user_name() if "me" in given else "")
    states = given.get("states", given.get("state", "")).upper()
    wanted = [LONG_STATE.get(it, it) for it in states.split(",") if it not in ("", "ALL")]
    return [
        job
        for job in jobs
        if job["letter"]
        and (not users or job["owner"] in users.split(","))
        and (not given.get("name") or job["name"] in given["name"].split(","))
        and (not wanted or STATES[job["state"]] in wanted)
        and (not given.get("partition") or queue_of(job) in given["partition"].split(","))
    ]


def chosen_names(names: List[str], path: str, role: Optional[str]) -> List[str]:
    """What the jobs are called that these words mean, which must be known."""
    return [job["shown"] for job in chosen({}, [it for name in names for it in name.split(",")], path, role)]


def squeue(given: Given, operands: List[str], path: str, role: Optional[str]) -> Told:
    """`squeue [-h] [-o format | -O fields | --json] [-j jobs] [-u users] [-t states] [-n names] [-p partitions] [--start]`."""
    jobs = chosen(given, [*operands, *filter(None, given.get("jobs", "").split(","))], path, role)
    form = given.get("format", START_FORMAT if "start" in given else FORMAT)
    if "start" in given:
        jobs = [job for job in jobs if not job["begun"]]
    is_asked = "r" in form.lower() or "S" in form or "Format" in given or "json" in given
    plan = planned(path) if is_asked and any(job["letter"] == "Q" for job in jobs) else {}
    if "json" in given or "Format" in given:
        from .slurm_forms import objects, table

        texts = [objects(jobs, plan)] if "json" in given else table(given["Format"], jobs, plan, "noheader" not in given)
        return Told(0, "".join(texts).encode(), "")
    lines = [] if "noheader" in given else [line_of(form, HEADS)]
    return Told(0, "".join([*lines, *(line_of(form, fields_of(job, plan)) for job in jobs)]).encode(), "")


def scancel(given: Given, operands: List[str], path: str, role: Optional[str]) -> Told:
    """`scancel [-u users] [-n names] [-t states] [-s signal] job ..`."""
    if not operands and not any(it in given for it in ("user", "name", "state", "me")):
        raise Fault("no job is named")
    names = [job["shown"] for job in chosen(given, operands, path, role)]
    told = ask(path, ["qsig", given["signal"], *names] if "signal" in given else ["qdel", *names], role) if names else Told(0, b"", "")
    return Told(told.status, b"", told.words)


def node_lines(nodes: List[Tuple[str, str]], partitions: Partitions) -> List[str]:
    """The lines of `sinfo -N`, the first of them the head."""
    lines = [f"{name:<16} {1:>5} {partition:>9} {state}\n" for name, state in nodes for partition, _ in partitions]
    return [f"{'NODELIST':<16} NODES PARTITION STATE\n", *lines]


def partition_lines(nodes: List[Tuple[str, str]], partitions: Partitions) -> List[str]:
    """The lines of `sinfo`, the first of them the head."""
    lines = ["PARTITION AVAIL  TIMELIMIT  NODES  STATE NODELIST\n"]
    for partition, limit in partitions:
        for wanted in ("down", "drain", "alloc", "idle"):
            names = [name for name, state in nodes if state == wanted]
            if names:
                lines.append(f"{partition:<9} {'up':>5} {limit:>10} {len(names):>6} {wanted:>6} {','.join(names)}\n")
    return lines


def partitions_of(path: str, given: Given) -> Partitions:
    """The queues that may have jobs here, the first of all with a star, and their limits."""
    from .queues import queues_of

    queues, here = queues_of(path), here_of(path)
    wanted = [it for it in given.get("partition", "").split(",") if it]
    unknown = [it for it in wanted if it not in [queue["name"] for queue in queues]]
    if unknown:
        raise Fault(f"--partition {unknown[0]}: there is no queue of this name; there are {', '.join(it['name'] for it in queues)}")
    return [
        (queue["name"] + ("*" if queue is queues[0] else ""), clock(queue["most_seconds"]) if queue["most_seconds"] else "infinite")
        for queue in queues
        if here in queue["sites"] and (not wanted or queue["name"] in wanted)
    ]


def sinfo(given: Given, operands: List[str], path: str, role: Optional[str]) -> Told:
    """`sinfo [-h] [-N] [-p partitions]`: the nodes of the site's machine."""
    if operands:
        raise Fault(f"{operands[0]}: it has no operands")
    told = ask(path, ["nodes-json"], role)
    nodes = [(node["name"], NODES[node["state"].partition(",")[0]]) for node in nodes_in(told)]
    partitions = partitions_of(path, given)
    lines = node_lines(nodes, partitions) if "Node" in given else partition_lines(nodes, partitions)
    return Told(told.status, "".join(lines[1:] if "noheader" in given else lines).encode(), told.words)
