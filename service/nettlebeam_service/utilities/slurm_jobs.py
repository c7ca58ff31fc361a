"""`sacct` and `scontrol`, for those who come from Slurm; and what is said to `srun` and `salloc`."""
from __future__ import annotations

import time

from ..common.ask import Told, ask
from ..words.options import Fault
from .full_listing import file_of
from .layouts import comment_of, elapsed, long_clock, name_of, plain, queue_of
from .listing import View, here_of, jobs_for
from .pbsnodes import nodes_in
from .slurm import NOT_KNOWN, identifiers
from .slurm_listings import NODES, STATES, chosen_names, clock, reason, user_name

TYPE_CHECKING = False
if TYPE_CHECKING:
    from typing import Any, Dict, List, Optional, Sequence

    from .slurm_options import Given

    Job = Dict[str, Any]

FIELDS = ("JobID", "JobName", "Partition", "Account", "AllocCPUS", "State", "ExitCode")
WIDTHS = {"JobID": 20, "ExitCode": 8}
MOMENTS = ("%Y-%m-%dT%H:%M:%S", "%Y-%m-%dT%H:%M", "%Y-%m-%d")
TIME = "%Y-%m-%dT%H:%M:%S"
INSTEAD = {
    "srun": "there are no steps here: start the program in a script of sbatch, by itself or by mpirun",
    "salloc": "there are no interactive jobs here: submit a script by sbatch",
}
FOR_SCONTROL = {"hold": "qhold", "release": "qrls"}


def stamp(moment: int) -> str:
    """A moment as Slurm has it."""
    return time.strftime(TIME, time.localtime(moment)) if moment else "Unknown"


def state_of(job: Job) -> str:
    """The state of a job, ended ones by how they ended."""
    if job["state"] != "F":
        return STATES[str(job["state"])]
    status = job["finished"]["status"] if job["finished"] else None
    if job["deleted"]:
        return "CANCELLED"
    return "COMPLETED" if status == 0 else "TIMEOUT" if status == 143 and elapsed(job) >= job["limit"] else "FAILED"


def shown_of(job: Job) -> str:
    """How Slurm calls a job: a member of an array by its index after an underscore."""
    return str(job["shown"]).replace("[", "_").replace("]", "")


def fields_of(job: Job) -> Dict[str, str]:
    """What sacct has of a job, by the names of its fields in small letters."""
    more, begun, ended = job["more"], job["begun"], job["finished"]
    status = ended["status"] if ended else 0
    used = more.get("used") or {}
    spans = {"elapsed": clock_of(elapsed(job)), "timelimit": clock_of(job["limit"]), "elapsedraw": str(elapsed(job))}
    moments = {
        "submit": stamp(int(more.get("ctime", 0) or 0)),
        "start": stamp(begun["moment"] if begun else 0),
        "end": stamp(ended["moment"] if ended else 0),
    }
    return {
        **{"jobid": shown_of(job), "jobidraw": shown_of(job), "jobname": name_of(job), "partition": queue_of(job)},
        **{"account": plain(str(more.get("account") or job["account"])), "user": job["owner"], "state": state_of(job)},
        **{"exitcode": f"{status if status < 128 else 0}:{status - 128 if status > 128 else 0}"},
        **{"alloccpus": str(job["nodes"]), "allocnodes": str(job["nodes"]), "nnodes": str(job["nodes"]), "ncpus": str(job["nodes"])},
        **{"nodelist": ",".join(more.get("hosts", [])) or "None assigned", "cluster": begun["site"] if begun else ""},
        **{"workdir": plain(str(more.get("folder", ""))), "priority": str(job["priority"])},
        **{"totalcpu": clock_of(int(used.get("cput", 0))), "maxrss": f"{used['mem']}K" if used else ""},
        **spans,
        **moments,
    }


def clock_of(seconds: int) -> str:
    """A span as sacct has it: days, and hours, minutes and seconds."""
    return f"{seconds // 86_400}-{long_clock(seconds % 86_400)}" if seconds >= 86_400 else long_clock(seconds)


def second_of(option: str, text: str) -> float:
    """The second of a moment that is given."""
    for form in MOMENTS:
        try:
            return time.mktime(time.strptime(text, form))
        except ValueError:
            continue
    raise Fault(f"--{option} {text}: no moment, as 2030-01-20 or 2030-01-20T12:34:00")


def is_wanted(job: Job, given: Given) -> bool:
    """Whether options choose a job: without a name or a moment those of this user that ended today, or haven't ended."""
    users = given.get("user", "" if "allusers" in given or "jobs" in given else user_name())
    if users and job["owner"] not in users.split(","):
        return False
    if given.get("name") and name_of(job) not in given["name"].split(","):
        return False
    states = given.get("state", "").upper()
    if states and state_of(job) not in states.split(","):
        return False
    last = job["finished"]["moment"] if job["finished"] else 0
    today = time.mktime((*time.localtime()[:3], 0, 0, 0, 0, 0, -1))
    since = second_of("starttime", given["starttime"]) if "starttime" in given else 0.0 if "jobs" in given else today
    until = second_of("endtime", given["endtime"]) if "endtime" in given else 0.0
    is_old = job["state"] == "F" and last < since
    return not is_old and (not until or not job["begun"] or job["begun"]["moment"] <= until)


def sacct(given: Given, operands: Sequence[str], path: str, role: Optional[str]) -> Told:
    """`sacct [-a] [-j jobs] [-u users] [-S moment] [-E moment] [-s states] [-o fields] [-n] [-P | -p]`."""
    if operands:
        raise Fault(f"{operands[0]}: it has no operands")
    named = [it for it in given.get("jobs", "").split(",") if it]
    view = View({"x": None}, here_of(path))
    fault, jobs = jobs_for(path, view, identifiers(path, named, role), role)
    if fault:
        return fault
    names = [it.partition("%")[::2] for it in given.get("format", ",".join(FIELDS)).split(",") if it]
    known = fields_of(jobs[0]) if jobs else {}
    unknown = [name for name, _ in names if jobs and name.lower() not in known]
    if unknown:
        raise Fault(f"--format {unknown[0]}: there are {', '.join(known)}")
    rows = [[fields_of(job)[name.lower()] for name, _ in names] for job in jobs if is_wanted(job, given)]
    heads = [] if "noheader" in given else [[name for name, _ in names]]
    if "parsable" in given or "parsable2" in given:
        end = "|\n" if "parsable" in given else "\n"
        return Told(0, "".join("|".join(row) + end for row in [*heads, *rows]).encode(), "")
    widths = [int(width.lstrip("-") or 0) or WIDTHS.get(name, 10) for name, width in names]
    rule = [["-" * width for width in widths]] if heads else []
    lines = [" ".join(f"{text[:width]:>{width}}" for text, width in zip(row, widths)) for row in [*heads, *rule, *rows]]
    return Told(0, "".join(f"{line}\n" for line in lines).encode(), "")


def shown_job(job: Job) -> str:
    """A job as `scontrol show job` has it."""
    fields, more = fields_of(job), job["more"]
    lines = [
        f"JobId={shown_of(job)} JobName={fields['jobname']}",
        f"UserId={job['owner']} Account={fields['account'] or '(null)'} Priority={job['priority']}",
        f"JobState={fields['state']} Reason={reason(job, {})} Dependency={more.get('waits') or '(null)'}",
        f"ExitCode={fields['exitcode']}",
        f"RunTime={fields['elapsed']} TimeLimit={fields['timelimit']}",
        f"SubmitTime={fields['submit']} StartTime={fields['start']} EndTime={fields['end']}",
        f"Partition={fields['partition']} NodeList={','.join(more.get('hosts', [])) or '(null)'}",
        f"NumNodes={job['nodes']} Clusters={','.join(job['sites'])}",
        f"WorkDir={fields['workdir']}",
        f"StdErr={plain(file_of(job, 'err', 'e'))}",
        f"StdOut={plain(file_of(job, 'out', 'o'))}",
    ]
    comment = comment_of(job)
    return "\n   ".join([*lines, *([f"Comment={comment}"] if comment else [])]) + "\n\n"


def show_jobs(names: List[str], path: str, role: Optional[str]) -> Told:
    """`scontrol show job`."""
    fault, jobs = jobs_for(path, View({"x": None} if names else {}, here_of(path)), identifiers(path, names, role), role)
    if fault:
        return fault
    if names and not jobs:
        raise Fault(f"{names[0]}: {NOT_KNOWN}")
    return Told(0, "".join(map(shown_job, jobs)).encode(), "")


def show_nodes(names: List[str], path: str, role: Optional[str]) -> Told:
    """`scontrol show node`."""
    told = ask(path, ["nodes-json"], role)
    nodes = [node for node in nodes_in(told) if not names or node["name"] in names]
    if names and not nodes:
        raise Fault(f"{names[0]}: there is no node of this name")
    texts = []
    for node in nodes:
        state = NODES[node["state"].partition(",")[0]].upper()
        text = f"NodeName={node['name']} CPUAlloc={int(bool(node['jobs']))} CPUTot=1\n   State={state}\n"
        texts.append(text + (f"   Reason={node['comment']}\n" if node["comment"] else "") + "\n")
    return Told(told.status, "".join(texts).encode(), told.words)


def show_partitions(names: List[str], path: str, role: Optional[str]) -> Told:
    """`scontrol show partition`."""
    from .queues import queues_of

    queues = queues_of(path)
    texts = []
    for queue in queues:
        if names and queue["name"] not in names:
            continue
        users = ",".join(queue["groups"]) or "ALL"
        limit = clock(queue["most_seconds"]) if queue["most_seconds"] else "UNLIMITED"
        texts.append(
            f"PartitionName={queue['name']}\n   AllowGroups={users} Default={'YES' if queue is queues[0] else 'NO'}\n"
            f"   DefaultTime={clock(queue['seconds'] or 3600)} MaxTime={limit} MaxNodes={queue['most_nodes'] or 'UNLIMITED'}\n"
            f"   State=UP Clusters={','.join(queue['sites'])}\n\n"
        )
    if names and not texts:
        raise Fault(f"{names[0]}: there is no queue of this name")
    return Told(0, "".join(texts).encode(), "")


def scontrol(given: Given, operands: List[str], path: str, role: Optional[str]) -> Told:
    """`scontrol show job|node|partition [name]`, `hold` and `release`."""
    verb, kind, names = (operands + ["", ""])[0], (operands + ["", ""])[1], operands[2:]
    shows = {"job": show_jobs, "node": show_nodes, "partition": show_partitions}
    kind, mark, name = kind.partition("=")
    if verb == "show" and kind.rstrip("s") in shows:
        return shows[kind.rstrip("s")]([*([name] if mark else []), *names], path, role)
    if verb in FOR_SCONTROL and operands[1:]:
        told = ask(path, [FOR_SCONTROL[verb], *chosen_names(operands[1:], path, role)], role)
        return Told(told.status, b"", told.words)
    raise Fault("there are show job, show node, show partition, hold and release; for update use qalter")


def instead(utility: str) -> Told:
    """What is said to a utility that isn't there."""
    return Told(1, b"", INSTEAD[utility])
