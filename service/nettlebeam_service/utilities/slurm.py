"""`sbatch`, and the words of `squeue`, `scancel` and `sinfo`, for those who come from Slurm: their common use, by the parts of
qsub and qstat."""
from __future__ import annotations

import os
import time

from ..common.ask import Told, ask
from ..words.options import Fault
from .slurm_options import check, read_options, without_effect

TYPE_CHECKING = False
if TYPE_CHECKING:
    from typing import Any, Dict, List, Optional, Sequence, Tuple

    from .submitting import Submission

    Job = Dict[str, Any]
    Given = Dict[str, str]
    Options = List[Tuple[str, Optional[str]]]

# what the options of qsub are that may be complained of
OPTION_NAMES = {"q": "--partition", "N": "--job-name", "A": "--account", "J": "--array", "W": "--dependency", "l": "--clusters"}
POINTS = {"BEGIN": "b", "END": "e", "FAIL": "a", "TIME_LIMIT": "a", "ALL": "abe", "NONE": ""}
LONGEST_SECONDS = 10_000_000
UNITS = {"second": 1, "minute": 60, "hour": 3600, "day": 86_400, "week": 604_800}
MOMENTS = ("%H:%M", "%H:%M:%S", "%Y-%m-%d", "%Y-%m-%dT%H:%M", "%Y-%m-%dT%H:%M:%S")
NOT_KNOWN = "Invalid job id specified"


def number(given: Given, name: str) -> int:
    """A number that an option gives; 0 where it isn't given. Of a range of nodes it is the first."""
    text = given.get(name, "0").partition("-")[0]
    if not (text.isascii() and text.isdigit() and len(text) < 8) or (name in given and not int(text)):
        raise Fault(f"--{name} {given[name]}: no number")
    return int(text)


def seconds(text: str) -> str:
    """A limit: minutes, minutes:seconds, hours:minutes:seconds, or days-hours with minutes and seconds behind or without."""
    days, dash, rest = text.rpartition("-")
    parts = rest.split(":")
    if len(parts) > 3 or not all(it.isascii() and it.isdigit() and len(it) < 8 for it in (*parts, days or "0")):
        raise Fault(f"--time {text}: no time limit")
    units = (3600, 60, 1) if dash or len(parts) == 3 else (60, 1)
    found = int(days or 0) * 86_400 + sum(int(it) * unit for it, unit in zip(parts, units))
    if not 0 < found <= LONGEST_SECONDS:
        raise Fault(f"--time {text}: a job has from 1 to {LONGEST_SECONDS} seconds")
    return str(found)


def in_script(script: bytes) -> Given:
    """The options of the lines `#SBATCH` at the head of a script."""
    from .directives import words_of

    found: Given = {}
    for place, line in enumerate(script.split(b"\n"), 1):
        text = line.decode("utf-8", "surrogateescape").strip()
        if text.startswith("#SBATCH"):
            try:
                options, words = read_options("sbatch", words_of(text[len("#SBATCH") :]))
                if words:
                    raise Fault(f"{words[0]} is no option")
                found.update(options)
            except Fault as fault:
                raise Fault(f"line {place}: {text}: {fault}") from None
        elif text and not text.startswith("#"):
            break
    return found


def file_of(text: str, name: str, is_array: bool) -> str:
    """The path of an output, with what the service puts in for the job in the place of `%j` and its like."""
    job = "^job_number^_^array_index^" if is_array else "^job_number^"
    put = {"j": job, "J": job, "A": "^job_number^", "a": "^array_index^", "x": name, "%": "%"}
    path, place = "", 0
    while place < len(text):
        char = text[place]
        if char == "%" and text[place + 1 : place + 2] not in put:
            raise Fault(f"{text}: {text[place : place + 2]} can't be had here; there are %j, %A, %a and %x")
        path += put[text[place + 1]] if char == "%" else char
        place += 2 if char == "%" else 1
    return path


def set_tasks(submission: Submission, given: Given) -> None:
    """Asks for nodes, and says how many processes each has, and how many processors each process."""
    from ..words.resources import MOST_OF_NODE, Chunk

    tasks, nodes, each = number(given, "ntasks"), number(given, "nodes"), number(given, "ntasks-per-node")
    processors = number(given, "cpus-per-task") or 1
    nodes = nodes or (-(-tasks // each) if tasks and each else 1)
    each = each or -(-tasks // nodes) or 1
    if each * processors > MOST_OF_NODE:
        raise Fault(f"a node has at most {MOST_OF_NODE} processors, and {each * processors} are asked for")
    submission.resources.pairs["nodes="] = str(nodes)
    submission.resources.chunks = [Chunk(nodes, each, each * processors, processors)]
    submission.facts["slurm"] = f"{tasks or nodes * each}x{processors}"


def exported(given: Given) -> Options:
    """The options for the variables that the job gets: all of this process, without --export."""
    names = given.get("export", "ALL").split(",")
    others = [it for it in names if it and it not in ("ALL", "NONE", "NIL")]
    found: Options = [("V", None)] if "ALL" in names else []
    return [*found, ("v", ",".join(others))] if others else found


def pbs_options(path: str, given: Given, name: str, role: Optional[str]) -> Options:
    """The options of qsub that those of sbatch are."""
    is_array = "array" in given
    usual = "slurm-%A_%a.out" if is_array else "slurm-%j.out"
    found: Options = [("N", name), ("o", file_of(given.get("output", usual), name, is_array)), *exported(given)]
    found.append(("e", file_of(given["error"], name, is_array)) if "error" in given else ("j", "oe"))
    for option, letter in (("array", "J"), ("account", "A"), ("mail-user", "M"), ("partition", "q")):
        found += [(letter, given[option])] if option in given else []
    found += [("l", f"walltime={seconds(given['time'])}")] if "time" in given else []
    found += [("l", f"sites={given['clusters'].replace(',', '+')}")] if "clusters" in given else []
    found += [("h", None)] if "hold" in given else []
    found += [("a", moment(given["begin"]))] if "begin" in given else []
    found += [("W", "block=true")] if "wait" in given else []
    if "mail-type" in given:
        kinds = given["mail-type"].split(",")
        if not all(kind in POINTS for kind in kinds):
            raise Fault(f"--mail-type {given['mail-type']}: there are {', '.join(POINTS)}")
        found.append(("m", "".join(POINTS[kind] for kind in kinds) or "n"))
    waits = depends(path, given["dependency"], name, role) if "dependency" in given else ""
    return [*found, ("W", f"depend={waits}")] if waits else found


def moment(text: str) -> str:
    """A moment as qsub has it: `now+1hour`, `16:00`, `2030-01-20`, `2030-01-20T12:34:00`. Fault if it is another."""
    front, plus, span = text.partition("+")
    count = span.rstrip("abcdefghijklmnopqrstuvwxyz")
    unit = next((size for name, size in UNITS.items() if span[len(count) :] and f"{name}s".startswith(span[len(count) :])), 0)
    unit = unit or (1 if span == count else 0)
    there: Optional[float] = None
    if front == "now" and (not plus or (count.isascii() and count.isdigit() and len(count) < 8 and unit)):
        there = time.time() + int(count or 0) * unit
    for form in MOMENTS if there is None else ():
        try:
            found = time.strptime(text, form)
        except ValueError:
            continue
        here = time.localtime()
        is_today = not form.startswith("%Y")
        date = here[:3] if is_today else found[:3]
        there = time.mktime((*date, *found[3:6], 0, 0, -1))
        there += 86_400 if is_today and there <= time.time() else 0
        break
    if there is None:
        raise Fault(f"--begin {text}: there are now+COUNTminutes and the like, HH:MM, YYYY-MM-DD and YYYY-MM-DDTHH:MM:SS")
    return time.strftime("%Y%m%d%H%M.%S", time.localtime(there))


def depends(path: str, text: str, name: str, role: Optional[str]) -> str:
    """A list of dependencies as qsub has it; nothing if all of it has come true."""
    from ..words.dependencies import OTHERS

    found: List[str] = []
    try:
        for kind, *jobs in (part.split(":") for part in text.split(",")):
            if kind == "singleton" and not jobs:
                found += same_jobs(path, name)
                continue
            if kind in OTHERS or any("+" in job for job in jobs):
                identified = jobs  # refused by its name
            else:
                identified = identifiers(path, jobs, role)
            found.append(":".join([kind, *identified]))
    except Fault as fault:
        raise Fault(f"--dependency {text}: {fault}") from None
    return ",".join(found)


def same_jobs(path: str, name: str) -> List[str]:
    """A dependency on all jobs of this user that have this name; none if there are none."""
    from .slurm_listings import user_name

    user = user_name()
    living = [job for job in ask(path, ["jobs"]).json_lines() if job["letter"]]
    jobs = [job["id"] for job in living if (job["owner"], job["name"]) == (user, name[:15])]
    return [":".join(["afterany", *jobs])] if jobs else []


def sbatch(given: Given, operands: List[str], words: List[str], path: str, role: Optional[str]) -> Told:
    """`sbatch [options] [script]`."""
    from .submitting import MOST_ARGUMENTS, Submission, facts, is_name, quoted, read_script, send

    if "wrap" in given and operands:
        raise Fault(f"{operands[0]}: there is no script beside --wrap")
    script = f"#!/bin/sh\n{given['wrap']}\n".encode("utf-8", "surrogateescape") if "wrap" in given else read_script(operands)
    given = {**in_script(script), **given}
    check(given)
    usual = "wrap" if "wrap" in given else os.path.basename((operands or ["sbatch"])[0])
    name = given.get("job-name", usual if is_name(usual) else "sbatch")
    if "chdir" in given:
        try:
            os.chdir(given["chdir"])
        except OSError as fault:
            raise Fault(f"--chdir {given['chdir']}: {fault.strerror}") from None
    submission = Submission()
    submission.utility = "sbatch"
    submission.form = "{name}\n" if "parsable" in given else "Submitted batch job {name}\n"
    submission.has_brackets = False
    submission.option_names = OPTION_NAMES
    submission.facts = {**facts(), "arguments": " ".join(words)[:MOST_ARGUMENTS]}
    if operands[1:]:
        submission.facts["script_words"] = " ".join(map(quoted, operands[1:]))
    set_tasks(submission, given)
    submission.resources.idle += without_effect(given)
    told = send(path, submission, pbs_options(path, given, name, role), script, role)
    return told if not told.status or "wait" in given else Told(told.status, b"", told.words)


def identifiers(path: str, names: Sequence[str], role: Optional[str]) -> List[str]:
    """Jobs as qsub has them: `12_3` is a member of an array, and the number of an array all of it."""
    from .listing import View, jobs_for

    found: List[str] = []
    for name in names:
        if "[" in name and "_" not in name:
            found.append(name)
            continue
        front, mark, rest = name.partition("_")
        span, _, site = (rest if mark else front).partition(".")
        first, _, origin = front.partition(".")
        if not first.isdigit():
            raise Fault(f"{name}: {NOT_KNOWN}")
        site = site or origin
        found.append((f"{first}[{span.strip('[]')}]" if mark else first) + (f".{site}" if site else ""))
    plain = [name for name in found if "[" not in name]
    _, jobs = jobs_for(path, View({}, ""), plain, role) if plain else (None, [])
    arrays = {job["more"]["array_id"] for job in jobs if job["more"].get("array_id", "").replace("[]", "") == job["id"]}
    all_of = {form: name for name in arrays for form in (name.replace("[]", ""), name.partition("[")[0])}
    return [all_of.get(name, name) for name in found]


def run(utility: str, words: List[str], path: str, role: Optional[str]) -> Told:
    """Does what a utility is asked."""
    if utility in ("srun", "salloc"):
        from .slurm_jobs import instead

        return instead(utility)
    given, operands = read_options(utility, words)
    if utility == "sbatch":
        return sbatch(given, operands, words, path, role)
    if utility in ("sacct", "scontrol"):
        from .slurm_jobs import sacct, scontrol

        return (sacct if utility == "sacct" else scontrol)(given, operands, path, role)
    from .slurm_listings import scancel, sinfo, squeue

    return {"squeue": squeue, "scancel": scancel, "sinfo": sinfo}[utility](given, operands, path, role)
