"""What the options of PBS make of a job's environment, its files and the shell that runs its script."""
from __future__ import annotations

import shlex
import socket
from typing import Any, Dict, List, Sequence

from ..words.resources import counts_of, read_chunks

OF_THE_RUN = ("TMPDIR", "PBS_NODEFILE", "PBS_JOBDIR")
# names that a shell may refuse to set; `env` does it
OF_SHELLS = ("BASHOPTS", "BASH_VERSINFO", "EUID", "PPID", "SHELLOPTS", "UID")
IN_PATHS = ("$PBS_JOBID", "${PBS_JOBID}")
LONGEST_NAME = 200
OF_SITE = 15  # so many characters of a name the site has
INDEX_IN_PATHS = "^array_index^"
NUMBER_IN_PATHS = "^job_number^"


def is_member(facts: Dict[str, Any]) -> bool:
    """Whether a job is a member of an array."""
    return "index" in facts and "array_id" in facts


def shown_id(job: str, facts: Dict[str, Any]) -> str:
    """How a job is called: a member of an array by its index, as `12[3].argonne`."""
    return str(facts["array_id"]).replace("[]", f"[{facts['index']}]") if is_member(facts) else job


def shown_number(job: str, facts: Dict[str, Any], is_here: bool) -> str:
    """What stands behind a job's name in the names of its files. Two jobs of two sites may have one number."""
    number, _, origin = str(facts["array_id"]).replace("[]", "").partition(".") if is_member(facts) else job.partition(".")
    number += f".{facts['index']}" if is_member(facts) else ""
    return number if is_here else f"{number}.{origin}"


def whole_name(job: Dict[str, Any], facts: Dict[str, Any]) -> str:
    """The name that a job was given, of which the site has the first characters; another where it was altered."""
    name, shown = str(facts.get("name", "")), str(job["name"])
    is_whole = name[:OF_SITE] == shown and len(name) < LONGEST_NAME and name.isascii()
    return name if is_whole and all(char.isalnum() or char in "-_." for char in name) else shown


def more_exports(nodes: int, facts: Dict[str, Any]) -> Dict[str, str]:
    """The variables that PBS and Torque tell a job besides those of POSIX."""
    lines, times, processors = counts_of(facts, min(nodes, 10_000))
    told = {
        "NCPUS": str(processors),
        "PBS_GPUFILE": "/dev/null",  # no GPU is counted
        "PBS_NODENUM": "0",
        "PBS_NP": str(lines),
        "PBS_NUM_NODES": str(nodes),
        "PBS_NUM_PPN": str(times),
        "PBS_TASKNUM": "1",
    }
    chunks = read_chunks(str(facts.get("chunks", "")))
    if chunks:
        told["OMP_NUM_THREADS"] = str(chunks[0].threads)
    if is_member(facts):
        told.update(PBS_ARRAYID=facts["index"], PBS_ARRAY_ID=facts["array_id"], PBS_ARRAY_INDEX=facts["index"])
    return told


def variables_text(facts: Dict[str, Any], others: Sequence[str]) -> str:
    """What sets the variables that were given with the job, but for these others, right before its script runs."""
    lines: List[str] = []
    by_env: List[str] = []
    for name, value in facts.get("variables", {}).items() if isinstance(facts.get("variables"), dict) else ():
        if name in others:
            continue
        if name.isascii() and name.isidentifier() and name not in OF_SHELLS:
            lines.append(f"{name}={shlex.quote(value)}; export {name}")
        else:
            by_env.append(shlex.quote(f"{name}={value}"))
    # no name of a user's variable changes what `set` and `exec` mean
    return "\n".join([f"set -- /usr/bin/env {' '.join(by_env)} \"$@\"" if by_env else ":", *lines])


def interpreter_of(facts: Dict[str, Any], home: str) -> List[str]:
    """The shell that `-S` names for the home node of a job, by its name among the hosts or its own name, or for all."""
    chosen, names = "", [home, socket.gethostname()]
    names += [name.partition(".")[0] for name in names]
    for part in str(facts.get("interpreter", "")).split(","):
        path, at, host = part.partition("@")
        if not at and not chosen:
            chosen = path
        elif at and host in names:
            chosen = path
            break
    return chosen.split()


def path_word(path: str, job: str, facts: Dict[str, Any]) -> str:
    """A path that was given, as a word of a shell, with what stands for the job in it."""
    for mark in IN_PATHS:
        path = path.replace(mark, shown_id(job, facts))
    number = str(facts["array_id"]).partition("[")[0] if is_member(facts) else job.partition(".")[0]
    path = path.replace(NUMBER_IN_PATHS, number)
    return shlex.quote(path.replace(INDEX_IN_PATHS, str(facts.get("index", ""))))


def place_of(variable: str, path: str, usual: str) -> str:
    """What puts the place of a file into a variable of the shell: the path, or the usual name in it where it is a folder, or that
    in the job's folder where the path can't be written."""
    return (
        f'{variable}={path}\n[ ! -d "${variable}" ] || {variable}=${{{variable}%/}}/{usual}\n'
        f'(: >> "${variable}") 2> /dev/null || {{ lost="${{lost:-}} ${variable}"; {variable}={usual}; }}'
    )


def placed(change: str, out: str, err: str, job: str, facts: Dict[str, Any]) -> Dict[str, str]:
    """Where the job's files are, with what its options say: what changes to their folder, and their names as words of a shell."""
    words, kept = {"out": shlex.quote(out), "err": shlex.quote(err)}, str(facts.get("keep", ""))
    for key, usual in (("out", out), ("err", err)):
        if facts.get(key):
            change += "\n" + place_of(key, path_word(str(facts[key]), job, facts), shlex.quote(usual))
            words[key] = f'"${key}"'
        elif key[0] in kept:
            words[key] = f'"$HOME"/{shlex.quote(usual)}'
    joined = facts.get("join")
    if joined == "oe":
        words["err"] = words["out"]
    elif joined == "eo":
        words["out"] = words["err"]
    return {"change": change, **words}
