"""The options of Slurm's utilities, as their manual pages have them: each is done, or without effect, or refused by its name."""
from __future__ import annotations

from ..words.options import Fault

TYPE_CHECKING = False
if TYPE_CHECKING:
    from typing import Dict, List, Tuple

    Given = Dict[str, str]

SHORT: Dict[str, Dict[str, str]] = {
    "sbatch": {
        **{"n": "ntasks", "N": "nodes", "c": "cpus-per-task", "t": "time", "J": "job-name", "o": "output", "e": "error"},
        **{"p": "partition", "M": "clusters", "A": "account", "d": "dependency", "a": "array", "D": "chdir", "H": "hold"},
        **{"W": "wait", "Q": "quiet", "q": "qos", "C": "constraint", "b": "begin", "B": "extra-node-info", "F": "nodefile"},
        **{"G": "gpus", "i": "input", "k": "no-kill", "L": "licenses", "O": "overcommit", "s": "oversubscribe"},
        **{"S": "core-spec", "v": "verbose", "w": "nodelist", "x": "exclude"},
    },
    "squeue": {
        **{"h": "noheader", "o": "format", "O": "Format", "j": "jobs", "u": "user", "t": "states", "n": "name", "r": "array"},
        "p": "partition",
    },
    "scancel": {"u": "user", "n": "name", "t": "state", "s": "signal", "Q": "quiet"},
    "sinfo": {"h": "noheader", "N": "Node", "p": "partition"},
    "sacct": {
        **{"a": "allusers", "j": "jobs", "u": "user", "S": "starttime", "E": "endtime", "s": "state", "o": "format", "n": "noheader"},
        **{"P": "parsable2", "p": "parsable", "X": "allocations"},
    },
    "scontrol": {},
}
LONG = {
    "sbatch": ("parsable", "ntasks-per-node", "wrap", "export", "mail-type", "mail-user", "ignore-pbs"),
    "squeue": ("me", "start", "json"),
    "scancel": ("me",),
    "sinfo": (),
    "sacct": ("name",),
    "scontrol": (),
}
# those of sbatch that are without effect, since nodes are whole here and no job begins twice
IDLE = (
    *("comment", "constraint", "core-spec", "cores-per-socket", "cpu-freq", "cpus-per-gpu", "extra", "extra-node-info"),
    *("gpu-bind", "gpu-freq", "gpus", "gpus-per-node", "gpus-per-socket", "gpus-per-task", "gres", "gres-flags", "hint"),
    *("kill-on-invalid-dep", "mcs-label", "mem", "mem-bind", "mem-per-cpu", "mem-per-gpu", "mincpus", "network"),
    *("ntasks-per-core", "ntasks-per-gpu", "ntasks-per-socket", "open-mode", "power", "prefer", "profile", "qos"),
    *("sockets-per-node", "switches", "thread-spec", "threads-per-core", "time-min", "tmp", "tres-bind", "tres-per-task"),
    *("wait-all-nodes", "wckey"),
)
# of these the argument may be missing
IDLE_FLAGS = (
    *("contiguous", "exclusive", "get-user-env", "nice", "no-kill", "no-requeue", "overcommit", "oversubscribe", "propagate"),
    *("requeue", "spread-job", "use-min-nodes", "verbose"),
)
# and those whose jobs would not do what their users mean
REFUSED = {
    "batch": "no job chooses its nodes here",
    "bb": "there are no burst buffers here",
    "bbf": "there are no burst buffers here",
    "cluster-constraint": "name sites by --clusters",
    "container": "call the container in the script",
    "container-id": "call the container in the script",
    "deadline": "there are --time and --begin",
    "delay-boot": "no node is booted for a job here",
    "exclude": "no job chooses its nodes here",
    "export-file": "name variables by --export",
    "gid": "a job has the groups of its owner",
    "input": "a script reads nothing here: have it read the file",
    "licenses": "licences aren't counted here",
    "nodefile": "no job chooses its nodes here",
    "nodelist": "no job chooses its nodes here",
    "priority": "it is set by qsub -p, or by an operator's qalter -p",
    "reboot": "no node is booted for a job here",
    "reservation": "reservations keep nodes free for all jobs of a site here",
    "resv-ports": "ports aren't given out here",
    "segment": "no job chooses its nodes here",
    "signal": "a job is sent SIGTERM at its limit, and others by qsig",
    "stepmgr": "there are no steps here",
    "test-only": "the page and qstat -T say when jobs are planned to begin",
    "uid": "a job runs as who submits it",
}
REFUSED_FLAGS = ("reboot", "resv-ports", "stepmgr", "test-only")
FLAGS = {
    "sbatch": ("hold", "wait", "quiet", "parsable", "ignore-pbs", *IDLE_FLAGS, *REFUSED_FLAGS),
    "squeue": ("noheader", "me", "array", "start", "json"),
    "scancel": ("me", "quiet"),
    "sinfo": ("noheader", "Node"),
    "sacct": ("allusers", "noheader", "parsable", "parsable2", "allocations"),
    "scontrol": (),
}


def read_options(utility: str, words: List[str]) -> Tuple[Given, List[str]]:
    """The options by their long names, and the operands, of which the script of an sbatch ends the options."""
    short, flags, place = SHORT[utility], FLAGS[utility], 0
    known = (*short.values(), *LONG[utility], *((*IDLE, *IDLE_FLAGS, *REFUSED) if utility == "sbatch" else ()))
    found: Given = {}
    operands: List[str] = []
    while place < len(words) and not (operands and utility == "sbatch"):
        word = words[place]
        place += 1
        if not word.startswith("-") or word == "-":
            operands.append(word)
            continue
        if word.startswith("--"):
            name, mark, value = word[2:].partition("=")
        else:
            name, mark, value = short.get(word[1], ""), word[2:], word[2:]
            while name in flags and value:  # several letters in one word
                found[name] = ""
                name, mark, value = short.get(value[0], ""), value[1:], value[1:]
        if name not in known:
            raise Fault(f"there is no option {word} here")
        if not mark and name not in flags:
            if place == len(words):
                raise Fault(f"{word} needs an argument")
            value, place = words[place], place + 1
        found[name] = value
    return found, operands + words[place:]


def check(given: Given) -> None:
    """Fault if an option of sbatch is given that is refused."""
    for name, value in given.items():
        if name in REFUSED:
            raise Fault(f"--{name}{value and '='}{value}: {REFUSED[name]}")


def without_effect(given: Given) -> List[str]:
    """The options of sbatch that are without effect, though not those that nobody misses."""
    return [f"--{name}" for name in given if name in (*IDLE, *IDLE_FLAGS) and name not in ("verbose", "kill-on-invalid-dep")]
