"""The utilities as users call them: qsub, qalter, qhold, qrls, qdel and qstat, `qask` for the rest, and MORE and those of Slurm,
which are in other modules.

Each loads what it needs alone, since a user waits for that at each call.
"""
from __future__ import annotations

import os
import sys

from ..common.ask import Told, Unasked, ask, find_socket
from ..words.options import Fault, Words

TYPE_CHECKING = False
if TYPE_CHECKING:
    from typing import List, Optional

MORE = ("qselect", "qsig", "qmsg", "qmove", "qrerun", "pbsnodes", "tracejob")
OF_SLURM = ("sbatch", "squeue", "scancel", "sinfo", "sacct", "scontrol", "srun", "salloc")
QUEUE = "batch"
# what the site answers these is told by their status, and by what they say beside it
ANSWERED = ("qalter", "qhold", "qrls", "qdel", "qsig", "qmsg", "qmove")
REFUSED = 1, 2
NO_SITE = "NETTLEBEAM_SOCKET isn't set, and this machine hasn't one service of a site"


def alter(path: str, words: Words, role: Optional[str]) -> Told:
    """`qalter`: the values of the site, and what the service has a job wait for."""
    from .altering import alter as alter_all

    return alter_all(path, words, role)


def list_jobs(path: str, words: Words, role: Optional[str]) -> Told:
    """`qstat`: the site's own listings where POSIX's options are given, and those of PBS else."""
    options, operands = words.options, words.operands
    is_queue = any("@" in operand or operand == QUEUE or is_named(path, operand) for operand in operands)
    if any(letter != "f" for letter, _ in options) or is_queue:
        from .listing import qstat

        return qstat(path, words, role)
    is_array = any("[" in operand for operand in operands)
    told = Told(0, b"", "") if is_array else ask(path, ["qstat", *words.of_site], role)
    if told.status or not operands or (not is_array and are_living(path, operands)):
        return told
    from .listing import known

    return known(path, [f"-{letter}" for letter, _ in options], operands, role)


def is_named(path: str, operand: str) -> bool:
    """Whether a queue has this name; no job has one that begins with a letter."""
    if not operand[:1].isalpha():
        return False
    from .queues import has_queue

    return has_queue(path, operand)


def are_living(path: str, operands: List[str]) -> bool:
    """Whether none of these jobs is gone, or unknown."""
    return len([job for job in ask(path, ["jobs", *operands]).json_lines() if job["letter"]]) == len(operands)


def change(path: str, utility: str, words: Words, role: Optional[str]) -> Told:
    """`qdel`, `qhold` and `qrls`: the site's answer."""
    of_site, said = words.of_site, []  # type: List[str], List[str]
    if utility == "qdel" and words.options:
        from .altering import without_options

        of_site, said = without_options(words)
    told = ask(path, [utility, *of_site], role)
    told.words = "\n".join(filter(None, (*said, told.words)))
    return told


def run(utility: str, words: List[str], path: Optional[str]) -> Told:
    """Asks for what the user typed."""
    role = os.environ.get("NETTLEBEAM_ROLE") or None
    option = words[0] if len(words) == 1 else ""
    if utility == "sbatch":
        option = {"-h": "--help", "--usage": "--help", "-V": "--version"}.get(option, option)
    if option in ("--version", "--help"):
        from .help_texts import usage_of, version_of

        text = usage_of(utility) if option == "--help" else version_of(utility in OF_SLURM)
        return Told(0, text.encode(), "")
    if utility in MORE:
        from .more_utilities import run as run_more

        return run_more(utility, words, path, role)
    if path is None:
        raise Fault(NO_SITE)
    if utility in OF_SLURM:
        from .slurm import run as run_slurm

        return run_slurm(utility, words, path, role)
    if utility == "qask":
        return ask(path, words, role)
    if utility == "qsub":
        from .submitting import submit

        return submit(path, words, role)
    read = Words(utility, words)
    if utility == "qstat":
        told = list_jobs(path, read, role)
    else:
        told = alter(path, read, role) if utility == "qalter" else change(path, utility, read, role)
    if told.status in (1, 2) and told.words:
        from .complaints import explained

        return explained(utility, read.options, told, {})
    return told


def as_pbs(utility: str, told: Told) -> Told:
    """What is told, without the site's words on standard output where PBS writes nothing."""
    is_refused = utility in ("qsub", "qstat") and told.status in REFUSED
    if os.environ.get("NETTLEBEAM_ANSWERS") or not (is_refused or utility in ANSWERED):
        return told
    return Told(told.status, b"", "\n".join(filter(None, (told.words, *told.others_than("done")[1:]))))


def main(utility: str, words: List[str]) -> int:
    """A utility."""
    try:
        told = as_pbs(utility, run(utility, words, find_socket()))
        sys.stdout.buffer.write(told.answer)
        sys.stdout.buffer.flush()
    except (Unasked, Fault) as fault:
        print(f"{utility}: {fault}", file=sys.stderr)
        return 3 if isinstance(fault, Unasked) else 2
    except BrokenPipeError:
        os.dup2(os.open(os.devnull, os.O_WRONLY), 1)  # who reads the listing has seen enough of it
        return 0
    except KeyboardInterrupt:
        return 130
    sys.stderr.write(told.words_of(utility))
    return told.status
