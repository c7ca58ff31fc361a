"""`squeue -O` and `squeue --json`."""
from __future__ import annotations

from ..common.small_json import dumps
from ..words.options import Fault
from .slurm_listings import fields_of

TYPE_CHECKING = False
if TYPE_CHECKING:
    from typing import Any, Dict, List

    Job = Dict[str, Any]

USUAL_WIDTH = 20
# the names of -O, by the letters of -o
LETTERS = {
    **{"jobid": "A", "jobarrayid": "i", "arrayjobid": "F", "arraytaskid": "K", "partition": "P", "name": "j", "username": "u"},
    **{"statecompact": "t", "state": "T", "timeused": "M", "timelimit": "l", "numnodes": "D", "nodelist": "N", "reasonlist": "R"},
    **{"reason": "r", "account": "a", "priority": "Q", "prioritylong": "Q", "starttime": "S", "workdir": "Z"},
}
HEADS = {
    **{"A": "JOBID", "i": "JOBID", "F": "ARRAY_JOB_ID", "K": "ARRAY_TASK_ID", "P": "PARTITION", "j": "NAME", "u": "USER", "t": "ST"},
    **{"T": "STATE", "M": "TIME", "l": "TIME_LIMIT", "D": "NODES", "N": "NODELIST", "R": "NODELIST(REASON)", "r": "REASON"},
    **{"a": "ACCOUNT", "Q": "PRIORITY", "S": "START_TIME", "Z": "WORK_DIR"},
}
NUMBERS = ("node_count", "priority")
KEYS = {
    **{"job_id": "A", "array_job_id": "F", "array_task_id": "K", "partition": "P", "name": "j", "user_name": "u"},
    **{"job_state": "T", "time_limit": "l", "node_count": "D", "nodes": "N", "state_reason": "r", "account": "a"},
    **{"priority": "Q", "start_time": "S", "current_working_directory": "Z"},
}


def table(form: str, jobs: List[Job], plan: Dict[str, int], has_head: bool) -> List[str]:
    """The lines of `squeue -O name[:width],..`."""
    columns = []
    for part in filter(None, form.split(",")):
        name, _, width = part.partition(":")
        size = width.lstrip(".")
        if name.lower() not in LETTERS or not (size.isdigit() or not width):
            raise Fault(f"-O {part}: there are {', '.join(LETTERS)}, each with :WIDTH or without")
        columns.append((LETTERS[name.lower()], int(size or USUAL_WIDTH), width.startswith(".")))
    rows = [HEADS] if has_head else []
    rows += [fields_of(job, plan) for job in jobs]
    lines = []
    for row in rows:
        texts = [(row[letter][:size], size, is_right) for letter, size, is_right in columns]
        lines.append("".join(text.rjust(size) if is_right else text.ljust(size) for text, size, is_right in texts).rstrip() + "\n")
    return lines


def objects(jobs: List[Job], plan: Dict[str, int]) -> str:
    """The object of `squeue --json`."""
    rows = [fields_of(job, plan) for job in jobs]
    found: List[Dict[str, Any]] = [{key: row[letter] for key, letter in KEYS.items()} for row in rows]
    for it in found:
        it.update({key: int(it[key]) for key in NUMBERS})
    return dumps({"jobs": found, "errors": []}) + "\n"
