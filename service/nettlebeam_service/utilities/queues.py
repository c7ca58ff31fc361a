"""The queues of a site, as the service lists them, and `qstat -Q`, `-q` and `-B`: the queues, and the server, which is the site."""
from __future__ import annotations

from ..common.ask import Told, ask
from .layouts import NOTHING, long_clock, queue_of
from .listing import jobs_for, view_now

TYPE_CHECKING = False
if TYPE_CHECKING:
    from typing import Any, Dict, List, Optional, Sequence, Tuple

    from .listing import Job, View

    Queue = Dict[str, Any]
    Attributes = List[Tuple[str, str]]

STATES = (("Transit", "T"), ("Queued", "Q"), ("Held", "H"), ("Waiting", "W"), ("Running", "R"), ("Exiting", "E"), ("Begun", "B"))
QUEUE_HEAD = (
    "Queue              Max   Tot Ena Str   Que   Run   Hld   Wat   Trn   Ext Type\n"
    "---------------- ----- ----- --- --- ----- ----- ----- ----- ----- ----- ----\n"
)
SERVER_HEAD = (
    "Server             Max   Tot   Que   Run   Hld   Wat   Trn   Ext Status\n"
    "---------------- ----- ----- ----- ----- ----- ----- ----- ----- -----------\n"
)
LIMITS_HEAD = (
    "Queue            Memory CPU Time Walltime Node   Run   Que   Lm  State\n"
    "---------------- ------ -------- -------- ---- ----- ----- ----  -----\n"
)


def queues_of(path: str) -> List[Queue]:
    """The queues of the site, the first of them that of jobs which name none."""
    return list(ask(path, ["queues"]).json_lines())


def has_queue(path: str, name: str) -> bool:
    """Whether there is a queue of this name."""
    return any(queue["name"] == name for queue in queues_of(path))


def counts_of(jobs: Sequence[Job]) -> Dict[str, int]:
    """How many jobs there are in each state."""
    states = [job["state"] for job in jobs]
    return {letter: states.count(letter) for _, letter in STATES}


def columns(counts: Dict[str, int]) -> str:
    """The columns of the states that both listings have."""
    return " ".join(f"{counts[letter]:>5}" for letter in "QRHWTE")


def state_count(counts: Dict[str, int]) -> str:
    """The states in words."""
    return "".join(f"{name}:{counts[letter]} " for name, letter in STATES)


def limits_of(queue: Queue) -> Attributes:
    """What a queue asks of its jobs, and of their users."""
    found: Attributes = []
    if queue["most_seconds"]:
        found.append(("resources_max.walltime", long_clock(queue["most_seconds"])))
    if queue["most_nodes"]:
        found.append(("resources_max.nodect", str(queue["most_nodes"])))
    if queue["seconds"]:
        found.append(("resources_default.walltime", long_clock(queue["seconds"])))
    for key, name in (("users", "acl_users"), ("groups", "acl_groups")):
        if queue[key]:
            found += [(name[:-1] + "_enable", "True"), (name, ",".join(queue[key]))]
    return [*found, ("sites", "+".join(queue["sites"]))]


def queue_text(view: View, queue: Queue, jobs: Sequence[Job]) -> str:
    """A queue in `qstat -Q`, and in `qstat -Qf`."""
    counts, total = counts_of(jobs), len(jobs)
    if view.has("f"):
        pairs: Attributes = [("queue_type", "Execution"), ("total_jobs", str(total)), ("state_count", state_count(counts))]
        pairs += [*limits_of(queue), ("enabled", "True"), ("started", "True")]
        return f"Queue: {queue['name']}\n" + "".join(f"    {name} = {value}\n" for name, value in pairs) + "\n"
    return f"{queue['name']:<16} {0:>5} {total:>5} yes yes {columns(counts)} Exec\n"


def server_text(view: View, queues: Sequence[Queue], jobs: Sequence[Job]) -> str:
    """`qstat -B`, and `qstat -Bf`."""
    counts, total = counts_of(jobs), len(jobs)
    if view.has("f"):
        lines = ["server_state = Active", f"total_jobs = {total}", f"state_count = {state_count(counts)}"]
        lines += [f"default_queue = {queues[0]['name']}"]
        return f"Server: {view.here}\n" + "".join(f"    {line}\n" for line in lines) + "\n"
    return f"{SERVER_HEAD}{view.here[:16]:<16} {0:>5} {total:>5} {columns(counts)} Active\n"


def limits_text(view: View, of_queues: Sequence[Tuple[Queue, Sequence[Job]]]) -> str:
    """`qstat -q`."""
    rows, sums = "", [0, 0]
    for queue, jobs in of_queues:
        counts = counts_of(jobs)
        running, waiting = counts["R"] + counts["E"], counts["Q"] + counts["H"] + counts["W"] + counts["T"]
        time, nodes = long_clock(queue["most_seconds"]) if queue["most_seconds"] else NOTHING, queue["most_nodes"] or NOTHING
        front = f"{queue['name']:<16} {NOTHING:>4}   {NOTHING:>5}    {time:>5}    {nodes:>3}"
        rows += f"{front}  {running:>5} {waiting:>5} {NOTHING:>4}   E R\n"
        sums = [sums[0] + running, sums[1] + waiting]
    ends = f"{'':47}----- -----\n{'':47}{sums[0]:>5} {sums[1]:>5}\n"
    return f"\nserver: {view.here}\n\n{LIMITS_HEAD}{rows}{ends}"


def qstat(path: str, view: View, names: Sequence[str], role: Optional[str]) -> Told:
    """Lists these queues, or all, or the server."""
    fault, jobs = jobs_for(path, view_now(view), [], role)
    if fault:
        return fault
    queues = queues_of(path)
    wanted = [queue for queue in queues if queue["name"] in names or not names]
    of_queues = [(queue, [job for job in jobs if queue_of(job) == queue["name"]]) for queue in wanted]
    if view.has("Q"):
        text = ("" if view.has("f") else QUEUE_HEAD) + "".join(queue_text(view, *pair) for pair in of_queues)
    else:
        text = server_text(view, queues, jobs) if view.has("B") else limits_text(view, of_queues)
    return Told(0, text.encode(), "")
