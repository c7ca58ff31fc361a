"""`tracejob`: what is known of a job, from the site, its service and the accounting, in the order of time."""
from __future__ import annotations

import time

from ..common.ask import Told
from ..words.options import Fault, parse_anywhere
from .full_listing import used_of
from .layouts import comment_of, hosts_text, name_of, plain, queue_of
from .listing import UNKNOWN_STATUS, View, full_name, here_of, jobs_for

TYPE_CHECKING = False
if TYPE_CHECKING:
    from typing import Any, Dict, List, Optional, Tuple

    Job = Dict[str, Any]

KNOWN = "aclmnpqsvwfz"  # which files of PBS are looked at, and how far back


def line(moment: int, text: str) -> str:
    """A line with its moment, if that is known."""
    front = time.strftime("%m/%d/%Y %H:%M:%S", time.localtime(moment)) if moment else ""
    return f"{front:<19}  S    {text}\n"


def events_of(job: Job) -> List[Tuple[int, str]]:
    """What has happened to a job, with its moments; 0 if none is known."""
    more, begun, ended = job["more"], job["begun"], job["finished"]
    last = ended["moment"] if ended else 0
    where = f", from {plain(str(more['host']))}" if more.get("host") else ""
    asked = f"Job Queued at request of {job['owner']}{where}, job name = {name_of(job)}, queue = {queue_of(job)}"
    found = [(int(more.get("ctime", 0) or 0), asked)]
    if job["grant"] and not begun:
        found.append((0, f"Job granted to {job['grant']['site']}"))
    if begun:
        found.append((begun["moment"], f"Job Run at {begun['site']} on {hosts_text(job)}, {begun['nodes']} nodes"))
    if job["deleted"]:
        found.append((last, "Job deleted"))
    if ended:
        used = "".join(f" {name}={value}" for name, value in used_of(job))
        found.append((last, f"Exit_status={ended['status']}{used}"))
    elif comment_of(job) and not begun:
        found.append((0, comment_of(job)))
    return found


def tracejob(path: str, words: List[str], role: Optional[str]) -> Told:
    """`tracejob job ..`."""
    options, names = parse_anywhere("tracejob", words)
    unknown = [letter for letter, _ in options if letter not in KNOWN]
    if unknown or not names:
        raise Fault(f"there is no option -{unknown[0]} here" if unknown else "name a job")
    view = View({"s": None, "x": None}, here_of(path))
    fault, jobs = jobs_for(path, view, names, role)
    if fault:
        return fault
    known = {name for job in jobs for name in (job["id"], job["shown"], str(job["more"].get("array_id", "")))}
    missing = [name for name in names if full_name(name, view) not in known]
    texts = [f"\nJob: {job['shown']}\n\n" + "".join(line(*event) for event in events_of(job)) for job in jobs]
    said = "\n".join(f"{name}: no such job is known here" for name in missing)
    return Told(UNKNOWN_STATUS if missing else 0, "".join(texts).encode(), said)
