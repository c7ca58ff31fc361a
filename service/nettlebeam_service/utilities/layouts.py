"""The short listings of PBS: the default one, and that of `-a` and its kin, wide or not."""
from __future__ import annotations

import time

from ..words.resources import counts_of

TYPE_CHECKING = False
if TYPE_CHECKING:
    from typing import Any, Dict, List

    from .listing import View

    Job = Dict[str, Any]

QUEUE = "batch"
NOTHING = "--"
DEFAULT_HEAD = (
    "Job id            Name             User              Time Use S Queue\n"
    "----------------  ---------------- ----------------  -------- - -----\n"
)
WIDTHS = (15, 8, 8, 10, 6, 3, 3, 6, 5, 1, 5)
WIDE = (30, 15, 15, 15, 8, 4, 5, 6, 5, 1, 5)
HEADS = ("Job ID", "Username", "Queue", "Jobname", "SessID", "NDS", "TSK", "Memory", "Time", "S", "Time")
MOST_ON_LINE = 76
LONGEST_NAME = 15  # of the names that the site has


def cut(text: str, width: int) -> str:
    """A text in so many columns; where some of it is cut off its last character is a star."""
    return text if len(text) <= width else f"{text[: width - 1]}*"


def queue_of(job: Job) -> str:
    """The queue of a job; of one that names none that of a site without names of queues."""
    return plain(str(job["more"].get("queue") or QUEUE))


def clock(seconds: int) -> str:
    """Hours and minutes."""
    return f"{seconds // 3600:02}:{seconds % 3600 // 60:02}"


def long_clock(seconds: int) -> str:
    """Hours, minutes and seconds."""
    return f"{clock(seconds)}:{seconds % 60:02}"


def elapsed(job: Job) -> int:
    """For how many seconds a job ran, or has run till now."""
    if not job["begun"]:
        return 0
    end = job["finished"]["moment"] if job["finished"] else int(time.time())
    return max(0, int(end) - int(job["begun"]["moment"]))


def name_of(job: Job) -> str:
    """The whole name of a job."""
    whole = str(job["more"].get("name", ""))
    return plain(whole) if whole[:LONGEST_NAME] == job["name"] else str(job["name"])


def plain(text: str) -> str:
    """A text of a user, without what would make lines of its own, or move a terminal's cursor."""
    return text if text.isprintable() else "".join(char if char.isprintable() else "?" for char in text)


def comment_of(job: Job) -> str:
    """Why a job waits, or where it ran; in one line."""
    more, begun = job["more"], job["begun"]
    if more.get("comment"):
        return plain(str(more["comment"]))
    if begun:
        verb = "run" if not job["finished"] else "ran"
        return f"Job {verb} at {time.strftime('%a %b %d at %H:%M', time.localtime(begun['moment']))} on {begun['site']}"
    if more.get("waits"):
        return f"Job held: waits for {more['waits']}"
    if more.get("waits_until"):
        return f"Job waits until {time.ctime(more['waits_until'])}"
    if more.get("waits_turn"):
        return "Job held: waits for its turn in the array"
    if job["holds"]:
        return f"Job held: {''.join(job['holds'])}"
    return f"Not Running: {more['why']}" if more.get("why") else ""


def hosts_text(job: Job) -> str:
    """The hosts of a job, each with how often it stands in the file of nodes."""
    hosts = job["more"].get("hosts", [])
    if not hosts:
        return str(job["begun"]["site"]) if job["begun"] else NOTHING
    lines, times, _ = counts_of(job["more"], len(hosts))
    return "+".join(f"{host}/0" + (f"*{times}" if times > 1 else "") for host in hosts) if lines else NOTHING


def default_line(job: Job) -> str:
    """The line of a job in the default listing."""
    used = long_clock(elapsed(job)) if job["begun"] else "0"
    names = f"{cut(job['shown'], 16):<17} {cut(name_of(job), 16):<16} {cut(job['owner'], 16):<17}"
    return f"{names} {used:>8} {job['state']:1} {queue_of(job)}\n"


def head(view: View) -> str:
    """The lines above the listing of `-a`."""
    widths = WIDE if view.has("w") else WIDTHS
    last = ("Est", "Start") if view.has("T") else ("Elap", "Time")
    names = [*HEADS[:-1], last[1]]
    place = sum(widths[:7]) + 7
    above = f"{'':{place}}Req'd  Req'd   {last[0]}"
    titles = " ".join(f"{name:<{width}}" for name, width in zip(names, widths)).rstrip()
    return f"\n{view.here}: \n{above}\n{titles}\n{' '.join('-' * width for width in widths)}\n"


def est_start(moment: int) -> str:
    """When a job is planned to begin."""
    if not moment:
        return NOTHING
    there = time.localtime(moment)
    return time.strftime("%H:%M" if moment - time.time() < 86_400 else "%a %d", there)


def rows(jobs: List[Job], view: View, plan: Dict[str, int]) -> str:
    """The lines of jobs in the listing of `-a`."""
    widths = WIDE if view.has("w") else WIDTHS
    form = " ".join([*(f"%-{width}s" for width in widths[:4]), *(f"%{width}s" for width in widths[4:])])
    is_planned, has_more, is_one = view.has("T"), view.has("ns"), view.has("1")
    found: List[str] = []
    for job in jobs:
        last = est_start(plan.get(job["id"], 0)) if is_planned else clock(elapsed(job)) if job["begun"] else NOTHING
        names = (cut(text, width) for text, width in zip((job["shown"], job["owner"], queue_of(job), name_of(job)), widths))
        session, tasks = job["more"].get("session", NOTHING), counts_of(job["more"], job["nodes"])[0]
        line = form % (*names, session, job["nodes"], tasks, memory_of(job), clock(job["limit"]), job["state"], last)
        added = more_of(job, view) if has_more else []
        under = [f"   {it}" for text in added for it in pieces(text, view)]
        found.append(" ".join([line, *added]) if is_one else "\n".join([line, *under]))
    return "".join(f"{line}\n" for line in found)


def more_of(job: Job, view: View) -> List[str]:
    """The hosts of a job, and why it stands where it does, as they are asked for."""
    hosts = [hosts_text(job)] if view.has("n") else []
    comment = comment_of(job) if view.has("s") else ""
    return [*hosts, comment] if comment else hosts


def memory_of(job: Job) -> str:
    """The memory that was asked for, which is without effect."""
    asked = str(job["more"].get("resources", ""))
    for part in asked.replace(":", ",").split(",") if "mem=" in asked else ():
        name, _, value = part.partition("=")
        if name == "mem":
            return plain(value)
    return NOTHING


def pieces(text: str, view: View) -> List[str]:
    """A text in lines of their width, cut behind a plus."""
    lines, line = [], ""
    for part in text.replace("+", "+\0").split("\0"):
        if line and len(line) + len(part) > MOST_ON_LINE and not view.has("w"):
            lines.append(line)
            line = ""
        line += part
    return [*lines, line]


def listing(jobs: List[Job], view: View, plan: Dict[str, int]) -> str:
    """The listing; nothing where there is no job."""
    if not jobs:
        return ""
    if view.has("airHnsuTw1"):
        return head(view) + rows(jobs, view, plan)
    return DEFAULT_HEAD + "".join(map(default_line, jobs))
