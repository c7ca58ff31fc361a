"""`qstat -f` as PBS has it: all attributes of jobs, as lines, as fields behind a mark, or as JSON."""
from __future__ import annotations

import time

from ..common.small_json import dumps
from ..words.resources import counts_of
from .help_texts import VERSION
from .layouts import comment_of, elapsed, hosts_text, long_clock, name_of, plain, queue_of

TYPE_CHECKING = False
if TYPE_CHECKING:
    from typing import Any, Dict, List, Tuple

    from .listing import View

    Job = Dict[str, Any]
    Attributes = List[Tuple[str, str]]

WIDTH = 78
HOLDS = "uos"
SUBMITTERS = (("HOME", "home"), ("LANG", "lang"), ("PATH", "path"), ("SHELL", "shell"), ("WORKDIR", "folder"), ("HOST", "host"))


def file_of(job: Job, key: str, letter: str) -> str:
    """The path of a job's output or errors."""
    more = job["more"]
    host, folder = more.get("host", ""), more.get("folder", "")
    number, _, _ = job["shown"].partition(".")
    index = number.partition("[")[2].rstrip("]")
    end = number.partition("[")[0] + (f".{index}" if index else ".^array_index^" if "[" in number else "")
    usual = f"{name_of(job)}.{letter}{end}"
    given = str(more.get(key, ""))
    for mark, put in (("^job_number^", number.partition("[")[0]), ("^array_index^", index), ("$PBS_JOBID", job["shown"])):
        given = given.replace(mark, put) if put else given
    path = f"{given}{usual}" if given.endswith("/") else given or f"{folder}/{usual}"
    return f"{host}:{path}"


def variables_of(job: Job) -> Dict[str, str]:
    """The variables that the job is given of its submission; of others' jobs those of PBS alone."""
    more = job["more"]
    told = {f"PBS_O_{name}": str(more[key]) for name, key in SUBMITTERS if key in more}
    given = more.get("variables", {})
    return {**told, "PBS_O_LOGNAME": job["owner"], "PBS_O_QUEUE": queue_of(job), **(given if isinstance(given, dict) else {})}


def moments_of(job: Job) -> Attributes:
    """When it was submitted, could begin, began, and was changed last."""
    more, found = job["more"], []
    ctime = int(more.get("ctime", 0) or 0)
    at = int(more.get("at", 0) or 0)
    if ctime:
        found += [("ctime", time.ctime(ctime)), ("qtime", time.ctime(ctime))]
        if not job["holds"]:
            found.append(("etime", time.ctime(max(ctime, at))))
    if job["begun"]:
        found.append(("stime", time.ctime(job["begun"]["moment"])))
    last = job["finished"] or job["begun"]
    found.append(("mtime", time.ctime(last["moment"] if last else ctime)))
    return found


def resources_of(job: Job) -> Attributes:
    """The list of resources."""
    more = job["more"]
    lines, _, processors = counts_of(more, job["nodes"])
    found = {"nodect": str(job["nodes"]), "ncpus": str(processors * job["nodes"]), "mpiprocs": str(lines)}
    for part in str(more.get("resources", "")).split(","):
        name, mark, value = part.partition("=")
        if mark:
            found[name] = value
    found["walltime"] = long_clock(job["limit"])
    found["sites"] = "+".join(job["sites"])
    return [(f"Resource_List.{name}", value) for name, value in sorted(found.items())]


def ending_of(job: Job) -> Attributes:
    """How it ended."""
    if not job["finished"]:
        return []
    return [("Exit_status", str(job["finished"]["status"]))]


def used_of(job: Job) -> Attributes:
    """What it has used, as far as the node told it on which it ran."""
    used = job["more"].get("used") or {}
    found = [("resources_used.cput", long_clock(int(used["cput"]))), ("resources_used.mem", f"{used['mem']}kb")] if used else []
    return [*found, ("resources_used.walltime", long_clock(elapsed(job)))] if job["begun"] else found


def array_of(job: Job) -> Attributes:
    """What tells of an array, or of a member's place in it."""
    more = job["more"]
    if "members" in job:
        states = more["states"]
        names = {"Queued": "QTHW", "Running": "RE", "Exiting": "", "Expired": "F"}
        counts = " ".join(f"{name}:{sum(it in letters and bool(letters) for it in states)}" for name, letters in names.items())
        left = ",".join(it["more"]["index"] for it in job["members"] if it["state"] in "QTHW")
        indices = [("array_indices_submitted", more["array"]), ("array_indices_remaining", left or "-")]
        return [("array", "True"), ("array_state_count", f"{counts} "), *indices]
    return [("array_id", more["array_id"]), ("array_index", more["index"])] if "array_id" in more else []


def attributes_of(job: Job, view: View) -> Attributes:
    """All attributes of a job, without its variables."""
    more = job["more"]
    owner = f"{job['owner']}@{more['host']}" if more.get("host") else job["owner"]
    found: Attributes = [("Job_Name", name_of(job)), ("Job_Owner", owner)]
    found += used_of(job)
    found += [("job_state", job["state"]), ("queue", queue_of(job)), ("server", view.here), ("Checkpoint", "n")]
    account = more.get("account") or job["account"]
    found += [("Account_Name", plain(account))] if account else []
    found += [("depend", more["waits"])] if more.get("waits") else []
    found += [("Execution_Time", time.ctime(more["waits_until"]))] if more.get("waits_until") else []
    found += [("Error_Path", file_of(job, "err", "e"))]
    found += [("exec_host", hosts_text(job))] if job["begun"] and "members" not in job else []
    holds = "".join(letter for letter in HOLDS if letter in job["holds"]) or "n"
    found += [("Hold_Types", holds), ("Join_Path", more.get("join", "n")), ("Keep_Files", more.get("keep") or "n")]
    found += [("Mail_Points", more.get("mail", "n"))]
    found += [("Mail_Users", more["mail_to"])] if more.get("mail_to") else []
    found += [("Output_Path", file_of(job, "out", "o")), ("Priority", str(job["priority"])), ("Rerunable", "False")]
    found += [*moments_of(job), *resources_of(job), *array_of(job)]
    found += [("session_id", str(more["session"]))] if more.get("session") else []
    found += [("Shell_Path_List", str(more["interpreter"]))] if more.get("interpreter") else []
    comment = comment_of(job)
    found += [("comment", comment)] if comment else []
    found += ending_of(job)
    found += [("Submit_arguments", str(more["arguments"]))] if more.get("arguments") else []
    return found


def escaped(value: str) -> str:
    """A variable's value in a list of them."""
    return value.replace("\\", "\\\\").replace(",", "\\,").replace("\n", "\\n")


def folded(text: str, is_wide: bool) -> str:
    """A line that is cut at commas where it is too long; what follows begins with a tab."""
    if is_wide or len(text) <= WIDTH:
        return text
    lines, line = [], ""
    for part in text.replace(",", ",\0").split("\0"):
        while len(line) + len(part) > WIDTH and (line or len(part) > WIDTH):
            piece = line or part[:WIDTH]
            part = part if line else part[WIDTH:]
            lines.append(piece)
            line = ""
        line += part
    return "\n\t".join([*lines, line])


def lines_of(job: Job, view: View) -> str:
    """A job as lines."""
    variables = ",".join(f"{name}={escaped(value)}" for name, value in variables_of(job).items())
    pairs = [*attributes_of(job, view), ("Variable_List", variables)]
    is_wide = view.has("w1")
    lines = [folded(f"    {name} = {plain(value)}", is_wide) for name, value in pairs]
    return "\n".join([f"Job Id: {job['shown']}", *lines, "\n"])


def fields_of(job: Job, view: View) -> str:
    """A job as one line of fields."""
    mark = view.options.get("D") or "|"
    variables = ",".join(f"{name}={escaped(value)}" for name, value in variables_of(job).items())
    fields = [f"{name}={plain(value)}" for name, value in [*attributes_of(job, view), ("Variable_List", variables)]]
    return mark.join(field.replace(mark, "\\" + mark) for field in (f"Job Id: {job['shown']}", *fields)) + "\n"


def is_whole(text: str) -> bool:
    """Whether a text is a number that JSON may have as one."""
    return text.isascii() and text.isdigit() and (text == "0" or not text.startswith("0")) and len(text) < 16


def object_of(job: Job, view: View) -> Dict[str, Any]:
    """A job as an object, attributes with a dot as objects in it."""
    found: Dict[str, Any] = {}
    for name, value in attributes_of(job, view):
        outer, dot, inner = name.partition(".")
        given: Any = int(value) if is_whole(value) and outer != "Job_Name" else value
        if dot:
            found.setdefault(outer, {})[inner] = given
        else:
            found[outer] = given
    return {**found, "Variable_List": variables_of(job)}


def indented(value: Any, depth: int = 0) -> str:
    """The text of a value over several lines, as PBS writes it."""
    if not isinstance(value, dict):
        return dumps(value)
    inner = ",\n".join(f"{'    ' * (depth + 1)}{dumps(key)}:{indented(it, depth + 1)}" for key, it in value.items())
    return f"{{\n{inner}\n{'    ' * depth}}}" if value else "{\n" + "    " * depth + "}"


def full(jobs: List[Job], view: View) -> str:
    """The full listing."""
    if view.options.get("F") == "json":
        objects = {job["shown"]: object_of(job, view) for job in jobs}
        head: Dict[str, Any] = {"timestamp": int(time.time()), "pbs_version": VERSION, "pbs_server": view.here}
        return indented({**head, "Jobs": objects} if objects else head) + "\n"
    write = fields_of if view.options.get("F") == "dsv" else lines_of
    return "".join(write(job, view) for job in jobs)
