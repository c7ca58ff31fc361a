"""`pbsnodes` as PBS has it, over the service's `nodes`, `drain` and `resume`.

Nodes are whole here, so a node has one processor to give, and is `job-exclusive` where a job has it.
"""
from __future__ import annotations

from ..common.ask import Told, ask
from ..common.small_json import dumps
from ..words.options import Fault, parse_anywhere

TYPE_CHECKING = False
if TYPE_CHECKING:
    from typing import Any, Dict, List, Optional, Sequence

    Node = Dict[str, Any]

KINDS = "alSor"  # of which one is done
OTHERS = "vCFj"  # letters that say how
# the states that -l names, as Torque has them
LISTED = {
    "free": ("free",),
    "busy": ("job-exclusive",),
    "down": ("down",),
    "offline": ("offline",),
    "active": ("job-exclusive",),
    "up": ("free", "job-exclusive"),
    "all": ("free", "job-exclusive", "down", "offline"),
}
SUMMARY_HEAD = (
    "                                                        mem       ncpus   nmics   ngpus\n"
    "vnode           state           njobs   run   susp      f/t        f/t     f/t     f/t   jobs\n"
    "--------------- --------------- ------ ----- ------ ------------ ------- ------- ------- -------\n"
)
UNTOLD = "pbsnodes -o"


def nodes_in(told: Told) -> List[Node]:
    """The nodes that the service tells, each with its state as PBS has it."""
    nodes: List[Node] = told.json_lines()
    for node in nodes:
        states = [word for key, word in (("is_down", "down"), ("is_drained", "offline")) if node[key]]
        node["state"] = ",".join(states) or ("job-exclusive" if node["jobs"] else "free")
        node["comment"] = node["told"] if states else ""
    return nodes


def attributes_of(node: Node) -> Dict[str, str]:
    """What the long listing tells of a node."""
    found = {"Mom": node["name"], "ntype": "PBS", "state": node["state"], "pcpus": "1"}
    if node["jobs"]:
        found["jobs"] = ", ".join(f"{job}/0" for job in node["jobs"])
    found["resources_available.host"] = node["name"]
    found["resources_available.ncpus"] = "1"
    found["resources_assigned.ncpus"] = "1" if node["jobs"] else "0"
    if node["comment"]:
        found["comment"] = node["comment"]
    return found


def long_lines(nodes: List[Node]) -> str:
    """The listing of `-a`."""
    return "".join(
        "\n".join([node["name"], *(f"     {name} = {value}" for name, value in attributes_of(node).items()), "\n"]) for node in nodes
    )


def objects(nodes: List[Node], server: str) -> str:
    """The listing of `-a -F json`."""
    return dumps({"pbs_server": server, "nodes": {node["name"]: attributes_of(node) for node in nodes}}) + "\n"


def state_lines(nodes: List[Node], states: Sequence[str]) -> str:
    """The listing of `-l`: the nodes in some states, without a word for them those on which nothing begins, and why."""
    found = [node for node in nodes if any(state in node["state"].split(",") for state in states)]
    return "".join(f"{node['name']:<20} {node['state']} {node['comment']}".rstrip() + "\n" for node in found)


def summary(nodes: List[Node]) -> str:
    """The listing of `-S`: a line for each node."""
    lines: List[str] = []
    for node in nodes:
        count = len(node["jobs"])
        numbers = f"{count:>6} {count:>5} {0:>6} {'0kb/0kb':>12} {f'{0 if count else 1}/1':>7} {'0/0':>7} {'0/0':>7}"
        lines.append(f"{node['name']:<15} {node['state']:<15} {numbers} {','.join(node['jobs']) or '--'}\n")
    return SUMMARY_HEAD + "".join(lines)


def change(path: str, letter: str, hosts: List[str], comment: str, role: Optional[str]) -> Told:
    """`-o` and `-r`: hosts are drained or go on, as far as they can be."""
    status, words = 0, []
    for host in hosts:
        line = ["drain", host, *(comment.split() or UNTOLD.split())] if letter == "o" else ["resume", host]
        told = ask(path, line, role or "operator")
        if told.status:
            status = max(status, told.status)
            words.append(told.words if told.status > 1 else f"{host}: {told.words}")
    return Told(status, b"", "\n".join(dict.fromkeys(words)))


def pbsnodes(path: str, words: List[str], role: Optional[str]) -> Told:
    """`pbsnodes -a | -l | -S | -o host .. | -r host ..`, or hosts alone."""
    options, hosts = parse_anywhere("pbsnodes", words)
    found: Dict[str, str] = {}
    for letter, argument in options:
        if letter not in KINDS and letter not in OTHERS:
            raise Fault(f"there is no option -{letter} here")
        if letter in "vCF" and argument is None:
            raise Fault(f"-{letter} needs an argument")
        if letter in found and letter in "or":
            raise Fault(f"-{letter} is given twice")
        found[letter] = argument or ""
    kinds = [letter for letter in found if letter in KINDS]
    hosts += [host for host in found.get("v", "").split(",") if host]
    if len(kinds) > 1 and kinds != ["a", "S"] and kinds != ["S", "a"] or not kinds and not hosts:
        raise Fault("give one of -a, -l, -S, -o and -r, or hosts")
    if found.get("F", "json") != "json":
        raise Fault("-F is json here")
    if kinds == ["l"] and hosts[:1] and hosts[0] in LISTED:
        told = ask(path, ["nodes-json"], role)
        return Told(told.status, state_lines(nodes_in(told), LISTED[hosts[0]]).encode(), told.words)
    if kinds and kinds[0] in "or":
        if not hosts:
            raise Fault("name a host")
        return change(path, kinds[0], hosts, found.get("C", ""), role)
    return listing(path, "S" if "S" in kinds else kinds[0] if kinds else "a", hosts, "F" in found, role)


def listing(path: str, kind: str, hosts: List[str], is_json: bool, role: Optional[str]) -> Told:
    """A listing of all nodes, or of these."""
    told = ask(path, ["nodes-json"], role)
    if told.status:
        return told
    nodes = nodes_in(told)
    unknown = [host for host in hosts if host not in {node["name"] for node in nodes}]
    if hosts:
        nodes = [node for node in nodes if node["name"] in hosts]
    server = ask(path, ["site"]).name() if is_json else ""
    text = objects(nodes, server) if is_json else long_lines(nodes)
    if kind in "lS" and not is_json:
        text = summary(nodes) if kind == "S" else state_lines(nodes, ("down", "offline"))
    return Told(1 if unknown else 0, text.encode(), "\n".join(f"Node: {host},  Error: Unknown node" for host in unknown))
