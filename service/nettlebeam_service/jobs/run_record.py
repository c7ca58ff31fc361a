"""A run of a job: where it runs, by which nonce it was started, and how it ended."""
from __future__ import annotations

import socket
import time
from dataclasses import dataclass, field
from typing import Any, Dict, List, NamedTuple, Optional

from ..common.processes import boot
from ..node.job_runner import LATE_SECONDS, ORDER, OVER
from ..node.leftovers import KILLED
from ..node.store import LOST as LOST_STATE
from ..node.store import WINDOW_SECONDS, boot_time
from ..nodes.link import NodeLink
from ..nodes.node import Node

LOST, DELETED = 255, 143
SPARE_SECONDS = 60.0
AGAIN_SECONDS = 120.0  # how long behind its begin a start that didn't reach its node is sent again


class Exit(NamedTuple):
    """How a script ended: its status, the second, what it used, if that is known, and what ended it or why it never ran, if it
    didn't end by itself."""

    status: int
    moment: int
    used: Optional[Dict[str, int]] = None
    why: str = ""


def lost(why: str) -> Exit:
    """The end of a job of which nothing is known, or that never ran."""
    return Exit(LOST, int(time.time()), None, why)


@dataclass
class Run:
    """A run of a job, from when its node is asked to prepare it until the site is told how it ended."""

    job: str
    node: Node
    hosts: List[str]
    limit: int = 0
    nonce: str = ""
    grace: float = 0.0
    mark: str = ""
    order: Dict[str, Any] = field(default_factory=dict)
    node_boot: str = ""  # the run of its node's machine that gave the nonce
    # moments of this machine's clock, which counts what it was suspended
    prepared: float = 0.0  # when its node had given the nonce
    began: float = 0.0  # when this process was answered `done`
    touched: float = 0.0  # what a node was asked earlier than that tells nothing of this run
    is_mine: bool = False  # whether this process was answered `done`
    is_sent: bool = False  # whether a start was sent of which it isn't known that its nonce wasn't used
    link: Optional[NodeLink] = None  # by which the node tells of its end
    exit: Optional[Exit] = None
    is_looked_after: bool = False
    is_told_to_end: bool = False
    is_unwanted: bool = False  # whether it was deleted before it could be started
    deleter: str = ""  # who deleted it, if that was here
    doubt: str = ""

    def record(self) -> Dict[str, Any]:
        """What the spool keeps."""
        kept = {"node": self.node.name, "hosts": self.hosts, "limit": self.limit, "nonce": self.nonce}
        return {**kept, "grace": self.grace, "mark": self.mark, "prepared": self.prepared, "boot": boot()}

    @property
    def owner(self) -> str:
        """Whose job it is, of one that this process has prepared."""
        return str(self.order.get("owner", ""))

    def may_start_again(self) -> bool:
        """Whether this process may have it started by another nonce, since none of the job's was used."""
        return self.is_mine and not self.is_sent and boot_time() - self.began < AGAIN_SECONDS

    def deletion(self) -> Exit:
        """The end of a job that was deleted before its script ran."""
        return Exit(DELETED, int(time.time()), None, f"{self.deleted()} before it ran")

    def deleted(self) -> str:
        """That it was deleted, in words."""
        return f"deleted by {self.deleter}" if self.deleter else "deleted"

    def why_ended(self, by: str) -> str:
        """What ended its script, by the node's word for it, in words; nothing if the script ended by itself."""
        told = {OVER: f"walltime {self.limit} exceeded", ORDER: self.deleted()}
        return {**told, KILLED: f"lost: what watched it at {self.node.shown} was killed"}.get(by, "")

    def why_lost(self, state: str) -> str:
        """Why nothing is known of its end, by what its node says of it, in words."""
        if not self.nonce:
            return "this job never ran, since its start was never sent"
        what = "was started anew" if state == LOST_STATE else "knows nothing of it"
        return f"lost: {self.node.shown} {what}"

    def is_watched(self) -> bool:
        """Whether its node tells of its end by the link that is there."""
        return self.link is not None and self.link.is_open and self.link is self.node.link

    def is_over(self) -> bool:
        """Whether its script has ended by its node's clock, whatever became of the node."""
        return boot_time() - self.prepared > WINDOW_SECONDS + LATE_SECONDS + self.limit + self.grace + SPARE_SECONDS


def run_of_record(job: str, node: Node, record: Dict[str, Any]) -> Run:
    """The run that an earlier process has begun. Where this machine was started anew since, it was before that."""
    prepared = record["prepared"] if record["boot"] == boot() else 0.0
    run = Run(job, node, record["hosts"], record["limit"], record["nonce"], record["grace"], record["mark"], prepared=prepared)
    run.exit = Exit(*record["exit"]) if "exit" in record else None
    return run


def hosts_without_names(nodes: int) -> List[str]:
    """The hosts of a job where the configuration names none: this machine, once for each node."""
    return [socket.gethostname()] * min(nodes, 10_000)
