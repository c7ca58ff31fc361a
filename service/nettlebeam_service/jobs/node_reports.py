"""What nodes say of their runs: as an answer to a hello, and by themselves."""
from __future__ import annotations

import time
from typing import Callable, Dict

from ..node.store import ENDED, READY, RUNS, UNKNOWN, State
from ..nodes.link import Answer, NodeLink
from ..nodes.node import OWN, Node
from ..nodes.nodes import Nodes
from ..site.spool import Spool
from .active_runs import Runs

OLD_SECONDS = 86_400.0


class NodeReports:
    """Hands on what nodes say, and has ended what runs there and doesn't run here."""

    def __init__(self, nodes: Nodes, runs: Runs, spool: Spool, log: Callable[[str], None]):
        self.runs = runs
        self.spool = spool
        self.log = log
        nodes.on_hello, nodes.on_told = self.on_hello, self.on_told

    def on_hello(self, node: Node, link: NodeLink, told: Dict[str, State], asked: float) -> None:
        """A node tells of all of its runs, as they were at some moment after it was asked."""
        if not self.runs.knows_all:
            return
        for run in list(self.runs.all.values()):
            state = told.get(run.job, {"state": UNKNOWN})
            # of a run that is watched, or was started since, this may be older than what is known, but where it has ended
            is_news = run.link is not link and run.touched < asked
            has_ended = state["state"] == ENDED and state.get("nonce") == run.nonce
            if run.node is node and (is_news or has_ended):
                self.runs.apply(run, state, link)
        node.haunted = ""
        for job, state in told.items():
            if job not in self.runs.all:
                self.on_stranger(node, job, state)

    def on_stranger(self, node: Node, job: str, state: State) -> None:
        """A node has a run of a job that doesn't run here."""
        about = {"id": job, "nonce": state.get("nonce", "")}
        if state["state"] == READY:
            self.runs.spawn(self.runs.ask_aside(node, {"ask": "drop", **about}))
        elif state["state"] == RUNS:
            self.haunt(node, job)
        elif state["state"] != UNKNOWN:
            if self.spool.record(job) or state.get("moment", 0) < time.time() - OLD_SECONDS:
                self.runs.spawn(self.runs.ask_aside(node, {"ask": "forget", **about}))

    def haunt(self, node: Node, job: str) -> None:
        """A node runs what doesn't run here, as far as the site knows. Nothing begins there until it is ended."""
        if job in self.runs.all or job in self.runs.heard_ends:
            return  # it runs here, or is just being forgotten
        if node.name != OWN:
            node.haunted = job
        self.log(f"{job}: {node.shown} runs it still, which doesn't run here any more; it is ended")
        self.runs.spawn(self.runs.ask_aside(node, {"ask": "end", "id": job}))

    def on_told(self, node: Node, told: Answer) -> None:
        """A node says by itself what became of a run."""
        run = self.runs.all.get(told.get("id", ""))
        if node.haunted and node.haunted == told.get("id"):
            node.heard = 0.0  # its next hello tells whether that is all
        if run is None or run.node is not node:
            return
        if told["told"] == "ended" and told["run"].get("nonce", "") in ("", run.nonce):  # else an earlier one that wasn't started
            self.runs.apply(run, told["run"], node.link)
        elif told["told"] == "stuck" and run.job not in self.runs.stuck:
            self.runs.stuck.add(run.job)
            self.log(f"{run.job}: its runner has gone, and its processes can't be ended; it stays until they are")
