"""What people ask of the nodes: `nodes`, and of operators `drain HOST WHY ..`, `resume HOST` and `lost ID`."""
from __future__ import annotations

import json
import re
from typing import Callable

from ..common.wire import Reply, Request
from ..jobs.active_runs import Runs
from ..nodes.nodes import Nodes
from ..site.lines import JOB, Client, Denied, asker, name_of

OF_NODES = ("nodes", "nodes-json", "drain", "resume", "lost")
ONE_JOB = re.compile(f"{JOB}\\Z")


class NodeRequests:
    """Answers what is asked of the nodes."""

    def __init__(self, nodes: Nodes, runs: Runs, log: Callable[[str], None]):
        self.nodes = nodes
        self.runs = runs
        self.log = log

    async def answer(self, client: Client, request: Request) -> Reply:
        """The reply to a request."""
        words = request.words
        if words == ["nodes"]:
            return Reply(0, "".join(host.line() for host in self.nodes.states()).encode("ascii", "replace"))
        if words == ["nodes-json"]:
            return Reply(0, "".join(f"{json.dumps(host.told())}\n" for host in self.nodes.states()).encode("ascii"))
        asker(client, request.role)
        if request.role is None:
            raise Denied(f"{words[0]} is asked as operator or admin")
        if words[0] == "lost" and len(words) == 2 and ONE_JOB.match(words[1]):
            return self.lost(name_of(client), words[1])
        if len(words) < 2 or words[1] not in self.nodes.keys.hosts or (words[0] == "drain") != (len(words) > 2):
            raise Denied(f"the words of {words[0]} are wrong: drain HOST WHY .., resume HOST, lost ID, of a host that is configured")
        if words[0] == "drain":
            self.nodes.drain(words[1], name_of(client), " ".join(words[2:]))
            return Reply(0, b"done\n")
        return Reply(0, b"done\n") if self.nodes.resume(words[1]) else Reply(1, b"", f"{words[1]} isn't drained")

    def lost(self, user: str, job: str) -> Reply:
        """Somebody says that the node of a job is off. Where it isn't, two jobs will be on it."""
        why = self.runs.lose(job, user)
        if why:
            return Reply(1, b"", why)
        self.log(f"{job}: {user} says that it is lost")
        return Reply(0, b"done\n", f"{job} is finished with 255; had its node not been off, two jobs could be on it")
