"""Writes all that a run needs at its node, before its job begins."""
from __future__ import annotations

import os
import pwd
import secrets
from typing import Any, Dict

from .leftovers import Leftovers
from .login_shell import shell_of
from .settings import NodeKeys, files_of_jobs
from .shown import let_through, put_shown
from .store import LEFT, NoRoom, Store
from .wrapper import Order, Way, as_owner, clean_text, environment_of, files_of, nodes_text, shell_reading, text_of

Answer = Dict[str, Any]


class Preparing:
    """Prepares runs, by who has their locks."""

    def __init__(self, keys: NodeKeys, store: Store, leftovers: Leftovers):
        self.keys = keys
        self.store = store
        self.leftovers = leftovers

    def prepare(self, job: str, order: Order, owner: pwd.struct_passwd, is_shown: bool, script: bytes) -> Answer:
        """Prepares a run whose lock is held, unless another runs."""
        if self.store.state(job, has_lock=True)["state"] == LEFT and not self.leftovers.clear(job):
            return {"answer": "busy", "by": job}
        others = self.store.others_running(job) if order["alone"] else []
        if others:
            return {"answer": "busy", "by": others[0]}
        nodes = nodes_text(order["hosts"], order["facts"])
        way = Way(self.store.path(job, "own"), f"nettlebeam-{secrets.token_hex(8)}", is_shown, self.keys.login == "yes")
        text = os.fsencode(text_of(job, order, nodes, shell_of(self.keys.shell, owner.pw_shell), script, way))
        try:
            self.store.check_room(len(text) + len(nodes) + len(script))
            if is_shown:
                let_through(self.store.path(job))
                put_shown(way.own, owner.pw_uid, nodes, script)
            run = {**self.run_of(job, order, owner, len(text)), "word": way.word}
            nonce = self.store.prepare(job, run, text if is_shown else text + nodes + script)
        except NoRoom as fault:
            return {"answer": "no room", "why": str(fault)}
        return {"answer": "ready", "nonce": nonce, "grace": self.keys.grace, "boot": self.store.boot}

    def run_of(self, job: str, order: Dict[str, Any], owner: pwd.struct_passwd, size: int) -> Dict[str, Any]:
        """What the runner of a job is told."""
        helper = as_owner(self.keys.start, order["owner"], f"{job}-helper")
        return {
            "command": [*as_owner(self.keys.start, order["owner"], job), *shell_reading(size)],
            "helper": helper,
            "clean": [*helper, "/bin/sh", "-c", clean_text(job)],
            "files": files_of(job, order),
            "environment": environment_of(owner),
            "grace": self.keys.grace,
            "hosts": order["hosts"],
            "limit": order["limit"],
            "open_files": files_of_jobs(self.keys),
            "stop": as_owner(self.keys.stop, order["owner"], job),
            "cgroup": os.path.join(self.keys.cgroup, job) if self.keys.cgroup else "",
            "alone": order["alone"],
        }
