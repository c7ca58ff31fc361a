"""Ends what a runner that was killed has left of its job."""
from __future__ import annotations

import os
import signal
import threading
import time
from typing import Any, Callable, Dict, Set

from ..common import processes
from .job_processes import calls_for, stop_words
from .owner_calls import help_job
from .store import LEFT, Store

LOST_STATUS = 255
KILLED = "kill"  # what ended a run: that its runner was killed
STOP_TRIES = 3
DYING_SECONDS = 1.0


class Leftovers:
    """Ends what is left of runs. `on_end` is called for a run that has ended by that, `on_stuck` for one that can't be ended."""

    def __init__(self, store: Store, on_end: Callable[[str], None], on_stuck: Callable[[str], None]):
        self.store = store
        self.boot = store.boot
        self.on_end = on_end
        self.on_stuck = on_stuck
        self.clearing: Set[str] = set()

    def clear_beside(self, job: str) -> None:
        """Ends what is left of a run, beside all else, and tells of it."""
        if job not in self.clearing:
            self.clearing.add(job)
            threading.Thread(target=self.clear_and_tell, args=(job,)).start()

    def clear_and_tell(self, job: str) -> None:
        """Ends what is left of a run; where it can't be ended, that is told."""
        try:
            lock = self.store.lock(job)
            if lock is None:
                return
            try:
                if self.store.state(job, has_lock=True)["state"] != LEFT:
                    return
                if not self.clear(job):
                    self.on_stuck(job)
                    return
                self.store.end(job, LOST_STATUS, ended_by=KILLED)
            finally:
                os.close(lock)
        except OSError:
            return  # the next look tries again
        finally:
            self.clearing.discard(job)
        self.on_end(job)

    def clear(self, job: str) -> bool:
        """Ends the processes of a run whose runner was killed. False where something is left still."""
        started, run = self.store.read(job, "started"), self.store.read(job, "run.json")
        if not started or started["boot"] != self.boot:
            return True
        if run.get("stop"):
            self.stop(run, started["pid"], started["tick"])
        if run.get("cgroup"):
            processes.end_cgroup(run["cgroup"])
        is_clear = processes.end_session(started["pid"], started["tick"])
        if is_clear and run.get("clean"):
            help_job(run["clean"], run["environment"], b"")
        return is_clear

    def stop(self, run: Dict[str, Any], session: int, since: int) -> None:
        """Has the configured command end all process groups of a session, until none is left."""
        groups = {session} | processes.groups_of(processes.members(session, since))
        for _ in range(STOP_TRIES):
            for called in calls_for(run["stop"], groups, session):
                help_job(stop_words(run["stop"], called, int(signal.SIGKILL)), run["environment"], b"")
            end = time.monotonic() + DYING_SECONDS
            left = processes.members(session, since)
            while left and time.monotonic() < end:
                time.sleep(0.05)
                left = processes.members(session, since)
            if not left:
                return
            groups = processes.groups_of(left)
