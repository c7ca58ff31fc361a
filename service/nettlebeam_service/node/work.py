"""What a node does for the service: it prepares runs, starts each once, tells what became of it, and ends it."""
from __future__ import annotations

import contextlib
import os
import pwd
import signal
import time
from typing import Any, Callable, Dict, Iterator, Optional

from ..common import processes
from ..common.files import remove, write
from .checks import look
from .leftovers import LOST_STATUS, Leftovers
from .owner_calls import help_job
from .preparing import Preparing
from .runners import Runners
from .settings import NodeKeys, boot_of
from .shown import let_through
from .store import ENDED, LEFT, LOST, RUNS, UNKNOWN, State, Store, is_full
from .trials import Trials
from .watch import Watch
from .wrapper import account, message_text, shell_reading

VERSION = 1
SIGNAL_SECONDS = 10
MOST_LOOKED = 10_000
Answer = Dict[str, Any]


class Locked(Exception):
    """Another has the lock of a run."""


class Work:
    """Answers requests. `tell` says what nobody has asked for. Calls come from several threads."""

    def __init__(self, keys: NodeKeys, tell: Callable[[Answer], None]):
        self.keys = keys
        self.tell = tell
        self.boot = boot_of(keys)
        os.makedirs(keys.folder, mode=0o700, exist_ok=True)
        let_through(keys.folder)
        self.store = Store(keys.folder, self.boot, keys.free_bytes)
        self.store.tidy()
        self.trials = Trials(keys)
        self.watch = Watch(self.store, self.on_end)
        self.runners = Runners(keys.folder)
        self.leftovers = Leftovers(self.store, self.on_end, lambda job: tell({"told": "stuck", "id": job}))
        self.preparing = Preparing(keys, self.store, self.leftovers)
        self.asks: Dict[str, Callable[[Dict[str, Any], bytes], Answer]] = {
            "hello": self.hello,
            "check": self.check,
            "account": self.account,
            "prepare": self.prepare,
            "start": self.start,
            "drop": self.drop,
            "look": self.look,
            "signal": self.signal,
            "message": self.message,
            "end": self.end,
            "forget": self.forget,
        }

    def answer(self, request: Dict[str, Any], body: bytes) -> Answer:
        """The answer to a request."""
        ask = self.asks.get(str(request.get("ask")))
        if ask is None:
            return {"answer": "unread", "why": f"version {VERSION} of this program knows no such request"}
        try:
            return ask(request, body)
        except Locked:
            return {"answer": "busy", "by": str(request.get("id"))}
        except OSError as fault:
            return {"answer": "no room" if is_full(fault) else "failed", "why": str(fault)}
        except (KeyError, TypeError, ValueError) as fault:
            return {"answer": "unread", "why": repr(fault)}

    @contextlib.contextmanager
    def locked(self, job: str) -> Iterator[int]:
        """The lock of a run, while the block runs. For the end of one that goes on nobody waits."""
        held = None if self.store.state(job)["state"] == RUNS else self.store.lock(job)
        if held is None:
            raise Locked
        try:
            yield held
        finally:
            os.close(held)

    @contextlib.contextmanager
    def starting(self, is_alone: bool) -> Iterator[None]:
        """Where a node has one job at a time: while the block runs no other run is started, by whatever link."""
        held = self.store.lock_starts() if is_alone else None
        if is_alone and held is None:
            raise Locked
        try:
            yield
        finally:
            if held is not None:
                os.close(held)

    # What is there

    def hello(self, request: Dict[str, Any], body: bytes) -> Answer:
        """What this node is, and all of its runs."""
        state = os.statvfs(self.keys.folder)
        return {
            "answer": "hello",
            "version": VERSION,
            "boot": self.boot,
            "moment": time.time(),
            "bytes": state.f_bavail * state.f_frsize,
            "inodes": state.f_favail if state.f_files else None,
            "has_room": state.f_bavail * state.f_frsize >= self.keys.free_bytes,
            "runs": {job: state for job in self.store.names() for state in [self.told(job)] if not self.is_nothing(job, state)},
        }

    def check(self, request: Dict[str, Any], body: bytes) -> Answer:
        """What is wrong here, and what may be, as far as that is known before a job."""
        found = look(self.keys, [str(user) for user in request.get("users", [])])
        return {"answer": "check", "moment": time.time(), "faults": found.faults, "notes": found.notes}

    def is_nothing(self, job: str, state: State) -> bool:
        """Whether a folder has nothing of a run. One that stays so is removed."""
        if state["state"] == UNKNOWN:
            with contextlib.suppress(OSError):
                self.store.clear_empty(job)
        return bool(state["state"] == UNKNOWN)

    def look(self, request: Dict[str, Any], body: bytes) -> Answer:
        """What became of some runs."""
        return {"answer": "look", "runs": {str(job): self.told(str(job)) for job in request["ids"][:MOST_LOOKED]}}

    def told(self, job: str) -> State:
        """What became of a run. One that runs is told of when it ends; what one left that was killed is ended beside this."""
        state = self.store.state(job)
        if state["state"] == RUNS:
            self.watch.add(job)
        elif state["state"] == LEFT:
            self.leftovers.clear_beside(job)
            return {**state, "state": RUNS}
        elif state["state"] == ENDED:
            if "unrun" in state:
                self.trials.forget(self.store.read(job, "run.json").get("environment", {}).get("USER", ""))
            return {**state, "log": self.store.log(job)}
        return state

    def on_end(self, job: str) -> None:
        """The runner of a run has ended."""
        state = self.told(job)
        if state["state"] in (ENDED, LOST):
            self.tell({"told": "ended", "id": job, "run": state})

    def account(self, request: Dict[str, Any], body: bytes) -> Answer:
        """Whether anything is run here as a user."""
        return {"answer": "known" if self.account_of(str(request["owner"])) else "no account"}

    def account_of(self, owner: str) -> Optional[pwd.struct_passwd]:
        """The account that jobs of an owner are run as; None where there is none, or none that jobs may be run as."""
        try:
            found = pwd.getpwnam(owner)
        except KeyError:
            return None
        return found if (found.pw_uid >= self.keys.least_uid if self.keys.start else owner == account()) else None

    # A start

    def prepare(self, request: Dict[str, Any], body: bytes) -> Answer:
        """Writes all that a run needs, and gives the nonce that starts it."""
        job, order = str(request["id"]), request["order"]
        owner = self.account_of(order["owner"])
        if owner is None:
            return {"answer": "no account"}
        trial = self.trials.of(owner)
        if trial.why:
            return {"answer": "no start", "why": trial.why}
        with self.locked(self.folder_of(job)):
            is_new, answer = self.store.state(job, has_lock=True)["state"] == UNKNOWN, {"answer": ""}
            try:
                answer = self.preparing.prepare(job, order, owner, trial.is_shown, body)
            finally:
                if is_new and answer["answer"] != "ready":
                    self.store.remove(job)
        self.runners.warm()
        return answer

    def folder_of(self, job: str) -> str:
        """Makes the folder of a run; the run."""
        os.makedirs(self.store.path(job), mode=0o700, exist_ok=True)
        return job

    def start(self, request: Dict[str, Any], body: bytes) -> Answer:
        """Starts the runner of a run that is prepared, once, and gives it the lock."""
        job, nonce = str(request["id"]), str(request["nonce"])
        if self.store.was_taken(job, nonce):
            return {"answer": "started"}
        if not self.store.read(job, "nonce"):
            return {"answer": "late"}
        is_alone = bool(self.store.read(job, "run.json").get("alone"))
        with self.locked(job) as lock, self.starting(is_alone):
            others = self.store.others_running(job) if is_alone else []
            if others:
                return {"answer": "busy", "by": others[0]}
            if not self.store.take(job, nonce):
                return {"answer": "started" if self.store.was_taken(job, nonce) else "late"}
            if not self.runners.start(self.store.path(job), lock):
                self.store.end(job, LOST_STATUS, unrun="nettlebeam: its runner can't be started")
        self.watch.add(job)
        return {"answer": "started"}

    def drop(self, request: Dict[str, Any], body: bytes) -> Answer:
        """Takes a nonce away, where it hasn't been used. Another process may be stopped just before it uses it."""
        job, nonce = str(request["id"]), str(request["nonce"])
        if self.store.was_taken(job, nonce):
            return {"answer": "started"}
        dropped = {"answer": "dropped", "boot": self.boot}
        if not os.path.isdir(self.store.path(job)):
            return dropped
        held = self.store.lock(job)
        try:
            is_current = self.store.read(job, "nonce").get("nonce") == nonce
            if not self.store.drop(job, nonce):
                return {"answer": "started"}
            if held is not None and is_current:
                self.store.remove(job)
            return dropped
        finally:
            if held is not None:
                os.close(held)

    # An end

    def end(self, request: Dict[str, Any], body: bytes) -> Answer:
        """Has the runner of a run end it."""
        job = str(request["id"])
        return {"answer": "done" if self.signal_runner(job, signal.SIGTERM) else "failed", "why": "it has no runner"}

    def signal_runner(self, job: str, number: int) -> bool:
        """Sends a signal to the runner of a run; whether it has one."""
        pid = self.store.read(job, "runner").get("pid")
        return pid is not None and processes.signal_holder(int(pid), self.store.path(job, "lock"), number)

    def signal(self, request: Dict[str, Any], body: bytes) -> Answer:
        """Has the runner send a signal to all of a job's processes."""
        job, path = str(request["id"]), self.store.path(str(request["id"]), "signal")
        if self.store.state(job)["state"] == RUNS:
            write(path, str(int(request["number"])).encode())
            end = time.monotonic() + SIGNAL_SECONDS
            has_runner = self.signal_runner(job, signal.SIGUSR1)
            while has_runner and os.path.exists(path) and time.monotonic() < end:
                time.sleep(0.02)
            if not os.path.exists(path):
                return {"answer": "done"}
            remove(path)
        return {"answer": "failed", "why": "it has no process"}

    def message(self, request: Dict[str, Any], body: bytes) -> Answer:
        """Puts a message behind what files of a job have, as its owner."""
        job, run = str(request["id"]), self.store.read(str(request["id"]), "run.json")
        if "helper" not in run or not self.may_write(job):
            return {"answer": "failed", "why": "it has no process"}
        head = message_text(run["files"], request["files"]).encode()
        line = body if body.endswith(b"\n") else body + b"\n"
        why = help_job([*run["helper"], *shell_reading(len(head))], run["environment"], head + line)
        return {"answer": "failed", "why": why} if why else {"answer": "done"}

    def may_write(self, job: str) -> bool:
        """Whether a message is for a script that runs, or says why one has ended."""
        return self.store.state(job)["state"] in (RUNS, ENDED, LOST)

    def forget(self, request: Dict[str, Any], body: bytes) -> Answer:
        """Removes what is here of a run that has ended; of another of its name nothing."""
        job = str(request["id"])
        if not os.path.isdir(self.store.path(job)):
            return {"answer": "done"}
        with self.locked(job):
            state = self.store.state(job, has_lock=True)
            if state["state"] not in (ENDED, LOST) or state["nonce"] != request["nonce"]:
                return {"answer": "failed", "why": f"{state['state']} {state.get('nonce', '')}"}
            self.store.remove(job)
        return {"answer": "done"}
