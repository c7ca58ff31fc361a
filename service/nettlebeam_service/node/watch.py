"""Waits for the ends of runners, whoever started them."""
from __future__ import annotations

import os
import select
import threading
import time
from typing import Callable, Dict

from .store import RUNS, Store

POLL_SECONDS = 1.0


class Watch:
    """One thread that waits for all runners, and calls for each that has ended."""

    def __init__(self, store: Store, on_end: Callable[[str], None]):
        self.store = store
        self.on_end = on_end
        self.guard = threading.Lock()
        self.descriptors: Dict[str, int] = {}
        self.polled: Dict[str, bool] = {}  # those whose process isn't known: their locks are looked at
        self.wakes, self.wake = os.pipe()
        threading.Thread(target=self.run, daemon=True).start()

    def add(self, job: str) -> None:
        """Waits for the end of a run that goes on."""
        with self.guard:
            if job in self.descriptors or job in self.polled:
                return
            pid = self.store.read(job, "runner").get("pid")
            try:
                self.descriptors[job] = os.pidfd_open(int(pid))  # type: ignore[arg-type]
            except (AttributeError, OSError, TypeError, ValueError):
                self.polled[job] = True
            # its number may be another's by now: where the lock is held after that it is the runner's
            if self.store.state(job)["state"] != RUNS and job in self.descriptors:
                os.close(self.descriptors.pop(job))
                self.polled[job] = True
        os.write(self.wake, b".")

    def run(self) -> None:
        """Waits again and again."""
        while True:
            with self.guard:
                names = {descriptor: job for job, descriptor in self.descriptors.items()}
            poll = select.poll()
            for descriptor in (*names, self.wakes):
                poll.register(descriptor, select.POLLIN)
            ready = [descriptor for descriptor, _ in poll.poll(1000 * POLL_SECONDS if self.polled else None)]
            if self.wakes in ready:
                os.read(self.wakes, 1000)
            self.finish([names[descriptor] for descriptor in ready if descriptor != self.wakes])

    def finish(self, jobs: "list[str]") -> None:
        """Tells of those whose runners are no more there, and hold no lock."""
        with self.guard:
            for job in jobs:
                os.close(self.descriptors.pop(job))
                self.polled[job] = True  # the last of its descriptors may be closed a moment later
            ended = [job for job in self.polled if not self.goes_on(job)]
            for job in ended:
                del self.polled[job]
        for job in ended:
            self.on_end(job)

    def goes_on(self, job: str) -> bool:
        """Whether a run's lock is held still. A runner that has just ended is given a moment."""
        end = time.monotonic() + 0.05
        while self.store.state(job)["state"] == RUNS:
            if time.monotonic() > end:
                return True
            time.sleep(0.005)
        return False
