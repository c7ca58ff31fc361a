"""`qsub -W block=true`: waits for the end of what was submitted."""
from __future__ import annotations

import time

from ..common.ask import Unasked, ask

TYPE_CHECKING = False
if TYPE_CHECKING:
    from typing import List, Optional

FIRST_SECONDS = 0.2
LONGEST_SECONDS = 5.0
LOST = 255


def statuses_of(path: str, name: str) -> List[Optional[int]]:
    """How each job of a name ended; None for one that hasn't."""
    found: List[Optional[int]] = []
    for job in ask(path, ["jobs", name]).json_lines():
        is_over = job["letter"] is None
        found.append((job["finished"]["status"] if job["finished"] else LOST) if is_over else None)
    return found


def wait_for(path: str, name: str) -> int:
    """Waits until a job, or each member of an array, is gone; its status, or the greatest of theirs."""
    pause = FIRST_SECONDS
    while True:
        time.sleep(pause)
        try:
            statuses = statuses_of(path, name)
        except Unasked:
            statuses = [None]  # the service may be started again meanwhile
        if statuses and None not in statuses:
            return max(status for status in statuses if status is not None)
        if not statuses:
            return LOST  # it is known no more
        pause = min(1.3 * pause, LONGEST_SECONDS)
