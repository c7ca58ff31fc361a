"""Whether what a job waits for has come true."""
from __future__ import annotations

from typing import Dict, Optional

from ..housekeeping.accounting import is_settled
from ..site.looks import Job, Seen, origin_of


class Deletions:
    """Jobs of other sites that were deleted before they began, as far as is known here.

    Such a job may still begin where its deletion isn't known. It can't any more once its origin, which alone grants, has told
    that it knows all that was known here when the deletion was, and no site has its grant.
    """

    def __init__(self, here: str):
        self.here = here
        self.since: Dict[str, int] = {}

    def is_final(self, job: Job, seen: Seen) -> bool:
        """Whether a deleted job never begins."""
        if is_settled(job, self.here):
            return True
        origin = origin_of(job["id"])
        if origin == self.here or job["begun"] or job["grant"] or origin not in seen:
            return False
        noticed = self.since.setdefault(job["id"], seen[self.here]["known"])
        return seen[origin]["told"] >= noticed


def verdict(kind: str, job: Job, is_final: bool) -> Optional[bool]:
    """Whether this has come true of a job, or can't any more; None where neither is so yet. `is_final` tells of a job that was
    deleted before it began whether it never does."""
    ended = job["finished"]
    if kind == "after":
        return True if job["begun"] else False if is_final else None
    if not ended and not is_final:
        return None
    is_good = bool(ended) and ended["status"] == 0
    return {"afterok": is_good, "afternotok": not is_good, "afterany": True}[kind]
