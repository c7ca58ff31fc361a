"""What a job waits for: `afterok:3.argonne:4.argonne,afterany:5.lemont`, as `-W depend=` has it."""
from __future__ import annotations

from .options import Fault

TYPE_CHECKING = False
if TYPE_CHECKING:
    from typing import List, Tuple

TYPES = ("after", "afterok", "afternotok", "afterany")
# what PBS has besides, and this doesn't
OTHERS = (
    *("before", "beforeok", "beforenotok", "beforeany", "on", "runone", "synccount", "syncwith"),
    *("aftercorr", "afterburstbuffer", "expand"),
)
ARRAYS = "array"  # Torque has `afterokarray:12[]`


def read_depends(text: str) -> List[Tuple[str, str]]:
    """The pairs of a type and a job that a list has. Fault where it has another form."""
    found: List[Tuple[str, str]] = []
    for part in text.split(","):
        kind, *jobs = part.strip().split(":")
        plain = kind[: -len(ARRAYS)] if kind.endswith(ARRAYS) else kind
        if plain in OTHERS:
            raise Fault(f"depend={part}: {kind} can't be had here; there are {', '.join(TYPES)}")
        if plain not in TYPES:
            raise Fault(f"depend={part}: {kind or 'nothing'} is none of {', '.join(TYPES)}")
        if any("+" in job for job in jobs):
            raise Fault(f"depend={part}: minutes after a + can't be had here; there is -a, or --begin, with a moment")
        # PBS names a server behind a @
        names = [job.partition("@")[0] for job in jobs]
        if not names or not all(names):
            raise Fault(f"depend={part}: no job is named")
        found += [(plain, name) for name in names]
    return found


def text_of(depends: List[Tuple[str, str]]) -> str:
    """The list of these pairs, those of one type that follow each other together."""
    parts: List[List[str]] = []
    for kind, job in depends:
        if not parts or parts[-1][0] != kind:
            parts.append([kind])
        parts[-1].append(job)
    return ",".join(":".join(part) for part in parts)
