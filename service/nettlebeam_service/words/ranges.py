"""The members of an array: `1-10`, `1-99:2`, `1-100%5`, and Torque's `1,3,7-9`."""
from __future__ import annotations

from .options import Fault

TYPE_CHECKING = False
if TYPE_CHECKING:
    from typing import List, Tuple

MOST_MEMBERS = 10_000  # as many jobs of a site aren't retired
GREATEST_INDEX = 999_999


def number_of(text: str, whole: str) -> int:
    """A number of a range."""
    if not (text.isascii() and text.isdigit()) or len(text) > 9 or int(text) > GREATEST_INDEX:
        raise Fault(f"{whole}: no range of an array, which is X-Y:STEP%MOST")
    return int(text)


def read_range(text: str) -> Tuple[List[int], int]:
    """The indices of an array's members, ascending, and how many of them may be out at a time, 0 for all."""
    span, percent, most = text.partition("%")
    indices: List[int] = []
    for part in span.split(","):
        ends, colon, step = part.partition(":")
        first, dash, last = ends.partition("-")
        start = number_of(first, text)
        end = number_of(last, text) if dash else start
        stride = number_of(step, text) if colon else 1
        if not stride or end < start:
            raise Fault(f"{text}: no member is in this range")
        if (end - start) // stride >= MOST_MEMBERS:
            raise Fault(f"{text}: an array has at most {MOST_MEMBERS} members")
        indices += range(start, end + 1, stride)
        if len(indices) > MOST_MEMBERS:
            raise Fault(f"{text}: an array has at most {MOST_MEMBERS} members")
    limit = number_of(most, text) if percent else 0
    if percent and not limit:
        raise Fault(f"{text}: not even one at a time")
    return sorted(set(indices)), limit


def range_text(indices: List[int], most: int) -> str:
    """The shortest usual text of a range."""
    steps = {later - before for before, later in zip(indices, indices[1:])}
    span = ",".join(map(str, indices))
    if len(steps) == 1:
        step = steps.pop()
        span = f"{indices[0]}-{indices[-1]}" + (f":{step}" if step > 1 else "")
    return span + (f"%{most}" if most else "")
