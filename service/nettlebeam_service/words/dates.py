"""Dates as the utilities take them: `[[CC]YY]MMDDhhmm[.SS]`, as those of `touch -t`, and `hhmm`, `DDhhmm` and `MMDDhhmm` for the
next such moment."""
from __future__ import annotations

import time

from .options import Fault

TYPE_CHECKING = False
if TYPE_CHECKING:
    from typing import List

LENGTHS = (4, 6, 8, 10, 12)
NEXT = {2: (0, 0, 1), 3: (0, 1, 0), 4: (1, 0, 0)}  # the years, months and days to the next, by how many numbers are given


def moment_of(text: str, now: float) -> int:
    """The second that a date means, in the time zone of this process. What isn't said is as now; where no year is
    given and the moment is past, the next is meant: of the next day, month or year."""
    digits, dot, seconds = text.partition(".")
    if not (digits.isascii() and digits.isdigit()) or len(digits) not in LENGTHS or (dot and not is_second(seconds)):
        raise Fault(f"-a {text}: no moment, which is [[CC]YY]MMDDhhmm[.SS]")
    here = time.localtime(now)
    parts = [int(digits[place : place + 2]) for place in range(0, len(digits), 2)]
    hour, minute = parts[-2:]
    day = parts[-3] if len(parts) >= 3 else here.tm_mday
    month = parts[-4] if len(parts) >= 4 else here.tm_mon
    year = year_of(parts[:-4]) if len(parts) >= 5 else here.tm_year
    second = int(seconds) if dot else 0
    found = second_of(text, year, month, day, hour, minute, second)
    if found <= now and len(parts) in NEXT:
        years, months, days = NEXT[len(parts)]
        found = second_of(text, year + years, month + months, day + days, hour, minute, second, is_sum=True)
    return found


def is_second(text: str) -> bool:
    """Whether a text is the seconds of a moment."""
    return len(text) == 2 and text.isascii() and text.isdigit() and int(text) <= 61


def year_of(parts: List[int]) -> int:
    """The year of two or four digits."""
    if len(parts) == 2:
        return 100 * parts[0] + parts[1]
    return parts[0] + (1900 if parts[0] >= 69 else 2000)


def second_of(text: str, year: int, month: int, day: int, hour: int, minute: int, second: int, is_sum: bool = False) -> int:
    """The second of a date. Fault where there is no such date, unless a day or a month was added."""
    try:
        found = time.mktime((year, month, day, hour, minute, second, 0, 0, -1))
    except (OverflowError, ValueError):
        raise Fault(f"-a {text}: there is no such moment") from None
    there = time.localtime(found)
    if not is_sum and (there.tm_mon, there.tm_mday, there.tm_min) != (month, day, minute):
        raise Fault(f"-a {text}: there is no such moment")
    return int(found)
