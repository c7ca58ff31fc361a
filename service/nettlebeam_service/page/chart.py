"""The chart of a site's machine: its nodes upward, the time from now on to the right, and a bar for each job and reservation."""
from __future__ import annotations

import time
from html import escape
from typing import Any, Dict, List, NamedTuple, Sequence, Tuple

from ..site.looks import Machine, Plan

LEFT, TOP, WIDTH, HEIGHT, BELOW = 60, 34, 900, 400, 24
TICKS = 5
DAY = 86_400
LAST_SECOND = 2**33  # a clock's; later moments are shown as numbers
LETTER_WIDTH, LETTER_HEIGHT = 8, 14  # of a name in a bar
COLOURS = {"runs": "#9ecae1", "starts": "#a1d99b", "is next": "#fdae6b", "is reserved": "#cbb4e2"}


class Bar(NamedTuple):
    """Nodes that something has from a second on, to before another."""

    name: str
    kind: str
    nodes: int
    start: int
    end: int


Span = Tuple[int, int, int]  # the first node, the one behind the last, and the second from which on they are free


def bars_of(machine: Machine, plan: Plan, jobs: Dict[str, Dict[str, Any]], moment: int) -> List[Bar]:
    """What has nodes now or will have some, as far as is known, in the order of its beginning."""
    bars = [Bar(it["id"], "runs", it["begun"]["nodes"], moment, max(it["begun"]["end"], moment + 1)) for it in machine.running]
    bars += [Bar(it["id"], "starts", it["nodes"], moment, moment + it["limit"]) for it in plan.starts]
    head = jobs.get(plan.head or "")
    bars += [Bar(head["id"], "is next", head["nodes"], plan.second, plan.second + head["limit"])] if head else []
    bars += [Bar(it["id"], "is reserved", it["nodes"], max(it["start"], moment), it["end"]) for it in machine.reserved]
    return sorted(bars, key=lambda bar: bar.start)


def places(bars: Sequence[Bar], nodes: int) -> List[Tuple[Bar, List[Tuple[int, int]]]]:
    """The lowest nodes that are free for each bar, as ranges. A reservation may find too few, since it is made over whatever is
    there."""
    free: List[Span] = [(0, nodes, 0)]
    found = []
    for bar in bars:
        left, taken, rest = bar.nodes, [], []  # type: int, List[Tuple[int, int]], List[Span]
        for first, behind, since in free:
            middle = first + (min(left, behind - first) if since <= bar.start else 0)
            left -= middle - first
            if middle > first:
                if taken and taken[-1][1] == first:
                    taken[-1] = (taken[-1][0], middle)
                else:
                    taken.append((first, middle))
                rest.append((first, middle, bar.end))
            rest += [(middle, behind, since)] if middle < behind else []
        free = rest
        found.append((bar, taken))
    return found


def shown_at(second: int, is_dated: bool) -> str:
    """A second as a time of the day, with the date where the chart tells of more than a day."""
    form = "%m-%d %H:%M" if is_dated else "%H:%M"
    return time.strftime(form, time.localtime(second)) if second < LAST_SECOND else str(second)


def box(bar: Bar, left: float, top: float, width: float, height: float) -> str:
    """A rectangle of a bar, with its name where there is room for it, upright where it is narrow."""
    text, x, y = "", left + width / 2, top + height / 2
    long = LETTER_WIDTH * len(bar.name)
    if width >= long and height >= LETTER_HEIGHT:
        text = f'<text x="{x:.0f}" y="{y:.0f}" class="name">{escape(bar.name)}</text>'
    elif height >= long and width >= LETTER_HEIGHT:
        text = f'<text x="{x:.0f}" y="{y:.0f}" class="name" transform="rotate(-90 {x:.0f} {y:.0f})">{escape(bar.name)}</text>'
    return (
        f'<rect x="{left:.1f}" y="{top:.1f}" width="{max(width, 1):.1f}" height="{max(height, 0.5):.1f}" fill="{COLOURS[bar.kind]}"'
        f' stroke="#444"/>{text}'
    )


def chart(bars: Sequence[Bar], nodes: int, moment: int) -> str:
    """The picture of these bars, as wide as its place."""
    end = max([moment + 3600, *(bar.end for bar in bars)])
    is_dated = end - moment >= DAY

    def across(second: float) -> float:
        return LEFT + WIDTH * (second - moment) / (end - moment)

    def down(node: int) -> float:
        return TOP + HEIGHT * (nodes - node) / nodes

    parts = []
    for place, (kind, colour) in enumerate(COLOURS.items()):
        x = LEFT + 110 * place
        parts.append(f'<rect x="{x}" y="8" width="14" height="14" fill="{colour}"/><text x="{x + 20}" y="20">{kind}</text>')
    for tick in range(TICKS):
        second = moment + (end - moment) * tick // (TICKS - 1)
        x = across(second)
        parts.append(f'<line x1="{x:.1f}" y1="{TOP}" x2="{x:.1f}" y2="{TOP + HEIGHT + 6}" stroke="#ccc"/>')
        parts.append(f'<text x="{x:.1f}" y="{TOP + HEIGHT + 20}" class="middle">{shown_at(second, is_dated)}</text>')
    for bar, ranges in places(bars, nodes):
        told = f"{bar.name} {bar.kind}: {bar.nodes} nodes, from {shown_at(bar.start, is_dated)} to {shown_at(bar.end, is_dated)}"
        boxes = [box(bar, across(bar.start), down(top), across(bar.end) - across(bar.start), down(low) - down(top)) for low, top in ranges]
        parts.append(f"<g><title>{escape(told)}</title>{''.join(boxes)}</g>")
    parts.append(f'<text x="{LEFT - 8}" y="{TOP + 10}" class="end">{nodes}</text><text x="{LEFT - 8}" y="{TOP + HEIGHT}" class="end">0</text>')
    size = f"0 0 {LEFT + WIDTH + 40} {TOP + HEIGHT + BELOW}"
    return (
        f'<svg xmlns="http://www.w3.org/2000/svg" viewBox="{size}" role="img" aria-label="{nodes} nodes from now on" font-size="13">\n'
        "<style>.middle, .name { text-anchor: middle } .end { text-anchor: end } .name { dominant-baseline: central }</style>\n"
        + "\n".join(parts)
        + "\n</svg>\n"
    )
