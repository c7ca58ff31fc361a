"""The texts of the page: well-formed, readable without a style, without a script, and by those who can't see it."""
from __future__ import annotations

import time
from html import escape
from types import MappingProxyType
from typing import Any, Collection, Dict, Iterable, List, Mapping, NamedTuple, Sequence, Tuple

from ..nodes.nodes import HostState
from ..peers.peers import Peer
from ..site.looks import Machine, Plan, Reservation
from .chart import bars_of, chart

STYLE = """\
:root { color-scheme: light dark; --line: #8884; --soft: #8882; --accent: #2a6fb0; }
@media (prefers-color-scheme: dark) { :root { --accent: #7db8ee; } }
* { box-sizing: border-box; }
body { font: 16px/1.5 system-ui, sans-serif; margin: 0 auto; max-width: 76rem; padding: 1rem; }
h1 { font-size: 1.6rem; margin: .2rem 0; } h2 { font-size: 1.2rem; margin: 1.8rem 0 .4rem; }
a { color: var(--accent); } nav { margin: .5rem 0; } nav a, nav span { margin-right: 1rem; }
.facts { display: flex; flex-wrap: wrap; gap: .6rem; margin: .8rem 0; padding: 0; list-style: none; }
.facts li { background: var(--soft); border-radius: .5rem; padding: .4rem .8rem; }
.facts b { display: block; font-size: 1.3rem; line-height: 1.2; }
.wide { overflow-x: auto; border: 1px solid var(--line); border-radius: .5rem; }
.wide:focus-visible { outline: 2px solid var(--accent); }
table { border-collapse: collapse; width: 100%; font-variant-numeric: tabular-nums; }
caption { text-align: left; padding: .5rem .7rem; opacity: .8; }
th, td { text-align: left; padding: .35rem .7rem; border-top: 1px solid var(--line); white-space: nowrap; }
td.why { white-space: normal; min-width: 12rem; } .number { text-align: right; }
figure { margin: 0; background: #fff; color: #000; border: 1px solid var(--line); border-radius: .5rem; }
figure { padding: .5rem; overflow-x: auto; }
figure svg { display: block; width: 100%; min-width: 40rem; height: auto; } .bad { color: #c0392b; }
dl { display: grid; grid-template-columns: max-content 1fr; gap: .2rem 1rem; }
dt { opacity: .75; } dd { margin: 0; overflow-wrap: anywhere; }
@media (max-width: 48rem) {
  table, caption, tbody, tr, th, td { display: block; }
  thead { position: absolute; clip-path: inset(50%); }
  tr { border-top: 1px solid var(--line); padding: .5rem .7rem; }
  tr th, tr td, td.number { border: 0; padding: 0; text-align: left; white-space: normal; }
  td { display: grid; grid-template-columns: 6rem 1fr; }
  td::before { content: attr(data-head); opacity: .75; }
  dl { grid-template-columns: 1fr; } dd { margin-bottom: .4rem; }
}
"""
LETTERS = {"Q": "waits", "H": "held", "T": "granted", "R": "runs", "E": "is ended", None: "gone"}


class View(NamedTuple):
    """What the looks tell of a site."""

    name: str
    moment: int
    notices: Sequence[str]
    machine: Machine
    plan: Plan
    reservations: Sequence[Reservation]
    jobs: Mapping[str, Dict[str, Any]]  # that aren't gone
    waits: Mapping[str, str]  # what the service has jobs wait for
    places: Tuple[int, int]  # jobs of this site, also those that are gone and not retired, and how many there may be
    hosts: Sequence[HostState] = ()
    unheard: Mapping[str, str] = MappingProxyType({})  # of jobs that were held here what other sites haven't heard


def document(title: str, body: str) -> str:
    """A whole page."""
    return (
        '<!DOCTYPE html>\n<html lang="en" xmlns="http://www.w3.org/1999/xhtml">\n<head>\n<meta charset="utf-8"/>\n'
        '<meta name="viewport" content="width=device-width, initial-scale=1"/>\n'
        f"<title>{escape(title)}</title>\n<style>\n{STYLE}</style>\n</head>\n<body>\n<main>\n{body}</main>\n</body>\n</html>\n"
    )


def paragraph(text: str) -> str:
    """A paragraph of plain text."""
    return f"<h1>Nettlebeam</h1>\n<p>{escape(text)}</p>\n"


def at(moment: float) -> str:
    """A second, as people write it."""
    if not 0 <= moment < 2**33:
        return f"second {int(moment)}"
    return time.strftime("%Y-%m-%d %H:%M:%S", time.localtime(moment))


def long(seconds: int) -> str:
    """A span of time."""
    hours, rest = divmod(seconds, 3600)
    return f"{hours}:{rest // 60:02}:{rest % 60:02}"


def link(name: str) -> str:
    """A job's name, that leads to its page."""
    return f'<a href="/jobs/{escape(name)}">{escape(name)}</a>'


def table(caption: str, heads: Sequence[str], rows: Iterable[Sequence[str]], numbers: Sequence[int] = ()) -> str:
    """A table, whose cells are HTML. The first cell of a row names it."""
    kinds = ["number" if place in numbers else "why" if place == len(heads) - 1 else "" for place in range(len(heads))]
    marks = [f' class="{kind}"' if kind else "" for kind in kinds]
    # the roles are told, since a narrow page shows each row as a block
    top = "".join(f'<th scope="col" role="columnheader"{mark}>{escape(head)}</th>' for head, mark in zip(heads, marks))
    lines = []
    for row in rows:
        cells = "".join(
            f'<td{mark} role="cell" data-head="{escape(head)}"><span>{cell}</span></td>'
            for cell, mark, head in zip(row[1:], marks[1:], heads[1:])
        )
        lines.append(f'<tr role="row"><th scope="row" role="rowheader">{row[0]}</th>{cells}</tr>\n')
    title = escape(caption)
    return (
        f'<div class="wide" role="region" tabindex="0" aria-label="{title}">\n<table role="table">\n<caption>{title}</caption>\n'
        f'<thead role="rowgroup"><tr role="row">{top}</tr></thead>\n<tbody role="rowgroup">\n'
        f"{''.join(lines)}</tbody>\n</table>\n</div>\n"
    )


def granted(told: Dict[str, Any]) -> str:
    """The site that a job is granted to, or nothing. A grant that was handed back names none."""
    return str((told["grant"] or {}).get("site") or "")


def reason(view: View, job: Dict[str, Any], starts: Collection[str]) -> str:
    """Why a job stands where it does, as `why` tells it, from one plan for all jobs."""
    nodes, head, begun = view.machine.nodes, view.plan.head, job["begun"]
    if begun:
        return f"since {at(begun['moment'])}, until {at(begun['end'])} at most" + (", deleted" if job["deleted"] else "")
    if job["id"] in view.waits and "s" in job["holds"]:
        return view.waits[job["id"]]
    if job["holds"]:
        return "held: " + ", ".join({"u": "user", "o": "operator", "s": "system"}[kind] for kind in job["holds"])
    if granted(job) not in ("", view.name):
        return f"granted to {granted(job)}"
    if view.name not in job["sites"]:
        return f"not for {view.name}"
    if job["nodes"] > nodes:
        return f"needs {job['nodes']} of {nodes} nodes"
    if job["id"] in starts:
        return view.waits.get(job["id"], "starts")
    if job["id"] == head:
        return f"the next that starts, at {at(view.plan.second)} at the latest"
    return f"waits behind {head}" if head else "waits"


def job_row(view: View, job: Dict[str, Any], starts: Collection[str]) -> List[str]:
    """A job's row."""
    site = job["begun"]["site"] if job["begun"] else granted(job) or "-"
    state = f'<abbr title="{LETTERS[job["letter"]]}">{job["letter"]}</abbr> {LETTERS[job["letter"]]}'
    values = (job["name"], job["owner"])
    numbers = (str(job["priority"]), str(job["nodes"]), long(job["limit"]))
    why = [reason(view, job, starts), *filter(None, [view.unheard.get(job["id"])])]
    return [link(job["id"]), *(escape(value) for value in values), state, *numbers, escape(site), escape("; ".join(why))]


def pages(start: int, count: int, each: int) -> str:
    """The links to the other parts of a long queue."""
    if count <= each:
        return ""
    links = []
    if start > 1:
        links.append(f'<a href="/?from={max(1, start - each)}" rel="prev">Earlier jobs</a>')
    links.append(f"<span>{start} to {min(start + each - 1, count)} of {count}</span>")
    if start + each <= count:
        links.append(f'<a href="/?from={start + each}" rel="next">Later jobs</a>')
    return f'<nav aria-label="Parts of the queue">{"".join(links)}</nav>\n'


def peer_row(peer: Peer) -> List[str]:
    """A peer's row."""
    times = [at(moment) if moment else "never" for moment in (peer.last_given, peer.last_taken)]
    told = [escape(text) for text in (peer.trouble, peer.link.refused) if text]
    state = "<br/>".join(f'<span class="bad">{text}</span>' for text in told) or "reached"
    return [escape(peer.name), *times, state]


def node_row(host: HostState) -> List[str]:
    """A node's row."""
    names = ", ".join(map(link, host.jobs)) or "-"
    return [escape(host.name), names, escape(host.state) if host.is_up else f'<span class="bad">{escape(host.state)}</span>']


def hosts_table(hosts: Sequence[HostState]) -> str:
    """The nodes on which jobs run; nothing where they are names alone."""
    if not hosts:
        return ""
    return "<h2>Nodes</h2>\n" + table("Nodes, and the jobs on them", ("Node", "Jobs", "State"), map(node_row, hosts))


def machine_part(view: View) -> str:
    """The chart of the machine, and the same as a table."""
    bars = bars_of(view.machine, view.plan, view.jobs, view.moment)
    rows = [[escape(it.name), it.kind, str(it.nodes), at(it.start), at(it.end)] for it in bars]
    return (
        '<h2 id="machine">The machine</h2>\n<figure tabindex="0" aria-label="The machine from now on, as a chart">'
        f"{chart(bars, view.machine.nodes, view.moment)}</figure>\n"
        f"<details><summary>The chart as a table</summary>\n"
        f"{table('What has nodes, from now on', ('Job or reservation', 'What', 'Nodes', 'From', 'To'), rows, (2,))}</details>\n"
    )


def queue(view: View, jobs: Sequence[Dict[str, Any]], start: int, count: int, each: int, peers: Sequence[Peer]) -> str:
    """The page of the site."""
    starts = {job["id"] for job in view.plan.starts}
    facts = (("nodes", view.machine.nodes), ("free", view.machine.free), ("jobs that run here", len(view.machine.running)), ("jobs in the queue", count), (f"of {view.places[1]} jobs that the site may keep", view.places[0]))
    top = "".join(f"<li><b>{value}</b>{name}</li>" for name, value in facts)
    heads = ("Job", "Name", "Owner", "State", "Priority", "Nodes", "Limit", "Site", "Why")
    rows = [job_row(view, job, starts) for job in jobs]
    reserved = [[escape(it["id"]), escape(it["site"]), at(it["start"]), at(it["end"]), str(it["nodes"])] for it in view.reservations]
    parts = [
        f"<h1>{escape(view.name)}</h1>\n<p>At {at(view.moment)}. Read this page anew to see what is so now.</p>\n",
        *(f'<p class="bad" role="alert">{escape(notice)}</p>\n' for notice in view.notices),
        f'<ul class="facts">{top}</ul>\n',
        '<nav aria-label="Parts of this page"><a href="#machine">The machine</a><a href="#reservations">Reservations</a>'
        '<a href="#sites">Other sites</a></nav>\n',
        "<h2>The queue</h2>\n" + pages(start, count, each),
        table("Jobs that wait or run, of all sites", heads, rows, (4, 5, 6)) if rows else "<p>No job waits or runs.</p>\n",
        machine_part(view),
        '<h2 id="reservations">Reservations</h2>\n',
        table("Reservations that stand", ("Reservation", "Site", "From", "To", "Nodes"), reserved)
        if reserved else "<p>There is none.</p>\n",
        '<h2 id="sites">Other sites</h2>\n',
        table("Packets to and from other sites", ("Site", "Last given", "Last taken", "State"), map(peer_row, peers))
        if peers else "<p>There is none.</p>\n",
        hosts_table(view.hosts),
        '<p><a href="/jobs.json">All jobs as JSON</a>, also those that are gone.</p>\n',
    ]
    return "".join(parts)


def job(told: Dict[str, Any], why: str) -> str:
    """The page of a job."""
    begun, finished = told["begun"], told["finished"]
    facts = {
        "Why it stands where it does": why,
        "State": LETTERS[told["letter"]],
        "Name": told["name"],
        "Owner": told["owner"],
        "Account": told["account"] or "-",
        "Priority": told["priority"],
        "Nodes": told["nodes"],
        "Time limit": long(told["limit"]),
        "Sites": ", ".join(told["sites"]) or "-",
        "Holds": ", ".join(told["holds"]) or "-",
        "Granted to": granted(told) or "-",
        "Begun": f"{at(begun['moment'])} at {begun['site']} on {begun['nodes']} nodes" if begun else "-",
        "Ends at the latest": at(begun["end"]) if begun else "-",
        "Finished": f"{at(finished['moment'])} with status {finished['status']}" if finished else "-",
        "Deleted": "yes" if told["deleted"] else "no",
    }
    rows = "".join(f"<dt>{name}</dt><dd>{escape(str(value))}</dd>\n" for name, value in facts.items())
    return f'<nav><a href="/">The queue</a></nav>\n<h1>Job {escape(told["id"])}</h1>\n<dl>\n{rows}</dl>\n'
