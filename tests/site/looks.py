"""Scenes of looks at sites by themselves, with what one reads off worked rows."""
import json
from xml.etree import ElementTree

from tests.playing import TOP
from tests.site.played import TWO


def job(identifier, **known):
    """The object of a job of ann's at argonne alone: what is known of it, where it isn't that of a plain submission."""
    plain = {
        "account": "", "begun": None, "deleted": False, "finished": None, "grant": None, "holds": [], "id": identifier, "letter": "Q", "limit": 3600,
        "name": "STDIN", "nodes": 1, "owner": "ann", "priority": 0, "sites": ["argonne"],
    }
    return {**plain, **known}


def line(value):
    """The line of a JSON value: compact, the members of each object in the order of their names."""
    return json.dumps(value, separators=(",", ":"), sort_keys=True) + "\n"


def plan(head, *starts):
    """The line of a plan."""
    return line({"head": head and dict(zip(("job", "second"), head)), "starts": starts})


RUNNING = job("1.argonne", begun={"end": 100, "moment": 0, "nodes": 6, "site": "argonne"}, grant={"site": "argonne", "term": 1}, letter="R", limit=100, nodes=6)
WINDOW = {"end": 60, "id": "1.argonne", "nodes": 8, "start": 50}
# Looks behind the worked rows of a busy machine, of a reservation and of extra nodes, with what one reads off them, and
# each reason why a job stands where it does.
LOOKS = [
    ("backfill", [
        ("why 1 0", "begun at argonne since 0 on 6 nodes until 100\n"),
        ("why 4 0", "head, at 100\n"),
        ("why 5 0", "waits behind 4.argonne, which starts at 100\n"),
        ("why 6 0", "starts\n"),
        ("why 7.argonne 99", "starts\n"),
        ("machine 0", "nodes 8, free 2\nrun 1.argonne 6 100\n"),
        ("reservations", ""),
        ("seen", "argonne 7 7\n"),
        ("plan 0", "start 6.argonne\nhead 4.argonne 100\n"),
        ("plan 0 but 4", "start 5.argonne\nhead 6.argonne 100\n"),
        ("plan 0 but 5.argonne 4 5", "start 6.argonne\nhead 7.argonne 100\n"),
        # one that runs, and one that isn't there
        ("plan 0 but 1 9", "start 6.argonne\nhead 4.argonne 100\n"),
        ("plan 0 but 7 6 5 4", ""),
        ("plan 99 but" + 1000 * " 4", "start 5.argonne\nhead 6.argonne 100\n"),
        ("plan-json 0", plan(("4.argonne", 100), job("6.argonne", nodes=2, limit=100))),
        ("plan-json 0 but 5.argonne 4 5", plan(("7.argonne", 100), job("6.argonne", nodes=2, limit=100))),
        ("plan-json 0 but 7 6 5 4", plan(None)),
        ("plan-json 0 but 7 5 4 1 9", plan(None, job("6.argonne", nodes=2, limit=100))),
        ("plan-json 99 but" + 1000 * " 4", plan(("6.argonne", 100), job("5.argonne", nodes=2, limit=101))),
        ("machine-json 0", line({"nodes": 8, "free": 2, "running": [RUNNING], "reserved": []})),
        ("reservations-json", "[]\n"),
        ("seen-json", line([{"site": "argonne", "known": 7, "told": 7}])),
        ("roster", "argonne:8\n"),
    ]),
    ("reservation", [
        ("why 2 0", "starts\n"),
        ("why 3 0", "head, at 60\n"),
        ("machine 0", "nodes 8, free 8\nreserved 1.argonne 50 60 8\n"),
        ("machine 50", "nodes 8, free 0\nreserved 1.argonne 50 60 8\n"),
        ("machine 60", "nodes 8, free 8\n"),
        ("reservations", "1.argonne argonne 50 60 8\n"),
        ("seen", "argonne 3 3\n"),
        ("plan-json 0", plan(("3.argonne", 60), job("2.argonne", nodes=2, limit=50))),
        ("machine-json 0", line({"nodes": 8, "free": 8, "running": [], "reserved": [WINDOW]})),
        ("machine-json 59", line({"nodes": 8, "free": 0, "running": [], "reserved": [WINDOW]})),
        ("machine-json 60", line({"nodes": 8, "free": 8, "running": [], "reserved": []})),
        ("reservations-json", line([{**WINDOW, "site": "argonne"}])),
    ]),
    ("extra_nodes", [
        ("why 5 0", "starts\n"),
        ("why 6 0", "waits behind 4.argonne, which starts at 100\n"),
        ("why 7 0", "starts\n"),
        ("machine 0", "nodes 10, free 4\nrun 1.argonne 6 100\n"),
    ]),
]
REASONS = [
    ("why 1 0", "unknown\n"),
    ("ann qsub -h", "1.argonne\n"),
    ("oz/operator qhold -h o 1", "done\n"),
    ("why 1 0", "held uo\n"),
    ("ann qdel 1", "done\n"),
    ("why 1 0", "deleted\n"),
    ("ann qsub -l sites=lemont", "4.argonne\n"),
    ("why 4 0", "not for argonne\n"),
    ("grant 4 lemont", "granted\n"),
    ("why 4 0", "granted to lemont\n"),
    ("ann qsub -l nodes=9", "6.argonne\n"),
    ("why 6 0", "needs 9 of 8 nodes\n"),
    ("ann qsub", "7.argonne\n"),
    ("grant 7 argonne", "granted\n"),
    ("begin 7 0", "done\n"),
    ("why 7 0", "begun at argonne since 0 on 1 nodes until 3600\n"),
    ("finish 7 90 3", "done\n"),
    ("why 7 0", "finished 3\n"),
]
# of a job that is deleted while it runs
DELETED = [
    ("ann qsub", "13.argonne\n"),
    ("grant 13 argonne", "granted\n"),
    ("begin 13 50", "done\n"),
    ("ann qdel 13", "done\n"),
    ("why 13 60", "begun at argonne since 50 on 1 nodes until 3650, deleted\n"),
    ("finish 13 70 143", "done\n"),
    ("why 13 80", "deleted\n"),
]
# what the machine of 10 nodes has from the moment 0 on
CHART = [
    ("head", "4.argonne: head, nodes 7, from 100 to 3700", "4.argonne"),
    ("running", "1.argonne: running, nodes 6, from 0 to 100", "1.argonne"),
    ("start", "5.argonne: start, nodes 3, from 0 to 1000", "5.argonne"),
    ("start", "7.argonne: start, nodes 1, from 0 to 100", "7.argonne"),
]
# 3700 seconds are 900 pixels, and 10 nodes are 400: job 5 ends last and lies at the bottom, and the head lies above it
DRAWN = [
    "<text x='60' y='24' font-size='16'>argonne: nodes 10, from second 0 on</text>",
    "<text x='285' y='462' class='middle'>925</text>",
    "<text x='960' y='462' class='middle'>3700</text>",
    "5.argonne: start, nodes 3, from 0 to 1000</title><rect x='60' y='320' width='243' height='120'/>",
    "7.argonne: start, nodes 1, from 0 to 100</title><rect x='60' y='280' width='24' height='40'/>",
    "1.argonne: running, nodes 6, from 0 to 100</title><rect x='60' y='40' width='24' height='240'/>",
    "<text x='72' y='160' font-size='14' transform='rotate(-90 72 160)'>1.argonne</text>",
    "4.argonne: head, nodes 7, from 100 to 3700</title><rect x='84' y='40' width='876' height='280'/>",
    "<text x='522' y='180' font-size='14' transform='rotate(0 522 180)'>4.argonne</text>",
    "<line x1='60' y1='40' x2='960' y2='40' class='nodes'/><text x='54' y='40' class='end'>10</text>",
]
# charts of the moments before a reservation, during it and behind it, and of reservations of more than the machine has
RESERVED_CHARTS = [
    ("reservation", 0, ["2.argonne: start, nodes 2, from 0 to 50", "3.argonne: head, nodes 2, from 60 to 111", "1.argonne: reservation, nodes 8, from 50 to 60"]),
    ("reservation", 55, ["2.argonne: head, nodes 2, from 60 to 110", "1.argonne: reservation, nodes 8, from 55 to 60"]),
    ("reservation", 60, ["3.argonne: start, nodes 2, from 60 to 111", "2.argonne: start, nodes 2, from 60 to 110"]),
    ("reserved", 40, ["1.argonne: reservation, nodes 8, from 50 to 60", "2.argonne: reservation, nodes 8, from 55 to 70", "3.argonne: reservation, nodes 8, from 60 to 70"]),
]


def lines_before_a_plan(name):
    """The lines of an example up to its first plan, without those of its roster, and the roster."""
    with open(f"{TOP}/examples/{name}.script") as script:
        lines = [line.split() for line in script if not line.startswith("#")]
    ends = [line[1] for line in lines].index("plan")
    return lines[0][1:], [line[1:] for line in lines[1:ends]]


def charts(tally, sites):
    """Where the boxes of charts lie."""
    drawn = sites.at("extra_nodes", ["chart", "0"])
    tally.same("what is drawn", [part for part in DRAWN if part not in drawn], [])
    sites.run("init", "reserved", "argonne", "argonne:8")
    for start, end in ((50, 60), (55, 70), (60, 70)):
        sites.at("reserved", f"oz/operator reserve argonne {start} {end} 8".split())
    for name, moment, titles in RESERVED_CHARTS:
        drawn = sites.at(name, ["chart", str(moment)])
        found = [box.findtext("{*}title") for box in ElementTree.fromstring(drawn).iter() if box.findtext("{*}title")]
        tally.same(f"{name}: the boxes at {moment}", found, titles)
    # 24 nodes are 400 pixels, of which those of the machine are a third
    tally.true("the nodes of the machine", "<line x1='60' y1='307' x2='960' y2='307' class='nodes'/>" in drawn)


def looks(tally, sites):
    """Looks: they are answered, and leave the journal as it was."""
    for name, looks in LOOKS:
        roster, lines = lines_before_a_plan(name)
        sites.run("init", name, "argonne", *roster)
        for asked in lines:
            sites.at(name, asked)
        journal = sites.journal(name)
        for look, answer in looks:
            tally.same(f"{name}: {look}", sites.run("at", name, *look.split()), (0, answer, ""))
            tally.same(f"{name}, served: {look}", sites.serve(name, look.split()), answer)
            sites.close()
        tally.same(f"{name}: the journal behind looks", sites.journal(name), journal)
    chart = ElementTree.fromstring(sites.at("extra_nodes", ["chart", "0"]))
    boxes = [(box.get("class"), box.findtext("{*}title"), box.findtext("{*}text")) for box in chart.iter() if box.findtext("{*}title")]
    tally.same("the boxes of a chart", sorted(boxes), CHART)
    charts(tally, sites)
    sites.at("reservation", ["oz/operator", "cancel", "1"])
    cancelled = ("reservations", "reservations-json", "why 3 0")
    tally.same("behind a cancel", [sites.at("reservation", look.split()) for look in cancelled], ["", "[]\n", "starts\n"])
    named = sites.at("backfill", ["jobs", "1", "9"])
    tally.same("a job as an object", named, line(RUNNING))
    jobs = [json.loads(told) for told in sites.at("backfill", ["jobs"]).splitlines()]
    tally.same("all jobs", [(found["id"], found["letter"], found["nodes"], found["limit"]) for found in jobs], [
        ("1.argonne", "R", 6, 100), ("4.argonne", "Q", 7, 3600), ("5.argonne", "Q", 2, 101), ("6.argonne", "Q", 2, 100),
        ("7.argonne", "Q", 1, 1000000),
    ])
    for asked in ("why 1", "why 1 x", "machine", "machine 1000000000001", "reservations 1", "seen 1", "machine-json", "machine-json 1000000000001",
                  "plan-json", "plan-json x", "plan-json 0 4", "plan-json 0 but", "plan-json 0 but x", "plan-json 0 but" + 1001 * " 4",
                  "seen-json 1", "roster argonne", "machine-jsons 1"):
        tally.same(f"no look: {asked[:20]}", sites.run("at", "backfill", *asked.split())[:2], (1, "usage 1\n"))
    # no user has a name of so many letters as the last of these, nor of a word of the scheduler
    for asked in ("plan 0 but", "plan 0 but x", "plan 0 but 4.lemont", "plan 0 but 4 but", "plan but 4", "plan 0 4", "plan 0 but" + 1001 * " 4", "reservations-json 1"):
        tally.same(f"no plan is asked: {asked[:20]}", sites.run("at", "backfill", *asked.split())[:2], (1, "cannot be read\n"))
    sites.make(TWO)
    for asked, answer in REASONS:
        tally.same(asked, sites.run("at", "argonne", *asked.split()), (0, answer, ""))
    gone = [json.loads(told) for told in sites.at("argonne", ["jobs"]).splitlines()]
    tally.same("jobs that are gone", [(found["id"], found["letter"], found["deleted"], found["finished"]) for found in gone], [
        ("1.argonne", None, True, None), ("4.argonne", "T", False, None), ("6.argonne", "Q", False, None),
        ("7.argonne", None, False, {"moment": 90, "status": 3}),
    ])
    tally.same("a user of that name", sites.run("at", "argonne", "why", "qsub"), (0, "11.argonne\n", ""))
    sites.at("lemont", ["take"], sites.at("argonne", ["ship", "lemont"]).encode())
    tally.same("seen at lemont", sites.at("lemont", ["seen"]), "argonne 11 0\nlemont 0 0\n")
    sites.at("lemont", ["bob", "qsub"])
    sites.at("argonne", ["take"], sites.at("lemont", ["ship", "argonne"]).encode())
    tally.same("seen at argonne", sites.at("argonne", ["seen"]), "argonne 11 11\nlemont 12 11\n")
    tally.same("the same as JSON", sites.at("argonne", ["seen-json"]), line([
        {"site": "argonne", "known": 11, "told": 11}, {"site": "lemont", "known": 12, "told": 11},
    ]))
    tally.same("the roster of two", sites.at("argonne", ["roster"]), "argonne:8 lemont:4\n")
    for asked, answer in DELETED:
        tally.same(asked, sites.run("at", "argonne", *asked.split()), (0, answer, ""))


SCENES = {"looks": looks}
