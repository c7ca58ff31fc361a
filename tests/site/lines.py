"""Scenes of lines that a site by itself is asked, each with its answer and with whether it is kept."""
from __future__ import annotations

import random
from typing import Any, Sequence, Tuple

from tests.model import plain_model
from tests.model.plain_words import Roster
from tests.model.random_lines import RandomLines
from tests.site.played import TWO

Row = Tuple[str, str, bool]
WHOLE = '{"format":2,"jobs":[],"need":%s,"reached":%s,"reservations":[],"sender":%d}'


def counters(**of_sites: int) -> str:
    """The counters of sixteen sites, of which these are named by `sN` and the others are 0."""
    return "[" + ",".join(str(of_sites.get(f"s{number}", 0)) for number in range(16)) + "]"


def packet(need: str, reached: str, sender: int) -> str:
    """A line that takes a packet which tells of no job."""
    return "take " + WHOLE % (need, reached, sender)


COMMANDS: list[Row] = [
    ("ann qsub", "1.argonne\n", True),
    ("ann qalter -p 5 9", "refused 1\n", False),
    ("ann qsub -h", "2.argonne\n", True),
    ("ann qrls 2", "done\n", True),
    ("ann qrls 2", "done\n", False),
    ("grant 1 lemont", "granted\n", True),
    ("grant 1 lemont", "yours\n", False),
    ("ann qdel 7 2 1", "refused 1\ndone\ndone\n", True),
    ("oz/operator reserve lemont 50 60 8", "7.argonne\n", True),
    ("plan 0", "", False),
    ("take 1", "unread 3 whole 0\n", False),
    ("take", "cannot be read\n", False),
    ("", "", False),
    ("# a comment", "", False),
    ("roster a 1", "usage 1\n", False),
    ("equal argonne lemont", "usage 1\n", False),
]
NO_LOOKS: list[Row] = [
    ("why qsub", "1.argonne\n", True),
    ("jobs qsub", "2.argonne\n", True),
    ("jobs qdel 1", "refused 2\n", False),
    ("why 1", "usage 1\n", False),
    ("why 1 x", "usage 1\n", False),
    ("why/operator 1 0", "usage 1\n", False),
    ("machine", "usage 1\n", False),
    ("machine 1000000000001", "usage 1\n", False),
    ("chart 1000000000001", "usage 1\n", False),
    ("reservations 1", "usage 1\n", False),
    ("seen 1", "usage 1\n", False),
    ("seent", "usage 1\n", False),
    ("seen-json 1", "usage 1\n", False),
    ("machine-json", "usage 1\n", False),
    ("plan-json", "usage 1\n", False),
    ("plan-json 0 but", "usage 1\n", False),
    # a user's name has 15 letters at most
    ("reservations-json 1", "cannot be read\n", False),
    ("roster 1", "usage 1\n", False),
    ("# why 1 0", "", False),
    ("take seen", "unread 1\n", False),
    (" \tseen ", "argonne 2 2\nlemont 0 0\n", False),
]
STRANGERS: list[Row] = [
    # of a third site, of operations of argonne, of operations of lemont alone, and of the greatest counter
    (packet(counters(), counters(s2=5), 1), "foreign\n", False),
    (packet(counters(s1=3), counters(s0=2, s1=3), 1), "forgotten\n", False),
    (packet(counters(s1=3), counters(s1=3), 1), "gap lemont\n", False),
    (packet(counters(), counters(), 16), "unread 4 sender 0\n", False),
    (packet(counters(), counters(s1=1_000_000_000), 1), "taken\n", True),
    ("ann qsub", "refused 15\n", False),
]
LAST_COUNTER: list[Row] = [
    (packet(counters(), counters(s1=999_999_999), 1), "taken\n", True),
    ("ann qsub", "1000000000.argonne\n", True),
    ("ann qsub", "refused 15\n", False),
]
ROSTERS: list[Row] = [
    ("plan 0", "", False),
    ("ann qsub -l nodes=9", "1.argonne\n", True),
    ("grant 1 argonne", "granted\n", True),
    ("plan 0", "", False),
    ("roster argonne:9 lemont:2 batavia:1", "done\n", True),
    ("roster argonne:9 lemont:2 batavia:1", "done\n", False),
    ("  roster argonne:9 lemont:2\tbatavia:1 ", "done\n", False),
    ("plan 0", "start 1.argonne\n", False),
    ("seen", "argonne 2 2\nlemont 0 0\nbatavia 0 0\n", False),
    ("roster", "argonne:9 lemont:2 batavia:1\n", False),
    (" roster\t", "argonne:9 lemont:2 batavia:1\n", False),
    ("roster argonne:9 lemont:2", "other roster\n", False),
    ("roster argonne:8 lemont:2 batavia:1", "done\n", True),
    ("plan 0", "", False),
]
OTHER_ROSTERS: list[Row] = [
    (f"roster {words}", "other roster\n", False)
    for words in (
        *("batavia:2 argonne:8 lemont:4", "argonne:8", "argonne:8 sparks:4", "lemont:4 argonne:8", "argonne:8 lemont:4 lemont:4"),
        *("argonne:8 lemont:4 equal:1", "argonne:8 lemont:0", "argonne:8 lemont:1000001", "argonne:8 lemont"),
        "argonne:8 lemont:4 " + " ".join(f"{name}:1" for name in "abcdefghijklmno"),
    )
]
BEHIND_OTHERS: list[Row] = [
    ("seen", "argonne 0 0\nlemont 0 0\n", False),
    # a user of this name asks what others do
    ("roster qsub", "1.argonne\n", True),
    ("roster", "argonne:8 lemont:4\n", False),
]
WORDS = {
    "utility": "qsub qalter qhold qrls qdel qstat",
    "look": "why machine reservations jobs seen chart plan plan-json machine-json roster seen-json reservations-json",
    "site": "grant begin finish handback decline retire ship take plan roster",
    "user": "reserve cancel",
}
OVERLAPPING = [
    # over at second 100, begun before it, and of another site
    ("argonne", 0, 100, 8), ("argonne", 50, 130, 2), ("lemont", 100, 500, 8),
    # one begins where others end, two begin at one second, two end at one, and together they need up to 12 nodes
    ("argonne", 110, 130, 3), ("argonne", 130, 150, 3), ("argonne", 120, 140, 3), ("argonne", 120, 160, 1), ("argonne", 140, 150, 8),
    ("argonne", 200, 210, 1_000_000), ("argonne", 200, 210, 1_000_000), ("argonne", 205, 220, 5),
]
PLANS: list[Row] = [
    *((f"oz/operator reserve {site} {start} {end} {nodes}", f"{number}.argonne\n", True)
      for number, (site, start, end, nodes) in enumerate(OVERLAPPING, 1)),
    ("ann qsub -l nodes=3,walltime=20", "12.argonne\n", True),
    ("ann qsub -l nodes=2,walltime=30", "13.argonne\n", True),
    ("ann qsub -l nodes=4,walltime=5", "14.argonne\n", True),
    ("ann qsub -l nodes=3,walltime=10", "15.argonne\n", True),
    ("ann qsub -l nodes=1,walltime=1", "16.argonne\n", True),
    ("plan 100", "start 12.argonne\nstart 15.argonne\nhead 13.argonne 150\n", False),
    ("plan 150", "start 12.argonne\nstart 13.argonne\nstart 16.argonne\nhead 14.argonne 170\n", False),
    ("plan 195", "start 14.argonne\nstart 16.argonne\nhead 12.argonne 210\n", False),
]


def asked(tally: Any, sites: Any, name: str, rows: Sequence[Row]) -> None:
    """A new argonne is asked these lines at once: the answers, and the lines that its journal has then."""
    sites.run("init", name, "argonne", *TWO)
    found = sites.run("serve", name, text="".join(f"{line}\n" for line, _, _ in rows).encode())
    tally.same(f"{name}: the answers", found, (0, "".join(f"{answer}\n" for _, answer, _ in rows), ""))
    kept = [b" ".join(line.split(b" ")[2:]) for line in sites.journal(name).split(b"\n")[1:-1]]
    tally.same(f"{name}: what is kept", kept, [line.encode() for line, _, is_kept in rows if is_kept])


def lines(tally: Any, sites: Any) -> None:
    """Lines of each kind."""
    told = (COMMANDS, NO_LOOKS, STRANGERS, LAST_COUNTER, ROSTERS, [*OTHER_ROSTERS, *BEHIND_OTHERS], PLANS)
    for name, rows in zip(("commands", "no-looks", "strangers", "last", "rosters", "others", "plans"), told):
        asked(tally, sites, name, rows)


def line_words(tally: Any, sites: Any) -> None:
    """The words that a line may begin with are told. Each is read as it is told: a line of a site's own words names no user."""
    told = "".join(f"{kind} {word}\n" for kind, all_words in WORDS.items() for word in all_words.split())
    tally.same("the words", sites.run("words"), (0, told, ""))
    sites.make(TWO)
    for word in WORDS["site"].split()[:-1]:
        tally.same(f"no user: {word} qsub", sites.at("argonne", [word, "qsub"]), "unread 1\n" if word == "take" else "cannot be read\n")
    names = [word for word in WORDS["look"].split() if word != "plan" and len(word) <= 15]
    for number, word in enumerate(names, 1):
        tally.same(f"a user: {word} qsub", sites.at("argonne", [word, "qsub"]), f"{number}.argonne\n")
    for word in WORDS["utility"].split() + WORDS["user"].split():
        tally.true(f"asked by ann: {word}", sites.at("argonne", ["ann", word, "-x"]) != "usage 1\n")
    tally.same("no further utility", sites.at("argonne", ["ann", "qmove"]), "usage 1\n")


def random_plans(tally: Any, sites: Any) -> None:
    """Plans without some jobs, among random lines, are those of the plain model."""
    roster = Roster(("argonne", "lemont"), (8, 4))
    for seed in range(20):
        pick, rows = random.Random(seed), list[Tuple[str, str]]()
        model: Any = plain_model.Site(roster, 0)  # type: ignore[no-untyped-call]
        made: Any = RandomLines(pick, roster)  # type: ignore[no-untyped-call]
        for number in range(200):
            if number % 4:
                line = made.pick.choice((made.submit, made.submit, made.grant, made.begin, made.reserve, made.hold))(model)
                rows.append((line, model.answer(line.encode()).text))
                continue
            moment, jobs = pick.randrange(300), [pick.randrange(1, 30) for _ in range(pick.randrange(1, 5))]
            line = f"plan {moment} but {' '.join(map(str, jobs))}"
            rows.append((line, model.plan(moment, {(counter, 0) for counter in jobs})))
        name = f"plans-{seed}"
        sites.run("init", name, "argonne", *TWO)
        found = sites.run("serve", name, text="".join(f"{line}\n" for line, _ in rows).encode())
        tally.same(name, found, (0, "".join(f"{answer}\n" for _, answer in rows), ""))


SCENES = {"lines": lines, "line_words": line_words, "random_plans": random_plans}
