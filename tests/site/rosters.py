"""Scenes of rosters that go on: a machine that changes, a site that joins, and rosters that are others."""
from tests.site.disk_journals import read_journal

TWO = ["argonne:8", "lemont:4"]
TOLD = "roster argonne:6 lemont:4 batavia:2"
SIXTEEN = [f"site{k}:1" for k in range(14)]
# Lines that tell another roster, each with what is said of the word at fault.
NO_FURTHER = "is no further site: a name that isn't there yet, a colon, and 1 to 1000000 nodes; there are 16 sites at most"
OTHERS = [
    ("batavia:2 argonne:8 lemont:4", "batavia:2 stands where argonne must"),
    ("argonne:8", "lemont is left out"),
    ("argonne:8 sparks:4", "sparks:4 stands where lemont must"),
    ("lemont:4 argonne:8", "lemont:4 stands where argonne must"),
    ("argonne:8 batavia:2 lemont:4", "batavia:2 stands where lemont must"),
    ("argonne:8 lemont:4 lemont:4", f"lemont:4 {NO_FURTHER}"),
    ("argonne:8 lemont:4 roster:1", f"roster:1 {NO_FURTHER}"),
    ("argonne:8 lemont:0", "lemont:0 has no number of nodes from 1 to 1000000"),
    ("argonne:8 lemont:1000001", "lemont:1000001 has no number of nodes from 1 to 1000000"),
    ("argonne:8 lemont", "lemont has no number of nodes from 1 to 1000000"),
    ("argonne:8 lemont:4 sparks:0", f"sparks:0 {NO_FURTHER}"),
    ("argonne:8 lemont:4 9:1", f"9:1 {NO_FURTHER}"),
    (" ".join(["argonne:8", "lemont:4", *SIXTEEN, "last:1"]), f"last:1 {NO_FURTHER}"),
]


def two_sites(sites, *others):
    """argonne and lemont with a roster of two, and others with the longer one."""
    for name in ("argonne", "lemont"):
        sites.run("init", name, name, *TWO)
    for name in others:
        sites.run("init", name, name, *TOLD.split()[1:])


def asks(tally, sites, site, line, status, output, errors=""):
    """Sees how a line is answered by `at`, and what is said on standard error."""
    tally.same(f"{site} {line}", sites.run("at", site, *line.split()), (status, output, errors))


def machines(tally, sites):
    """The nodes of a machine change: plans are of the new number, also once the site is opened again, and compacted."""
    two_sites(sites)
    asks(tally, sites, "argonne", "ann qsub -l nodes=8", 0, "1.argonne\n")
    asks(tally, sites, "argonne", "ann qsub -l nodes=6", 0, "2.argonne\n")
    asks(tally, sites, "argonne", "plan 0", 0, "start 1.argonne\nhead 2.argonne 3600\n")
    asks(tally, sites, "argonne", TOLD, 0, "done\n")
    asks(tally, sites, "argonne", "plan 0", 0, "start 2.argonne\n")
    asks(tally, sites, "argonne", "why 1 0", 0, "needs 8 of 6 nodes\n")
    asks(tally, sites, "argonne", "machine 0", 0, "nodes 6, free 6\n")
    before = sites.journal("argonne")
    asks(tally, sites, "argonne", TOLD, 0, "done\n")
    tally.same("said again", sites.journal("argonne"), before)
    tally.same("its entries", [entry.split(b" ")[0] for entry in read_journal(before)[0]], [b"nettlebeam", b"ann", b"ann", b"roster"])
    for line in ("grant 2 argonne", "begin 2 0", "ann qsub"):
        sites.at("argonne", line.split())
    # fewer nodes than run: nothing is stopped, and nothing starts
    asks(tally, sites, "argonne", "roster argonne:5 lemont:4 batavia:2", 0, "done\n")
    asks(tally, sites, "argonne", "machine 0", 0, "nodes 5, free 0\nrun 2.argonne 6 3600\n")
    asks(tally, sites, "argonne", "plan 0", 0, "head 5.argonne 3600\n")
    lines = [["jobs"], ["seen"], ["plan", "0"], ["machine", "0"], ["ship", "batavia"]]
    looks = [sites.run("at", "argonne", *line) for line in lines]
    status, output, errors = sites.run("compact", "argonne")
    tally.same(f"it is compacted: {output!r} {errors!r}", (status, errors), (0, ""))
    again = [sites.run("at", "argonne", *line) for line in lines]
    tally.same("a compacted journal", again, looks)


def joining(tally, sites):
    """A site joins: who doesn't know it yet answers its packets `foreign`, and takes them later."""
    two_sites(sites, "batavia")
    asks(tally, sites, "argonne", "ann qsub", 0, "1.argonne\n")
    asks(tally, sites, "batavia", "bob qsub -N far", 0, "1.batavia\n")
    asks(tally, sites, "argonne", "ship batavia", 1, "cannot be read\n", "nettlebeam: cannot be read: the line has no form that this site knows\n")
    asks(tally, sites, "argonne", TOLD, 0, "done\n")
    packet = sites.at("batavia", ["ship", "argonne"]).encode()
    tally.same("argonne takes it", sites.at("argonne", ["take"], packet), "taken\n")
    before = sites.journal("lemont")
    for text in (sites.at("batavia", ["ship", "lemont"]).encode(), sites.at("argonne", ["ship", "lemont"]).encode()):
        status, output, errors = sites.run("at", "lemont", "take", text=text)
        tally.same("lemont doesn't know it", (status, output, errors), (1, "foreign\n", "nettlebeam: foreign: the packet tells of a site that is not of this roster\n"))
    tally.same("nothing is kept", sites.journal("lemont"), before)
    asks(tally, sites, "lemont", TOLD, 0, "done\n")
    for text in (sites.at("batavia", ["ship", "lemont"]).encode(), sites.at("argonne", ["ship", "lemont"]).encode()):
        tally.same("lemont takes it", sites.at("lemont", ["take"], text), "taken\n")
    tally.same("batavia takes all", sites.at("batavia", ["take"], sites.at("lemont", ["ship", "batavia"]).encode()), "taken\n")
    listed = sites.at("lemont", ["ann", "qstat"])
    tally.same("two jobs", [line.split()[0] for line in listed.splitlines()], ["1.argonne", "1.batavia"])
    for site in ("argonne", "batavia"):
        tally.same(f"{site} lists the same", sites.at(site, ["ann", "qstat"]), listed)
    # a job may run at the sites that its roster had when it was submitted
    asks(tally, sites, "argonne", "grant 1 batavia", 1, "refused 7\n", "nettlebeam: refused 7 (NotEligible): 1.argonne may not run at batavia\n")
    asks(tally, sites, "argonne", "ann qalter -l sites=argonne+batavia 1", 0, "done\n")
    asks(tally, sites, "argonne", "grant 1 batavia", 0, "granted\n")


def others(tally, sites):
    """Rosters that don't go on with the one that is known: the word at fault is told, and nothing is kept."""
    two_sites(sites)
    before = sites.journal("argonne")
    for words, why in OTHERS:
        asks(tally, sites, "argonne", f"roster {words}", 1, "other roster\n", f"nettlebeam: other roster: {why}\n")
    tally.same("nothing is kept", sites.journal("argonne"), before)
    asks(tally, sites, "argonne", " ".join(["roster", *TWO, *SIXTEEN]), 0, "done\n")
    # a user of this name
    asks(tally, sites, "argonne", "roster qsub", 0, "1.argonne\n")
    asks(tally, sites, "argonne", "roster qdel 1", 0, "done\n")
    asks(tally, sites, "argonne", "roster site3", 1, "usage 1\n", "nettlebeam: usage 1 (UnknownUtility): site3 is no utility: there are qsub, qalter, qhold, qrls, qdel and qstat\n")


SCENES = {"machines": machines, "joining": joining, "other_rosters": others}
