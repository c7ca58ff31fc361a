"""Scenes of a roster that goes on while services run: a site joins, a machine grows and shrinks, and what journals tell of it."""
import os
import signal
import subprocess

from tests.service.keeping import rewrite, shim
from tests.service.scenes import OTHER, as_user, is_root
from tests.service.sites import PYTHON, SERVICE, config, until
from tests.site.disk_journals import journal_of

LONGER = ("argonne:3", "lemont:1", "batavia:2")
HEADER = b"nettlebeam 3 argonne argonne:2 lemont:1"
UNKNOWN = "is no site of the roster that is known here"
# what ends once the real program has kept a roster
ENDING = """
def hook(line, ask):
    answer = ask(line)
    if line.startswith(b"roster "):
        os._exit(9)
    return answer
"""


def joining(tally, federation):
    """A site joins two that run: each is told the longer roster by `qask`, and a machine that grew runs a greater job."""
    federation.has_links = True
    argonne, lemont = federation.make("argonne:2", "lemont:1", jobs="hosts = h1 h2")
    wide = argonne.submit('cat "$PBS_NODEFILE" > hosts; exit 6\n', "-h", "-l", "nodes=2,sites=argonne")
    argonne.ask("qalter", "-l", "nodes=3", wide)
    argonne.ask("qrls", wide)
    far = argonne.submit("true\n", "-h", "-l", "sites=lemont")
    batavia = federation.add("batavia", *LONGER)
    batavia.wait_ready()
    new = batavia.submit("exit 7\n", "-h", "-l", "sites=batavia")
    until(lambda: UNKNOWN in batavia.logged(), 10, "the log of the new site tells that it isn't known")
    tally.same("nor may it bring a packet", argonne.utility("nettlebeam-peer", "batavia", "take", given=batavia.said("ship", "argonne"))[:2], (2, ""))
    told_wrong(tally, argonne)
    tally.same("its job is too wide", argonne.said("why", wide, "0"), "needs 3 of 2 nodes\n")
    tally.same("argonne is told", argonne.utility("qask", "roster", *LONGER), (0, "done\n", ""))
    tally.same("and knows the site", (argonne.utility("nettlebeam-peer", "batavia", "ship")[0], argonne.said("seen").split()[::3]), (0, ["argonne", "lemont", "batavia"]))
    tally.same("told again nothing is kept", (argonne.ask("roster", *LONGER).status, kept(argonne)), (0, 1))
    until(lambda: "hosts names 2 machines, and the site has 3 nodes" in argonne.logged(), 5, "it is told that hosts are too few")
    tally.same("with too few hosts the job waits", argonne.jobs(wide)[wide]["begun"], None)
    rewrite(argonne, "hosts = h1 h2", "hosts = h1 h2 h3")
    tally.same("with three it runs", argonne.finished(wide), 6)
    with open(f"{federation.folder}/hosts", encoding="ascii") as file:
        tally.same("on all of them", file.read().split(), ["h1", "h2", "h3"])
    with_section(tally, argonne)
    until(lambda: new in argonne.jobs() and wide in batavia.jobs(), 10, "argonne and batavia exchange packets")
    near = not_told(tally, lemont, batavia)
    tally.same("lemont is told", lemont.utility("qask", "roster", *LONGER)[:2], (0, "done\n"))
    argonne.ask("qrls", far)
    batavia.ask("qrls", new)
    tally.same("a job of the old sites ends", argonne.finished(far), 0)
    tally.same("and one of the new", batavia.finished(new), 7)
    until(lambda: argonne.said("jobs") == lemont.said("jobs") == batavia.said("jobs"), 20, "all three list the same")
    tally.same("all jobs", sorted(lemont.jobs()), sorted([wide, far, new, near]))


def kept(site):
    """How often a roster stands in a site's journal behind the first entry."""
    with open(f"{site.home}/site/journal", "rb") as file:
        return sum(line[19:].startswith(b"roster ") for line in file)


def told_wrong(tally, site):
    """A roster is told by the site's own account alone, and goes on with the one that is known."""
    if is_root(tally):
        tally.same("another user tells none", site.utility("qask", "roster", *LONGER, before=as_user(OTHER))[:2], (2, ""))
    tally.same("one that leaves out a site", site.utility("qask", "roster", "argonne:3")[:2], (1, "other roster\n"))
    for wrong in (("lemont:1", "argonne:2"), ("argonne:0", "lemont:1"), ("argonne:3", "lemont:1", "lemont:2"), ("argonne:3", "lemont:1", "equal:1")):
        told = site.ask("roster", *wrong)
        tally.same(f"another roster: {wrong}", (told.status, told.answer), (1, b"other roster\n"))
    tally.same("alone it tells the one that is known", site.utility("qask", "roster"), (0, "argonne:2 lemont:1\n", ""))
    for words in (("qsub",), ("argonne",), ("argonne:3", "lemont"), ("argonne:x", "lemont:1"), ("qsub", "-N", "a:1"), [f"s{it}:1" for it in range(17)]):
        told = site.ask("roster", *words)
        tally.same(f"no roster: {words}", (told.status, told.answer), (2, b""))
    tally.same("nothing is kept of them", kept(site), 0)


def not_told(tally, site, other):
    """A site that wasn't told takes nothing that tells of a site that it doesn't know, and goes on; a job that it runs."""
    until(lambda: "its packet is answered foreign" in site.logged(), 10, "a packet that tells of the new site is foreign")
    told = site.ask("take", body=other.ask("ship", site.name).answer)
    tally.same("a packet of a site that isn't known", (told.status, told.answer), (1, b"foreign\n"))
    tally.same("nor is one made for it", site.ask("ship", other.name).status, 2)
    job = site.submit("exit 8\n", "-l", f"sites={site.name}", folder=site.home)
    tally.same("its own jobs run", site.finished(job), 8)
    return job


def with_section(tally, site):
    """The section of a new site is read when the service starts anew; what the journal tells is the roster that is known."""
    with open(site.config, "a", encoding="ascii") as file:
        file.write(site.peer_section("batavia"))
    site.process.send_signal(signal.SIGHUP)
    until(lambda: "a new peers is used when the service starts anew" in site.logged(), 5, "a running service keeps its peers")
    checked = subprocess.run([*PYTHON, f"{SERVICE}/nettlebeamd", "--check", site.config], capture_output=True, text=True, check=False)
    tally.same("--check knows the site", (checked.returncode, "argonne, with 2 of 2 other sites" in checked.stdout), (0, True))
    site.kill(signal.SIGTERM)
    site.start()
    site.wait_ready()


def shrinking(tally, federation):
    """A machine shrinks under what runs: nothing is stopped, and nothing starts before there is room."""
    (site,) = federation.make("argonne:3")
    wide = site.submit("sleep 4; exit 5\n", "-l", "nodes=3")
    until(lambda: site.jobs(wide)[wide]["begun"], 10, "the job runs")
    tally.same("the site is told", site.utility("qask", "roster", "argonne:1"), (0, "done\n", ""))
    narrow = [site.submit("sleep 0.5; exit 4\n") for _ in range(2)]
    tally.same("its machine", site.said("machine", "0").splitlines()[0], "nodes 1, free 0")
    tally.same("the wide job ends as its script does", site.finished(wide), 5)
    for job in narrow:
        tally.same("another runs then", site.finished(job), 4)
    told = [site.jobs(job)[job] for job in (wide, *narrow)]
    ordered = all(one["finished"]["moment"] <= other["begun"]["moment"] for one, other in zip(told, told[1:]))
    tally.true("one behind the other", ordered)
    tally.true("nothing went wrong", "no job begins now" not in site.logged())
    site.kill()
    site.start()
    site.wait_ready()
    tally.same("after a kill the machine is the same", site.said("machine", "0"), "nodes 1, free 1\n")


def lost_answers(tally, federation):
    """A roster that the site keeps and whose answer is lost is known to the service as soon as the site answers again."""
    federation.program = shim(f"{federation.folder}/ending", federation.program, ENDING)
    (site,) = federation.make("argonne:2", jobs="run = no")
    tally.same("no answer comes", site.utility("qask", "roster", "argonne:2", "lemont:1")[:2], (3, ""))
    until(lambda: site.ask("seen").status == 0, 20, "the site answers again")
    tally.same("the roster is kept", kept(site), 1)
    tally.same("and known", (site.utility("nettlebeam-peer", "lemont", "ship")[0], site.ask("ship", "batavia").status), (0, 2))


def journals(tally, federation):
    """A journal's first entry tells whose it is, and a section of a site that the roster hasn't is told."""
    folder = f"{federation.folder}/site"
    os.mkdir(folder)

    def told(data):
        with open(f"{folder}/journal", "wb") as file:
            file.write(data)
        try:
            return config.name_in(folder)
        except config.ConfigFault as fault:
            return str(fault)

    for what, entries in (("of one entry", [HEADER]), ("of two", [HEADER, b"ann qsub"]), ("compacted", [b"nettlebeam 4 argonne argonne:3", b"{}"])):
        tally.same(f"a journal {what}", told(journal_of(entries)), "argonne")
    for data in (b"", b"-", journal_of([b"ann qsub"]), journal_of([b"nettlebeam 3"])):
        tally.true("a journal that begins otherwise", "doesn't begin with the name of a site" in told(data))
    (site,) = federation.make("argonne:2", "lemont:1", jobs="run = no")[:1]
    with open(site.config, "a", encoding="ascii") as file:
        file.write("[peer rome]\ncommand = true\n")
    for what in ("while the service runs", "and without it"):
        checked = subprocess.run([*PYTHON, f"{SERVICE}/nettlebeamd", "--check", site.config], capture_output=True, text=True, check=False)
        unknown = "[peer rome]: rome is no other site of the roster: argonne lemont\n"
        tally.same(f"--check tells it {what}", (checked.returncode, checked.stderr.partition(".conf: ")[2]), (2, unknown))
        site.kill(signal.SIGTERM)
    site.start()
    site.wait_ready()
    until(lambda: "rome: it is no other site of the roster: argonne lemont" in site.logged(), 10, "so does the log of a service")


SCENES = {it.__name__: it for it in (joining, shrinking, lost_answers, journals)}
