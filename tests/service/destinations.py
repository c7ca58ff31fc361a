"""Scenes of where a job may run: the own site first, queues by name, and what no site could ever hold."""
import os
import re

from tests.service.pbs import text_of, work_in
from tests.service.scenes import OPERATOR, OTHER, as_user, is_root
from tests.service.sites import until
from tests.service.waits import qsub


def sites_of(site, job):
    """The sites that a job may run at."""
    return site.jobs(job)[job]["sites"]


def own_site_first(tally, federation):
    """A job that names no site runs at its own, unless the configuration says another; and `qsub` says where else it may run."""
    federation.has_links = True
    argonne, lemont = federation.make("argonne:4", "lemont:8", sites="here")
    folder = work_in(federation)

    def told(site, *words):
        status, output, errors = site.utility("qsub", "-h", *words, given="true\n", cwd=folder)
        return status, sites_of(site, output.strip()) if not status else output, errors

    for site in (argonne, lemont):
        tally.same(f"at {site.name}", told(site), (0, [site.name], ""))
        tally.same(f"its own name at {site.name}", told(site, "-l", f"nodes=2,sites={site.name}"), (0, [site.name], ""))
    for words, sites in (("any", ["argonne", "lemont"]), ("lemont", ["lemont"]), ("here+lemont", ["argonne", "lemont"])):
        tally.same(f"sites={words}", told(argonne, "-l", f"sites={words}"), (0, sites, f"qsub: it may run at {', '.join(sites)}\n"))
    tally.same("a job without a script", sites_of(argonne, argonne.said("qsub", "-h").strip()), ["argonne"])
    job = qsub(argonne, folder, "-h")
    tally.same("qalter", (argonne.utility("qalter", "-l", "sites=any", job), sites_of(argonne, job)), ((0, "done\n", ""), ["argonne", "lemont"]))
    tally.same("and back", (argonne.utility("qalter", "-l", "sites=here", job)[0], sites_of(argonne, job)), (0, ["argonne"]))
    tally.same("an unknown site", told(argonne, "-l", "sites=nowhere")[:2], (1, "usage 6\n"))
    said = "qsub: 5 nodes are more than any site has that the job may run at: argonne 4\n"
    tally.same("too large for its own site", told(argonne, "-l", "nodes=5"), (1, "", said))
    tally.same("but not for the other", told(argonne, "-l", "nodes=5,sites=any")[:2], (0, ["argonne", "lemont"]))
    tally.same("too large for all", told(argonne, "-l", "nodes=9,sites=any")[:2], (1, ""))
    first = qsub(argonne, folder, "-l", "nodes=4", script="sleep 300\n")
    until(lambda: argonne.jobs(first)[first]["begun"], 20, "it runs")
    waits = qsub(argonne, folder)
    far = qsub(argonne, folder, "-l", "sites=any")
    until(lambda: argonne.jobs(far)[far]["begun"], 30, "one that may runs at the other")
    tally.same("and one that may not waits", argonne.jobs(waits)[waits]["letter"], "Q")
    argonne.utility("qdel", first)
    tally.same("until its own has room", (argonne.finished(waits), argonne.jobs(waits)[waits]["begun"]["site"]), (0, "argonne"))


QUEUES = """\
[queues]
workq = here
far = lemont
short = here+lemont, walltime<=3600, nodes<=2, walltime=600
mine = any, users=games
"""


def queues(tally, federation):
    """`[queues]`: names for sites with limits, in submissions, alterations and all listings."""
    site = federation.make("argonne:4", "lemont:8", jobs="hosts = h1 h2 h3 h4", more=QUEUES, sites="here", operators=OPERATOR)[0]
    folder = work_in(federation)

    def told(*words, utility="qsub", **how):
        more = ("--parsable", "--wrap", "true") if utility == "sbatch" else ("-h",)
        status, output, errors = site.utility(utility, *words, *more, given="true\n", cwd=folder, **how)
        found = site.jobs(output.strip())[output.strip()] if not status else {}
        return (status, *(found.get(key) for key in ("sites", "limit")), errors)

    both, said = ["argonne", "lemont"], "qsub: it may run at argonne, lemont\n"
    for words, wanted in (
        ((), (0, ["argonne"], 3600, "")),
        (("-q", "far"), (0, ["lemont"], 3600, "qsub: it may run at lemont\n")),
        (("-q", "far", "-l", "nodes=8"), (0, ["lemont"], 3600, "qsub: it may run at lemont\n")),
        (("-q", "short"), (0, both, 600, said)),
        (("-q", "short@argonne", "-l", "walltime=60"), (0, ["argonne"], 60, "")),
        (("-q", "short", "-l", "sites=argonne"), (0, ["argonne"], 600, "")),
        (("-q", "mine"), (0, both, 3600, said)),
        (("-q", "@argonne"), (0, ["argonne"], 3600, "")),
    ):
        tally.same(f"qsub {words}", told(*words), wanted)
    for words, why in (
        (("-q", "batch"), "-q batch: there is no queue of this name; there are workq, far, short, mine"),
        (("-q", "long@lemont"), "-q long@lemont: there is no queue of this name"),
        (("-q", "far@argonne"), "the queue far is at lemont, and not at argonne"),
        (("-l", "sites=lemont"), "the queue workq is at argonne, and not at lemont"),
        (("-q", "short", "-l", "nodes=3"), "the queue short has jobs of at most 2 nodes, and not of 3"),
        (("-q", "short", "-l", "walltime=1:00:01"), "the queue short has jobs of at most 3600 seconds, and not of 3601"),
        (("-q", "far", "-l", "nodes=9"), "9 nodes are more than any site has that the job may run at: lemont 8"),
        (("-l", "nodes=5"), "5 nodes are more than any site has that the job may run at: argonne 4"),
    ):
        status, _, _, errors = told(*words)
        tally.same(f"qsub {words}: {errors!r}", (status, why in errors), (1, True))
    tally.same("sbatch -p", told("-p", "short", utility="sbatch")[:3], (0, both, 600))
    tally.true("sbatch of none", "--partition debug: there is no queue of this name" in told("--partition=debug", utility="sbatch")[3])
    if is_root(tally):
        def other(name):
            return told("-q", "mine", before=as_user(name))

        os.chmod(folder, 0o755)
        tally.same("one of its users", other(OPERATOR)[0], 0)
        tally.same("and another", (other(OTHER)[0], "the queue mine is for games" in other(OTHER)[3]), (1, True))
    wrong = f"{federation.folder}/wrong.conf"
    with open(site.config, encoding="ascii") as file, open(wrong, "w", encoding="ascii") as copy:
        copy.write(file.read().replace("far = lemont", "far = nowhere"))
    status, output, errors = site.utility("nettlebeamd", "--check", wrong)
    tally.same("an unknown site is found by --check", (status == 0, "[queues] far: nowhere is no site of the roster" in output + errors), (False, True))
    listed_queues(tally, site, folder)


def listed_queues(tally, site, folder):
    """The queues in the listings."""
    site.ask("qdel", *site.jobs())
    if os.getuid() == 0:
        site.utility("qdel", *site.jobs(), before=as_user(OPERATOR))
    job = qsub(site, folder, "-q", "short", "-h", "-N", "named")
    other = qsub(site, folder, "-h")

    def lines(*words, utility="qstat"):
        return site.utility(utility, *words)[1].splitlines()

    tally.same("qstat -Q", [line.split()[::2][:2] for line in lines("-Q")[2:]], [["workq", "1"], ["far", "0"], ["short", "1"], ["mine", "0"]])
    tally.same("qstat -Q of one", len(lines("-Q", "short")), 3)
    tally.same("qstat -Qf", lines("-Qf", "short")[4:8], [
        "    resources_max.walltime = 01:00:00", "    resources_max.nodect = 2", "    resources_default.walltime = 00:10:00", "    sites = argonne+lemont"])
    tally.true("qstat -q", any(re.match(r"short +-- +-- +01:00:00 +2 +0 +1 ", line) for line in lines("-q")))
    tally.true("qstat -Bf", "    default_queue = workq" in lines("-Bf"))
    tally.same("qstat -a", [line.split()[2] for line in lines("-a")[5:]], ["short", "workq"])
    tally.same("qstat of a queue", [line.split()[0] for line in lines("-a", "short")[5:]], [job])
    tally.same("and by its name alone", [line.split()[-1] for line in lines("short")[2:]], ["short"])
    tally.same("of none", site.utility("qstat", "-a", "batch")[0], 170)
    tally.true("qstat -f", "    queue = short" in lines("-fx", job))
    tally.same("qselect -q", [lines("-q", name, utility="qselect") for name in ("short", "workq", "far")], [[job], [other], []])
    tally.same("squeue -p", lines("-h", "-o", "%i %P", "-p", "short", utility="squeue"), [f"{job} short"])
    tally.same("sinfo", [line.split()[:3] for line in lines(utility="sinfo")[1:]], [["workq*", "up", "infinite"], ["short", "up", "1:00:00"], ["mine", "up", "infinite"]])
    tally.same("sinfo -p", len(lines("-h", "-p", "short", utility="sinfo")), 1)
    altered = site.utility("qalter", "-l", "nodes=3", job)
    tally.same("qalter keeps the limits", (altered[0], "at most 2 nodes" in altered[2], site.jobs(job)[job]["nodes"]), (1, True, 1))
    site.ask("alter", job, facts={"queue": "mine"})
    tally.same("and nobody takes a job out of its queue", site.utility("qalter", "-l", "nodes=3", job)[0], 1)
    tally.same("within them", site.utility("qalter", "-l", "nodes=2", job)[0], 0)
    site.ask("qdel", other)
    shown = qsub(site, folder, "-q", "short@argonne", "-o", "queue.txt", script="echo $PBS_QUEUE\n")
    tally.same("a job is told its queue", (site.finished(shown), text_of(folder, "queue.txt")), (0, "short\n"))


SCENES = {it.__name__: it for it in (own_site_first, queues)}
