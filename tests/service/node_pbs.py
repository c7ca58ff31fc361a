"""Scenes of PBS's options where jobs run on nodes, and of `pbsnodes`."""
import json
import re

from tests.service.cluster import Cluster
from tests.service.listings import read_full
from tests.service.nodes import line_of, make
from tests.service.pbs import text_of, work_in
from tests.service.scenes import OPERATOR, as_user, is_root
from tests.service.sites import until
from tests.service.waits import qsub


def node_pbs(tally, federation):
    """What PBS's options are on nodes: the shell and the variables, the hosts' lines, what a job has used, arrays, and `pbsnodes`."""
    cluster = Cluster(federation.folder)
    site = make(federation, cluster)
    folder = work_in(federation)

    def told(script, *words, **how):
        job = qsub(site, folder, *words, script=script, **how)
        tally.same(f"{words}: its status", site.finished(job, 60), 0)
        return job, text_of(folder, f"STDIN.o{job.split('.')[0]}")

    shown = 'echo "$NODE ${BASH_VERSION:+bash}"\n'
    tally.same("-S of the home node", told(shown, "-S", "/bin/sh,/bin/bash@n1")[1], "n1 bash\n")
    tally.same("-S of another node", told(shown, "-S", "/bin/sh,/bin/bash@n2")[1], "n1 \n")
    tally.same("each host by ppn", told("cat $PBS_NODEFILE\n", "-l", "nodes=2:ppn=2")[1], "n1\nn1\nn2\nn2\n")
    large = {f"LARGE{number}": "\udcff" * 100_000 for number in range(9)}  # bytes that take six each in JSON
    tally.same("variables", told('echo "$A|${#LARGE8}"\n', "-V", "-v", "A=1 2", environment={**large, "LC_ALL": "C"})[1], "1 2|100000\n")
    job, _ = told("i=0; while [ $i -lt 400000 ]; do i=$((i + 1)); done\n", "-o", "far.out")
    tally.same("-o", text_of(folder, "far.out"), "")
    full = read_full(site.utility("qstat", "-xf", job)[1])[job]
    tally.true("processor time", re.match("00:00:[0-9]{2}$", full["resources_used.cput"]))
    tally.true("memory", re.match("[1-9][0-9]{2,}kb$", full["resources_used.mem"]))
    tally.same("its host", full["exec_host"], "n1/0")
    used = json.loads(site.utility("qstat", "-xf", "-F", "json", job)[1])["Jobs"][job]["resources_used"]
    tally.same("as JSON", sorted(used), ["cput", "mem", "walltime"])
    array = qsub(site, folder, "-J", "1-6%2", script="echo $PBS_ARRAY_INDEX $NODE >> members; sleep 0.3\n")
    behind = qsub(site, folder, "-W", f"depend=afterok:{array}", script="wc -l < members\n")
    tally.same("what waits for an array ends", site.finished(behind, 90), 0)
    tally.same("behind all of its members", text_of(folder, f"STDIN.o{behind.split('.')[0]}"), "6\n")
    shown_nodes(tally, cluster, site, folder)


def shown_nodes(tally, cluster, site, folder):
    """`pbsnodes`, for everybody and for operators."""
    until(lambda: site.said("nodes").count("- up\n") == 3, 60, "all nodes are up")
    job = qsub(site, folder, script="sleep 60\n")
    until(lambda: line_of(site, "n1") == f"n1 {job} up", 20, "a job runs at n1")
    cluster.cut("n3")
    until(lambda: line_of(site, "n3").startswith("n3 - down "), 60, "n3 is down")
    _, text, errors = site.utility("pbsnodes", "-a")
    nodes = {part.split("\n")[0]: dict(line.strip().split(" = ", 1) for line in part.split("\n")[1:]) for part in text.strip().split("\n\n")}
    tally.same("states", ({host: node["state"] for host, node in nodes.items()}, errors), ({"n1": "job-exclusive", "n2": "free", "n3": "down"}, ""))
    tally.same("jobs", (nodes["n1"]["jobs"], "jobs" in nodes["n2"]), (f"{job}/0", False))
    tally.same("-l", [line.split()[:3] for line in site.utility("pbsnodes", "-l")[1].splitlines()], [["n3", "down", "down"]])
    rows = [line.split() for line in site.utility("pbsnodes", "-S")[1].splitlines()[3:]]
    tally.same("-S", [(row[0], row[1], row[2], row[-1]) for row in rows], [("n1", "job-exclusive", "1", job), ("n2", "free", "0", "--"), ("n3", "down", "0", "--")])
    told = json.loads(site.utility("pbsnodes", "-a", "-F", "json")[1])
    tally.same("as JSON", (told["pbs_server"], sorted(told["nodes"])), ("argonne", ["n1", "n2", "n3"]))
    tally.same("one host", site.utility("pbsnodes", "n2")[1].split("\n")[0], "n2")
    tally.same("one that there isn't", site.utility("pbsnodes", "n2", "n9")[::2], (1, "pbsnodes: Node: n9,  Error: Unknown node\n"))
    for words in ((), ("-o",), ("-l", "-S"), ("-x",), ("-o", "-r", "n1"), ("-a", "-F", "dsv")):
        tally.same(f"{words} is refused", site.utility("pbsnodes", *words)[:2], (2, ""))
    if not is_root(tally):
        return
    operator = {"before": as_user(OPERATOR)}
    tally.same("nobody else drains", site.utility("pbsnodes", "-o", "n2", before=as_user("nobody"))[0], 2)
    tally.same("an operator does", site.utility("pbsnodes", "-o", "n1", "n2", "-C", "bad fan", **operator), (0, "", ""))
    tally.same("which is kept", line_of(site, "n2"), f"n2 - drained by {OPERATOR}: bad fan")
    states = [line.split(" ")[0] + ": " + line[21:].split(" ")[0] for line in site.utility("pbsnodes", "-l")[1].splitlines()]
    tally.same("and told", states, ["n1: offline", "n2: offline", "n3: down"])
    tally.same("of a node that is down, too", site.utility("pbsnodes", "-o", "n3", **operator)[0], 0)
    tally.true("both are told", "\nn3                   down,offline drained by " in site.utility("pbsnodes", "-l")[1])
    tally.same("they go on", site.utility("pbsnodes", "-r", "n1", "n2", "n3", **operator), (0, "", ""))
    tally.same("once", site.utility("pbsnodes", "-r", "n2", **operator), (1, "", "pbsnodes: n2: n2 isn't drained\n"))
    cluster.cut("n1")
    comment = lambda: read_full(site.utility("qstat", "-fw", job)[1])[job]["comment"]  # noqa: E731
    until(lambda: comment().startswith("It isn't known whether it runs, since n1 can't be asked: "), 20, "qstat tells that nobody knows")
    cluster.mend("n1")
    until(lambda: comment().startswith("Job run at "), 20, "and that it runs")
    site.ask("qdel", job)
    tally.same("what ran there is ended", site.finished(job, 60), 143)


SCENES = {it.__name__: it for it in (node_pbs,)}
