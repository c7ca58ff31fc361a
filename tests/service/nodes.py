"""Scenes of jobs on their nodes: links that are cut, nodes that are switched off, and what operators say."""
import os
import shutil
import signal
import time

from tests.service.cluster import Cluster, processes_with
from tests.service.scenes import OPERATOR, as_user, is_root, read
from tests.service.sites import until

HOSTS = ("n1", "n2", "n3")
JOBS = """\
hosts = n1 n2 n3
link = {link}
health = 2
retry_most = 5
"""


def make(federation, cluster, link=None, **how):
    """A site with three nodes."""
    jobs = JOBS.format(link=link or cluster.link()) + how.pop("jobs", "")
    (site,) = federation.make("argonne:3", jobs=jobs, operators=OPERATOR, **how)
    until(lambda: site.said("nodes").count(" up\n") == 3, 20, "all nodes are up")
    return site


def line_of(site, host):
    """What `qask nodes` says of a host."""
    return next(line for line in site.said("nodes").splitlines() if line.startswith(f"{host} "))


def nodes(tally, federation):
    """Jobs on three nodes: where they run, links that are cut, and what operators say."""
    cluster = Cluster(federation.folder)
    site = make(federation, cluster)
    jobs = cluster.submit_three(site)
    tally.same("three jobs end as their scripts do", [site.finished(job, 60) for job in jobs], [1, 2, 3])
    tally.same("on three nodes", sorted(sum((cluster.where(job) for job in jobs), [])), ["n1", "n2", "n3"])
    tally.same("which their lists of hosts name", [line.split()[0] for line in read(cluster.ran).splitlines()], [line.split()[2] for line in read(cluster.ran).splitlines()])
    wide = cluster.submit(site, "-l", "nodes=3")
    tally.same("a wide job runs at its first host", (site.finished(wide), cluster.where(wide)), (0, ["n1"]))
    starts_cut(tally, cluster, site)
    for ask, how in (("prepare", "before"), ("prepare", "behind")):
        wait_steady(site)
        cluster.trap("n1", ask, how)
        job = cluster.submit(site)
        tally.same(f"{ask} is cut {how}: it costs no job", (site.finished(job, 60), len(cluster.where(job)), cluster.is_sprung("n1")), (0, 1, True))
    ends_cut(tally, cluster, site)
    others_cut(tally, cluster, site)
    operators(tally, cluster, site)


def starts_cut(tally, cluster, site):
    """A link is cut in a start: the job runs all the same, and once."""
    for how in ("before", "behind", "hold"):
        until(lambda: line_of(site, "n1") == "n1 - up", 60, "n1 is up")
        cluster.trap("n1", "start", how)
        job = cluster.submit(site, status=5)
        tally.same(f"a start that is cut: {how}", (site.finished(job, 90), cluster.is_sprung("n1")), (5, True))
        if how == "hold":
            os.remove(f"{cluster.folder}/n1.held")
            time.sleep(3)
        tally.same("runs once", cluster.where(job), ["n1"])
    until(lambda: line_of(site, "n1") == "n1 - up", 30, "n1 is up")
    cluster.trap("n1", "start", "behind", cut=True)
    job = cluster.submit(site, seconds=1, status=6)
    until(lambda: cluster.is_sprung("n1") and "isn't known whether it runs" in site.logged(), 20, "its start is in doubt")
    time.sleep(2)
    tally.same("a job of which nobody knows stays", site.jobs(job)[job]["letter"], "R")
    tally.true("its node is down", line_of(site, "n1").startswith(f"n1 {job} down "))
    cluster.mend("n1")
    tally.same("until its node tells", (site.finished(job, 60), cluster.where(job)), (6, ["n1"]))


def wait_steady(site):
    """Waits until all nodes are up, and stay so for a second: a link may end once more behind what was cut."""

    def is_steady():
        for _ in range(5):
            if site.said("nodes").count("- up\n") != 3:
                return False
            time.sleep(0.25)
        return True

    until(is_steady, 60, "all nodes are up")


def ends_cut(tally, cluster, site):
    """A link is cut while a job runs, and a node is switched off."""
    wait_steady(site)
    job = cluster.submit(site, seconds=2, status=7)
    until(lambda: cluster.where(job) == ["n1"], 20, "it runs")
    cluster.cut("n1")
    time.sleep(4)
    tally.same("an end isn't heard", site.jobs(job)[job]["letter"], "R")
    cluster.mend("n1")
    tally.same("until the link is there", site.finished(job, 60), 7)
    wait_steady(site)
    job = cluster.submit(site, seconds=60)
    until(lambda: cluster.where(job) == ["n1"], 20, "it runs")
    cluster.switch_off("n1")
    other = cluster.submit(site, status=8)
    tally.same("others run on other nodes", (site.finished(other), cluster.where(other) == ["n1"]), (8, False))
    tally.same("that of a node which is off is waited for", site.jobs(job)[job]["letter"], "R")
    cluster.switch_on("n1")
    tally.same("until it is on, and has lost it", (site.finished(job, 60), cluster.where(job)), (255, ["n1"]))


def others_cut(tally, cluster, site):
    """A link is cut in a drop, in a forget, and before an end."""
    wait_steady(site)
    cluster.trap("n1", "start", "before")
    job = cluster.submit(site, status=5)
    until(lambda: cluster.is_sprung("n1"), 20, "a start is cut")
    cluster.trap("n1", "drop", "behind")
    status = site.finished(job, 90)
    tally.true("where a drop is cut, too, it ran or is lost", (status, len(cluster.where(job))) in ((5, 1), (255, 0)))
    wait_steady(site)
    cluster.trap("n1", "forget", "before")
    job = cluster.submit(site, status=6)
    tally.same("a forget is cut", (site.finished(job, 60), cluster.where(job)), (6, ["n1"]))
    until(lambda: not os.path.exists(f"{cluster.folder}/n1/{job}"), 60, "its node forgets it later")
    wait_steady(site)
    job = cluster.submit(site, seconds=300)
    until(lambda: cluster.where(job) == ["n1"], 20, "it runs")
    cluster.cut("n1")
    site.ask("qdel", job)
    time.sleep(2)
    cluster.mend("n1")
    tally.same("a deletion reaches the node later", site.finished(job, 60), 143)


def operators(tally, cluster, site):
    """What operators say, and what is kept of it."""
    wait_steady(site)
    if not is_root(tally):
        return
    operator = {"before": as_user(OPERATOR), "environment": {"NETTLEBEAM_ROLE": "operator"}}
    tally.same("anybody lists", site.utility("qask", "nodes", before=as_user("nobody"))[1].count(" up\n"), 3)
    tally.same("nobody else drains", site.utility("qask", "drain", "n1", "x", before=as_user("nobody"))[0], 2)
    tally.same("a host that there isn't", site.utility("qask", "drain", "n9", "x", **operator)[0], 2)
    tally.same("an operator drains", site.utility("qask", "drain", "n1", "bad", "fan", **operator)[:2], (0, "done\n"))
    tally.same("which is shown", line_of(site, "n1"), f"n1 - drained by {OPERATOR}: bad fan")
    site.kill()
    site.start()
    site.wait_ready()
    until(lambda: site.said("nodes").count(" up\n") == 2 and " down " not in site.said("nodes"), 30, "all are asked")
    tally.same("and kept", line_of(site, "n1"), f"n1 - drained by {OPERATOR}: bad fan")
    jobs = [cluster.submit(site) for _ in range(4)]
    tally.same("nothing runs there", [site.finished(job) for job in jobs] + [sum((cluster.where(job) for job in jobs), []).count("n1")], [0] * 5)
    tally.same("it goes on", site.utility("qask", "resume", "n1", **operator)[:2], (0, "done\n"))
    tally.same("once", site.utility("qask", "resume", "n1", **operator)[0], 1)
    job = cluster.submit(site, seconds=60)
    until(lambda: cluster.where(job) == ["n1"], 20, "a job runs there")
    tally.same("which is shown", line_of(site, "n1"), f"n1 {job} up")
    tally.same("a job whose node answers isn't lost", site.utility("qask", "lost", job, **operator)[0], 1)
    cluster.cut("n1")
    until(lambda: f"{job}: it isn't known" in site.logged(), 20, "it is in doubt")
    tally.same("nobody else says that it is lost", site.utility("qask", "lost", job, before=as_user("nobody"))[0], 2)
    tally.same("an operator does", site.utility("qask", "lost", job, **operator)[:2], (0, "done\n"))
    tally.same("it is finished", site.finished(job), 255)
    cluster.mend("n1")
    until(lambda: f"{job}: n1 runs it still" in site.logged(), 30, "what runs there still is seen")
    until(lambda: line_of(site, "n1") == "n1 - up", 30, "and ended")
    far = cluster.submit(site)
    tally.same("before another begins there", (site.finished(far), cluster.where(far)), (0, ["n1"]))


def node_kills(tally, federation):
    """The service is killed in each step of a start, and while a job runs on a node."""
    cluster = Cluster(federation.folder)
    site = make(federation, cluster)
    job = cluster.submit(site, seconds=3, status=4)
    until(lambda: cluster.where(job) == ["n1"], 20, "it runs")
    site.kill()
    site.start()
    site.wait_ready()
    tally.same("a job on a node outlives the service", (site.finished(job), cluster.where(job)), (4, ["n1"]))
    job = cluster.submit(site, seconds=1, status=5)
    until(lambda: cluster.where(job) == ["n1"], 20, "it runs")
    site.kill()
    time.sleep(2)
    site.start()
    site.wait_ready()
    tally.same("one ends while no service is there", site.finished(job), 5)
    for ask, statuses, times in (("prepare", (0,), 1), ("start", (255,), 0)):
        wait_steady(site)
        cluster.trap("n1", ask, "hold")
        job = cluster.submit(site)
        until(lambda: os.path.exists(f"{cluster.folder}/n1.held"), 20, f"{ask} is on its way")
        site.kill()
        site.start()
        site.wait_ready()
        tally.true(f"killed while {ask} is on its way", site.finished(job, 60) in statuses)
        os.remove(f"{cluster.folder}/n1.held")  # now it comes
        time.sleep(3)
        tally.same("which comes too late", len(cluster.where(job)), times)
    cluster.trap("n1", "start", "behind", cut=True)
    job = cluster.submit(site, seconds=1, status=6)
    until(lambda: cluster.is_sprung("n1"), 20, "its start is in doubt")
    site.kill()
    site.start()
    site.wait_ready()
    time.sleep(2)
    tally.same("a service that is killed in doubt is in doubt", site.jobs(job)[job]["letter"], "R")
    cluster.mend("n1")
    tally.same("until its node tells", (site.finished(job, 60), cluster.where(job)), (6, ["n1"]))


def node_counts(tally, federation):
    """The plan counts the nodes that are there."""
    cluster = Cluster(federation.folder)
    site = make(federation, cluster)
    cluster.cut("n3")
    until(lambda: " down " in line_of(site, "n3"), 30, "n3 is down")
    wide = cluster.submit(site, "-l", "nodes=3", "-p", "9")
    until(lambda: "plans with 2 nodes from now on" in site.logged(), 60, "the site is told")
    tally.same("what the machine has", site.said("machine", "0").split("\n")[0].split()[1].rstrip(","), "2")
    narrow = cluster.submit(site, "-l", "nodes=2", status=3)
    tally.same("a narrow job doesn't wait behind one for nodes that aren't there", site.finished(narrow), 3)
    cluster.mend("n3")
    until(lambda: "plans with 3 nodes from now on" in site.logged(), 90, "it is there again")
    tally.same("then the wide one runs", site.finished(wide), 0)


def node_disks(tally, federation):
    """A node whose disk is full gets no job, and jobs of users that a node doesn't run are left alone."""
    cluster = Cluster(federation.folder)
    site = make(federation, cluster)
    cluster.configure("n1", free_bytes=1 << 50)
    job = cluster.submit(site)
    tally.same("a job runs on another node", (site.finished(job, 60), len(cluster.where(job))), (0, 1))
    end_programs(cluster)
    until(lambda: "no room" in line_of(site, "n1"), 30, "n1 is down")
    job = cluster.submit(site)
    tally.same("another one too", (site.finished(job), cluster.where(job) == ["n1"]), (0, False))
    cluster.configure("n1")
    end_programs(cluster)
    until(lambda: line_of(site, "n1") == "n1 - up", 60, "it has room again")


def node_power_cut(tally, federation):
    """A node loses its power, and what its disk had not kept yet: what was started there is never started again."""
    cluster = Cluster(federation.folder)
    site = make(federation, cluster)
    for back in ("nonce", "nothing"):
        until(lambda: line_of(site, "n1") == "n1 - up", 60, "n1 is up")
        cluster.trap("n1", "start", "behind", cut=True)
        job = cluster.submit(site, seconds=100)
        until(lambda: cluster.is_sprung("n1") and cluster.where(job), 20, "it runs, and its start is in doubt")
        cluster.switch_off("n1")
        place = f"{cluster.folder}/n1/{job}"
        if back == "nonce":
            os.rename(f"{place}/taken", f"{place}/nonce")  # the disk has the name that it had before
        else:
            shutil.rmtree(place)
        cluster.switch_on("n1")
        tally.same(f"it is lost, where the disk has {back}", site.finished(job, 60), 255)
        tally.same("and ran once", cluster.where(job), ["n1"])


def end_programs(cluster):
    """Ends what is at the ends of links to a node, and leaves its runners."""
    for pid in processes_with(f"{cluster.folder}/n1.conf"):
        os.kill(pid, signal.SIGKILL)


SCENES = {it.__name__: it for it in (nodes, node_kills, node_counts, node_disks, node_power_cut)}
