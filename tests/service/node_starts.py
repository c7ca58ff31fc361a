"""Scenes of starts that fail: a job ends by its own script's status, its limit, an order, or the loss of its node, and by nothing
else as long as some node starts it."""
import os
import subprocess
import time

from tests.service.cluster import Cluster
from tests.service.hangs import write
from tests.service.nodes import line_of, make
from tests.service.scenes import OTHER, as_user, is_root, read
from tests.service.moments import PORT, read_page
from tests.service.sites import until

# what runs a script, and fails while a file says so: always, for jobs alone, or by hanging
START = """#!/bin/sh
# start HOST ID COMMAND ..
host=$1 id=$2
shift 2
case $(cat {folder}/$host.fails 2> /dev/null),$id in
always,*) echo "no slot is free at $host" >&2; exit 1;;
jobs,trial*|jobs,*helper) ;;
jobs,*) echo "no slot is free at $host" >&2; exit 1;;
hangs,trial*) ;;
hangs,*) exec sleep 600;;
esac
NODE=$host exec "$@"
"""


def fail(cluster, host, how):
    """Has starts of a node fail, or not."""
    path = f"{cluster.folder}/{host}.fails"
    if how:
        write(f"{path}.new", how)
        os.rename(f"{path}.new", path)
    elif os.path.exists(path):
        os.remove(path)


def with_starts(federation, **more):
    """A site with three nodes whose starts can be made to fail."""
    cluster = Cluster(federation.folder)
    write(f"{federation.folder}/start", START.format(folder=federation.folder), 0o755)
    for host in cluster.hosts:
        cluster.configure(host, start=f"{federation.folder}/start {host} {{id}}", **more)
    return cluster, make(federation, cluster, more=f"[page]\nport = {PORT}\n")


def failing_starts(tally, federation):
    """One of three nodes can't start anything: its jobs run on the others, and it says why."""
    cluster, site = with_starts(federation)
    for how in ("always", "jobs"):
        fail(cluster, "n1", how)
        jobs = [cluster.submit(site, status=number % 5) for number in range(12)]
        tally.same(f"when starts fail ({how}) all end as their scripts", [site.finished(job, 60) for job in jobs], [number % 5 for number in range(12)])
        places = sum((cluster.where(job) for job in jobs), [])
        tally.same("each ran once, and elsewhere", (len(places), "n1" in places), (12, False))
        told = line_of(site, "n1")
        tally.true(f"the node says whose jobs and why: {told}", "trouble since" in told and "no slot is free at n1" in told and "root" in told)
        tally.true("so does the page", "no slot is free at n1" in read_page("/")[1])
        tally.true("and what is measured", 'nettlebeam_node_trouble{node="n1"} 1' in read_page("/metrics")[1])
        tally.true("the log says it, too", "n1 is in trouble: no job of root is started there: no slot is free at n1" in site.logged())
        fail(cluster, "n1", "")
        until(lambda: "n1" in cluster.where(cluster.submit(site)) or " up" in line_of(site, "n1"), 90, "once it starts jobs it has some")
    tally.true("no job was said to have ended by that", "never ran" not in site.logged())


def failing_for_all(tally, federation):
    """No node starts anything for a while: jobs wait, begun ones too, and then run, each once."""
    cluster, site = with_starts(federation)
    for host in cluster.hosts:
        fail(cluster, host, "jobs")
    jobs = [cluster.submit(site, status=4) for _ in range(6)]
    until(lambda: all("trouble" in line_of(site, host) for host in cluster.hosts), 30, "all nodes are in trouble")
    time.sleep(5)
    tally.same("none has ended", [job["finished"] for job in site.jobs(*jobs).values()], [None] * 6)
    for host in cluster.hosts:
        fail(cluster, host, "")
    tally.same("then they run", [site.finished(job, 120) for job in jobs], [4] * 6)
    tally.same("each once", [len(cluster.where(job)) for job in jobs], [1] * 6)


def never_started(tally, federation):
    """A begun job that nothing starts, however often it is tried, ends with 255; its files and its listing say why. One that is
    deleted meanwhile ends by that."""
    folder = federation.folder
    write(f"{folder}/start", START.format(folder=folder), 0o755)
    (site,) = federation.make("argonne:4", jobs=f"start = {folder}/start own {{id}}\nleast_uid = 0")
    cluster = Cluster(folder, ())
    fail(cluster, "own", "jobs")
    job = cluster.submit(site, "-N", "late")
    until(lambda: site.jobs(job)[job]["letter"] == "R", 20, "it has begun")
    gone = cluster.submit(site)
    other = cluster.submit(site)
    time.sleep(20)
    began = site.jobs(gone)[gone]["begun"]
    site.ask("qdel", gone)
    tally.same("one that is deleted meanwhile", site.finished(gone, 30) if began else 143, 143)
    tally.same("it is tried for two minutes, and then ends", site.finished(job, 180), 255)
    until(lambda: "no slot is free" in read_if(f"{folder}/late.e1"), 20, "its file of errors says why")
    until(lambda: "no slot is free" in site.utility("qstat", "-xf", job)[1], 20, "and so does its comment")
    tally.same("others wait, or are tried still", bool(site.jobs(other)[other]["finished"] and site.jobs(other)[other]["finished"]["status"] != 255), False)
    tally.same("nothing ran", os.path.exists(cluster.ran), False)
    fail(cluster, "own", "")
    last = cluster.submit(site, status=3)
    tally.same("a later job runs", site.finished(last, 200), 3)


def read_if(path):
    """What a file has; nothing if it isn't there."""
    return read(path) if os.path.exists(path) else ""


def hanging_starts(tally, federation):
    """A start that hangs is given up, and the job runs on another node."""
    cluster, site = with_starts(federation, grace=1)
    fail(cluster, "n1", "hangs")
    job = cluster.submit(site, status=6)
    tally.same("it ends as its script does", site.finished(job, 150), 6)
    tally.same("and ran once, elsewhere", (len(cluster.where(job)), "n1" in cluster.where(job)), (1, False))
    tally.true("the log says what hung", "no word within 60 s" in site.logged())


def full_temporary(tally, federation):
    """The folder of temporary files is full: jobs start all the same, and have one elsewhere."""
    if not is_root(tally):
        return
    folder = federation.folder
    place, own, home = (f"{folder}/{name}" for name in ("small", "own", "home"))
    for path in (place, own, home):
        os.mkdir(path)
        os.chmod(path, 0o1777)
    if subprocess.run(["mount", "-t", "tmpfs", "-o", "size=64k,mode=1777", "tmpfs", place], check=False).returncode:
        print("tests/service/rows: full_temporary: left out, since nothing can be mounted here")
        return
    try:
        with open(f"{place}/hers", "wb") as file:
            file.write(b"#" * os.statvfs(place).f_bavail * os.statvfs(place).f_frsize)
        start = f"{' '.join(as_user(OTHER))} env TMPDIR={place} HOME={home}"
        (site,) = federation.make("argonne:4", jobs=f"start = {start}\nleast_uid = 0")
        text = f'echo $PBS_JOBID >> {own}/ran; cat "$PBS_NODEFILE" > /dev/null && echo "$TMPDIR" >> {own}/places; exit 3\n'
        jobs = [site.utility("qsub", "-N", "it", given=text, before=as_user(OTHER), cwd=own)[1].strip() for _ in range(20)]
        tally.same("20 jobs end as their scripts", [site.finished(job, 60) for job in jobs], [3] * 20)
        tally.same("each ran once", sorted(read(f"{own}/ran").split()), sorted(jobs))
        places = read(f"{own}/places").split()
        tally.same("each had a folder of its own, elsewhere", (len(set(places)), [it for it in places if it.startswith(place)]), (20, []))
        until(lambda: not [it for it in places if os.path.exists(it)], 10, "which are gone")
    finally:
        subprocess.run(["umount", "-l", place], check=True)


BY_OWNER = """#!/bin/sh
# start USER COMMAND ..: fails for those whom a file names
user=$1
shift
if grep -q "^$user$" {folder}/failing 2> /dev/null; then echo "$user: account expired" >&2; exit 1; fi
exec setpriv --reuid="$user" --regid="$user" --clear-groups "$@"
"""


def by_owner(federation, hosts):
    """A site at whose nodes starts fail for some users."""
    folder = federation.folder
    write(f"{folder}/start", BY_OWNER.format(folder=folder), 0o755)
    write(f"{folder}/failing", "")
    os.mkdir(f"{folder}/all")
    os.chmod(f"{folder}/all", 0o1777)
    (site,) = federation.make(f"argonne:{hosts}", jobs=f"start = {folder}/start {{user}}\nleast_uid = 0")

    def submit(user, text):
        return site.utility("qsub", "-l", f"nodes={hosts}", given=text, before=as_user(user), cwd=f"{folder}/all")[1].strip()

    return site, submit


def one_owner_fails(tally, federation):
    """A user whose starts fail keeps nobody else from the machine; when those of three users fail it is set aside."""
    if not is_root(tally):
        return
    site, submit = by_owner(federation, 1)

    def fails(*users):
        write(f"{federation.folder}/failing.new", "".join(f"{user}\n" for user in users))
        os.rename(f"{federation.folder}/failing.new", f"{federation.folder}/failing")

    fails("games")
    jobs = [submit("games", "exit 4\n") for _ in range(7)]
    until(lambda: "games: account expired" in site.said("nodes"), 30, "the node is in trouble")
    others = [submit("daemon", f"exit {number}\n") for number in range(3)]
    tally.same("others run", [site.finished(job) for job in others], [0, 1, 2])
    tally.same("none of the first has ended", [job["finished"] for job in site.jobs(*jobs).values()], [None] * 7)
    fails("games", "bin", "sys")
    more = [submit(user, "exit 5\n") for user in ("bin", "sys")]
    until(lambda: "set aside until" in site.said("nodes"), 120, "the machine is set aside")
    last = submit("lp", "exit 6\n")
    fails()
    time.sleep(3)
    tally.same("nobody's jobs are tried then", site.jobs(last)[last]["finished"], None)
    tally.same("and later all run", [site.finished(job, 180) for job in (last, *jobs, *more)], [6, *[4] * 7, 5, 5])


def other_account(tally, federation):
    """If `start` changes no user, another user's job isn't run as the service's account."""
    if not is_root(tally):
        return
    (site,) = federation.make("argonne:4", jobs="start = nice -n 5\nleast_uid = 0")
    never = f"{federation.folder}/never"
    job = site.utility("qsub", given=f"id > {never}\n", before=as_user(OTHER), cwd="/")[1].strip()
    mine = site.submit("exit 3\n")
    tally.same("the service's own job runs", site.finished(mine), 3)
    until(lambda: "who could read and change the site" in site.logged(), 30, "the log says what is wrong")
    tally.same("the other's waits", (site.jobs(job)[job]["finished"], os.path.exists(never)), (None, False))


SCENES = {it.__name__: it for it in (failing_starts, failing_for_all, never_started, hanging_starts, full_temporary, one_owner_fails, other_account)}
