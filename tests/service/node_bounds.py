"""Scenes of what a job may take of its node: descriptors and room of the service, process groups without number, folders that stay."""
import glob
import json
import os
import pwd
import signal
import time

from tests.service.cluster import Cluster
from tests.service.hangs import read, write
from tests.service.node_answers import Asked, order
from tests.service.nodes import make
from tests.service.scenes import OTHER, as_user, is_root
from tests.service.sites import stat_of, until

FLOOD = 4 * 1024 * 1024
# in place of sudo's: each call takes as long as one of sudo on a busy machine
STOP = '#!/bin/sh\necho called >> {folder}/called\nsleep 0.2\nkill -s "$@"\n'
# `timeout` makes a group of its own; half of them are started again when they end, by processes that ignore SIGTERM
GROUPS = """trap '' TERM
number=0
while [ $number -lt {count} ]; do
    number=$((number + 1))
    if [ $((number % 2)) = 0 ]; then
        (while :; do timeout -s KILL 900 sleep 300; done) &
    else
        timeout -s KILL 900 sleep 300 &
    fi
done
sleep 2
echo $$ > {folder}/ready
wait
"""


def flood(descriptor):
    """Writes much to a descriptor that waits for nobody; how much it took."""
    os.set_blocking(descriptor, False)
    taken, end = 0, time.monotonic() + 2
    while taken < FLOOD and time.monotonic() < end:
        try:
            taken += os.write(descriptor, b"x" * 65536)
        except BlockingIOError:
            time.sleep(0.01)
        except BrokenPipeError:
            break
    return taken


def long_logs(tally, federation):
    """A process that has the streams of a job's shell, before the job's files are there, fills neither the node's folder nor its
    program."""
    Cluster(federation.folder)
    folder = federation.folder
    fifo = f"{folder}/fifo"
    os.mkfifo(fifo)
    node = Asked(f"{folder}/n1.conf")
    run = node.ask("prepare", b"ls -l /proc/$$/fd /proc/$PPID/fd > seen; exit 5\n", id="1.a", order=order(folder, facts={"out": fifo}))
    node.said("start", id="1.a", nonce=run["nonce"])
    pid = until(lambda: json.loads(read(f"{folder}/n1/1.a/started") or "{}").get("pid"), 10, "the shell is there")
    time.sleep(1)  # it waits for somebody who reads the pipe
    streams = [os.readlink(f"/proc/{pid}/fd/{number}") for number in (0, 1, 2)]
    tally.same("its shell has no file of the node", [it for it in streams if it.startswith(f"{folder}/n1")], [])
    for number in (1, 2):
        descriptor = os.open(f"/proc/{pid}/fd/{number}", os.O_WRONLY | os.O_APPEND)
        flood(descriptor)
        os.close(descriptor)
    size = sum(os.stat(path).st_size for path in glob.glob(f"{folder}/n1/1.a/*"))
    tally.true(f"a flood takes no room there: {size} bytes", size < 100_000)
    reader = os.open(fifo, os.O_RDWR)
    node.wait("1.a", "ended", 60)
    told = node.ask("look", ids=["1.a"])["runs"]["1.a"]
    tally.true(f"what is told of it is short: {len(told.get('log', ''))}", len(told.get("log", "")) <= 300)
    tally.same("the script ends as ever", told["status"], 5)
    os.close(reader)
    tally.same("and has no descriptor of the node", [line for line in read(f"{folder}/seen").splitlines() if f"{folder}/n1" in line and "/own/script" not in line], [])
    run = node.ask("prepare", b"sleep 100\n", id="2.a", order=order(folder))
    node.said("start", id="2.a", nonce=run["nonce"])
    until(lambda: os.path.exists(f"{folder}/n1/2.a/going"), 10, "another runs")
    with open(f"{folder}/n1/2.a/log", "ab") as file:
        file.truncate(1 << 32)
    node.said("end", id="2.a")
    node.wait("2.a", "ended")
    tally.true("a log that is long is not read whole", len(node.ask("look", ids=["2.a"])["runs"]["2.a"]["log"]) <= 2000)
    node.end()


def many_groups(tally, federation):
    """A job has 400 process groups, half of which are started again: they are ended in a few calls, also when the runner is killed."""
    if not is_root(tally):
        return
    folder = federation.folder
    write(f"{folder}/stop", STOP.format(folder=folder), 0o755)
    os.chmod(folder, 0o777)
    start = f"setpriv --reuid={{user}} --regid={pwd.getpwnam(OTHER).pw_gid} --clear-groups"
    (site,) = federation.make("argonne:4", jobs=f"start = {start}\nleast_uid = 0\nstop = {folder}/stop {{signal}} -- -{{pid}}")

    def begin(*words):
        if os.path.exists(f"{folder}/ready"):
            os.remove(f"{folder}/ready")
        job = site.utility("qsub", *words, given=GROUPS.format(count=400, folder=folder), before=as_user(OTHER), cwd="/tmp")[1].strip()
        until(lambda: read(f"{folder}/ready").strip(), 60, "all groups are there")
        return job, json.loads(read(f"{folder}/argonne/spool/runs/{job}/started"))["pid"]

    def left(session):
        return [name for name in os.listdir("/proc") if name.isdigit() and (stat_of(int(name)) or (0, 0))[0] == session]

    job, session = begin("-l", "walltime=12", "-o", "/dev/null", "-e", "/dev/null")
    tally.true(f"it has many processes: {len(left(session))}", len(left(session)) > 400)
    began, before = time.monotonic(), read(f"{folder}/called").count("called")
    tally.same("it is ended by force", site.finished(job, 300), 137)
    spent, calls = time.monotonic() - began, read(f"{folder}/called").count("called") - before
    tally.true(f"soon, and by few calls: {spent:.1f} s, {calls} calls", spent < 25 and calls < 40)
    tally.same("nothing of it is left", left(session), [])
    job, session = begin("-o", "/dev/null", "-e", "/dev/null")
    began = time.monotonic()
    os.kill(json.loads(read(f"{folder}/argonne/spool/runs/{job}/runner"))["pid"], signal.SIGKILL)
    tally.same("when its runner is killed it is lost", site.finished(job, 300), 255)
    tally.true(f"as soon: {time.monotonic() - began:.1f} s", time.monotonic() - began < 20)
    tally.same("and leaves nothing either", left(session), [])


def busy_folders(tally, federation):
    """A node that has a job answers others `busy`, and keeps nothing of them; what an older program left is cleared; and what is just
    being forgotten isn't taken for a fault."""
    cluster, folder = Cluster(federation.folder), federation.folder
    node = Asked(f"{folder}/n1.conf")
    run = node.ask("prepare", b"sleep 3\n", id="1.a", order=order(folder))
    node.said("start", id="1.a", nonce=run["nonce"])
    for number in range(2, 8):
        tally.same("another is told so", node.said("prepare", b"x", id=f"{number}.a", order=order(folder)), "busy")
    tally.same("and nothing of it stays", sorted(it for it in os.listdir(f"{folder}/n1") if it.endswith(".a")), ["1.a"])
    os.mkdir(f"{folder}/n1/9.a")
    os.utime(f"{folder}/n1/9.a", (0, 0))
    tally.same("nor is it told of", list(node.ask("hello")["runs"]), ["1.a"])
    tally.same("an old one is cleared", os.path.exists(f"{folder}/n1/9.a"), False)
    node.wait("1.a", "ended")
    tally.same("a run is forgotten", node.said("forget", id="1.a", nonce=run["nonce"]), "done")
    node.end()
    site = make(federation, cluster)
    jobs = [cluster.submit(site) for _ in range(90)]
    tally.same("many short jobs", sum(site.finished(job, 120) for job in jobs), 0)
    tally.same("none of them is taken for one that runs still", "runs it still" in site.logged(), False)
    tally.same("nodes keep nothing of them", until(lambda: not glob.glob(f"{folder}/n?/*.argonne"), 20, "all are forgotten"), True)


SCENES = {it.__name__: it for it in (long_logs, many_groups, busy_folders)}
