"""Scenes of how jobs are ended: by a command that hangs, and with all process groups of their sessions."""
import glob
import json
import os
import pwd
import shutil
import signal

from tests.service.cluster import NODE, Cluster
from tests.service.hangs import read, write
from tests.service.node_accounts import RULES, SUDOERS, has_program
from tests.service.listings import read_full
from tests.service.nodes import HOSTS, line_of, make
from tests.service.pbs import text_of, work_in
from tests.service.scenes import ME, OPERATOR, OTHER, as_user, is_root
from tests.service.sites import stat_of, until
from tests.service.waits import qsub

# a process of the job in a group of its own, as `timeout` makes one
GROUPS = """for number in 1 2; do
    timeout 300 sh -c 'echo $$ > {pids}/'$number'; exec sleep 299' &
done
while [ ! -s {pids}/1 ] || [ ! -s {pids}/2 ]; do sleep 0.1; done
echo $$ > {pids}/ready
"""


def hanging_stops(tally, federation):
    """A command that is to send a signal hangs: it is ended and called again, and then the job is ended without it."""
    stop = f"{federation.folder}/stop"
    write(stop, f"#!/bin/sh\necho called >> {federation.folder}/called\nexec sleep 600\n", 0o755)
    (site,) = federation.make("argonne:4", jobs=f"start = env\nleast_uid = 0\nstop = {stop}")
    job = site.submit("sleep 300\n", "-l", "walltime=1")
    tally.same("the job is ended", site.finished(job, 180), 143)
    tally.true("the command was called again", read(f"{federation.folder}/called").count("called") >= 2)
    tally.true("and the log says what hung", "no end within 15 s; it is called again" in site.logged())


def end_groups(tally, federation, before):
    """Jobs of another user than the account of the nodes, which leave processes in groups of their own. `before` is what the node's
    program is started by."""
    cluster, folder, rule = Cluster(federation.folder), federation.folder, f"{RULES}/nettlebeam-test-{os.getpid()}"
    account = pwd.getpwnam(OPERATOR)
    for host in HOSTS:
        cluster.configure(host, start="sudo -n -u {user} --", stop="sudo -n -u {user} -- /bin/kill -s {signal} -- -{pid}", least_uid=1000)
        os.mkdir(f"{folder}/{host}", 0o700)
        os.chown(f"{folder}/{host}", account.pw_uid, account.pw_gid)
    write(rule, SUDOERS.format(account=OPERATOR, owner=OTHER), 0o440)
    try:
        site = make(federation, cluster, " ".join([*before, *as_user(OPERATOR), NODE, "--config", f"{folder}/{{host}}.conf"]))
        end_three(tally, federation, site)
    finally:
        os.remove(rule)


def end_three(tally, federation, site):
    """A job ends by itself, one by its time, and of one the runner is killed: none leaves a process."""

    def start(name, rest, *words):
        pids = f"{federation.folder}/{name}"
        os.mkdir(pids)
        os.chmod(pids, 0o777)
        given = GROUPS.format(pids=pids) + rest
        job = site.utility("qsub", *words, given=given, before=as_user(OTHER), cwd=pids)[1].strip()
        until(lambda: os.path.exists(f"{pids}/ready"), 30, f"the job {name} has started processes")
        return job, [int(read(f"{pids}/{number}")) for number in (1, 2)]

    def alive(pids):
        return [pid for pid in pids if stat_of(pid)]

    job, pids = start("ended", "exit 4\n")
    tally.same("a job ends by itself", site.finished(job, 60), 4)
    tally.same("and leaves no process", alive(pids), [])
    job, pids = start("over", "sleep 300\n", "-l", "walltime=2")
    tally.same("the time of one is over", site.finished(job, 60), 143)
    tally.same("and it leaves none", alive(pids), [])
    job, pids = start("killed", "sleep 300\n")
    (runner,) = glob.glob(f"{federation.folder}/n*/{job}/runner") + glob.glob(f"{federation.folder}/n*/*/{job}/runner")
    with open(runner, encoding="ascii") as file:
        os.kill(json.load(file)["pid"], signal.SIGKILL)
    tally.same("the runner of one is killed", site.finished(job, 60), 255)
    tally.same("and it leaves none", alive(pids), [])


def may_use_sudo(tally, scene):
    """Whether a scene with sudo can be played here."""
    return has_program(tally, scene, shutil.which("sudo"), "sudo", "NETTLEBEAM_NEEDS_SUDO") and is_root(tally)


def sudo_groups(tally, federation):
    """With sudo what a job leaves in other process groups of its session is ended by `stop` for each group."""
    if may_use_sudo(tally, "sudo_groups"):
        end_groups(tally, federation, [])


def hidden_groups(tally, federation):
    """The same where /proc hides the processes of other users from the account of the node."""
    if may_use_sudo(tally, "hidden_groups"):
        hide = f"{federation.folder}/hide"
        write(hide, '#!/bin/sh\nmount -t proc -o hidepid=2 proc /proc && exec "$@"\n', 0o755)
        end_groups(tally, federation, ["unshare", "-m", hide])


def ends_say_why(tally, federation):
    """A job that didn't end by itself says why in its file of errors and in its comment, and one that did says nothing."""
    cluster = Cluster(federation.folder)
    site = make(federation, cluster)
    folder = work_in(federation)

    def said(job):
        number = job.split(".")[0]
        until(lambda: site.jobs(job)[job]["finished"], 60, f"{job} ends")
        text = lambda: text_of(folder, f"STDIN.e{number}")  # noqa: E731
        comment = read_full(site.utility("qstat", "-xfw", job)[1])[job]["comment"]
        until(lambda: not comment.startswith("nettlebeam: ") or text().count(comment) == 1 and text().endswith(f"{comment}\n"), 20, f"{job} says {comment} in its file, too")
        return comment if comment.startswith("nettlebeam: ") else text()

    def running(*words):
        job = qsub(site, folder, *words, script="exec sleep 300\n")
        until(lambda: (site.jobs(job)[job]["begun"] and text_of(folder, f"STDIN.e{job.split('.')[0]}") is not None), 30, f"{job} runs")
        return job

    tally.same("one that ends by itself", said(qsub(site, folder, script="exit 143\n")), "")
    tally.same("its time", said(running("-l", "walltime=2")), "nettlebeam: walltime 2 exceeded")
    joined = qsub(site, folder, "-l", "walltime=5", "-j", "oe", script="trap 'exit 0' TERM; while :; do sleep 0.1; done\n")
    tally.same("also if its script ends well then", (site.finished(joined), "exceeded" in read_full(site.utility("qstat", "-xf", joined)[1])[joined]["comment"]), (0, True))
    until(lambda: text_of(folder, f"STDIN.o{joined.split('.')[0]}").endswith("nettlebeam: walltime 5 exceeded\n"), 20, "where errors are the output it is there")
    job = running()
    site.ask("qdel", job)
    tally.same("its owner", said(job), f"nettlebeam: deleted by {ME}")
    if is_root(tally):
        job = running()
        site.utility("qdel", job, before=as_user(OTHER))
        tally.same("an operator, and not who wasn't allowed to", site.utility("qdel", job, before=as_user(OPERATOR), environment={"NETTLEBEAM_ROLE": "operator"})[0], 0)
        tally.same("who is named", said(job), f"nettlebeam: deleted by {OPERATOR}")
    lost_ones(tally, cluster, site, running, said)


def lost_ones(tally, cluster, site, running, said):
    """Jobs whose runner, or whose node, is lost."""
    job = running()
    (runner,) = glob.glob(f"{cluster.folder}/n*/{job}/runner")
    with open(runner, encoding="ascii") as file:
        os.kill(json.load(file)["pid"], signal.SIGKILL)
    tally.same("its runner", said(job), "nettlebeam: lost: what watched it at n1 was killed")
    job = running()
    cluster.switch_off("n1")
    until(lambda: line_of(site, "n1").startswith("n1 ") and " down " in line_of(site, "n1"), 60, "its node is off")
    cluster.switch_on("n1")
    tally.same("its node", said(job), "nettlebeam: lost: n1 was started anew")


SCENES = {it.__name__: it for it in (hanging_stops, sudo_groups, hidden_groups, ends_say_why)}
