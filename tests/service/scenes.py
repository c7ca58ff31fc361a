"""Worked scenes of the service: who may ask what, how jobs run, what happens when processes are killed, and peers."""
import json
import os
import pwd
import resource
import shutil
import signal
import subprocess
import time

from tests.service.sites import SERVICE, Unasked, stat_of, until

OTHER, OPERATOR = "nobody", "games"
ME = pwd.getpwuid(os.getuid()).pw_name


def as_user(name):
    """The words that run a program as another user, in its first group alone."""
    user = pwd.getpwnam(name)
    return ["setpriv", f"--reuid={user.pw_uid}", f"--regid={user.pw_gid}", "--clear-groups"]


def read(path):
    """What a file has."""
    with open(path, encoding="utf-8") as file:
        return file.read()


def is_root(tally):
    """Whether other users can be played here."""
    if os.getuid():
        tally.fail("this needs root, since other users are played by setpriv")
    return os.getuid() == 0


def users(tally, federation):
    """Who may ask what: other users, operators, the site's own account."""
    if not is_root(tally):
        return
    (site,) = federation.make("argonne:8", jobs="run = no", operators=OPERATOR)
    job = site.submit("true\n")

    def other(*words, user=OTHER, role=None, given=""):
        environment = {"NETTLEBEAM_ROLE": role} if role else {}
        name, words = (words[0], words[1:]) if words[0] in ("qsub", "qdel", "qhold", "qstat") else ("qask", words)
        return site.utility(name, *words, given=given, before=as_user(user), environment=environment)

    tally.same("another user lists", other("qstat")[0], 0)
    tally.same("another user can't delete", other("qdel", job)[:2], (1, "refused 2\n"))
    for role in ("operator", "admin"):
        tally.same(f"another user is no {role}", other("qdel", job, role=role)[:2], (2, ""))
    tally.same("another user's job is that user's", other("qsub", given="true\n")[:2], (0, "2.argonne\n"))
    tally.same("its owner", site.jobs("2")["2.argonne"]["owner"], OTHER)
    tally.same("no other user is named", other("qask", "root", "qdel", job)[:2], (2, ""))
    for words in ("grant 1 argonne", "begin 1 0", "finish 1 0 0", "handback 1", "decline 1", "retire 1 1", "ship argonne", "take x", "script 1.argonne argonne"):
        tally.same(f"another user can't ask {words}", other(*words.split())[:2], (2, ""))
    for words in ("jobs qsub", "why qsub -h", "why qsub 5", "seen qsub", "machine qsub", "chart qsub", "reservations qsub", "plan qsub"):
        tally.same(f"{words} submits nothing", other(*words.split())[:2], (2, ""))
    for words in (["qstat", "a b"], ["qstat", ""], ["qstat", "a\nroot qdel 1.argonne"], ["qhold", "1\t2"], ["qstat", "\u00e4"]):
        tally.same(f"{words!r} is no line", other(*words)[:2], (2, ""))
    tally.same("reserve needs a role", other("reserve", "argonne", "5", "9", "1")[:2], (2, ""))
    tally.same("an operator reserves", other("reserve", "argonne", "5", "9", "1", user=OPERATOR, role="operator")[0], 0)
    tally.same("an operator is no administrator", other("qhold", "-h", "s", job, user=OPERATOR, role="admin")[:2], (2, ""))
    tally.same("an operator holds", other("qhold", "-h", "o", job, user=OPERATOR, role="operator")[:2], (0, "done\n"))
    tally.same("without the role nobody is one", other("qhold", "-h", "o", job, user=OPERATOR)[:2], (1, "refused 2\n"))
    nameless = ["setpriv", "--reuid=54321", "--regid=54321", "--clear-groups"]
    tally.same("a user without a name", site.utility("qsub", given="true\n", before=nameless)[0], 2)
    spool = f"{site.home}/spool"
    for words in (["ls", spool], ["cat", f"{spool}/scripts/{job}"], ["touch", f"{spool}/x"], ["ls", f"{site.home}/site"]):
        if words[-1] != f"{site.home}/site" or os.stat(words[-1]).st_mode & 0o007 == 0:
            done = subprocess.run([*as_user(OTHER), *words], capture_output=True, check=False)
            tally.true(f"another user can't {' '.join(words[:1])}", done.returncode)
    tally.same("nothing else was kept", len(site.jobs()), 2)


def runs(tally, federation):
    """How a job runs: its environment, its files, its status, its time, its end."""
    (site,) = federation.make("argonne:4", jobs="hosts = h1 h2 h3 h4")
    folder = f"{federation.folder}/work"
    os.mkdir(folder)
    script = "#!/bin/sh\n#PBS -l nodes=2\n#PBS -N first\n#PBS -l walltime=0:01:40\n" 'env; pwd; umask; cat "$PBS_NODEFILE"; echo bad >&2; exit 7\n'
    with open(f"{folder}/script.sh", "w", encoding="ascii") as file:
        file.write(script)
    done = site.utility("qsub", "-l", "walltime=200", "script.sh", cwd=folder, preexec_fn=lambda: os.umask(0o027))
    tally.same("qsub of a file", done, (0, "1.argonne\n", ""))
    tally.same("its status", site.finished("1.argonne"), 7)
    job = site.jobs("1")["1.argonne"]
    tally.same("its values", (job["name"], job["nodes"], job["limit"]), ("first", 2, 200))
    lines = read(f"{folder}/first.o1").splitlines()
    wanted = ["PBS_ENVIRONMENT=PBS_BATCH", "PBS_JOBID=1.argonne", "PBS_JOBNAME=first", f"PBS_O_LOGNAME={ME}", f"PBS_O_WORKDIR={folder}"]
    tally.same("its environment", [it for it in wanted if it not in lines], [])
    tally.same("its folder, umask and hosts", lines[-4:], [folder, "0027", "h1", "h2"])
    tally.same("its errors", read(f"{folder}/first.e1"), "bad\n")
    tally.same("its output is made with its umask", oct(os.stat(f"{folder}/first.o1").st_mode & 0o777), "0o640")
    place = next(line for line in lines if line.startswith("TMPDIR=")).partition("=")[2]
    tally.true("its own folder is gone", not os.path.exists(place))
    tally.same("a name of the file", site.utility("qsub", "script.sh", "-x", cwd=folder)[0], 0)
    tally.same("options behind the file aren't read", site.jobs()[max(site.jobs(), key=lambda it: int(it.split(".")[0]))]["name"], "first")
    slow = site.submit("sleep 60\n", "-N", "slow", "-l", "walltime=1", folder=folder)
    tally.same("its time is over", site.finished(slow), 143)
    stubborn = site.submit("trap '' TERM; while :; do sleep 0.2; done\n", "-N", "hard", "-l", "walltime=1", folder=folder)
    tally.same("it is ended by force", site.finished(stubborn), 137)
    job = site.submit("sleep 60\n", "-N", "gone", folder=folder)
    until(lambda: site.jobs(job)[job]["letter"] == "R", 20, "the job runs")
    site.ask("qdel", job)
    tally.same("a deleted job is ended", site.finished(job), 143)
    left = site.submit(f"(sleep 300 & echo $! > {folder}/pid); exit 0\n", "-N", "left", folder=folder)
    tally.same("a job that leaves a process", site.finished(left), 0)
    tally.true("which is ended", not stat_of(int(read(f"{folder}/pid"))))
    without = site.said("qsub").strip()
    tally.same("a job without a script", site.finished(without), 255)
    binary = site.ask("qsub", "-N", "binary", body=b"#!/bin/cat\n\xff\x00\xfe\n", facts={"folder": folder}).answer.decode().strip()
    tally.same("a script of any bytes", site.finished(binary), 0)
    with open(f"{folder}/binary.o{binary.split('.')[0]}", "rb") as file:
        tally.same("is run as it is", file.read(), b"#!/bin/cat\n\xff\x00\xfe\n")
    jobs = [site.submit('cat "$PBS_NODEFILE"; sleep 1\n', "-N", "host", "-l", "nodes=2", folder=folder) for _ in range(2)]
    for name in jobs:
        site.finished(name)
    hosts = [read(f"{folder}/host.o{name.split('.')[0]}").split() for name in jobs]
    both = site.jobs(*jobs)
    if abs(both[jobs[0]]["begun"]["moment"] - both[jobs[1]]["begun"]["moment"]) < 1:
        tally.same("no host has two jobs", sorted(hosts[0] + hosts[1]), ["h1", "h2", "h3", "h4"])
    limits = site.submit("ulimit -Sn\n", "-N", "limits", folder=folder)
    tally.same("a job that tells its limits", site.finished(limits), 0)
    most = resource.getrlimit(resource.RLIMIT_NOFILE)[0]
    told = read(f"{folder}/limits.o{limits.split('.')[0]}").strip()
    tally.same("has as many files as the service was started with", told, "unlimited" if most == resource.RLIM_INFINITY else str(most))
    lost = site.submit("true\n", "-N", "nowhere", folder="/does/not/exist")
    tally.same("a folder that isn't there", site.finished(lost), 0)
    for kind in "oe":
        path = os.path.expanduser(f"~/nowhere.{kind}{lost.split('.')[0]}")
        tally.true("the output is at home then", os.path.exists(path))
        if os.path.exists(path):
            os.remove(path)


def owners(tally, federation):
    """A job runs as its owner."""
    if not is_root(tally):
        return
    start = "start = setpriv --reuid={user} --regid=nogroup --clear-groups"
    (site,) = federation.make("argonne:4", jobs=start)
    folder = f"{federation.folder}/hers"
    os.mkdir(folder)
    user = pwd.getpwnam(OTHER)
    os.chown(folder, user.pw_uid, user.pw_gid)
    done = site.utility("qsub", "-N", "mine", given="id -un; ls -l /proc/self/fd >&2\n", before=as_user(OTHER), cwd=folder)
    tally.same("another user submits", done[:2], (0, "1.argonne\n"))
    tally.same("and it runs", site.finished("1.argonne"), 0)
    tally.same("as that user", read(f"{folder}/mine.o1"), f"{OTHER}\n")
    tally.same("whose the output is", os.stat(f"{folder}/mine.o1").st_uid, user.pw_uid)
    tally.true("without a file of the spool", "spool" not in read(f"{folder}/mine.e1"))
    site.submit("true\n")
    time.sleep(3)
    tally.same("nothing is run as root", [job["letter"] for job in site.jobs().values() if job["owner"] == "root"], ["Q"])


def one_owner(tally, federation):
    """Where nothing runs scripts as their owners, only the service's own jobs run."""
    if not is_root(tally):
        return
    (site,) = federation.make("argonne:4")
    whole = {"before": as_user(OTHER), "cwd": "/", "given": f"id > {federation.folder}/never\n"}
    tally.same("another user submits", site.utility("qsub", "-l", "nodes=4", **whole)[0], 0)
    mine = site.submit("true\n", "-p", "-5")
    tally.same("the service's own job runs, though the other stands before it", site.finished(mine), 0)
    tally.same("the other's is left alone", site.jobs("1")["1.argonne"]["letter"], "Q")
    tally.true("and the log says so", "left alone" in site.logged())


def kills(tally, federation):
    """What happens when processes are killed."""
    (site,) = federation.make("argonne:4")
    ran = f"{federation.folder}/ran"
    job = site.submit(f"echo $PBS_JOBID >> {ran}; sleep 3; exit 5\n")
    until(lambda: os.path.exists(ran), 20, "the job runs")
    site.kill()
    time.sleep(0.3)
    site.start()
    site.wait_ready()
    tally.same("a job outlives the daemon", site.finished(job), 5)
    job = site.submit(f"echo $PBS_JOBID >> {ran}; sleep 1; exit 6\n")
    until(lambda: site.jobs(job)[job]["letter"] == "R" and read(ran).count("\n") == 2, 20, "the job runs")
    site.kill()
    time.sleep(2)
    site.start()
    site.wait_ready()
    tally.same("a job ends while no daemon is there", site.finished(job), 6)
    job = site.submit(f"echo $PBS_JOBID >> {ran}; echo $$ > {ran}.pid; sleep 300\n")
    until(lambda: os.path.exists(f"{ran}.pid") and read(f"{ran}.pid"), 20, "the job runs")
    with open(f"{site.home}/spool/runs/{job}/runner", encoding="ascii") as file:
        os.kill(json.load(file)["pid"], signal.SIGKILL)
    tally.same("a runner is killed", site.finished(job), 255)
    tally.true("and its script with it", not stat_of(int(read(f"{ran}.pid"))))
    second = subprocess.run([f"{SERVICE}/nettlebeamd", site.config], capture_output=True, check=False)
    tally.same("a second service of the site ends", second.returncode, 3)
    tally.same("and the first goes on", site.ask("qstat").status, 0)
    child = int(read(f"/proc/{site.process.pid}/task/{site.process.pid}/children").split()[0])
    os.kill(child, signal.SIGKILL)

    def told():
        try:
            return site.ask("qstat").status == 3
        except Unasked:
            return False

    until(told, 5, "a user is told that the site stopped")
    until(lambda: site.ask("qstat").status == 0, 20, "the site is started again")
    tally.same("all three were started once", sorted(read(ran).split()), sorted(set(read(ran).split())))
    site.kill(signal.SIGTERM)
    tally.same("the daemon ends in order", site.process.returncode, 0)


def peers(tally, federation):
    """Jobs go where there is room, and come back; a grant that isn't used is handed back."""
    federation.has_links = True
    argonne, lemont = federation.make("argonne:1", "lemont:2", jobs="handback = 3")
    ran = f"{federation.folder}/ran"
    jobs = [argonne.submit(f"echo $PBS_JOBID >> {ran}; sleep 1\n", "-N", "there") for _ in range(6)]
    sites = set()
    for job in jobs:
        tally.same(f"{job} ends", argonne.finished(job, 60), 0)
        sites.add(argonne.jobs(job)[job]["begun"]["site"])
    tally.same("both sites had some", sites, {"argonne", "lemont"})
    tally.same("each ran once", sorted(read(ran).split()), sorted(jobs))
    until(lambda: argonne.said("jobs") == lemont.said("jobs"), 20, "both tell the same")
    for words, status in (("ship", 0), ("finish 1.argonne 0 0", 2), ("ship lemont", 2), ("qdel 1.argonne", 2), ("", 2)):
        done = argonne.utility("nettlebeam-peer", "lemont", environment={"SSH_ORIGINAL_COMMAND": words})
        tally.same(f"a peer asks {words!r}", done[0], status)
    federation.cut("lemont", "argonne")
    far = argonne.submit("true\n", "-l", "nodes=2,sites=lemont")
    until(lambda: far in lemont.jobs(), 20, "lemont knows of the job")
    time.sleep(2)
    tally.same("without a link nothing begins", lemont.jobs(far)[far]["letter"], "Q")
    federation.join("lemont", "argonne")
    tally.same("with the link it does", argonne.finished(far, 60), 0)
    tally.true("its output is where the site keeps that of others", os.path.exists(f"{federation.folder}/STDIN.o{far}"))


def passing(tally, federation):
    """A job that can't be had doesn't keep the machine from others."""
    federation.has_links = True
    argonne, lemont = federation.make("argonne:1", "lemont:2")
    far = argonne.submit("exit 3\n", "-h", "-l", "nodes=2,sites=lemont", "-p", "9")
    until(lambda: far in lemont.jobs(), 20, "lemont knows of the job")
    federation.cut("lemont", "argonne")
    federation.cut("argonne", "lemont")
    lemont.ask("qrls", far)
    near = [lemont.submit("sleep 1; exit 4\n", "-l", "sites=lemont") for _ in range(3)]
    for job in near:
        tally.same("a job of the site itself runs while the link is down", lemont.finished(job, 60), 4)
    tally.same("the other waits", lemont.jobs(far)[far]["letter"], "Q")
    tally.true("by a plan without it", "knows no plan" not in lemont.logged())
    federation.join("lemont", "argonne")
    federation.join("argonne", "lemont")
    tally.same("until the link is up", lemont.finished(far, 60), 3)


def backups(tally, federation):
    """No packet leaves that a backup is behind of."""
    federation.has_links = True
    broken, command = (f"{federation.folder}/{name}" for name in ("broken", "backup"))
    with open(command, "w", encoding="ascii") as file:
        file.write(f'#!/bin/sh\n[ ! -e {broken} ] && cp "$1" "$2.new" && mv "$2.new" "$2"\n')
    os.chmod(command, 0o755)
    backup = f"backup = {command} {{home}}/site/journal {{home}}/copy"
    argonne, lemont = federation.make("argonne:1", "lemont:2", jobs="run = no", site=f"[site]\n{backup}")
    job = argonne.submit("true\n")
    until(lambda: job in lemont.jobs(), 20, "lemont knows of the job")
    tally.true("the backup has the job", " qsub" in read(f"{argonne.home}/copy"))
    with open(broken, "w", encoding="ascii"):
        pass
    job = argonne.submit("true\n")
    time.sleep(3)
    tally.true("without a backup no packet leaves", job not in lemont.jobs())
    tally.same("also where it is fetched", argonne.utility("nettlebeam-peer", "lemont", "ship")[:2], (3, ""))
    os.remove(broken)
    until(lambda: job in lemont.jobs(), 20, "lemont knows of the job once there is a backup")


def restored(tally, federation):
    """A site that is restored from a backup which doesn't know that a job began never starts the job again."""
    (site,) = federation.make("argonne:4", jobs="run = no")
    ran = f"{federation.folder}/ran"
    job = site.submit(f"echo $PBS_JOBID >> {ran}; exit 4\n")
    site.kill(signal.SIGTERM)
    shutil.copy(f"{site.home}/site/journal", f"{federation.folder}/old")
    with open(site.config, encoding="ascii") as file:
        text = file.read().replace("run = no", "run = yes")
    with open(site.config, "w", encoding="ascii") as file:
        file.write(text)
    site.start()
    site.wait_ready()
    tally.same("the job runs", site.finished(job), 4)
    site.kill(signal.SIGTERM)
    shutil.copy(f"{federation.folder}/old", f"{site.home}/site/journal")
    site.start()
    site.wait_ready()
    tally.same("after the restoration it is finished as it ended", site.finished(job), 4)
    tally.same("it ran once", read(ran), f"{job}\n")
    site.kill(signal.SIGTERM)
    shutil.copy(f"{federation.folder}/old", f"{site.home}/site/journal")
    without_end(f"{site.home}/spool/begun/{job}")
    site.start()
    site.wait_ready()
    tally.same("or as lost, where that isn't known", site.finished(job), 255)
    tally.same("and ran once", read(ran), f"{job}\n")
    os.mkdir(f"{federation.folder}/x")
    subprocess.run([site.federation.program, "init", f"{federation.folder}/x/site", "argonne", "argonne:4"], check=True)
    site.kill(signal.SIGTERM)
    shutil.copy(f"{federation.folder}/x/site/journal", f"{site.home}/site/journal")
    site.start()
    site.wait_ready()
    other = site.submit(f"echo other >> {ran}; exit 5\n")
    tally.same("another job may get the name", other, job)
    tally.same("and runs", site.finished(other), 5)


def without_end(path):
    """Has a record of a job's start tell nothing of its end, as where the service was killed before that."""
    record, ended = read(path).splitlines(True)
    assert json.loads(ended)["exit"]
    with open(path, "w", encoding="ascii") as file:
        file.write(record)


def folders(tally, federation):
    """Two sites that share a folder and nothing else."""
    shared = f"{federation.folder}/shared"
    os.mkdir(shared)
    federation.folders = shared
    argonne, lemont = federation.make("argonne:1", "lemont:2")
    job = argonne.submit("echo $PBS_JOBID > /dev/null; exit 9\n", "-l", "nodes=2,sites=lemont", "-N", "far")
    tally.same("a job is granted and run by files", argonne.finished(job, 60), 9)
    tally.same("at the other site", argonne.jobs(job)[job]["begun"]["site"], "lemont")


SCENES = {it.__name__: it for it in (users, runs, owners, one_owner, kills, peers, passing, backups, restored, folders)}
