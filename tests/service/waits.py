"""Scenes of what waits: dependencies, times and arrays, with links that are down and services that are killed between two lines."""
import collections
import json
import os
import random
import re
import subprocess
import threading
import time

from tests.service.pbs import text_of, work_in
from tests.service.scenes import OPERATOR, OTHER, as_user, is_root, read
from tests.service.sites import Unasked, until

# a program in the place of the site's: at a line that a file names it kills the service, before the site has the line or behind
PROXY = """\
#!/usr/bin/python3 -IS
import os, signal, subprocess, sys
if sys.argv[1] != "serve" or "--help" in sys.argv:
    os.execv({program!r}, [{program!r}, *sys.argv[1:]])
site = subprocess.Popen([{program!r}, *sys.argv[1:]], stdin=subprocess.PIPE, stdout=subprocess.PIPE)
for line in sys.stdin.buffer:
    try:
        with open({trap!r}) as file:
            when, text = file.read().split(" ", 1)
    except OSError:
        when, text = "never", "."
    is_it = when != "never" and text.encode() in line
    if is_it:
        os.remove({trap!r})
    if is_it and when == "before":
        os.kill(os.getppid(), signal.SIGKILL)
        break
    site.stdin.write(line)
    site.stdin.flush()
    answer = site.stdout.readline()
    answer += site.stdout.read(sum(map(int, answer.split()[1:])))
    if is_it:
        os.kill(os.getppid(), signal.SIGKILL)
        break
    sys.stdout.buffer.write(answer)
    sys.stdout.buffer.flush()
site.stdin.close()
site.wait()
"""


def letter_of(site, job):
    """The letter of a job; None where it is gone."""
    return site.jobs(job)[job]["letter"]


def qsub(site, folder, *words, script="true\n", **how):
    """Submits by the utility; the identifier."""
    status, output, errors = site.utility("qsub", *words, given=script, cwd=folder, **how)
    if status:
        raise Unasked(errors)
    return output.strip()


def depends(tally, federation):
    """Each type of dependency, with jobs that end well, end badly, are lost and are deleted."""
    (site,) = federation.make("argonne:8")
    folder = work_in(federation)
    good, bad, gone = (qsub(site, folder, "-h", script=f"exit {status}\n") for status in (0, 3, 0))
    kinds = ("after", "afterok", "afternotok", "afterany")
    jobs = {(kind, job): qsub(site, folder, "-W", f"depend={kind}:{job}") for kind in kinds for job in (good, bad, gone)}
    both = qsub(site, folder, "-W", f"depend=afterok:{good},afterany:{bad}:{gone}")
    held = qsub(site, folder, "-h", "-W", f"depend=afterany:{good}")
    tally.same("all wait", {letter_of(site, job) for job in (*jobs.values(), both, held)}, {"H"})
    tally.same("by a system hold alone", {tuple(site.jobs(job)[job]["holds"]) for job in jobs.values()}, {("s",)})
    tally.same("and the user's own where one was asked for", site.jobs(held)[held]["holds"], ["u", "s"])
    status, output, errors = site.utility("qask", "why", both.split(".")[0], "5")
    tally.same("why", (status, output, f"waits for {good} (afterok)" in errors), (0, "held s\n", True))
    listed = site.utility("qstat", "-f", "-w", "-x", both)[1]
    tally.true("qstat -f", f"    depend = afterok:{good},afterany:{bad}:{gone}\n" in listed)
    for job in (good, bad):
        site.utility("qrls", job)
        site.finished(job)
    site.utility("qdel", gone)
    wanted = {
        **{(kind, good): 0 if kind != "afternotok" else None for kind in kinds},
        **{(kind, bad): 0 if kind != "afterok" else None for kind in kinds},
        **{(kind, gone): 0 if kind in ("afterany", "afternotok") else None for kind in kinds},
    }
    until(lambda: all(letter_of(site, job) is None for job in jobs.values()), 60, "all have run or are deleted")
    found = {key: (site.jobs(job)[job]["finished"] or {}).get("status") for key, job in jobs.items()}
    tally.same("what ran", {key for key in found if found[key] == 0}, {key for key in wanted if wanted[key] == 0})
    tally.same("the others are deleted", all(site.jobs(jobs[key])[jobs[key]]["deleted"] for key in found if found[key] is None), True)
    tally.same("one that waits for several", site.finished(both), 0)
    until(lambda: site.jobs(held)[held]["holds"] == ["u"], 20, "the user's own hold stays")
    never = jobs["afterok", bad]
    tally.true("its record says why", f"afterok:{bad} can't come true" in site.utility("qstat", "-x", "-f", "-w", never)[1])
    for words in ("afterok:900", "afterok:1.nowhere", "afterok:", "before:1", "afterok:x y", "afterok:1[]", "sometimes:1"):
        tally.same(f"depend={words} is refused", site.utility("qsub", "-W", f"depend={words}", given="true\n", cwd=folder)[:2], (2, ""))
    lost = qsub(site, folder, "-N", "lost", script="sleep 60\n")
    behind = [qsub(site, folder, "-W", f"depend={kind}:{lost}") for kind in ("afterok", "afternotok")]
    until(lambda: letter_of(site, lost) == "R", 20, "it runs")
    runner = until(lambda: re.search(r'"pid": *([0-9]+)', text_of(f"{site.home}/spool/runs/{lost}", "runner") or ""), 20, "its runner is there")
    os.kill(int(runner.group(1)), 9)
    tally.same("a job is lost", site.finished(lost), 255)
    tally.same("afternotok of it", site.finished(behind[1]), 0)
    until(lambda: letter_of(site, behind[0]) is None, 20, "afterok of it is deleted")
    tally.same("before it began", site.jobs(behind[0])[behind[0]]["begun"], None)


def depends_altered(tally, federation):
    """`qalter -W depend=` and `-a`, who may do it, and what an administrator's release of the hold does."""
    (site,) = federation.make("argonne:8", operators=OPERATOR, admins=OPERATOR)
    folder = work_in(federation)
    first, second = (qsub(site, folder, "-h") for _ in range(2))
    plain = qsub(site, folder, "-h")
    tally.same("of a job that waited for nothing", site.utility("qalter", "-W", f"depend=afterok:{first}", plain), (0, "done\n", ""))
    site.utility("qrls", plain)
    tally.same("it waits", site.jobs(plain)[plain]["holds"], ["s"])
    tally.same("for another", site.utility("qalter", "-W", f"depend=afterany:{second}", plain)[:2], (0, "done\n"))
    site.utility("qrls", first)
    site.finished(first)
    time.sleep(1.5)
    tally.same("it goes on waiting", letter_of(site, plain), "H")
    tally.same("for nothing", site.utility("qalter", "-W", "depend=", plain)[:2], (0, "done\n"))
    tally.same("it runs", site.finished(plain), 0)
    tally.same("of one that is gone", site.utility("qalter", "-W", f"depend=afterok:{second}", plain)[:2], (1, "refused 3\n"))
    timed = qsub(site, folder, "-a", time.strftime("%Y%m%d%H%M", time.localtime(time.time() + 3600)))
    tally.same("one that waits for its time", site.jobs(timed)[timed]["holds"], ["s"])
    tally.true("is listed so", f"{timed.split('.')[0]}.argonne" in site.utility("qstat", "-i")[1] and " W " in site.utility("qstat", "-i")[1])
    soon = time.strftime("%Y%m%d%H%M.%S", time.localtime(time.time() + 2))
    tally.same("its time is altered", site.utility("qalter", "-a", soon, timed)[:2], (0, "done\n"))
    tally.same("and comes", site.finished(timed), 0)
    tally.true("and not before", site.jobs(timed)[timed]["begun"]["moment"] >= time.mktime(time.strptime(soon, "%Y%m%d%H%M.%S")))
    if is_root(tally):
        mine = qsub(site, folder, "-W", f"depend=afterok:{second}")
        other = {"before": as_user(OTHER)}
        tally.same("another user may not", site.utility("qalter", "-W", "depend=", mine, **other)[:2], (1, "refused 2\n"))
        tally.same("nor release the hold", site.utility("qrls", "-h", "s", mine)[:2], (1, "refused 2\n"))
        admin = {"before": as_user(OPERATOR), "environment": {"NETTLEBEAM_ROLE": "admin"}}
        tally.same("an administrator may", site.utility("qrls", "-h", "s", mine, **admin)[:2], (0, "done\n"))
        tally.same("and it runs", site.finished(mine), 0)
    plain_job = qsub(site, folder, "-h")
    again = qsub(site, folder, "-h", "-l", "nodes=2:ppn=2", "-v", "A=1", script='echo "$A $B"; wc -l < $PBS_NODEFILE\n')
    words = ("-o", "altered.out", "-j", "oe", "-v", "B=2", "-l", "nodes=1:ppn=3", "-N", "altered")
    tally.same("what a job is told", site.utility("qalter", *words, again, cwd=folder)[:2], (0, "done\n"))
    site.utility("qrls", again)
    site.finished(again)
    tally.same("is altered", text_of(folder, "altered.out"), "1 2\n3\n")
    said = site.utility("qalter", "-v", "NONE", "-m", "e", plain_job, cwd=folder)
    tally.same("what is without effect is said", said, (0, "done\n", "qalter: -v NONE: there is no such variable here\nqalter: mail is without effect, since this site sends none\n"))
    large = {f"LARGE{number}": "x" * 100_000 for number in range(6)}
    tally.same("many variables", site.utility("qalter", "-v", ",".join(large), plain_job, environment=large)[:2], (0, "done\n"))
    other = {f"OTHER{number}": "x" * 100_000 for number in range(6)}
    told = site.utility("qalter", "-v", ",".join(other), plain_job, environment=other)
    tally.same("too many", (told[:2], "variables" in told[2]), ((1, "failed\n"), True))
    tally.same("but not of one that is gone", site.utility("qalter", "-j", "oe", again)[:2], (1, "refused 3\n"))
    for words in (("alter", "qsub"), ("alter", "-N"), ("alter",), ("details", "qsub"), ("details", "now", "qsub"), ("alter", "1", "qsub", "-h")):
        tally.same(f"{words} submits nothing", site.ask(*words).status, 2)


def depends_far(tally, federation):
    """A job waits for one of another site, over a link that is down for a while; its own begin is elsewhere, too."""
    federation.has_links = True
    argonne, lemont = federation.make("argonne:2", "lemont:2")
    folder = work_in(federation)
    far = qsub(lemont, folder, "-h", "-l", "sites=lemont", script="exit 0\n")
    bad = qsub(lemont, folder, "-h", "-l", "sites=lemont", script="exit 4\n")
    gone = qsub(lemont, folder, "-h", "-l", "sites=lemont")
    until(lambda: {far, bad, gone} <= set(argonne.jobs()), 20, "argonne knows them")
    tally.same("what the site has is altered here, too", argonne.utility("qalter", "-l", "nodes=2", "-N", "named", far), (0, "done\n", ""))
    tally.same("what its service keeps isn't", argonne.utility("qalter", "-l", "nodes=2:ppn=2", far)[:2], (1, "refused 5\n"))
    ran = f"{folder}/ran"
    here = qsub(argonne, folder, "-W", f"depend=afterok:{far}", script=f"echo here >> {ran}\n")
    there = qsub(argonne, folder, "-W", f"depend=afternotok:{bad}", "-l", "sites=lemont", script=f"echo there >> {ran}\n")
    never = qsub(argonne, folder, "-W", f"depend=afterok:{bad}")
    behind = qsub(argonne, folder, "-W", f"depend=afterany:{gone}")
    for pair in (("argonne", "lemont"), ("lemont", "argonne")):
        federation.cut(*pair)
    for job in (far, bad):
        lemont.utility("qrls", job)
        lemont.finished(job)
    tally.same("a job of another site is deleted here", argonne.utility("qdel", gone)[:2], (0, "done\n"))
    time.sleep(3)
    tally.same("all wait while the link is down", [letter_of(argonne, job) for job in (here, there, never, behind)], ["H"] * 4)
    for pair in (("argonne", "lemont"), ("lemont", "argonne")):
        federation.join(*pair)
    tally.same("the link is back", argonne.finished(here, 60), 0)
    tally.same("so is one that runs at the other", argonne.finished(there, 60), 0)
    until(lambda: letter_of(argonne, never) is None, 30, "what can't come true is deleted")
    tally.same("what waits for the deleted one runs", argonne.finished(behind, 60), 0)
    tally.same("each once", collections.Counter(read(ran).split()), {"here": 1, "there": 1})


def alone(federation, site):
    """What the site tells of its jobs while it has no service."""
    done = subprocess.run([federation.program, "at", f"{site.home}/site", "jobs"], capture_output=True, text=True, check=True)
    return [json.loads(line) for line in done.stdout.splitlines()]


def depends_killed(tally, federation):
    """The service is killed before and behind each line of a submission that waits."""
    program, trap = f"{federation.folder}/program", f"{federation.folder}/trap"
    with open(program, "w", encoding="ascii") as file:
        file.write(PROXY.format(program=federation.program, trap=trap))
    os.chmod(program, 0o755)
    federation.program = program
    (site,) = federation.make("argonne:8")
    folder, ran = work_in(federation), f"{federation.folder}/ran"
    for array in ((), ("-J", "1-3")):
        for text in ("qsub", "qhold -h s", "qrls -h u"):
            for when in ("before", "behind"):
                what = f"{when} {text} {' '.join(array)}"
                first = qsub(site, folder, "-h", script=f"echo first >> {ran}\n")
                known = set(site.jobs())
                with open(ran, "w", encoding="ascii"), open(f"{trap}.new", "w", encoding="ascii") as file:
                    file.write(f"{when} {text}")
                os.rename(f"{trap}.new", trap)  # whole, since it may be read at any moment
                status, output, _ = site.utility("qsub", "-W", f"depend=afterok:{first}", *array, given=f"echo second >> {ran}\n", cwd=folder)
                tally.same(f"killed {what}: nobody is told", (status, output), (3, ""))
                site.process.wait(60)
                free = [job["id"] for job in alone(federation, site) if job["id"] not in known and job["letter"] not in ("H", None)]
                tally.same(f"killed {what}: none could begin meanwhile", free, [])
                site.start()
                site.wait_ready()
                new = sorted(set(site.jobs()) - known)
                until(lambda: all(it["letter"] is None or it["holds"] == ["s"] for it in map(site.jobs().get, new)), 20, f"{what}: what was begun is done")
                living = [job for job in new if letter_of(site, job)]
                wanted = 0 if text == "qsub" else 3 if array else 1
                tally.same(f"killed {what}: what is there", len(living), wanted)
                time.sleep(1.2)
                tally.same(f"killed {what}: none begins too early", {letter_of(site, job) for job in living} - {"H"}, set())
                site.utility("qrls", first)
                for job in (first, *living):
                    tally.same(f"killed {what}: {job} ends", site.finished(job), 0)
                tally.same(f"killed {what}: in order", read(ran).split(), ["first"] + ["second"] * wanted)
    left = [job for job in site.jobs().values() if job["letter"]]
    tally.same("nothing is left", left, [])
    groups = [read(f"{site.home}/spool/groups/{name}") for name in os.listdir(f"{site.home}/spool/groups")]
    tally.same("and no file of it but those of arrays", [group for group in groups if '"indices": []' in group], [])


def arrays(tally, federation):
    """Arrays: their members, operands, files, and how many run at a time."""
    (site,) = federation.make("argonne:4")
    folder, ran = work_in(federation), f"{federation.folder}/ran"
    began = time.monotonic()
    array = qsub(site, folder, "-J", "1-199:2,2-200:2", "-h", "-N", "many")
    print(f"tests/service/rows: arrays: 200 members in {time.monotonic() - began:.2f} s")
    number = array.split("[")[0]
    tally.same("its identifier", array, f"{number}[].argonne")
    tally.same("its members", len(site.jobs()), 200)
    tally.same("in one line", site.utility("qstat", "-a")[1].count("argonne     "), 1)
    tally.same("or each", site.utility("qstat", "-at")[1].count(f"{number}["), 201)
    tally.same("POSIX's listing has each", site.utility("qstat")[1].count(" many "), 200)
    tally.same("one of them", site.utility("qstat", f"{number}[7]")[1].count("\n"), 1)
    tally.same("why it waits", site.utility("qask", "why", f"{number}[7]", "0"), (0, "held u\n", ""))
    tally.same("some of them", site.utility("qdel", f"{number}[1-100].argonne"), (0, "done\n" * 100, ""))
    tally.same("the others", site.utility("qdel", array), (0, "done\n" * 100, ""))
    by_number(tally, site, folder)
    tally.same("one that is none", site.utility("qdel", "900[]")[:2], (2, ""))
    living = qsub(site, folder, "-J", "1-3", "-h").split("[")[0]
    for words in (f"afterok:{living}[9]", f"afterok:{living}[1-2]", "afterok:900[]"):
        tally.same(f"depend={words} is refused", site.utility("qsub", "-W", f"depend={words}", given="true\n", cwd=folder)[:2], (2, ""))
    site.utility("qdel", f"{living}[]")
    script = f"#PBS -J 0-6:3%2\n#PBS -j oe\necho $PBS_ARRAY_INDEX $PBS_ARRAYID $PBS_ARRAY_ID $PBS_JOBID\necho + >> {ran}\nsleep 1\necho - >> {ran}\nexit $PBS_ARRAY_INDEX\n"
    array = qsub(site, folder, script=script)
    number = array.split("[")[0]
    behind = qsub(site, folder, "-W", f"depend=afterany:{array}")
    strict = qsub(site, folder, "-W", f"depend=afterok:{number}[0].argonne", script=f"echo strict >> {ran}\n")
    tally.same("it waits for all members", site.finished(behind, 60), 0)
    tally.same("and for one", site.finished(strict, 60), 0)
    for index in (0, 3, 6):
        told = text_of(folder, f"STDIN.o{number}.{index}")
        tally.same(f"what {index} was told", told, f"{index} {index} {array} {number}[{index}].argonne\n")
    marks, out, most = [it for it in read(ran).split() if it in "+-"], 0, 0
    for mark in marks:
        out += 1 if mark == "+" else -1
        most = max(most, out)
    tally.same("all ran, two at a time", (len(marks), most), (6, 2))
    listed = site.utility("qstat", "-xt", array)[1]
    tally.same("all are listed", re.findall(rf"{number}\[[0-9]*\]", listed), [f"{number}[{index}]" for index in ("", 0, 3, 6)])
    tally.same("with their statuses", re.findall(r"Exit_status = ([0-9])", site.utility("qstat", "-xtf", array)[1]), ["6", "0", "3", "6"])
    blocked = site.utility("qsub", "-W", "block=true", "-J", "1-3", given="exit $PBS_ARRAY_INDEX\n", cwd=folder)
    tally.same("-W block waits for all", blocked[0], 3)



def by_number(tally, site, folder):
    """The number of an array's first member means all of it, and a member is called by its index, also in listings."""
    array = qsub(site, folder, "-J", "5-7", "-h", "-a", "203001010000", "-N", "called")
    number = array.split("[")[0]
    members = [f"{number}[{index}].argonne" for index in (5, 6, 7)]
    tally.same("qstat calls them", re.findall(r"^(\S+) +called", site.utility("qstat")[1], re.MULTILINE), members)
    tally.same("in columns as all", {len(line.partition("called")[0]) for line in site.utility("qstat")[1].splitlines()}, {19})
    tally.same("qstat -f calls them", re.findall(r"^Job Id: (\S+)", site.utility("qstat", "-f", number)[1], re.MULTILINE), members)
    tally.same("qselect calls them", site.utility("qselect", "-N", "called")[1].split(), members)
    tally.same("qstat -a of the number", site.utility("qstat", "-a", number)[1].count(array), 1)
    tally.same("qalter of the number", site.utility("qalter", "-p", "-7", number), (0, "done\n" * 3, ""))
    tally.same("of another number", site.utility("qalter", "-p", number, members[0])[:2], (0, "done\n"))
    tally.same("qrls of the number", site.utility("qrls", f"{number}.argonne"), (0, "done\n" * 3, ""))
    tally.same("qhold of the number", site.utility("qhold", number)[1].count("\n"), 3)
    behind = qsub(site, folder, "-W", f"depend=afterany:{number}")
    waited_for = ":".join(site.jobs(f"{number}[]"))
    tally.true("one waits for all", f"    depend = afterany:{waited_for}\n" in site.utility("qstat", "-fw", behind, "-x")[1])
    tally.same("a member alone", site.utility("qdel", members[0]), (0, "done\n", ""))
    tally.same("all others", site.utility("qdel", number), (0, "done\n" * 2, ""))
    tally.same("what waited runs", site.finished(behind), 0)


def arrays_refused(tally, federation):
    """All members or none: the site is full in the middle, or the words are wrong."""
    (site,) = federation.make("argonne:4", jobs="run = no")
    folder = work_in(federation)
    told = site.utility("qsub", "-J", "1-5", "-p", "5000", given="true\n", cwd=folder)
    said = "qsub: usage 4 (BadValue): 5000 is no priority from -1024 to 1023\nqsub: the options are -J 1-5 -p 5000\n"
    tally.same("a wrong word", told, (1, "", said))
    tally.same("leaves nothing", site.jobs(), {})
    qsub(site, folder, "-J", "1-1500")
    for _ in range(16):
        qsub(site, folder, "-J", "1-500")
    qsub(site, folder, "-J", "1-450")
    tally.same("nearly full", site.said("qstat").count("\n"), 9950)
    status, output, errors = site.utility("qsub", "-J", "1-100", given="true\n", cwd=folder)
    tally.same("an array of which some find no place", (status, output, errors.startswith("qsub: ") and errors.count("\n") == 1), (1, "", True))
    living = site.said("qstat").count("\n")
    tally.same("leaves none of its members", living, 9950)
    status, output, errors = site.utility("qsub", "-J", "1-1001", given="true\n", cwd=folder)
    tally.same("a large one isn't begun", (status, output, "has room for 0 jobs" in errors), (1, "", True))
    tally.same("and no file", len(os.listdir(f"{site.home}/spool/scripts")) - living, 50)
    tally.same("others can be listed", site.utility("qstat", "-a")[1].count("[]."), 18)



def child_of(site):
    """The process of the site itself; None where it is just being started."""
    try:
        children = read(f"/proc/{site.process.pid}/task/{site.process.pid}/children").split()
        return next((int(pid) for pid in children if b"serve" in open(f"/proc/{pid}/cmdline", "rb").read()), None)
    except OSError:
        return None


def kill_during(site, generator, submit):
    """Does something while the service, or the site's own process, is killed at a random moment; what it gave."""
    done = []
    worker = threading.Thread(target=lambda: done.append(submit()))
    worker.start()
    time.sleep(2 ** generator.uniform(-5, 1))
    child = child_of(site) if generator.random() < 0.4 else None
    if child:
        os.kill(child, 9)
    else:
        site.kill()
    worker.join()
    if not site.is_up():
        site.start()
    site.wait_ready()
    return done[0]


def depends_at_random(tally, federation):
    """The service and the site's process are killed at random moments of submissions that wait: none begins too early or twice,
    and of an array there are all members or none."""
    (site,) = federation.make("argonne:8")
    folder, ran, generator = work_in(federation), f"{federation.folder}/ran", random.Random(29)
    sizes, answered = {}, {}
    for turn in range(24):
        first = qsub(site, folder, "-N", f"f{turn}", "-h", script=f"echo f{turn} >> {ran}\n")
        size = generator.choice((1, 1, 5, 40))
        array = ("-J", f"1-{size}") if size > 1 else ()
        words = ("qsub", "-N", f"s{turn}", *array, "-W", f"depend=afterok:{first}")
        told = kill_during(site, generator, lambda: site.utility(*words, given=f"echo s$PBS_JOBNAME.$PBS_ARRAY_INDEX >> {ran}\n", cwd=folder))
        sizes[f"s{turn}"], answered[f"s{turn}"] = size, told[0] == 0
        until(lambda first=first: site.utility("qrls", first)[0] == 0 or site.jobs(first)[first]["holds"] == [], 20, "the first is released")
    until(lambda: not site.said("qstat"), 180, "all have run, or are deleted")
    jobs = [job for job in site.jobs().values() if not (job["deleted"] and not job["begun"])]
    counts = collections.Counter(job["name"] for job in jobs if job["name"].startswith("s"))
    tally.same("all members or none", [name for name, count in counts.items() if count != sizes[name]], [])
    lost = {job["name"] for job in jobs if job["finished"]["status"]}
    # behind one that was lost nothing begins, so it is deleted
    missing = [name for name, is_told in answered.items() if is_told and not counts[name]]
    tally.same("what was answered is there", [name for name in missing if f"f{name[1:]}" not in lost], [])
    tally.same("nothing is behind one that was lost", [name for name in counts if f"f{name[1:]}" in lost], [])
    lines = read(ran).split()
    tally.same("none ran twice", [line for line, count in collections.Counter(lines).items() if count > 1], [])
    places = {line: place for place, line in reversed(list(enumerate(lines)))}
    early = [line for line in lines if line[0] == "s" and places[line] < places.get(f"f{line[2:].partition('.')[0]}", len(lines))]
    tally.same("none before what it waits for", early, [])
    statuses = collections.Counter(job["finished"]["status"] for job in jobs)
    tally.same("each ends as its script, or is lost", sorted(statuses.keys() - {0, 255}), [])
    # each kill may cost the jobs that have begun and aren't known to have started, of which each has a node
    tally.true(f"few are lost: {statuses[255]}", statuses[255] <= 24 * 8)
    print(f"tests/service/rows: depends_at_random: {sum(answered.values())} of 24 were answered, {len(counts)} are there, lost were {sorted(lost)}")


SCENES = {it.__name__: it for it in (depends, depends_altered, depends_far, depends_killed, depends_at_random, arrays, arrays_refused)}
