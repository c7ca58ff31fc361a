"""Scenes of what a service keeps and refuses: seals and senders of packets, accounting, retiring, the spool, lost memory,
draining."""
import collections
import glob
import grp
import json
import os
import random
import shutil
import signal
import subprocess
import time

from tests.service.moments import PORT, read_page
from tests.service.sites import Unasked, accounting, as_told, seal, until


def rewrite(site, old, new):
    """Changes a site's configuration, and has its service read it anew."""
    with open(site.config, encoding="ascii") as file:
        text = file.read()
    assert old in text, old
    with open(site.config, "w", encoding="ascii") as file:
        file.write(text.replace(old, new))
    if site.is_up():
        site.process.send_signal(signal.SIGHUP)
        time.sleep(0.3)


def write(path, data):
    """Writes a file in one step."""
    with open(f"{path}.tmp", "wb") as file:
        file.write(data)
    os.rename(f"{path}.tmp", path)


def read(path):
    """The bytes of a file."""
    with open(path, "rb") as file:
        return file.read()


# the program between the service and the real one: it hands lines and frames on, one after the other, and `hook` may change
# a frame, or give one without asking
SHIM = """#!/usr/bin/python3
import os, subprocess, sys
real = {program!r}
{hook}
if sys.argv[1] != "serve":
    os.execv(real, ["nettlebeam", *sys.argv[1:]])
assert sys.argv[2] == "--frames"
serve = subprocess.Popen([real, *sys.argv[1:]], stdin=subprocess.PIPE, stdout=subprocess.PIPE)
def ask(line):
    serve.stdin.write(line)
    serve.stdin.flush()
    head = serve.stdout.readline()
    if not head:
        sys.exit(3)
    return head + serve.stdout.read(sum(map(int, head.split()[1:])))
for line in iter(sys.stdin.buffer.readline, b""):
    sys.stdout.buffer.write(hook(line, ask))
    sys.stdout.buffer.flush()
"""
# what refuses to begin jobs as long as a file is there
REFUSING = """
def hook(line, ask):
    if line.startswith(b"begin ") and os.path.exists({flag!r}):
        return b"1 10 0\\nrefused 6\\n"
    return ask(line)
"""


def shim(path, program, hook):
    """Writes a program that stands between the service and the real one."""
    with open(path, "w", encoding="ascii") as file:
        file.write(SHIM.format(program=program, hook=hook))
    os.chmod(path, 0o755)
    return path


def seals(tally, federation):
    """What stands in a shared folder is taken only with the right seal."""
    shared = federation.folders = f"{federation.folder}/shared"
    os.mkdir(shared)
    argonne, lemont = federation.make("argonne:1", "lemont:2", jobs="run = no", pages={"argonne": PORT})
    job = lemont.submit("true\n")
    until(lambda: job in argonne.jobs(), 20, "argonne knows of lemont's job")
    lemont.kill(signal.SIGTERM)
    path, asks = f"{shared}/argonne/lemont.packet", f"{shared}/argonne/lemont.asks"
    good, mine = read(path), argonne.submit("true\n", "-l", "sites=lemont")
    tally.true("a packet's file begins with its seal", good.startswith(b"nettlebeam-seal 1 lemont argonne packet - "))
    tally.true("which isn't for others to read", os.stat(path).st_mode & 0o007 == 0)
    tally.same("both sites' group may write the folders", oct(os.stat(f"{shared}/argonne").st_mode & 0o7777), "0o2770")
    other = federation.key("argonne", "batavia")
    label = seal.Label("lemont", "argonne", "packet", "-", time.time_ns())
    body = good.partition(b"\n")[2]
    took = argonne.logged().count("is refused")
    tally.same("nothing was refused so far", took, 0)
    key = seal.read_key(federation.key("argonne", "lemont"))
    wrong = {
        "it has no seal": body,
        "its seal is wrong": good[:-20] + b"9" + good[-19:],
        "another key made it": seal.seal(seal.read_key(other), label, body),
        "sealed as argonne lemont": seal.seal(key, label._replace(sender="argonne", receiver="lemont"), body),
        "sealed as lemont argonne asks": seal.seal(key, label._replace(kind="asks"), body),
        "it is older": seal.seal(key, label._replace(number=5), body),
        "symbolic link": None,
    }
    for why, data in wrong.items():
        if data is None:
            os.remove(path)
            os.symlink("/etc/hostname", path)
        else:
            write(path, data)
        until(lambda why=why: why in read_page("/")[1], 20, f"the page tells {why!r}")
        tally.true(f"the log tells {why!r}", why in argonne.logged())
    os.remove(path)
    with open(asks, "wb") as file:
        file.write(f"{mine}\n".encode())
    until(lambda: "lemont.asks is refused: it has no seal" in argonne.logged(), 20, "a question without a seal is refused")
    tally.same("and nothing is granted", argonne.jobs(mine)[mine]["grant"], None)
    write(asks, seal.seal(key, label._replace(kind="asks"), f"{mine}\n".encode()))
    until(lambda: argonne.jobs(mine)[mine]["grant"], 20, "a question with its seal is answered")
    script = f"{shared}/lemont/{mine}.script"
    until(lambda: os.path.exists(script), 20, "the script is put there")
    tally.true("sealed", read(script).startswith(f"nettlebeam-seal 1 argonne lemont script {mine} ".encode()))
    os.chmod(federation.key("argonne", "lemont"), 0o644)
    write(path, good)
    until(lambda: "others than its owner" in read_page("/")[1], 20, "a key that others can read isn't used")


def senders(tally, federation):
    """A packet is taken only of the peer that brings it."""
    federation.has_links = True
    argonne, lemont, batavia = federation.make("argonne:1", "lemont:1", "batavia:1", jobs="run = no")
    for one in ("argonne", "lemont", "batavia"):
        for other in ("argonne", "lemont", "batavia"):
            federation.cut(one, other)
    time.sleep(1)
    job = batavia.submit("true\n")
    packet = batavia.said("ship", "argonne")
    kept = read(f"{argonne.home}/site/journal")
    done = argonne.utility("nettlebeam-peer", "lemont", "take", given=packet)
    tally.same("lemont brings a packet of batavia", done[:2], (0, "not from lemont\n"))
    tally.true("and is told why", "sender is another site" in done[2])
    tally.same("a packet that was cut", argonne.utility("nettlebeam-peer", "batavia", "take", given=packet[:-9])[:2], (0, "unread 1\n"))
    tally.same("nothing is kept of them", read(f"{argonne.home}/site/journal"), kept)
    with open(f"{federation.folder}/link", encoding="ascii") as file:
        text = file.read()
    with open(f"{federation.folder}/link", "w", encoding="ascii") as file:
        file.write(text.replace("NETTLEBEAM_SOCKET=", '[ "$from.$to" != argonne.lemont ] || to=batavia\nNETTLEBEAM_SOCKET='))
    federation.join("argonne", "lemont")
    until(lambda: "its packet is answered not from lemont" in argonne.logged(), 20, "the log tells of a peer that gives another's packet")
    tally.true("which isn't taken", job not in argonne.jobs())
    done = argonne.utility("nettlebeam-peer", "batavia", "take", given=packet)
    tally.same("batavia brings its own", done[:2], (0, "taken\n"))
    tally.true("lemont had no part in it", lemont.is_up())


def books(site):
    """The lines of all months."""
    lines = []
    for path in sorted(glob.glob(f"{site.home}/spool/accounting/*.jsonl")):
        lines += read(path).decode().splitlines()
    return lines


def accounts(tally, federation):
    """Each job that is gone is recorded once, whatever is killed."""
    (site,) = federation.make("argonne:4", more="[house]\nevery = 0.3\n")
    pick, jobs = random.Random(3), []
    for number in range(25):
        try:
            jobs.append(site.submit(f"exit {number % 5}\n", *(["-h"] if number % 6 == 5 else [])))
            if number % 6 == 5:
                site.ask("qdel", jobs[-1])
        except Unasked:
            pass
        time.sleep(pick.uniform(0, 0.3))
        if number % 3 == 2:
            site.kill()
            site.start()
            site.wait_ready()
    waiting = site.submit("true\n", "-h")
    until(lambda: all(job["letter"] is None for name, job in site.jobs().items() if name != waiting), 60, "all jobs are gone")
    gone = {name: line for name, line in zip(site.jobs(), site.said("jobs").splitlines()) if name != waiting}
    until(lambda: len(books(site)) >= len(gone), 20, "all are recorded")
    time.sleep(1)
    tally.same("each job that is gone is recorded once, as the site tells it", sorted(map(as_told, books(site))), sorted(gone.values()))
    tally.true("with what those used that ran", any('"used":{"cput":' in line for line in books(site)))
    tally.true("some were deleted, and some ended with a status", any('"deleted":true' in it for it in gone.values()) and len(jobs) > 15)
    (month,) = glob.glob(f"{site.home}/spool/accounting/*.jsonl")
    os.rename(month, f"{federation.folder}/moved")
    site.kill()
    site.start()
    site.wait_ready()
    last = site.submit("true\n")
    site.finished(last)
    until(lambda: books(site), 20, "another job is recorded")
    time.sleep(1)
    tally.same("what was moved away isn't recorded again", [json.loads(line)["id"] for line in books(site)], [last])


def names_in(index):
    """The identifiers in the list of what is recorded."""
    return sorted(line.split()[0].decode() for line in index.splitlines())


def cut_accounts(tally, federation):
    """Accounting that is cut at each byte of what it writes is completed, and nothing of it stands there twice."""
    folder = f"{federation.folder}/books"
    jobs = [{"id": f"{number}.argonne", "begun": None, "deleted": True, "finished": None, "grant": None} for number in range(1, 4)]
    jobs[1]["finished"] = {"moment": 5, "status": 0}
    lines = [json.dumps(job, separators=(",", ":")) for job in jobs]
    accounting.Accounting(folder, "argonne").record(jobs[:1])
    (month,) = glob.glob(f"{folder}/*.jsonl")
    before, before_index = read(month), read(f"{folder}/recorded")
    accounting.Accounting(folder, "argonne").record(jobs)
    whole, index = read(month), read(f"{folder}/recorded")
    tally.same("all three are recorded", whole.decode().splitlines(), lines)
    cuts = [(size, len(before_index)) for size in range(len(before), len(whole) + 1)]
    cuts += [(len(whole), size) for size in range(len(before_index), len(index) + 1)]
    wrong = 0
    for size, index_size in cuts:
        write(month, whole[:size])
        write(f"{folder}/recorded", index[:index_size])
        again = accounting.Accounting(folder, "argonne")
        again.record(jobs)
        again.record(jobs)
        wrong += sorted(read(month).decode().splitlines()) != sorted(lines)
        wrong += names_in(read(f"{folder}/recorded")) != names_in(index)
    tally.same(f"after each of {len(cuts)} cuts each is there once", wrong, 0)
    begun, old = int(time.time()), b"1.argonne\n2.argonne\n"
    write(f"{folder}/recorded", old)
    again = accounting.Accounting(folder, "argonne")
    tally.same("a list without moments is known", again.record(jobs), 0)
    tally.same("and is of this moment", min(it.moment for it in again.known.values()) >= begun, True)
    tally.same("so all were recorded by now", again.recorded_before(jobs, time.time()), {job["id"] for job in jobs})
    tally.same("and none before", again.recorded_before(jobs, begun - 1), set())
    tally.same("each moment is kept", accounting.Accounting(folder, "argonne").record(jobs), 0)
    tally.same("which takes no further line", names_in(read(f"{folder}/recorded")[len(old) :]), [f"{number}.argonne" for number in range(1, 4)])
    other = [dict(jobs[0], id="9.lemont"), dict(jobs[0], id="8.argonne", grant={"site": "lemont", "term": 1}), dict(jobs[0], deleted=False)]
    tally.same("what may still change isn't recorded", accounting.Accounting(folder, "argonne").record(other), 0)
    mine = dict(jobs[0], id="9.lemont", grant={"site": "argonne", "term": 1})
    tally.same("what this site alone could begin is", accounting.Accounting(folder, "argonne").record([mine]), 1)


def declines(tally, federation):
    """The grant of a job that was deleted before it began is declined, so that its origin knows that it never begins."""
    federation.has_links = True
    argonne, lemont = federation.make("argonne:1", "lemont:2", jobs="run = no", more="[house]\nevery = 0.5\n")
    kept, gone = (argonne.submit("true\n", "-l", "sites=lemont") for _ in range(2))
    for job in (kept, gone):
        argonne.ask("grant", job, "lemont")
    until(lambda: all(lemont.jobs(job).get(job, {}).get("grant") for job in (kept, gone)), 20, "lemont has both grants")
    tally.same("qask asks it of the site too", lemont.said("decline", "9.argonne"), "refused 1\n")
    argonne.ask("qdel", gone)
    until(lambda: not argonne.jobs(gone)[gone]["grant"]["site"], 30, "argonne hears that lemont has it no more")
    tally.true("the log tells it", f"{gone}: it was deleted before it began, so its grant is declined: done" in lemont.logged())
    tally.same("the other grant is open", lemont.jobs(kept)[kept]["grant"]["site"], "lemont")
    until(lambda: sorted(json.loads(line)["id"] for line in books(argonne)) == [gone], 20, "argonne records it")


def retired_lines(site):
    """The lines of the journal that retire something."""
    texts = (line.split(" ", 2)[-1] for line in read(f"{site.home}/site/journal").decode().splitlines())
    return [text for text in texts if text.startswith("retire ")]


def retires(tally, federation):
    """What was recorded a while ago is retired, in ranges that leave out what stays, and once."""
    federation.has_links = True
    group = grp.getgrgid(os.getgid()).gr_name
    often = "[house]\nevery = 0.5\nretire = 2\n"
    argonne, lemont = federation.make("argonne:4", "lemont:2", jobs="run = no", more=often, operators=group)
    jobs = [argonne.submit("true\n") for _ in range(6)]
    reserved = argonne.ask("reserve", "argonne", "100", "200", "1", role="operator").answer.decode().strip()
    jobs.append(argonne.submit("true\n"))
    mine = lemont.submit("true\n")
    until(lambda: len(lemont.jobs()) == len(argonne.jobs()) == 8, 20, "both know all jobs")
    for job in (jobs[0], jobs[1], jobs[3], jobs[6]):
        argonne.ask("qdel", job)
    argonne.ask("grant", jobs[5], "argonne")
    argonne.ask("begin", jobs[5], "0")
    running = jobs[5].split(".")[0]
    tally.same("a job that runs isn't retired", argonne.said("retire", running, running), "refused 17\n")
    argonne.ask("finish", jobs[5], "50", "0")
    left = sorted([jobs[2], jobs[4], mine])
    until(lambda: sorted(argonne.jobs()) == left, 30, "argonne has retired what is gone")
    until(lambda: sorted(lemont.jobs()) == left, 30, "lemont knows nothing of it any more")
    tally.true("the log tells it", "jobs of argonne that are recorded are retired" in argonne.logged())
    tally.same("each is recorded", sorted(json.loads(line)["id"] for line in books(argonne)), sorted({*jobs, mine} - {*left}))
    tally.true("the reservation stands", argonne.said("reservations").startswith(f"{reserved} "))
    kept = retired_lines(argonne)
    ranges = [tuple(map(int, text.split()[1:])) for text in kept]
    stays = {int(name.split(".")[0]) for name in (jobs[2], jobs[4], reserved)}
    tally.same("no range has what stays", [it for it in ranges if any(it[0] <= counter <= it[1] for counter in stays)], [])
    argonne.kill()
    argonne.start()
    argonne.wait_ready()
    time.sleep(2)
    tally.same("what is retired isn't retired again", retired_lines(argonne), kept)
    tally.same("nor recorded again", len(books(argonne)), 5)
    tally.same("lemont has retired nothing of argonne's", retired_lines(lemont), [])
    argonne.ask("qdel", jobs[2])
    until(lambda: jobs[2] not in argonne.jobs(), 30, "another is retired")
    tally.same("by one line more", len(retired_lines(argonne)), len(kept) + 1)
    tally.same("it is unknown from then on", argonne.ask("qdel", jobs[2]).answer, b"refused 1\n")


def spools(tally, federation):
    """The files of jobs that are gone are removed after a while, and those of others stay."""
    (site,) = federation.make("argonne:4", more="[house]\nevery = 0.5\nkeep = 600\n")
    done, held = site.submit("true\n"), site.submit("true\n", "-h")
    running = site.submit("sleep 60\n")
    deleted = site.submit("true\n", "-h")
    site.ask("qdel", deleted)
    site.finished(done)
    until(lambda: site.jobs(running)[running]["letter"] == "R", 20, "a job runs")
    until(lambda: len(books(site)) == 2, 20, "what is gone is recorded")
    time.sleep(1)
    tally.true("its files stay for a while", os.path.exists(f"{site.home}/spool/begun/{done}"))
    tally.true("so does the script of one that was deleted", os.path.exists(f"{site.home}/spool/scripts/{deleted}"))

    def kept(name):
        return os.path.exists(f"{site.home}/spool/scripts/{name}") or os.path.exists(f"{site.home}/spool/begun/{name}")

    site.kill(signal.SIGTERM)
    rewrite(site, "keep = 600", "keep = 1")
    site.start()
    site.wait_ready()
    until(lambda: not kept(done) and not kept(deleted), 20, "then they are gone")
    tally.same("those of others stay", [kept(held), kept(running)], [True, True])
    site.ask("qdel", running)
    tally.same("a job that ran on is ended as ever", site.finished(running), 143)


def drains(tally, federation):
    """`run = drain` lets jobs end, begins none and hands grants back."""
    (site,) = federation.make("argonne:2", jobs="run = yes", pages={"argonne": PORT})
    first = site.submit("sleep 2; exit 7\n")
    until(lambda: site.jobs(first)[first]["letter"] == "R", 20, "a job runs")
    rewrite(site, "run = yes", "run = drain")
    second = site.submit("exit 8\n")
    site.ask("grant", second, "argonne")
    tally.same("the job that runs ends", site.finished(first), 7)
    until(lambda: site.jobs(second)[second]["letter"] == "Q", 20, "a grant is handed back")
    time.sleep(2)
    tally.same("none begins", site.jobs(second)[second]["letter"], "Q")
    tally.true("the page says so", "No job begins here" in read_page("/")[1])
    rewrite(site, "run = drain", "run = no")
    time.sleep(1)
    tally.same("nor with no", site.jobs(second)[second]["letter"], "Q")
    rewrite(site, "run = no", "run = yes")
    tally.same("until jobs run again", site.finished(second), 8)


def losses(tally, federation):
    """A site that has lost its memory, as a peer's packet tells, is changed by nothing."""
    federation.has_links = True
    argonne, lemont = federation.make("argonne:1", "lemont:1", jobs="run = no", pages={"argonne": PORT})
    journal = f"{argonne.home}/site/journal"
    first = argonne.submit("true\n")
    until(lambda: first in lemont.jobs(), 20, "lemont knows of the first job")
    shutil.copy(journal, f"{federation.folder}/old")
    second = argonne.submit("true\n")
    until(lambda: second in lemont.jobs(), 20, "lemont knows of the second job")
    argonne.kill(signal.SIGTERM)
    shutil.copy(journal, f"{federation.folder}/new")
    shutil.copy(f"{federation.folder}/old", journal)
    argonne.start()
    argonne.wait_ready()
    until(lambda: "answered `forgotten`" in argonne.logged(), 20, "the site is told that it has forgotten")
    kept = read(journal)
    for again in (False, True):
        for words in ("qsub", f"qdel {first}", f"grant {first} argonne", "ship lemont"):
            told = argonne.ask(*words.split(), body=b"" if words == "qsub" else None)
            tally.true(f"{words} isn't done", told.status == 3 and "nothing changes this site" in told.words and not told.answer)
        tally.same("a peer gets no packet", argonne.utility("nettlebeam-peer", "lemont", "ship")[:2], (3, ""))
        tally.same("nor is its packet taken", argonne.utility("nettlebeam-peer", "lemont", "take", given=lemont.said("ship", "argonne"))[0], 3)
        tally.same("the listing is there", argonne.ask("qstat").status, 0)
        tally.true("the page says why", "Nothing changes this site" in read_page("/")[1])
        if not again:
            argonne.kill()
            argonne.start()
            argonne.wait_ready()
    tally.same("nothing was kept", read(journal), kept)
    argonne.kill(signal.SIGTERM)
    shutil.copy(f"{federation.folder}/new", journal)
    os.remove(f"{argonne.home}/spool/forgotten")
    argonne.start()
    argonne.wait_ready()
    third = argonne.submit("true\n")
    until(lambda: third in lemont.jobs(), 20, "with the newest journal all goes on")
    tally.same("at both sites", sorted(argonne.jobs()), sorted(lemont.jobs()))


def leftovers(tally, federation):
    """The folder of a job is removed, also where its shell was killed."""
    place = f"{federation.folder}/temporary"
    os.mkdir(place)
    (site,) = federation.make("argonne:4", jobs=f"start = env TMPDIR={place}\nleast_uid = 0")
    hard = site.submit("trap '' TERM; while :; do sleep 0.2; done\n", "-l", "walltime=1")
    killed = site.submit("kill -9 $PPID; sleep 30\n")
    orphan = site.submit("sleep 300\n")
    runner = until(lambda: os.path.exists(f"{site.home}/spool/runs/{orphan}/started") and site.jobs(orphan)[orphan]["begun"], 20, "it runs")
    until(lambda: len(os.listdir(place)) >= 1 and runner, 20, "it has a folder")
    with open(f"{site.home}/spool/runs/{orphan}/runner", encoding="ascii") as file:
        os.kill(json.load(file)["pid"], signal.SIGKILL)
    statuses = [site.finished(job) for job in (hard, killed, orphan)]
    tally.same("three jobs whose shells were killed", statuses, [137, 137, 255])
    until(lambda: not os.listdir(place), 20, "nothing of them is left")


def refusals(tally, federation):
    """A script is started only where `begin` was answered `done`."""
    deny, ran = f"{federation.folder}/deny", f"{federation.folder}/ran"
    with open(deny, "w", encoding="ascii"):
        pass
    federation.program = shim(f"{federation.folder}/refusing", federation.program, REFUSING.format(flag=deny))
    (site,) = federation.make("argonne:4")
    jobs = [site.submit(f"echo $PBS_JOBID >> {ran}; exit 3\n") for _ in range(3)]
    until(lambda: site.logged().count("begin is answered refused 6") >= 6, 20, "each is refused, again and again")
    tally.same("none has begun", [job["begun"] for job in site.jobs().values()], [None] * 3)
    site.kill()
    site.start()
    site.wait_ready()
    time.sleep(2)
    tally.true("and none was started", not os.path.exists(ran))
    os.remove(deny)
    tally.same("once they are begun they run", [site.finished(job) for job in jobs], [3] * 3)
    tally.same("each once", sorted(read(ran).decode().split()), sorted(jobs))


def words(tally, federation):
    """Users are told the words beside an answer as the site says them."""
    (site,) = federation.make("argonne:4", jobs="run = no")
    job = site.submit("true\n")
    status, output, errors = site.utility("qdel", "900", job)
    tally.same("the answer is as ever", (status, output), (1, "refused 1\ndone\n"))
    tally.true(f"and the words are told: {errors!r}", errors == "qdel: refused 1 (UnknownJob): 900.argonne is no job that argonne knows\n")
    tally.same("an answer without words has none", site.utility("qstat")[2], "")
    counts = collections.Counter(line.split()[0] for line in site.said("seen").splitlines())
    tally.same("looks are whole", counts, {"argonne": 1})


SCENES = {it.__name__: it for it in (seals, senders, accounts, cut_accounts, declines, retires, spools, drains, losses, leftovers, refusals, words)}
