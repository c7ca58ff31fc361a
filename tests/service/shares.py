"""Scenes of one user who takes much, and of others who are answered as ever: ranges of ended jobs, bytes, pairs, listings."""
import asyncio
import gc
import json
import os
import signal
import socket
import statistics
import subprocess
import sys
import threading
import time
from collections import Counter

from tests.playing import TOP
from tests.service.bounds import filled, page_of
from tests.service.scenes import OTHER, as_user, is_root
from tests.service.sites import accounting, ask, free_port, until
from nettlebeam_service.common.commands import call
from nettlebeam_service.common.config import HouseKeys
from nettlebeam_service.housekeeping.capacity import Capacity
from nettlebeam_service.housekeeping.daily import Housekeeping
from nettlebeam_service.site.answers import Answer

THIRD = "games"


def called_as(user, call, *words):
    """Calls a function of this module as another user, with these words; what it prints, as JSON."""
    code = f"import sys; sys.path.insert(0, {TOP!r}); from tests.service import shares as it; it.{call}(*sys.argv[1:])"
    done = subprocess.run([*as_user(user), "/usr/bin/python3", "-B", "-c", code, *words], capture_output=True, text=True, check=False)
    if done.stderr:
        print(done.stderr)
    return json.loads(done.stdout or "null")


def deleted(numbers, owner="ann"):
    """Lines that delete jobs of a user, a hundred in each."""
    numbers = list(map(str, numbers))
    return [f"{owner} qdel {' '.join(numbers[place : place + 100])}" for place in range(0, len(numbers), 100)]


def range_places(tally, federation):
    """Where a user's held jobs stand each after a deleted one, what others have deleted is retired all the same, since ranges of
    a single job take no more than half of the places."""
    lines = [*["ann qsub -h"] * 2020, *deleted(range(1, 2020, 2)), *["bob qsub -h"] * 20, *deleted(range(3031, 3051), "bob")]
    site, _ = filled(federation, lines, more="[house]\nevery = 1\nretire = 1\n")
    until(lambda: "that are recorded are retired" in site.logged(), 90, "some are retired")
    told = Counter((job["owner"], job["letter"]) for job in site.jobs().values())
    tally.same("and all of what the other has deleted", told, {("ann", "H"): 1010, ("ann", None): 511})
    tally.true("the log names whose jobs keep ranges apart", "jobs of ann that aren't gone keep 1010 of 1000 ranges" in site.logged())


class PlainSite:
    """What a site does with the lines of house-keeping, by a plain model: of its identifiers some stay, and some are retired."""

    def __init__(self, staying, retired):
        self.staying = set(staying)
        self.retired = set(retired)

    async def look(self, line):
        """No reservation stands."""
        return Answer(b"[]\n")

    async def ask(self, line):
        """Retires a range, of which there may be 1,000."""
        first, last = map(int, line.split()[1:])
        counters = self.retired | set(range(first, last + 1))
        if sum(counter - 1 not in counters for counter in counters) > 1000:
            return Answer(b"refused 14\n", "", 1)
        if not self.staying.isdisjoint(range(first, last + 1)):
            return Answer(b"refused 17\n", "", 1)
        self.retired = counters
        return Answer(b"done\n")


def range_joins(tally, federation):
    """Where each place for a range of retired jobs is used, and those that were held between them are deleted and recorded last,
    all of them are joined, and the site has room again."""
    last, now = 11_000, int(time.time())
    house = HouseKeys(accounting=federation.folder)
    site = PlainSite((), range(1, 2000, 2))
    capacity = Capacity("argonne", site, print)
    keeping = Housekeeping("argonne", house, site, None, None, capacity, set, print)
    told = {"letter": None, "owner": "ann", "deleted": True, "begun": None, "grant": None, "finished": None}
    jobs = [{**told, "id": f"{counter}.argonne"} for counter in [*range(2, 2001, 2), *range(4001, 11_001)]]
    moments = {job["id"]: now - (500 if place < 1000 else 1000) for place, job in enumerate(jobs)}
    keeping.accounting.known = {name: accounting.Entry(moment) for name, moment in moments.items()}
    capacity.note(jobs, last)
    asyncio.run(keeping.retire(last, jobs))
    tally.true("enough is retired", len([job for job in jobs if int(job["id"].partition(".")[0]) not in site.retired]) <= 7000)


def alternate(path):
    """Submits held jobs and deletes every other, again and again; prints how many were taken, and what was said to the first
    that wasn't."""
    taken = []
    while True:
        told = [ask(path, ["qsub", "-h"], None, {"folder": "/"}, b"true\n") for _ in range(100)]
        names = [it.answer.decode().strip() for it in told if not it.status]
        taken += names
        if len(names) < len(told) or len(taken) > 3000:
            print(json.dumps([len(taken), next((it.words for it in told if it.status), "")]))
            return
        ask(path, ["qdel", *names[::2]])


def ranges_of_users(tally, federation):
    """A user whose held jobs keep more than half of the ranges apart submits no more until some are gone; others do."""
    if not is_root(tally):
        return
    (site,) = federation.make("argonne:4", jobs="run = no", operators="root")
    count, words = called_as(OTHER, "alternate", site.socket)
    print(f"tests/service/rows: ranges_of_users: {count} jobs were taken: {words}")
    tally.true("that user is told so", f"jobs of {OTHER} that aren't gone keep" in words and "of 1000 ranges of ended jobs apart" in words)
    tally.true("soon enough", count < 1700)
    tally.true("the log names the user", f"jobs of {OTHER} that aren't gone keep" in site.logged())
    tally.same("another user submits", site.utility("qsub", "-h", given="true\n", before=as_user(THIRD), cwd="/")[0], 0)
    names = [name for name, job in site.jobs().items() if job["letter"] and job["owner"] == OTHER]
    for place in range(0, 500, 100):
        site.ask("qdel", *names[place : place + 100], role="operator")
    tally.same("so does the first once some are gone", site.utility("qsub", "-h", given="true\n", before=as_user(OTHER), cwd="/")[0], 0)


# So many seconds more are noise on a machine that plays other scenes too: of what is waited mostly, and at most. What these
# scenes look for held others up for one second to minutes.
NOISE = {"mostly": 0.1, "at most": 0.9}


def ask_beside(path, seconds):
    """Submits and lists again and again for so many seconds; prints the waits for each."""
    waits, end = {"qsub": [], "qstat": []}, time.monotonic() + float(seconds)
    while time.monotonic() < end:
        job = ""
        for name in waits:
            began = time.monotonic()
            told = ask(path, [name, job or "-h"], None, {"folder": "/"}, None if job else b"true\n")
            waits[name].append(time.monotonic() - began if not told.status else 1e9)
            job = told.answer.decode().strip()
        time.sleep(0.05)
    print(json.dumps(waits))


class Beside:
    """Another user, who submits and lists: for some seconds while all is quiet, and then beside whatever is done."""

    def __init__(self, tally, site, scene, seconds=6):
        self.tally, self.site, self.scene, self.seconds = tally, site, scene, seconds
        self.quiet = called_as(THIRD, "ask_beside", site.socket, "4")

    def compare(self, act, *words):
        """Does something as a user, and compares the waits meanwhile with those of before; what it printed."""
        code = f"import sys; sys.path.insert(0, {TOP!r}); from tests.service import shares as it; it.ask_beside(*sys.argv[1:])"
        command = [*as_user(THIRD), "/usr/bin/python3", "-B", "-c", code, self.site.socket, str(self.seconds)]
        asking = subprocess.Popen(command, stdout=subprocess.PIPE, text=True)
        told = called_as(OTHER, act, self.site.socket, *words)
        waits = json.loads(asking.communicate()[0])
        for name, spent in waits.items():
            for what, of in (("mostly", statistics.median), ("at most", max)):
                quiet, beside = of(self.quiet[name]), of(spent)
                print(f"tests/service/rows: {self.scene}: {name} waited {1000 * quiet:.0f} ms {what} when quiet, {1000 * beside:.0f} beside")
                self.tally.true(f"{name} waits {what} three times as long, but for noise", beside <= 3 * quiet + NOISE[what])
        return told


LONG_FACTS = {
    **dict.fromkeys(("folder", "home", "host", "lang", "path", "shell", "tz", "err", "out", "keep", "mail_to", "name"), "/" + "x" * 4000),
    **dict.fromkeys(("resources", "arguments"), "x" * 65_000),
}
LISTINGS = ("-a", "-x", "-n", "-s", "-u nobody", "-f -F json", "")


def submit_long(path, count):
    """Submits held jobs with long facts."""
    statuses = Counter(ask(path, ["qsub", "-h"], None, LONG_FACTS, b"true\n").status for _ in range(int(count)))
    print(json.dumps(sorted(statuses.items())))


def long_facts(tally, federation):
    """A thousand jobs with long facts keep nobody else from a listing, nor do they make it long."""
    if not is_root(tally):
        return
    site, quiet = federation.make("argonne:4", "lemont:4", jobs="run = no")
    for _ in range(1000):
        quiet.ask("qsub", "-h", body=b"true\n", facts={"folder": "/", "resources": "nodes=1"})
    spent = {}
    beside = Beside(tally, site, "long_facts", 12)
    tally.same("they are taken", beside.compare("submit_long", "1000"), [[0, 1000]])
    for where in (quiet, site):
        for words in LISTINGS:
            began = time.monotonic()
            status, output, said = where.utility("qstat", *words.split(), before=as_user(THIRD), cwd="/")
            spent.setdefault(words, []).append(time.monotonic() - began)
            if where is site:
                tally.same(f"qstat {words} lists", (status, said, output.count("argonne") >= 1000), (0, "", True))
    for words, (before, after) in spent.items():
        print(f"tests/service/rows: long_facts: qstat {words} took {1000 * before:.0f} ms with short facts, {1000 * after:.0f} with long ones")
        tally.true(f"qstat {words} takes three times as long at most", after <= 3 * before + NOISE["at most"])
    job = next(name for name, job in site.jobs().items() if job["owner"] == OTHER)
    status, output, _ = site.utility("qstat", "-f", "-F", "json", job, before=as_user(THIRD), cwd="/")
    tally.true("of one job all is told", status == 0 and "/" + "x" * 4000 in output)


def again(path, seconds, *requests):
    """Asks for these requests again and again, by 16 threads; prints how often each status was answered, and what was said."""
    end, found = time.monotonic() + float(seconds), Counter()

    def ask_all():
        while time.monotonic() < end:
            for words, facts, body in requests:
                told = ask(path, words, None, facts, body)
                found[f"{told.status} {told.words[:60]}"] += 1

    threads = [threading.Thread(target=ask_all) for _ in range(16)]
    for thread in threads:
        thread.start()
    for thread in threads:
        thread.join()
    print(json.dumps(found))


def look_for_old(path):
    """Asks for jobs that the accounting alone may have."""
    again(path, 8, *((["details", "all", name], None, None) for name in ("999999", "7", "999998.argonne", "150000")))


def old_jobs(tally, federation):
    """Who asks for jobs of which the accounting has many, or none, holds nobody up; what it has is told."""
    if not is_root(tally):
        return
    count, moment = 200_000, 1_790_000_000
    (site,) = federation.make("argonne:4", jobs="run = no")
    site.kill(signal.SIGTERM)
    folder, month = f"{site.home}/spool/accounting", time.strftime("%Y-%m", time.localtime(moment))
    os.makedirs(folder, exist_ok=True)
    told = {"owner": "ann", "deleted": True, "letter": None, "begun": None, "grant": None, "finished": None, "holds": [], "name": "old"}
    with open(f"{folder}/{month}.jsonl", "w", encoding="ascii") as file, open(f"{folder}/recorded", "w", encoding="ascii") as index:
        for number in range(1, count):
            file.write(json.dumps({"id": f"{number}.argonne", **told, "account": "x" * 300}, separators=(",", ":")) + "\n")
            index.write(f"{number}.argonne {moment} - -\n")
    site.start()
    site.wait_ready()
    until(lambda: open(f"{folder}/recorded", "rb").read().count(b"\n") >= count - 1 and time.sleep(8) is None, 30, "all is read")
    name = "123456.argonne"
    tally.same("a job that is recorded is told", json.loads(site.said("details", "all", name))["id"], name)
    tally.same("one that isn't is told not", site.ask("details", "all", "900000").answer, b"")
    found = Beside(tally, site, "old_jobs", 12).compare("look_for_old")
    print(f"tests/service/rows: old_jobs: {found}")
    tally.true("all are answered", set(found) == {"0 "})


def wait_for_all(path):
    """Submits jobs that wait for all others in each way; prints how often each status was answered, and what was said."""
    text = ",".join(f"{kind}:{':'.join(map(str, range(1, 1901)))}" for kind in ("after", "afterok", "afternotok", "afterany"))
    found, end = Counter(), time.monotonic() + 60
    while time.monotonic() < end:
        told = ask(path, ["qsub"], None, {"folder": "/", "depend": text}, b"true\n")
        found[f"{told.status} {told.words[-60:]}"] += 1
        if told.status == 1 and found[f"{told.status} {told.words[-60:]}"] > 3:
            break
    print(json.dumps(found))


def many_pairs(tally, federation):
    """A user's jobs wait for others so many times at most, and what waits is looked at in slices."""
    if not is_root(tally):
        return
    site, _ = filled(federation, ["ann qsub -h"] * 1900)
    site.utility("qsub", "-h", given="true\n", before=as_user(THIRD), cwd="/")  # for which all are counted once
    time.sleep(5)
    found = Beside(tally, site, "many_pairs", 25).compare("wait_for_all")
    print(f"tests/service/rows: many_pairs: {found}")
    tally.same("two are taken", found.get("0 "), 2)
    tally.true("and then no more", any("would wait for others 20000 times" in words for words in found))


def alter_again(path, job):
    """Alters one job 1,500 times in one request; prints the status, and how long it took."""
    began = time.monotonic()
    told = ask(path, ["alter", *[job] * 1500], None, {"mail_to": "ann"})
    print(json.dumps([told.status, time.monotonic() - began]))


def submit_large(path):
    """Submits a job with the longest script; prints its identifier."""
    print(json.dumps(ask(path, ["qsub", "-h"], None, {"folder": "/"}, b"#" * (16 << 20)).answer.decode().strip()))


def large_alters(tally, federation):
    """Altering a job with a long script again and again keeps no job of others waiting, nor their requests."""
    if not is_root(tally):
        return
    (site,) = federation.make("argonne:4", jobs="run = no")
    job, first = called_as(OTHER, "submit_large", site.socket), site.submit("true\n", "-h")
    second = site.submit("true\n", depend=f"afterany:{first}")
    waits = []

    def release():
        time.sleep(3)
        began = time.monotonic()
        site.ask("qdel", first)
        until(lambda: not site.jobs(second)[second]["holds"] or None, 300, "it is released")
        waits.append(time.monotonic() - began)

    releasing = threading.Thread(target=release)
    beside = Beside(tally, site, "large_alters", 12)
    releasing.start()
    status, spent = beside.compare("alter_again", job)
    releasing.join()
    print(f"tests/service/rows: large_alters: 1,500 times took {spent:.1f} s; a job that waited was released after {waits[0]:.1f} s")
    tally.same("they are done", status, 0)
    tally.true("a job of others is released soon", waits[0] < 5)


def refused_words(path):
    """Submits what is refused: ranges of an array with much in few bytes, and the smallest variables."""
    variables = b"A=\0" * 349_000
    array, nothing = ["qsub"], ["qsub", "-l", "nodes=0"]
    facts = {"folder": "/", "array": "0-999," * 680 + "1"}
    again(path, 8, (array, facts, b"true\n"), (nothing, {"folder": "/", "variables": str(len(variables))}, variables + b"true\n"))


def small_words(tally, federation):
    """What costs much for its bytes, and is refused, holds nobody up."""
    if not is_root(tally):
        return
    (site,) = federation.make("argonne:4", jobs="run = no")
    found = Beside(tally, site, "small_words", 12).compare("refused_words")
    print(f"tests/service/rows: small_words: {found}")
    tally.true("all are refused", all(words[0] in "12" for words in found))


def keep_silent(port, kind):
    """Opens connections to the page, some silent, some with requests whose answers aren't read, and keeps them until standard
    input ends."""
    streams = []
    for _ in range(300 if kind == "silent" else 60):
        try:
            streams.append(socket.create_connection(("127.0.0.1", int(port)), timeout=10))
            if kind != "silent":
                streams[-1].sendall(b"GET /jobs.json HTTP/1.1\r\nHost: localhost\r\n\r\n")
        except OSError:
            pass
    print(len(streams), flush=True)
    sys.stdin.read()


def silent_browsers(tally, federation):
    """Connections of one user that are silent, or whose answers aren't read, keep nobody else from the page."""
    if not is_root(tally):
        return
    port = free_port()
    site, _ = filled(federation, ["ann qsub -h"] * 1000, more=f"[page]\nport = {port}\n")
    code = f"import sys; sys.path.insert(0, {TOP!r}); from tests.service import shares as it; it.keep_silent(*sys.argv[1:])"
    until(lambda: page_of(port, "jobs.json"), 20, "the page is there")
    for kind in ("silent", "deaf"):
        command = [*as_user(OTHER), "/usr/bin/python3", "-B", "-c", code, str(port), kind]
        keeping = subprocess.Popen(command, stdin=subprocess.PIPE, stdout=subprocess.PIPE)
        try:
            tally.true("there are some", int(keeping.stdout.readline()) >= 32)
            for path in ("", "metrics", "jobs.json") * 3:
                began = time.monotonic()
                try:
                    tally.true(f"beside {kind} ones the page /{path} is told", page_of(port, path))
                except OSError as fault:
                    tally.fail(f"beside {kind} ones the page /{path} is: {fault!r}")
                tally.true("soon", time.monotonic() - began < 10)
        finally:
            keeping.stdin.close()
            keeping.wait()


def cancelled_calls(tally, federation):
    """A command that is ended, while what has left its session keeps its streams, is no fault that the loop logs."""
    told = []

    async def call_one():
        asyncio.get_running_loop().set_exception_handler(lambda loop, context: told.append(context))
        try:
            await call(("sh", "-c", "setsid sleep 7 & exec sleep 30"), 0.5)
        except asyncio.TimeoutError:
            told.append("too late")
        await asyncio.sleep(2)  # what has left the session ends
        gc.collect()

    asyncio.run(call_one())
    tally.same("it is too late, and nothing else", told, ["too late"])


ALL = (range_places, range_joins, ranges_of_users, long_facts, old_jobs, many_pairs, large_alters, small_words, silent_browsers, cancelled_calls)
SCENES = {it.__name__: it for it in ALL}
