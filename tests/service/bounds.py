"""Scenes of what one user may take: looks, jobs, scripts and places at the socket."""
import json
import os
import shutil
import signal
import statistics
import subprocess
import sys
import threading
import time
import urllib.request

from tests.playing import TOP
from tests.service.scenes import OTHER, as_user, is_root, read
from tests.service.sites import ask, free_port, until
from tests.service.strangers import connect, head

NAMES = 28_000


def filled(federation, lines, **how):
    """A site whose directory was given these lines before its service starts."""
    federation.make("argonne:4", jobs="run = no", **how)
    (site,) = federation.sites.values()
    site.kill(signal.SIGTERM)
    text = "".join(f"{line}\n" for line in lines)
    done = subprocess.run([federation.program, "serve", f"{site.home}/site"], input=text, capture_output=True, text=True, check=True)
    site.start()
    site.wait_ready()
    return site, done.stdout


def look_at_many(path):
    """Asks for 28,000 jobs, and reads the answer; how long that took."""
    began = time.monotonic()
    with connect(path) as stream:
        stream.sendall(head(words=["jobs", *(str(1 + place % 2000) for place in range(NAMES))]))
        while stream.recv(1 << 20):
            pass
    return time.monotonic() - began


def flood(path, seconds):
    """Asks for them again and again, by 16 threads."""
    end = time.monotonic() + seconds

    def look():
        while time.monotonic() < end:
            look_at_many(path)

    threads = [threading.Thread(target=look) for _ in range(16)]
    for thread in threads:
        thread.start()
    for thread in threads:
        thread.join()


def named_looks(tally, federation):
    """A look that names 28,000 jobs costs as one of all jobs: a user who asks it by 16 threads holds others up by few of them."""
    if not is_root(tally):
        return
    site, _ = filled(federation, ["ann qsub -h"] * 2000)
    alone = max(look_at_many(site.socket) for _ in range(5))
    call = f"import sys; sys.path.insert(0, {TOP!r}); from tests.service import bounds as it; it.flood({site.socket!r}, 12)"
    flooding = subprocess.Popen([*as_user(OTHER), "/usr/bin/python3", "-B", "-c", call])
    waits = {"qstat": [], "qsub": []}
    time.sleep(2)
    while flooding.poll() is None:
        for name in ("qstat", "qsub"):
            began = time.monotonic()
            site.ask(name, *(["1"] if name == "qstat" else ["-h"]))
            waits[name].append(time.monotonic() - began)
    for name, spent in waits.items():
        usual = statistics.median(spent)
        print(f"tests/service/rows: named_looks: {name} waited {1000 * usual:.0f} ms mostly, {1000 * max(spent):.0f} at most, of {len(spent)} times; a look took {1000 * alone:.0f} ms")
        # a busy machine delays one of them now and then, so the longest has more room
        tally.true(f"{name} of another user mostly waits for a few of these looks", usual < 4 * alone + 0.2)
        tally.true(f"{name} never waits for all of them", max(spent) < 16 * alone + 2)


def submit_many(path, count):
    """Submits held jobs by 16 threads; prints how many were answered by identifiers, and what the others were told."""
    told = []

    def submit(share):
        for _ in range(share):
            one = ask(path, ["qsub", "-h"], None, {"folder": "/"}, b"true\n")
            told.append("" if one.answer.endswith(b".argonne\n") else one.words)

    threads = [threading.Thread(target=submit, args=(count // 16,)) for _ in range(16)]
    for thread in threads:
        thread.start()
    for thread in threads:
        thread.join()
    print(json.dumps([told.count(""), sorted({words for words in told if words})]))


def called(site, user, call):
    """Calls a function of this module as another user; what it prints, as JSON."""
    code = f"import sys; sys.path.insert(0, {TOP!r}); from tests.service import bounds as it; it.{call.format(repr(site.socket))}"
    done = subprocess.run([*as_user(user), "/usr/bin/python3", "-B", "-c", code], capture_output=True, text=True, check=False)
    return json.loads(done.stdout or "null")


def jobs_of_users(tally, federation):
    """A user has at most 1,000 jobs here that aren't gone; others submit, and so does that user again where some are gone."""
    if not is_root(tally):
        return
    (site,) = federation.make("argonne:4", jobs="run = no")
    told = called(site, OTHER, "submit_many({}, 1200)")
    tally.same("1,000 of 1,200 are taken", told, [1000, ["nobody would have more than 1000 jobs here that aren't gone"]])

    def submitted(user, *words):
        return site.utility("qsub", "-h", *words, given="true\n", before=as_user(user), cwd="/")[0]

    tally.same("another user submits", submitted("games"), 0)
    tally.same("the first can't", submitted(OTHER), 1)
    site.utility("qdel", *map(str, range(1, 21)), before=as_user(OTHER))
    tally.same("and can again where some are gone", submitted(OTHER), 0)
    tally.same("an array counts by its members", [submitted(OTHER, "-J", "1-20"), submitted(OTHER, "-J", "1-19")], [1, 0])
    tally.same("there are as many as may be", sum(it["owner"] == OTHER and not it["deleted"] for it in site.jobs().values()), 1000)


def scripts_of_users(tally, federation):
    """A user's scripts have at most so many bytes in the spool, also behind qdel and qalter."""
    if not is_root(tally):
        return
    (site,) = federation.make("argonne:4", jobs="run = no", more="[clients]\nspool_of_user = 1000000\n")
    script = "#" * 300_000 + "\n"

    def submitted(user, *words):
        return site.utility("qsub", "-h", *words, given=script, before=as_user(user), cwd="/")

    tally.same("three fit", [submitted(OTHER)[0] for _ in range(3)], [0] * 3)
    site.ask("qdel", "1", "2", "3")
    tally.same("a fourth doesn't", submitted(OTHER)[::2], (1, "qsub: nobody would have more than 1000000 bytes of scripts here\n"))
    tally.same("another user submits", submitted("games")[0], 0)
    tally.same("an array has its script once", submitted("games", "-J", "1-9")[0], 0)
    alter = [*("qalter", "-v", "A=1", "5", "6", "7", "8", "9")]
    done = site.utility(*alter, before=as_user("games"), cwd="/")
    tally.same("its members can't each have their own", done[0], 1)
    os.remove(f"{site.home}/spool/scripts/1.argonne")
    time.sleep(5)
    tally.same("what is gone from the spool counts no longer", submitted(OTHER)[0], 0)


def spool_room(tally, federation):
    """The spool's disk keeps its free bytes: a script that would take them is refused, and jobs go on."""
    if not is_root(tally):
        return
    spool = f"{federation.folder}/argonne/spool"
    os.makedirs(spool)
    subprocess.run(["mount", "-t", "tmpfs", "-o", "size=4m", "none", spool], check=True)
    try:
        (site,) = federation.make("argonne:4")
        first = site.submit("exit 5\n", "-h")
        told = [site.ask("qsub", "-h", body=b"#" * size) for size in (500_000, 50_000, 5_000) for _ in range(25)]
        tally.true("some fit", told[0].status == 0)
        tally.same("the others are refused", {(it.status, it.words) for it in told if it.status}, {(3, "the spool: its disk is full")})
        tally.true("some bytes are left", shutil.disk_usage(spool).free >= 65_536)
        site.ask("qrls", first)
        tally.same("a job that was taken before runs", site.finished(first), 5)
        site.kill(signal.SIGTERM)
    finally:
        federation.end()
        subprocess.run(["umount", spool], check=True)


def nearly_full(tally, federation):
    """Where a site is three quarters full, what is gone is retired early, the oldest first; log and page say how full it is."""
    lines = ["ann qsub -h"] * 7600 + [f"ann qdel {' '.join(map(str, range(first, first + 100)))}" for first in range(1, 5001, 100)]
    port = free_port()
    site, _ = filled(federation, lines, more=f"[page]\nport = {port}\n")
    until(lambda: len(site.jobs()) == 7000, 60, "600 of the jobs that are gone are retired")
    tally.same("the oldest", min(int(name.partition(".")[0]) for name in site.jobs()), 601)
    tally.true("the log says how full it was", "the site has 7600 of 10000 jobs, and 5000 of them are gone" in site.logged())
    until(lambda: "<b>7600</b>of 10000" in page_of(port) or "<b>7000</b>of 10000" in page_of(port), 70, "the page says how full it is")
    recorded = sum(len(read(f"{site.home}/spool/accounting/{it}").splitlines()) for it in os.listdir(f"{site.home}/spool/accounting") if it != "recorded")
    tally.same("all that are gone are recorded", recorded, 5000)


def page_of(port, path=""):
    """The text of a page."""
    with urllib.request.urlopen(f"http://127.0.0.1:{port}/{path}", timeout=20) as response:
        return response.read().decode()


def crowds(tally, federation):
    """Where five users take all places of clients that they can get, others are answered, also by several clients at once."""
    if not is_root(tally):
        return
    (site,) = federation.make("argonne:4", jobs="run = no", more="[clients]\nmost = 200\nmost_of_user = 50\n")
    code = f"import sys; sys.path.insert(0, {TOP!r}); from tests.service import strangers as it; it.take_places({site.socket!r}, 50)"
    crowd = []
    try:
        for uid in range(70_001, 70_006):
            before = ["setpriv", f"--reuid={uid}", f"--regid={uid}", "--clear-groups"]
            crowd.append(subprocess.Popen([*before, "/usr/bin/python3", "-B", "-c", code], stdin=subprocess.PIPE, stdout=subprocess.PIPE))
            crowd[-1].stdout.readline()
        tally.same("another user is answered", site.utility("qstat", before=as_user(OTHER))[::2], (0, ""))
        told = called(site, OTHER, "look_together({}, 2)")
        tally.same("also by two clients at once", told, [0, 0])
    finally:
        for process in crowd:
            process.stdin.close()
            process.wait()
    tally.same("alone a user gets what a user may have", called(site, OTHER, "look_together({}, 50)"), [0] * 50)


def look_together(path, count):
    """Asks by so many clients that are connected at once; prints the statuses."""
    streams = [connect(path) for _ in range(count)]
    time.sleep(0.5)
    for stream in streams:
        stream.sendall(head(words=["seen"]))
    print(json.dumps([json.loads(stream.makefile("rb").readline() or b"{}").get("status") for stream in streams]))


SCENES = {it.__name__: it for it in (named_looks, jobs_of_users, scripts_of_users, spool_room, nearly_full, crowds)}
