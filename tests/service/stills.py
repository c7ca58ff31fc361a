"""Scenes of what stands still or is slow: a peer that writes without an end, and the site's program."""
import os
import signal
import threading
import time
import urllib.error
import urllib.request

from tests.service.hangs import read, write
from tests.service.sites import free_port, kind_of, until

STILL_SECONDS = 40
SLOW_SECONDS, SLOW_TIMES = 5, 2
NOISE = """case $3 in take | ship)
    [ ! -e {folder}/noisy ] || head -c 5000000 /dev/zero >&2
    [ ! -e {folder}/hung ] || sleep 600;;
esac
from=$1 to=$2
"""


def noisy_peers(tally, federation):
    """A peer that writes much to standard error is read, and ended where it hangs: jobs come and go then."""
    folder = federation.folder
    federation.has_links = True
    write(f"{folder}/link", read(f"{folder}/link").replace("from=$1 to=$2\n", NOISE.format(folder=folder)), 0o755)
    argonne, lemont = federation.make("argonne:1", "lemont:2", jobs="run = no")
    write(f"{folder}/noisy", "")
    first = argonne.submit("true\n")
    until(lambda: first in lemont.jobs(), 20, "a peer that writes much is heard")
    write(f"{folder}/hung", "")
    second = argonne.submit("true\n")
    until(lambda: "within 10 s" in argonne.logged(), 30, "one that hangs behind that is ended, and the log says so")
    os.remove(f"{folder}/hung")
    until(lambda: second in lemont.jobs(), 20, "and is asked again")


def program_of(federation):
    """The process of the site's program."""
    return next(pid for pid in federation.processes() if kind_of(pid) == "serve")


def page_at(port):
    """The page's status and text."""
    try:
        with urllib.request.urlopen(f"http://127.0.0.1:{port}/", timeout=STILL_SECONDS + 30) as response:
            return response.status, response.read().decode()
    except urllib.error.HTTPError as fault:
        return fault.code, fault.read().decode()


def still_sites(tally, federation):
    """The site's program stands still: users and the page are told so, also the log, and all goes on when it does."""
    port = free_port()
    (site,) = federation.make("argonne:4", pages={"argonne": port})
    told, child = {}, program_of(federation)

    def asks(name, question):
        began = time.monotonic()
        answer = question()
        told[name] = (time.monotonic() - began, answer)

    questions = {
        "qstat": lambda: site.ask("qstat"),
        "qsub": lambda: site.ask("qsub", body=b"exit 7\n", facts={"folder": federation.folder, "umask": "022"}),
        "the page": lambda: page_at(port),
    }
    later = {"a later qstat": lambda: site.ask("qstat")}
    threads = [threading.Thread(target=asks, args=it, daemon=True) for it in (questions | later).items()]
    os.kill(child, signal.SIGSTOP)
    try:
        for thread in threads[:-1]:
            thread.start()
        time.sleep(STILL_SECONDS - 5)
        tally.same("all are answered", sorted(told), sorted(questions))
        threads[-1].start()
        time.sleep(5)
    finally:
        os.kill(child, signal.SIGCONT)
    for thread in threads:
        thread.join()
    took, answer = told["a later qstat"]
    tally.same("who asks later is told at once", (answer.status, took < 3), (3, True))
    for name in ("qstat", "qsub"):
        answer = told[name][1]
        tally.same(f"{name} is told", (answer.status, "the site does not answer" in answer.words, answer.answer), (3, True, b""))
    tally.same("and the page", (told["the page"][1][0], "does not answer" in told["the page"][1][1]), (503, True))
    until(lambda: site.ask("qstat").status == 0, 5, "it answers")
    tally.same("the log says both", [words in site.logged() for words in ("the site does not answer", "the site answers again")], [True] * 2)
    began = time.monotonic()
    tally.same("a job that was submitted meanwhile runs", site.finished("1.argonne", 15), 7)
    later = site.submit("exit 8\n")
    tally.same("and so does a later one", site.finished(later, 15), 8)
    tally.true("soon", time.monotonic() - began < 15)
    tally.same("the answers are those of the questions", (site.said("seen").split()[0], list(site.jobs())), ("argonne", ["1.argonne", later]))


def slow_sites(tally, federation):
    """The site's program is slow for a while, as by costly looks of others: of that time nothing counts as that of the scheduler's
    plans, so that jobs start soon."""
    (site,) = federation.make("argonne:4")
    site.submit("sleep 300\n", "-l", "nodes=3")
    until(lambda: site.jobs()["1.argonne"]["begun"], 20, "a job runs")
    child = program_of(federation)
    try:
        for _ in range(SLOW_TIMES):
            os.kill(child, signal.SIGSTOP)
            time.sleep(SLOW_SECONDS)
            os.kill(child, signal.SIGCONT)
            time.sleep(0.005)
    finally:
        os.kill(child, signal.SIGCONT)
    began = time.monotonic()
    tally.same("a job starts", site.finished(site.submit("exit 6\n", "-l", "nodes=1,walltime=10"), 120), 6)
    took = time.monotonic() - began
    tally.true(f"soon after that: {took:.1f} s", took < 5)


SCENES = {it.__name__: it for it in (noisy_peers, still_sites, slow_sites)}
