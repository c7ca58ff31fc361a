"""Scenes of what others may not do: peers, members of a shared folder's group, users without a role."""
import glob
import json
import os
import shutil
import signal
import time
import urllib.error
import urllib.request

from tests.service.scenes import OPERATOR, OTHER, as_user, is_root, read
from tests.service.sites import free_port, until
from nettlebeam_service.peers.folder_link import FolderLink


def grants_fit(tally, federation):
    """A peer gets no job that needs more nodes than it has by the roster, and no script but of a job that it holds."""
    argonne, lemont = federation.make("argonne:4", "lemont:2", jobs="run = no")
    large, small = (argonne.submit("true\n", "-l", f"nodes={nodes}") for nodes in (3, 2))

    def asked(*words):
        return argonne.utility("nettlebeam-peer", "lemont", environment={"SSH_ORIGINAL_COMMAND": " ".join(words)})

    tally.same("of two jobs it gets one", asked("grant", large, small)[:2], (0, "refused 7\ngranted\n"))
    tally.same("the other stays", argonne.jobs(large)[large]["letter"], "Q")
    tally.same("whose script it can't read", asked("script", large)[:2], (1, ""))
    tally.true("that of its own job it can", asked("script", small)[1].endswith("true\n"))
    tally.same("this service gives itself whatever it can", argonne.said("grant", large, "argonne"), "granted\n")
    tally.same("a script is read before its job begins", argonne.ask("script", large, "argonne").status, 0)
    argonne.ask("begin", large, "5")
    tally.same("and not behind that", argonne.ask("script", large, "argonne").status, 1)
    argonne.ask("roster", "argonne:4", "lemont:3")
    other = argonne.submit("true\n", "-l", "nodes=3")
    tally.same("with a longer roster the peer gets it", asked("grant", other)[1], "granted\n")


def asks_fit(tally, federation):
    """The same by a shared folder."""
    shared = f"{federation.folder}/shared"
    os.mkdir(shared)
    federation.folders = shared
    argonne, lemont = federation.make("argonne:4", "lemont:2", jobs="run = no")
    large, small = (argonne.submit("true\n", "-l", f"nodes={nodes}") for nodes in (3, 2))
    link = FolderLink(shared, federation.key("argonne", "lemont"), "lemont", "argonne", print)
    link.ask((large, small))
    until(lambda: argonne.jobs(small)[small]["letter"] == "T", 20, "the small job is granted")
    tally.same("the large one isn't", argonne.jobs(large)[large]["letter"], "Q")
    until(lambda: os.path.exists(f"{shared}/lemont/{small}.script"), 20, "a script is given")
    tally.true("of the other none is", not os.path.exists(f"{shared}/lemont/{large}.script"))


def links_in_folders(tally, federation):
    """Where a folder in the shared one is replaced by a link, nothing is written behind it, nor made, read or taken away there."""
    shared, victim = (f"{federation.folder}/{name}" for name in ("shared", "victim"))
    os.mkdir(shared)
    os.mkdir(victim)
    for name in ("argonne.packet", "argonne.packet.new"):
        with open(f"{victim}/{name}", "w", encoding="ascii") as file:
            file.write("hers\n")
    os.symlink(victim, f"{shared}/lemont")
    federation.folders = shared
    argonne, lemont = federation.make("argonne:4", "lemont:2", jobs="run = no")
    job = argonne.submit("true\n")
    until(lambda: "is a symbolic link or no folder" in argonne.logged() or read(f"{victim}/argonne.packet") != "hers\n", 20, "it is noticed")
    time.sleep(2)
    tally.same("what is behind the link stays", {name: read(f"{victim}/{name}") for name in os.listdir(victim)},
               {"argonne.packet": "hers\n", "argonne.packet.new": "hers\n"})
    tally.true("the log tells it", "is a symbolic link or no folder, so nothing is read or written there" in argonne.logged())
    os.remove(f"{shared}/lemont")
    until(lambda: job in lemont.jobs(), 20, "without the link packets arrive")
    tally.same("the folder is its group's", oct(os.stat(f"{shared}/lemont").st_mode & 0o7777), "0o2770")


def books(site):
    """The lines of the accounting."""
    paths = sorted(glob.glob(f"{site.home}/spool/accounting/*.jsonl"))
    return [json.loads(line) for path in paths for line in read(path).splitlines()]


def given_again(tally, federation):
    """Behind a restore that is permitted a job that gets an identifier again is recorded, too, and no job twice."""
    (site,) = federation.make("argonne:4", more="[house]\nevery = 0.3\n")
    site.kill(signal.SIGTERM)
    shutil.copy(f"{site.home}/site/journal", f"{federation.folder}/old")
    wanted = []
    for status in (3, 4):
        shutil.copy(f"{federation.folder}/old", f"{site.home}/site/journal")
        site.start()
        site.wait_ready()
        job, held = site.submit(f"exit {status}\n"), site.submit("true\n", "-h")
        site.ask("qdel", held)
        # the number of the second depends on whether the first was granted before
        wanted += [(job, status), (held, None)]
        tally.same("a job ends", (job, site.finished(job)), ("1.argonne", status))
        until(lambda status=status: len(books(site)) >= 2 * (status - 2), 20, "both are recorded")
        site.kill(signal.SIGTERM)
        time.sleep(1.1)  # the dates of the two are others
    site.start()
    site.wait_ready()
    time.sleep(2)
    told = [(it["id"], (it["finished"] or {}).get("status")) for it in books(site)]
    tally.same("each of the four is recorded once", sorted(told, key=str), sorted(wanted, key=str))
    path = f"{site.home}/spool/accounting/recorded"
    moments = [int(line.split()[1]) for line in read(path).splitlines() if line.startswith(f"{job} ")]
    tally.true("the later by its own date", len(moments) == 2 and moments[0] < moments[1])


def priorities(tally, federation):
    """A priority above that of the configuration is for who has a role: by qsub, by qalter, and however it is written."""
    if not is_root(tally):
        return
    (site,) = federation.make("argonne:4", jobs="run = no", operators=OPERATOR)

    def asked(user, *words, role=None):
        how = {"environment": {"NETTLEBEAM_ROLE": role} if role else {}, "before": as_user(user), "cwd": "/"}
        return site.utility(*words, given="#PBS -N named\ntrue\n", **how)

    def refused(options):
        return 2, "", f"qsub: a priority above 0 is asked as operator or admin\nqsub: the options are {options}\n"

    for words in (("-p", "1023"), ("-p1",), ("-p", "+5"), ("-hp9",), ("-p", "-1", "-p", "7")):
        tally.same(f"another user can't submit by {' '.join(words)}", asked(OTHER, "qsub", *words)[:2], (2, ""))
    tally.same("and reads why", asked(OTHER, "qsub", "-p", "9"), refused("-N named -p 9"))
    tally.same("that of a directive as little", site.utility("qsub", given="#PBS -p 9\ntrue\n", before=as_user(OTHER), cwd="/"), refused("-p 9"))
    tally.same("0 and less are everybody's", [asked(OTHER, "qsub", "-p", it)[0] for it in ("0", "-1024")], [0, 0])
    tally.same("qalter can't either", asked(OTHER, "qalter", "-p", "1", "1")[0], 2)
    tally.same("an operator can", asked(OPERATOR, "qalter", "-p", "1", "1", role="operator")[0], 0)
    tally.same("but not without the role", asked(OPERATOR, "qsub", "-p", "1")[0], 2)
    tally.same("so there are two jobs", [it["priority"] for it in site.jobs().values()], [1, -1024])


def escapes(tally, federation):
    """What others tell is logged without what a terminal obeys."""
    command = f"{federation.folder}/odd"
    with open(command, "w", encoding="ascii") as file:
        file.write("#!/bin/sh\nprintf 'no \\033]0;title\\007 \\033[2Jroute\\n' >&2\nexit 1\n")
    os.chmod(command, 0o755)
    site = federation.add("argonne", "argonne:4", "lemont:2", jobs="run = no", more=f"[peer lemont]\ncommand = {command}\nsoon = 0.2\n")
    site.wait_ready()
    site.submit("true\n")  # of which the peer is told
    until(lambda: "route" in site.logged(), 20, "the peer's words are logged")
    tally.same("no byte of it is a terminal's", [it for it in site.logged() if not it.isprintable() and it != "\n"], [])
    tally.true("but shown", "\\x1b[2Jroute" in site.logged())


def page_names(tally, federation):
    """The page is answered by this machine's names whatever the port, as behind `ssh -L`, and by no other name."""
    port = free_port()
    (site,) = federation.make("argonne:4", jobs="run = no", more=f"[page]\nport = {port}\n")
    hosts = (f"127.0.0.1:{port}", "localhost:9000", "127.0.0.1:80", "LocalHost", "[::1]:9000")
    tally.same("these names", [status_of(port, host) for host in hosts], [200] * 5)
    others = ("evil.example", f"evil.example:{port}", f"localhost.evil.example:{port}", "127.0.0.1.evil.example", f"127.0.0.1:{port}@evil.example", f"[::2]:{port}", "127.0.0.1:")
    tally.same("and no others", [status_of(port, host) for host in others], [403] * 7)
    tally.true("the site answers", site.said("seen"))


def status_of(port, host):
    """The status of the page that is asked by a name."""
    request = urllib.request.Request(f"http://127.0.0.1:{port}/", headers={"Host": host})
    try:
        with urllib.request.urlopen(request, timeout=20) as response:
            return response.status
    except urllib.error.HTTPError as fault:
        return fault.code


def left_alone(tally, federation):
    """`why`, `qstat -s` and the page don't say that a job starts which is left alone, since nothing is run as its owner."""
    if not is_root(tally):
        return
    port = free_port()
    (site,) = federation.make("argonne:4", more=f"[page]\nport = {port}\n")
    done = site.utility("qsub", given="true\n", before=as_user(OTHER), cwd="/")
    job = done[1].strip()
    until(lambda: "left alone" in site.logged(), 20, "the log says so")
    told = site.ask("why", job, str(int(time.time())))
    tally.same("why tells more than the site does", (told.answer, told.words), (b"starts\n", f"{job} doesn't: left alone, since nothing is run here as its owner"))
    tally.true("qstat -s", "left alone" in site.utility("qstat", "-s", job)[1])
    for path in ("", f"jobs/{job}"):
        with urllib.request.urlopen(f"http://127.0.0.1:{port}/{path}", timeout=20) as response:
            tally.true(f"the page /{path}", b"left alone, since nothing is run here as its owner" in response.read())


SCENES = {it.__name__: it for it in (grants_fit, asks_fit, links_in_folders, given_again, priorities, escapes, page_names, left_alone)}
