"""Scenes of moments: processes are killed while a job starts, and the page is read."""
import collections
import dataclasses
import json
import os
import random
import re
import signal
import socket
import subprocess
import time
import urllib.error
import urllib.request
from xml.etree import ElementTree

from tests.service.sites import SERVICE, Unasked, config, free_port, kind_of, settings, until

KILLS = 60
PORT = free_port()


def starts(tally, federation):
    """A process of some kind is killed at a random moment of a job's start, again and again."""
    (site,) = federation.make("argonne:2")
    ran, pick = f"{federation.folder}/ran", random.Random(7)
    kinds, killed, jobs = ("nettlebeamd", "runner", "runner_server", "nettlebeam-node", "serve"), collections.Counter(), {}
    for number in range(KILLS):
        try:
            until(lambda: site.ask("seen").status == 0, 30, "the site answers")
            job = site.submit(f"echo $PBS_JOBID >> {ran}\nsleep 0.1; exit {number % 9}\n")
            jobs[job] = number % 9
        except (Unasked, OSError):
            continue
        kind, end, victim = pick.choice(kinds), time.monotonic() + 0.6, None
        time.sleep(pick.uniform(0, 0.45))
        while time.monotonic() < end:
            found = [pid for pid in federation.processes() if kind_of(pid) == kind]
            if found:
                victim = pick.choice(found)
                os.kill(victim, signal.SIGKILL)
                killed[kind] += 1
                break
        if victim == site.process.pid or not site.is_up():
            site.process.wait()
            site.start()
        try:
            until(lambda: site.ask("seen").status == 0, 30, "the site answers")
        except (Unasked, OSError):
            site.wait_ready()
    statuses = collections.Counter()
    for job, wanted in jobs.items():
        status = site.finished(job, 60)
        statuses["as the script ends" if status == wanted else str(status)] += 1
        tally.true(f"{job} ends as its script does, or was killed", status in (wanted, 255, 137))
    with open(ran, encoding="ascii") as file:
        counts = collections.Counter(file.read().split())
    tally.same("none ran twice", [job for job, count in counts.items() if count > 1], [])
    print(f"tests/service/rows: starts: killed {dict(killed)}; finished {dict(statuses)}")


def read_page(path, **headers):
    """A page: its status, and its text."""
    request = urllib.request.Request(f"http://127.0.0.1:{PORT}{path}", headers=headers)
    end = time.monotonic() + 30
    while True:
        try:
            with urllib.request.urlopen(request, timeout=10) as response:
                return response.status, response.read().decode()
        except urllib.error.HTTPError as fault:
            return fault.code, fault.read().decode()
        except urllib.error.URLError:  # the page comes a moment behind the answers of a service that is started
            if time.monotonic() > end:
                raise
            time.sleep(0.1)


def page(tally, federation):
    """The page: well-formed, without a script, for reading alone."""
    (site,) = federation.make("argonne:4", jobs="run = no", more=f"[page]\nport = {PORT}\njobs = 20\n")
    for number in range(45):
        site.submit("true\n", "-N", f"n{number}", "-l", f"nodes={1 + number % 4}", *(["-h"] if number % 5 == 4 else []))
    for path in ("/", "/?from=21", "/?from=900", "/jobs/1.argonne", "/jobs/1"):
        status, text = read_page(path)
        tally.same(f"{path} is there", status, 200)
        root = ElementTree.fromstring(text)
        names = [element.tag.rpartition("}")[2] for element in root.iter()]
        tally.true(f"{path} has a title and one head line", root.findtext(".//{*}title") and names.count("h1") == 1)
        tally.same(f"{path} has no script", names.count("script"), 0)
    site.ask("grant", "2", "argonne")
    site.ask("handback", "2")
    site.ask("grant", "3", "argonne")
    time.sleep(2.5)
    text = read_page("/")[1]
    tally.same("a job whose grant was handed back waits as others", "granted to" in text, False)
    tally.same("its own page", read_page("/jobs/2")[0], 200)
    tally.same("each job shown has its row", text.count('href="/jobs/'), 20)
    tally.true("and its reason", "held: user" in text and "starts" in text)
    tally.true("the chart tells times of the day", re.search(r"from [0-9]{2}:[0-9]{2} to", text) and "viewBox" in text)
    told = json.loads(read_page("/jobs.json")[1])
    tally.same("all jobs as JSON", [job["id"] for job in told], list(site.jobs()))
    for path in ("/nothing", "/jobs/900.argonne", "/jobs/1.nowhere", "/jobs/<b>", "/?from=x", "/..%2f"):
        tally.same(f"{path} isn't there", read_page(path)[0], 404)
    tally.same("another name is refused", read_page("/", Host="evil.example")[0], 403)


def systemd(tally, federation):
    """What systemd hands over, and what it is told."""
    (site,) = federation.make("argonne:4", jobs="run = no")
    site.kill(signal.SIGTERM)
    path = f"{federation.folder}/handed.sock"
    with socket.socket(socket.AF_UNIX) as listener, socket.socket(socket.AF_UNIX, socket.SOCK_DGRAM) as ears:
        listener.bind(path)
        listener.listen()
        ears.bind(f"{federation.folder}/notify")
        ears.settimeout(20)
        script = 'export LISTEN_PID=$$; exec 3<&"$1"; exec "$2" "$3"'
        site.process = subprocess.Popen(
            ["bash", "-c", script, "bash", str(listener.fileno()), f"{SERVICE}/nettlebeamd", site.config],
            pass_fds=[listener.fileno()],
            stderr=subprocess.DEVNULL,
            env={**os.environ, "LISTEN_FDS": "1", "NOTIFY_SOCKET": f"{federation.folder}/notify", "NETTLEBEAM_TEST": federation.mark},
        )
        site.socket = path
        tally.same("a user who comes early is answered", site.ask("qstat").status, 0)
        tally.same("it tells that it is ready", ears.recv(100), b"READY=1")
        site.process.send_signal(signal.SIGHUP)
        time.sleep(0.5)
        tally.same("it answers after it has read its configuration anew", site.ask("qstat").status, 0)
        site.kill(signal.SIGTERM)
        tally.same("it tells that it stops", ears.recv(100), b"STOPPING=1")
        tally.same("it ends in order", site.process.returncode, 0)
        tally.true("the socket stays", os.path.exists(path))


def keys(tally, federation):
    """The example has every key with its default, and a wrong key is named."""
    (site,) = federation.make("argonne:4", "lemont:2", jobs="run = no")[:1]
    with open(f"{SERVICE}/site.conf.example", encoding="utf-8") as file:
        text = file.read()
    given = text.replace("/srv/argonne", f"{site.home}/site")
    path = f"{federation.folder}/example.conf"
    tally.same("what is wrong is told", site.utility("nettlebeamd", "--check", "/nowhere")[0], 2)
    done = site.utility("nettlebeamd", "--check", site.config)
    tally.same("a right configuration", (done[0], "of argonne, with 0 of 1 other sites" in done[1]), (0, True))
    plain = config_of(path, given)
    wanted = {section.__name__: section() for section in (config.ClientKeys, config.JobKeys, config.PageKeys, config.HouseKeys)}
    tally.same("without the defaults", [plain.clients, plain.jobs, plain.page, dataclasses.replace(plain.house, accounting="{spool}/accounting")], list(wanted.values()))
    found = set(re.findall(r"^;?([a-z_]+) =", text, re.M))
    named = {it.name for kind in (config.SiteKeys, config.ClientKeys, config.JobKeys, config.PageKeys, config.HouseKeys, config.PeerKeys) for it in dataclasses.fields(kind)}
    tally.same("every key stands there", found, named)
    with_defaults = config_of(path, re.sub(r"^;(?!start|stop|folder|key|backup|operators|admins|hosts|link|cgroup|elsewhere|history)", "", given, flags=re.M))
    tally.same("the defaults are the defaults", with_defaults, plain)
    with open(f"{SERVICE}/node.conf.example", encoding="utf-8") as file:
        text = file.read()
    tally.same("and every key of a node", set(re.findall(r"^;?([a-z_]+) =", text, re.M)), {it.name for it in dataclasses.fields(settings.NodeKeys)})
    with open(path, "w", encoding="utf-8") as file:
        file.write(re.sub(r"^;(?!start|stop|cgroup)", "", text, flags=re.M))
    tally.same("with its defaults", settings.read_node_keys(path), settings.NodeKeys())
    for wrong, told in (("[jobs]\nhots = a\n", "hots"), ("[job]\n", "job"), ("[page]\nport = x\n", "port"), ("[jobs]\nrun = 1\n", "drain"),
                        ("[peer lemont]\nfolder = /x\n", "key"), ("[house]\nevery = -1\n", "below 0"),
                        ("[peer argonne]\ncommand = x\n", "no other site"), ("[peer lemont]\n", "command or folder"), ("[jobs]\nhosts = a b a\n", "twice"), ("[jobs]\nlink = x {host}\n", "hosts"), ("[jobs]\nhosts = a\nlink = x\n", "{host}"), ("[jobs]\ncount = 1\n", "count"), ("x\n", "line"),
                        ("[clients]\nsites = a,b\n", "sites: a,b is neither"), ("[queues]\nq = here, a=b\n", "q = here, a=b: a=b is none"), ("[queues]\n5q = here\n", "5q = here: a queue"), ("[queues]\nq = here, walltime=9, walltime<=5\n", "above")):
        try:
            config_of(path, f"[site]\ndirectory = {site.home}/site\n{wrong}")
            tally.fail(f"{wrong!r} is taken")
        except config.ConfigFault as fault:
            tally.true(f"{wrong!r} is named: {fault}", told in str(fault))


def utilities(tally, federation):
    """What the utilities make of words and of directives."""
    (site,) = federation.make("argonne:8", jobs="run = no")
    folder = federation.folder
    count = [0]

    def submitted(script, *words, name=None):
        count[0] += 1
        if name:
            with open(f"{folder}/{name}", "wb") as file:
                file.write(script)
        done = site.utility("qsub", *words, *([name] if name else []), given="" if name else script.decode(), cwd=folder)
        if done[0]:
            return done[0], done[1]
        job = site.jobs(done[1].strip())[done[1].strip()]
        return job["name"], job["nodes"], job["limit"], job["priority"], job["account"], "".join(job["holds"])

    head = b"#!/bin/sh\n#PBS -l nodes=3,walltime=1:00\n# a comment\n\n#PBS -A chem -p -5\necho\n#PBS -p 9\n"
    tally.same("directives", submitted(head, name="render"), ("render", 3, 60, -5, "chem", ""))
    tally.same("words stand above them", submitted(head, "-l", "walltime=2:00:00", "-p7", "-h", "-N", "x"), ("x", 3, 7200, 7, "chem", "u"))
    tally.same("another prefix", submitted(head.replace(b"#PBS", b"#Q"), "-C", "#Q", name="r2"), ("r2", 3, 60, -5, "chem", ""))
    tally.same("no prefix", submitted(head, "-C", "#none", name="r3"), ("r3", 1, 3600, 0, "", ""))
    tally.same("a long name is cut", submitted(b"", name="a-very-long-name-of-a-file"), ("a-very-long-nam", 1, 3600, 0, "", ""))
    tally.same("a name that is none", submitted(b"", name="1st"), ("STDIN", 1, 3600, 0, "", ""))
    tally.same("standard input", submitted(b"#PBS -N mine\n"), ("mine", 1, 3600, 0, "", ""))
    tally.same("an unknown option", submitted(b"", "-Z"), (1, "usage 2\n"))
    tally.same("an option without its argument", submitted(b"", "-p"), (1, "usage 3\n"))
    tally.same("a bad list", submitted(b"", "-l", "nodes"), (1, "usage 4\n"))
    tally.same("a bad directive", submitted(b"#PBS -l walltime=x\n"), (1, "usage 4\n"))
    tally.same("no such file", site.utility("qsub", "nothing", cwd=folder)[0], 2)
    job = site.submit("true\n")
    tally.same("qalter", site.utility("qalter", "-l", "walltime=0:02:00", "-l", "nodes=2", job)[:2], (0, "done\n"))
    told = site.jobs(job)[job]
    tally.same("with both lists", (told["nodes"], told["limit"]), (2, 120))
    tally.same("a refusal has status 1", site.utility("qdel", "900")[:2], (1, "refused 1\n"))
    tally.same("qask shows looks", site.utility("qask", "seen")[0], 0)
    big = os.urandom(16 << 20)
    began = time.monotonic()
    told = site.ask("qsub", body=big)
    tally.same("a script of 16 MiB", told.status, 0)
    print(f"tests/service/rows: utilities: a script of 16 MiB took {time.monotonic() - began:.2f} s")
    site.kill()
    tally.same("no service", site.utility("qstat")[0], 3)


def config_of(path, text):
    """The configuration that a text is."""
    with open(path, "w", encoding="utf-8") as file:
        file.write(text)
    return config.read_config(path)


SCENES = {it.__name__: it for it in (starts, page, systemd, keys, utilities)}
