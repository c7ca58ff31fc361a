"""Scenes of a service that compacts its site's journal in house-keeping: who asks meanwhile, backups, what keeps it from that."""
import contextlib
import glob
import os
import re
import signal
import subprocess
import threading
import time

from tests.service.keeping import read, rewrite
from tests.service.scenes import OTHER, as_user, is_root
from tests.service.sites import Unasked, until

SLOW_SECONDS = 3
OFTEN = "[house]\nevery = 0.3\ncompact = 0.3\ncompact_bytes = 3000\n"
# copies the journal whole, and fails where a file says so: at any journal, or at one that was compacted
BACKUP = """#!/bin/sh
[ ! -e {folder}/broken ] || {{ echo no room >&2; exit 1; }}
[ ! -e {folder}/broken-then ] || ! head -c 40 "$1" | grep -q 'nettlebeam 4' || {{ echo no room then >&2; exit 1; }}
cp "$1" "$2.new" && mv "$2.new" "$2"
"""


def is_compacted(path):
    """Whether a journal was compacted."""
    return read(path).split(b" ", 4)[3] == b"4"


def done(site):
    """How often the log tells that the journal was compacted."""
    return site.logged().count("the journal is compacted: ")


def backup_of(federation):
    """The words of a backup command, for the section [site]."""
    path = f"{federation.folder}/backup"
    with open(path, "w", encoding="ascii") as file:
        file.write(BACKUP.format(folder=federation.folder))
    os.chmod(path, 0o755)
    return f"[site]\nbackup = {path} {{home}}/site/journal {{home}}/copy"


def set_flag(federation, name, there):
    """Makes or removes a file that a backup looks for."""
    path = f"{federation.folder}/{name}"
    if there:
        with open(path, "w", encoding="ascii"):
            pass
    else:
        os.remove(path)


def grow(site, job, times=120):
    """Has the journal grow by lines that alter a job."""
    for number in range(times):
        site.ask("qalter", "-p", str(number), job)


def grow_to_its_end(site, job):
    """Has the journal grow until the service is killed, or stops."""
    with contextlib.suppress(Unasked):
        while site.ask("qalter", "-p", "5", job).status == 0:
            pass


class Users(threading.Thread):
    """Users that submit and alter jobs, one answer after the other, until they are told to stop."""

    def __init__(self, site):
        super().__init__()
        self.site, self.jobs, self.wrong, self.asked, self.over = site, [], [], 0, False

    def run(self):
        while not self.over:
            self.asked += 1
            try:
                if self.asked % 20 == 1:
                    self.jobs.append(self.site.submit("true\n", "-h"))
                else:
                    told = self.site.ask("qalter", "-p", str(self.asked % 1000), self.jobs[-1])
                    self.wrong += [] if (told.status, told.answer) == (0, b"done\n") else [told]
            except (Unasked, OSError) as fault:
                self.wrong.append(fault)

    def stop(self):
        self.over = True
        self.join()


def told_by_check(federation, site, journal):
    """What `check` tells of a copy of a journal."""
    folder = f"{federation.folder}/looked"
    os.makedirs(folder, exist_ok=True)
    with open(f"{folder}/journal", "wb") as file:
        file.write(read(journal))
    return subprocess.run([site.federation.program, "check", folder], capture_output=True, text=True, check=False)


def compactions(tally, federation):
    """The journal is compacted again and again while users ask, packets leave and backups are made; nothing is lost."""
    federation.has_links = True
    history = f"{federation.folder}/history"
    os.mkdir(history)
    argonne, lemont = federation.make("argonne:2", "lemont:2", jobs="run = no", more=f"{OFTEN}history = {history}\n", site=backup_of(federation))
    ran = argonne.submit("exit 3\n")
    users = [Users(argonne) for _ in range(4)]
    for it in users:
        it.start()
    until(lambda: done(argonne) >= 4, 60, "the journal is compacted four times")
    for it in users:
        it.stop()
    tally.same("each line was answered", [it.wrong[:3] for it in users], [[]] * 4)
    jobs = sorted([ran] + [job for it in users for job in it.jobs])
    tally.same("each job is there", sorted(argonne.jobs()), jobs)
    until(lambda: argonne.said("jobs") == lemont.said("jobs"), 20, "both tell the same")
    tally.true("the journal was compacted", is_compacted(f"{argonne.home}/site/journal"))
    until(lambda: is_compacted(f"{argonne.home}/copy"), 5, "a backup of the compacted journal is made")
    copied = told_by_check(federation, argonne, f"{argonne.home}/copy")
    tally.same("which is whole, and has all jobs", (copied.returncode, f"jobs {len(jobs)}," in copied.stdout), (0, True))
    kept = sorted(glob.glob(f"{history}/journal.*"))
    tally.true(f"the old journals are kept: {len(kept)}", len(kept) >= 4)
    tally.true("under the moment", re.fullmatch(r"journal\.\d{4}-\d\d-\d\dT\d\d:\d\d:\d\dZ", os.path.basename(kept[0])))
    tally.same("each is whole", [told_by_check(federation, argonne, path).returncode for path in kept], [0] * len(kept))
    tally.true("the first was none that was compacted", not is_compacted(kept[0]))
    words = [read(f"/proc/{pid}/cmdline").split(b"\0") for pid in federation.processes() if os.path.exists(f"/proc/{pid}/cmdline")]
    tally.true("serve keeps its history", all(b"--keep-history" in it for it in words if b"serve" in it))
    for _ in range(5):
        argonne.kill()
        argonne.start()
        argonne.wait_ready()
        grow(argonne, ran, 40)
    tally.same("behind kills each job is there", sorted(argonne.jobs()), jobs)
    rewrite(argonne, "run = no", "run = yes")
    argonne.ask("qrls", *jobs)
    tally.same("jobs run", argonne.finished(ran), 3)


def uncompacted(tally, federation):
    """What keeps the journal from being compacted changes nothing, and is logged; then it is done."""
    federation.has_links = True
    argonne, lemont = federation.make("argonne:2", "lemont:2", jobs="run = no", more=OFTEN, site=backup_of(federation))
    path = f"{argonne.home}/site/journal"
    set_flag(federation, "broken", True)
    job = argonne.submit("true\n")
    grow(argonne, job)
    until(lambda: "isn't compacted: the backup failed: no room" in argonne.logged(), 20, "without a backup it isn't compacted")
    tally.true("so the journal is the old one", not is_compacted(path))
    os.mkdir(f"{path}.new")
    set_flag(federation, "broken", False)
    until(lambda: argonne.logged().count("the journal isn't compacted: ") > argonne.logged().count("isn't compacted: the backup"), 20, "nor beside a folder")
    tally.same("the old journal goes on", (is_compacted(path), argonne.ask("qalter", "-p", "7", job).status), (False, 0))
    set_flag(federation, "broken-then", True)
    os.rmdir(f"{path}.new")
    until(lambda: "the backup of the compacted journal failed: no room then" in argonne.logged(), 20, "the backup behind it fails")
    tally.true("the journal is the new one", is_compacted(path))
    far = argonne.submit("true\n")
    time.sleep(2)
    tally.true("no packet leaves then", far not in lemont.jobs())
    set_flag(federation, "broken-then", False)
    until(lambda: far in lemont.jobs(), 20, "until there is a backup of it")
    tally.true("which is compacted", is_compacted(f"{argonne.home}/copy"))
    count = done(argonne)
    time.sleep(2)
    tally.same("a short journal is left", done(argonne), count)


def compact_now(tally, federation):
    """The service's own account has the journal compacted at once; a service that never does, and a program that can't."""
    (site,) = federation.make("argonne:2", jobs="run = no", more="[house]\nevery = 0.3\ncompact = 0\ncompact_bytes = 10\n")
    job = site.submit("true\n")
    status, output, _ = site.utility("qask", "compact")
    tally.same("a young journal", (status, output.startswith("not compacted: ")), (0, True))
    grow(site, job)
    time.sleep(1)
    tally.same("by itself it never does", (done(site), is_compacted(f"{site.home}/site/journal")), (0, False))
    status, output, _ = site.utility("qask", "compact")
    tally.same(f"a long one: {output!r}", (status, output.startswith("compacted: "), is_compacted(f"{site.home}/site/journal")), (0, True, True))
    tally.same("all goes on", (site.submit("true\n"), sorted(site.jobs())), ("122.argonne", [job, "122.argonne"]))
    tally.same("with another word", site.utility("qask", "compact", "now")[:2], (2, ""))
    if is_root(tally):
        tally.same("another user can't", site.utility("qask", "compact", before=as_user(OTHER))[:2], (2, ""))
    site.kill(signal.SIGTERM)
    tally.same("it ends in order", site.process.returncode, 0)
    rewrite(site, "compact = 0\n", "compact = 0.3\n")
    site.start()
    site.wait_ready()
    time.sleep(1)
    tally.same("a service that is started anew knows how long the journal was then", done(site), 0)
    grow(site, job)
    until(lambda: done(site), 10, "once it is twice as long it is compacted")


def slow_compactions(tally, federation):
    """A compaction that is killed, or takes long: who asks meanwhile waits, and the service can be killed and stopped."""
    program = federation.program = slow_program(federation)
    (site,) = federation.make("argonne:2", jobs="run = no", more=OFTEN)
    tally.same("the service uses it", f"program = {program}\n" in read(site.config).decode(), True)
    job = site.submit("true\n")
    set_flag(federation, "dies", True)
    grow(site, job)
    until(lambda: "isn't compacted: the program ended with status -9" in site.logged(), 20, "a compaction is killed")
    tally.same("and the site goes on", site.ask("qalter", "-p", "7", job).status, 0)
    set_flag(federation, "slow", True)
    set_flag(federation, "dies", False)
    waits_most(tally, site, job)
    tally.true("the journal is compacted", is_compacted(f"{site.home}/site/journal"))
    for number, how in ((signal.SIGKILL, -9), (signal.SIGTERM, 0)):
        growing = threading.Thread(target=grow_to_its_end, args=(site, job))
        growing.start()
        until(lambda: compacting(federation), 60, "it is compacted again")
        site.kill(number)
        growing.join()
        tally.same("the service ends", site.process.returncode, how)
        site.start()
        site.wait_ready()
        tally.same("the next one answers", site.ask("qalter", "-p", "9", job).status, 0)
        until(lambda: not compacting(federation), 20, "no compaction is left")


def slow_program(federation):
    """The program, of which a compaction is killed, or takes three seconds more, where a file says so."""
    path = f"{federation.folder}/slow-program"
    with open(path, "w", encoding="ascii") as file:
        file.write(f"""#!/bin/sh
if [ "$1" = compact ]; then
    [ ! -e {federation.folder}/dies ] || kill -9 $$
    [ ! -e {federation.folder}/slow ] || sleep {SLOW_SECONDS}
fi
exec {federation.program} "$@"
""")
    os.chmod(path, 0o755)
    return path


def compacting(federation):
    """The processes of these services that compact a journal."""
    found = []
    for pid in federation.processes():
        try:
            found += [pid] if b"compact" in read(f"/proc/{pid}/cmdline").split(b"\0") else []
        except OSError:
            pass
    return found


def waits_most(tally, site, job):
    """Asks a site again and again until it has compacted its journal; all is answered, and some waited for that."""
    count, longest, wrong, end = done(site), 0.0, 0, time.monotonic() + 30
    while done(site) == count and time.monotonic() < end:
        began = time.monotonic()
        wrong += site.ask("qalter", "-p", "3", job).status != 0
        longest = max(longest, time.monotonic() - began)
    tally.same("all is answered meanwhile", wrong, 0)
    tally.true(f"who asked waited: {longest:.1f} s", longest > SLOW_SECONDS / 2)


SCENES = {it.__name__: it for it in (compactions, uncompacted, compact_now, slow_compactions)}
