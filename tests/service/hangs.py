"""Scenes of what hangs: copies of the journal, peers, the site's program, and what ends jobs. Nothing of it stops the service, and
no script is started twice by the way back from a lost disk."""
import os
import shutil
import subprocess
import time

from tests.service.sites import SERVICE, until

# A backup of an administrator's own: the copy is put in place by a child of the shell. Where a file says so it takes long.
COPY = """#!/bin/sh
cp "{journal}" "{place}.new.$$" || exit 1
if [ -e "{slow}" ]; then
    seconds=$(cat "{slow}")
    mv "{slow}" "{slow}.taken"
    sh -c "sleep $seconds; mv {place}.new.$$ {place}"
else
    mv "{place}.new.$$" "{place}"
fi
"""


def write(path, text, mode=0o644):
    """Writes a file."""
    with open(path, "w", encoding="utf-8") as file:
        file.write(text)
    os.chmod(path, mode)


def read(path):
    """What a file has; nothing where it isn't there."""
    if not os.path.exists(path):
        return ""
    with open(path, encoding="utf-8") as file:
        return file.read()


# where there is a file with an old packet of argonne, no newer one leaves, and what argonne asks is answered
LATE = """if [ -e {folder}/late ]; then
    case $from.$to.$1 in
    argonne.lemont.take) cat > /dev/null; echo known; exit;;
    lemont.argonne.ship) cat {folder}/late; exit;;
    esac
fi
NETTLEBEAM_SOCKET="""


def backed_up(federation, seconds):
    """Two sites. The journal of the first is copied by COPY, which may take so many seconds; the copy, and what slows it."""
    folder, roster = federation.folder, ("argonne:4", "lemont:4")
    place, slow, command = f"{folder}/copy", f"{folder}/slow", f"{folder}/backup"
    write(command, COPY.format(journal=f"{folder}/argonne/site/journal", place=place, slow=slow), 0o755)
    federation.has_links = True
    write(f"{folder}/link", read(f"{folder}/link").replace("NETTLEBEAM_SOCKET=", LATE.format(folder=folder)), 0o755)
    federation.add("argonne", *roster, site=f"[site]\nbackup = {command}\nbackup_seconds = {seconds}")
    federation.add("lemont", *roster, jobs="run = no")
    for site in federation.sites.values():
        site.wait_ready()
    return place, slow


def held_job(federation, ran):
    """A job of the second site that waits, of which the first knows, and which is to run there."""
    argonne, lemont = federation.sites.values()
    job = lemont.submit(f"echo $PBS_JOBID >> {ran}\n", "-h", "-l", "sites=argonne")
    until(lambda: job in argonne.jobs(), 20, "the other site knows of the job")
    write(f"{federation.folder}/late", argonne.said("ship", "lemont"))
    return job


def start_once(tally, federation, place, job, ran):
    """The site is restored from the backup, and starts the job that it has run no second time."""
    argonne = federation.sites["argonne"]
    lose_disk(argonne, place)
    tally.true("the backup knows that the job began", argonne.jobs(job)[job]["begun"])
    tally.true("it has ended, or is lost where its end isn't known", argonne.finished(job, 60) in (0, 255))
    tally.same("and was started once", read(ran), f"{job}\n")


def lose_disk(site, place):
    """The machine's disk is lost, and the site is restored from the backup."""
    if site.is_up():
        site.kill()
    time.sleep(1)
    shutil.rmtree(f"{site.home}/site")
    shutil.rmtree(f"{site.home}/spool")
    os.mkdir(f"{site.home}/site", 0o700)
    shutil.copy(place, f"{site.home}/site/journal")
    site.start()
    site.wait_ready()


def hung_copies(tally, federation):
    """A copy of the journal hangs, and is ended with all of its processes: so it is put over no newer one, and the site that is
    restored from the backup starts no job again."""
    place, slow = backed_up(federation, 3)
    argonne, lemont = federation.sites.values()
    ran = f"{federation.folder}/ran"
    job = held_job(federation, ran)
    write(slow, "12")
    other = argonne.submit("true\n", "-l", "sites=argonne")
    until(lambda: os.path.exists(f"{slow}.taken"), 20, "a copy hangs")
    hung = time.monotonic()
    lemont.ask("qrls", job)
    tally.same("a job starts behind a later copy", argonne.finished(job, 60), 0)
    tally.same("and so does the one whose copy hung", argonne.finished(other, 60), 0)
    time.sleep(max(0.0, hung + 14 - time.monotonic()))
    start_once(tally, federation, place, job, ran)


def outlived_copies(tally, federation):
    """The service is killed while a copy goes on: the next service waits for it before it copies."""
    place, slow = backed_up(federation, 30)
    argonne, lemont = federation.sites.values()
    ran = f"{federation.folder}/ran"
    job = held_job(federation, ran)
    write(slow, "10")
    argonne.submit("true\n", "-l", "sites=argonne")
    until(lambda: os.path.exists(f"{slow}.taken"), 20, "a copy takes long")
    slowed = time.monotonic()
    argonne.kill()
    argonne.start()
    argonne.wait_ready()
    lemont.ask("qrls", job)
    tally.same("the next service starts a job", argonne.finished(job, 60), 0)
    tally.true("once the copy has ended", time.monotonic() - slowed > 9)
    time.sleep(max(0.0, slowed + 12 - time.monotonic()))
    start_once(tally, federation, place, job, ran)


def endless_copies(tally, federation):
    """A copy that a killed service has left hangs for ever: the next service ends it, and says so."""
    _, slow = backed_up(federation, 3)
    site = federation.sites["argonne"]
    write(slow, "600")
    site.submit("true\n", "-l", "sites=argonne")
    until(lambda: os.path.exists(f"{slow}.taken"), 20, "a copy hangs")
    site.kill()
    site.start()
    site.wait_ready()
    tally.same("the next service starts a job", site.finished(site.submit("exit 3\n", "-l", "sites=argonne"), 60), 3)
    tally.true("and says what it ended", "an earlier copy of the journal has no end" in site.logged())


def shipped_copies(tally, federation):
    """The shipped script: its copy is the journal, and one that comes late is put over no newer one, also at another machine."""
    folder = federation.folder
    site, slow, far = f"{folder}/site", f"{folder}/slow", f"{folder}/far"
    os.mkdir(far)
    subprocess.run([federation.program, "init", site, "argonne", "argonne:4"], check=True)
    # in place of ssh: what it carries comes late where a file says so
    write(f"{folder}/ssh", f'#!/bin/sh\nfor last; do :; done\n[ ! -e {slow} ] || case $last in *cat*) rm {slow}; sleep 3;; esac\ncd {far} && exec sh -c "$last"\n', 0o755)
    environment = {**os.environ, "PATH": f"{folder}:{os.environ['PATH']}", "NETTLEBEAM": federation.program}

    def words(place):
        # each copy has a lock of its own here, as a link that delivers late knows of none
        return ["sh", "-c", f'exec 8>>{folder}/lock.$$; NETTLEBEAM_BACKUP_LOCK=8 exec {SERVICE}/copy-journal {site} {place}']

    for place, path in ((f"{folder}/near/journal", f"{folder}/near/journal"), ("backup:argonne/journal", f"{far}/argonne/journal")):
        done = subprocess.run(words(place), env=environment, capture_output=True, text=True, check=False)
        tally.same(f"a copy to {place.replace(folder, '')}", (done.returncode, done.stdout, done.stderr), (0, "", ""))
        tally.same("is the journal", read(path), read(f"{site}/journal"))
    write(slow, "")
    late = subprocess.Popen(words("backup:argonne/journal"), env=environment, stderr=subprocess.DEVNULL)
    until(lambda: not os.path.exists(slow), 10, "a copy is late")
    subprocess.run([federation.program, "at", site, "ann", "qsub"], check=True, capture_output=True)
    tally.same("a newer one is made", subprocess.run(words("backup:argonne/journal"), env=environment, check=False).returncode, 0)
    newer = read(f"{site}/journal")
    tally.true("the late one says that it failed", late.wait(20))
    tally.same("and the newer one stays", read(f"{far}/argonne/journal"), newer)
    tally.same("nothing else is left there", sorted(os.listdir(f"{far}/argonne")), ["journal", "journal.lock", "journal.mark"])
    status = subprocess.run(words(f"{folder}/none/../../../dev/null/x"), env=environment, capture_output=True, check=False).returncode
    tally.true("a place that can't be written is a fault", status)


SCENES = {it.__name__: it for it in (hung_copies, outlived_copies, endless_copies, shipped_copies)}
