"""Scenes of a site and its spool, which belong together."""
import os
import shutil
import signal
import subprocess

from tests.service.scenes import read
from tests.service.sites import PYTHON, SERVICE, until


def with_words(path, other, *pairs):
    """A configuration with some words changed, in another file."""
    text = read(path)
    for old, new in pairs:
        text = text.replace(old, new)
    with open(other, "w", encoding="ascii") as file:
        file.write(text)
    return other


def started(config):
    """Starts a service that is to end by itself: its status, and what it said. One that goes on is ended."""
    service = subprocess.Popen([*PYTHON, f"{SERVICE}/nettlebeamd", config], stdin=subprocess.DEVNULL, stderr=subprocess.PIPE, text=True)
    try:
        _, said = service.communicate(timeout=8)
        return service.returncode, said
    except subprocess.TimeoutExpired:
        service.kill()
        return None, service.communicate()[1]


def other_spools(tally, federation):
    """A service with another spool than the site's is refused, and ends no job: beside the first, and in its place."""
    (site,) = federation.make("argonne:4")
    spool, other, ran = f"{site.home}/spool", f"{site.home}/other", f"{federation.folder}/ran"
    job = site.submit(f"sleep 12; echo ended >> {ran}; exit 4\n")
    until(lambda: site.jobs(job)[job]["letter"] == "R", 20, "a job runs")
    config = with_words(site.config, f"{federation.folder}/other.conf", (f"spool = {spool}", f"spool = {other}"))
    status, said = started(config)
    tally.same("a second service ends", status, 3)
    tally.true(f"and names the spool: {said}", f"has the spool {spool}" in said)
    tally.true("the socket is the first's", site.ask("jobs", job).status == 0 and site.is_up())
    tally.same("the job runs on", site.jobs(job)[job]["finished"], None)
    site.kill(signal.SIGTERM)
    status, said = started(config)
    tally.same("one in its place ends, too", (status, f"has the spool {spool}" in said), (3, True))
    tally.true("nothing is made of the other spool", not os.path.exists(other))
    checked = subprocess.run([f"{SERVICE}/nettlebeamd", "--check", config], capture_output=True, text=True, check=False)
    tally.same("--check says so", (checked.returncode, f"has the spool {spool}" in checked.stderr), (2, True))
    site.start()
    site.wait_ready()
    tally.same("the job ends as it ends", (site.finished(job), os.path.exists(ran)), (4, True))


def other_sites(tally, federation):
    """A service of another site with the spool of this one is refused by name."""
    argonne, lemont = federation.make("argonne:4", "lemont:4", jobs="run = no")
    for site in (argonne, lemont):
        site.kill(signal.SIGTERM)
    os.remove(f"{lemont.home}/site/spool")
    spools = [f"spool = {site.home}/spool" for site in (lemont, argonne)]
    status, said = started(with_words(lemont.config, f"{federation.folder}/other.conf", tuple(spools)))
    tally.same("it ends", (status, f"is of the site {argonne.home}/site" in said), (3, True))


def moved_spools(tally, federation):
    """A spool that is moved is used once the site names it, as the page on operating says; one whose directory is restored at once."""
    (site,) = federation.make("argonne:4", jobs="run = no")
    job = site.submit("exit 6\n")
    site.kill(signal.SIGTERM)
    spool, other = f"{site.home}/spool", f"{site.home}/moved"
    os.rename(spool, other)
    with_words(site.config, site.config, (f"spool = {spool}", f"spool = {other}"), ("run = no", "run = yes"))
    tally.same("before it isn't", started(site.config)[0], 3)
    with open(f"{site.home}/site/spool", "w", encoding="ascii") as file:
        file.write(f"{other}\n")
    site.start()
    site.wait_ready()
    tally.same("the script is there", site.finished(job), 6)
    site.kill(signal.SIGTERM)
    shutil.copy(f"{site.home}/site/journal", f"{federation.folder}/journal")
    shutil.rmtree(f"{site.home}/site")
    os.mkdir(f"{site.home}/site", 0o700)
    shutil.copy(f"{federation.folder}/journal", f"{site.home}/site/journal")
    site.start()
    site.wait_ready()
    tally.same("a restored directory is named its spool again", read(f"{site.home}/site/spool"), f"{other}\n")


SCENES = {it.__name__: it for it in (other_spools, other_sites, moved_spools)}
