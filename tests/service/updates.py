"""Scenes of an update beside a service that runs."""
import os
import shutil
import signal
import subprocess
import threading
import time

from tests.service.hangs import write
from tests.service.sites import TOP, kind_of, until

INSTALLS = 12
LATER = "raise SystemExit('a module of another version')\n"


def archive(federation, name, **changed):
    """A folder as ./dist makes it, with modules of the service that are changed; its `install`."""
    place = f"{federation.folder}/{name}"
    os.makedirs(f"{place}/programs")
    for part in ("bin", "completions", "docs", "service"):
        shutil.copytree(f"{TOP}/{part}", f"{place}/{part}", symlinks=True, ignore=shutil.ignore_patterns("__pycache__"))
    shutil.copy(f"{TOP}/install", place)
    for program in ("nettlebeam", "federation"):
        shutil.copy(federation.program, f"{place}/programs/{program}")
    for module, text in changed.items():
        write(f"{place}/service/nettlebeam_service/{module}.py", text)
    digest = subprocess.run(["sha256sum", "./install"], cwd=place, capture_output=True, text=True, check=True).stdout
    write(f"{place}/ORIGIN", f"version 0\ncommit 0\ntoolchain 0\n{digest}")
    return f"{place}/install"


def start_installed(federation, site, prefix):
    """Starts the service as it is installed."""
    with open(site.log, "ab") as log:
        environment = {**os.environ, "NETTLEBEAM_TEST": federation.mark}
        site.process = subprocess.Popen([f"{prefix}/bin/nettlebeamd", site.config], stdin=subprocess.DEVNULL, stderr=log, env=environment)
    site.wait_ready()


def updates(tally, federation):
    """While another version is installed again and again utilities answer, and a service that runs starts jobs by its own modules."""
    prefix = f"{federation.folder}/prefix"
    first, other = archive(federation, "first"), archive(federation, "other", **{"node/runner_server": LATER})
    subprocess.run([first, prefix], check=True, capture_output=True)
    (site,) = federation.make("argonne:4")
    site.kill(signal.SIGTERM)
    start_installed(federation, site, prefix)
    tally.same("the installed service runs a job", site.finished(site.submit("exit 3\n")), 3)
    failed, over = [], threading.Event()

    def asks():
        environment = {**os.environ, "NETTLEBEAM_SOCKET": site.socket}
        while not over.is_set():
            done = subprocess.run([f"{prefix}/bin/qstat"], env=environment, capture_output=True, text=True, check=False)
            if done.returncode:
                failed.append(done.stderr[-200:])

    threads = [threading.Thread(target=asks) for _ in range(4)]
    for thread in threads:
        thread.start()
    for number in range(INSTALLS):
        subprocess.run([(other, first)[number % 2], prefix], check=True, capture_output=True)
    subprocess.run([other, prefix], check=True, capture_output=True)
    over.set()
    for thread in threads:
        thread.join()
    tally.same(f"no utility fails while something is installed ({len(failed)} did)", failed[:1], [])
    for pid in [it for it in federation.processes() if kind_of(it) == "runner_server"]:
        os.kill(pid, signal.SIGKILL)
    time.sleep(0.2)
    tally.same("the service starts jobs by its own modules still", site.finished(site.submit("exit 4\n")), 4)
    site.kill(signal.SIGTERM)
    subprocess.run([first, prefix], check=True, capture_output=True)
    start_installed(federation, site, prefix)
    tally.same("and the one that is started next by those of today", site.finished(site.submit("exit 5\n")), 5)
    earlier = f"import sys; sys.path.insert(0, '{prefix}/lib/nettlebeam/current'); from nettlebeam_service.calling import main; sys.exit(main('qstat', [], ''))"
    asked = subprocess.run(["/usr/bin/python3", "-IS", "-c", earlier], env={**os.environ, "NETTLEBEAM_SOCKET": site.socket}, check=False)
    tally.same("a utility that an earlier version put in bin finds what it imports", asked.returncode, 0)
    tally.true("what copies the journal is installed", os.access(f"{prefix}/libexec/nettlebeam/copy-journal", os.X_OK))
    until(lambda: not os.path.exists(f"{prefix}/bin/qstat.new"), 1, "nothing half stays")


def many_updates(tally, federation):
    """Five versions are installed beside a service that runs: it finds its own modules still, and an idle one is removed."""
    prefix = f"{federation.folder}/prefix"
    installs = [archive(federation, f"later{number}", **{"node/__init__": f'"""{number}."""\n'}) for number in range(7)]
    subprocess.run([installs[0], prefix], check=True, capture_output=True)
    (site,) = federation.make("argonne:4")
    site.kill(signal.SIGTERM)
    start_installed(federation, site, prefix)
    tally.same("the installed service runs a job", site.finished(site.submit("exit 3\n")), 3)
    for install in installs[1:6]:
        subprocess.run([install, prefix], check=True, capture_output=True)
    for kind in ("runner_server", "nettlebeam-node"):
        for pid in [it for it in federation.processes() if kind_of(it) == kind]:
            os.kill(pid, signal.SIGKILL)
        time.sleep(0.2)
        jobs = [site.submit(f"exit {number}\n") for number in range(4)]
        tally.same(f"jobs run after the end of {kind}", [site.finished(job) for job in jobs], [0, 1, 2, 3])
    tally.same("no job was unrun", [line for line in site.logged().splitlines() if "unrun" in line or "isn't ready" in line], [])
    site.kill(signal.SIGTERM)
    until(lambda: not [it for it in federation.processes() if kind_of(it) in ("nettlebeamd", "nettlebeam-node", "runner_server")], 20, "all has ended")
    subprocess.run([installs[6], prefix], check=True, capture_output=True)
    tally.same("once it has ended its version goes", len(os.listdir(f"{prefix}/lib/nettlebeam/versions")), 4)


SCENES = {it.__name__: it for it in (updates, many_updates)}
