"""Scenes of what a machine may have otherwise: folders where nothing may be executed or written, a configuration that names what
isn't there, and systemd's watchdog."""
import os
import signal
import socket
import subprocess
import time

from tests.service.hangs import read, write
from tests.service.scenes import OTHER, as_user, is_root
from tests.service.sites import SERVICE, until

WRONG = {
    "[site] program": ("program = ", "program = /nowhere/nettlebeam"),
    "[site] operators": ("operators = ", "operators = nobodys-group"),
    "{usr}": ("[jobs]", "[jobs]\nstart = sudo -n -u {usr} --"),
    "[site] backup": ("[site]", "[site]\nbackup = /nowhere/copy"),
}


def places(tally, federation):
    """A script that names its program runs where nothing may be executed, and a job runs where its folder can't be written: both say
    so to its owner."""
    if not is_root(tally):
        return
    folder = federation.folder
    temporary, home, own = (f"{folder}/{name}" for name in ("temporary", "home", "own"))
    for path in (temporary, home, own):
        os.mkdir(path)
        os.chmod(path, 0o1777)
    if subprocess.run(["mount", "-t", "tmpfs", "-o", "noexec,mode=1777", "tmpfs", temporary], check=False).returncode:
        print("tests/service/rows: places: left out, since nothing can be mounted here")
        return
    try:
        start = f"{' '.join(as_user(OTHER))} env TMPDIR={temporary} HOME={home}"
        (site,) = federation.make("argonne:4", jobs=f"start = {start}\nleast_uid = 0")

        def submit(text, where):
            job = site.utility("qsub", "-N", "it", given=text, before=as_user(OTHER), cwd=where)[1].strip()
            return site.finished(job), job.split(".")[0]

        status, number = submit("#!/bin/sh -e\necho runs; exit 7\n", own)
        tally.same("a script runs where nothing may be executed", (status, read(f"{own}/it.o{number}")), (7, "runs\n"))
        tally.true("which is said", "noexec" in read(f"{own}/it.e{number}"))
        status, number = submit("#!/usr/bin/env -S cat -n\nline\n", own)
        tally.same("what stands behind its program is one word", (status, read(f"{own}/it.o{number}").split()[:3]), (0, ["1", "#!/usr/bin/env", "-S"]))
        os.chmod(own, 0o755)
        status, number = submit("pwd; exit 6\n", own)
        tally.same("a job runs in a folder that can't be written", (status, read(f"{home}/it.o{number}")), (6, f"{own}\n"))
        tally.true("and its owner reads why its files are elsewhere", "can't be written here" in read(f"{home}/it.e{number}"))
        os.chmod(home, 0o755)
        status, number = submit("exit 5\n", own)
        tally.same("where nothing can be written it ends as lost", status, 255)
        until(lambda: f"{number}.argonne: its runner told" in site.logged(), 5, "and the log says why")
    finally:
        subprocess.run(["umount", "-l", temporary], check=True)


def checks(tally, federation):
    """`nettlebeamd --check` names what a configuration names and isn't there."""
    (site,) = federation.make("argonne:4", jobs="run = no")
    site.kill(signal.SIGTERM)
    text = read(site.config)

    def check():
        done = subprocess.run([f"{SERVICE}/nettlebeamd", "--check", site.config], capture_output=True, text=True, check=False)
        return done.returncode, done.stderr

    tally.same("a configuration that is right", check(), (0, ""))
    for words, (old, new) in WRONG.items():
        line = next(line for line in text.splitlines() if line.startswith(old))
        write(site.config, text.replace(line, new, 1))
        status, told = check()
        tally.same(f"{words} is named: {told!r}", (status, words in told), (2, True))


def watchdogs(tally, federation):
    """The service tells systemd again and again that it goes on, and stops where its loop does."""
    path = f"{federation.folder}/notify"
    (site,) = federation.make("argonne:4", jobs="run = no")
    site.kill(signal.SIGTERM)
    with socket.socket(socket.AF_UNIX, socket.SOCK_DGRAM) as heard:
        heard.bind(path)
        heard.settimeout(10)
        os.environ.update(NOTIFY_SOCKET=path, WATCHDOG_USEC="1000000")
        try:
            site.start()
        finally:
            del os.environ["NOTIFY_SOCKET"], os.environ["WATCHDOG_USEC"]
        site.wait_ready()
        began, told = time.monotonic(), []
        while time.monotonic() - began < 3:
            try:
                told.append(heard.recv(100))
            except socket.timeout:
                break
        tally.true(f"it is told at least twice a second: {len(told)} times", told.count(b"WATCHDOG=1") >= 6)
        tally.true("beside what was told before", b"READY=1" in told)


SCENES = {it.__name__: it for it in (places, checks, watchdogs)}
