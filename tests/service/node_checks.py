"""Scenes of what is said of a node before its first job."""
import os
import subprocess

from tests.service.cluster import NODE, Cluster
from tests.service.hangs import read, write
from tests.service.nodes import JOBS
from tests.service.scenes import ME, OTHER, as_user, is_root
from tests.service.sites import SERVICE, until

BY_SETPRIV = "setpriv --reuid={user} --regid=nogroup --clear-groups"


def checked(*words, before=()):
    """What `--check` says: its status, and its words."""
    done = subprocess.run([*before, *words], capture_output=True, text=True, check=False, timeout=60)
    return done.returncode, done.stderr


def node_checks(tally, federation):
    """`nettlebeam-node --check` names what no job could start by, and what may be wrong."""
    if not is_root(tally):
        return
    folder, cluster = federation.folder, Cluster(federation.folder)
    wrong = {
        "it has no {user}": {"start": "nice -n 5"},
        f"start runs jobs of {OTHER} as {ME}": {"start": "nice -n 5"},
        f"no job of {OTHER} would start: sorry": {"start": f"{folder}/refuses {{user}}"},
        f"jobs of {OTHER} would run as {5}": {"start": "setpriv --reuid=5 --regid=5 --clear-groups env WHO={user}"},
        "bytes are free, and free_bytes": {"start": BY_SETPRIV, "free_bytes": 1 << 60},
        "/nowhere": {"start": BY_SETPRIV, "cgroup": "/nowhere/at/all"},
        "boot = /nowhere": {"start": BY_SETPRIV, "boot": "/nowhere"},
        f"jobs of {OTHER}, whose number is": {"start": BY_SETPRIV, "least_uid": 70_000},
    }
    write(f"{folder}/refuses", "#!/bin/sh\necho sorry >&2\nexit 1\n", 0o755)
    for words, keys in wrong.items():
        cluster.configure("n1", **keys)
        status, told = checked(NODE, "--check", "--config", f"{folder}/n1.conf", OTHER)
        tally.same(f"{words} is named: {told!r}", (status, words in told), (2, True))
    cluster.configure("n1", start="")
    tally.true("without start no other's would", f"no job of {OTHER} would start: start isn't given" in checked(NODE, "--check", "--config", f"{folder}/n1.conf", OTHER)[1])
    cluster.configure("n1", start=BY_SETPRIV)
    right = [NODE, "--check", "--config", f"{folder}/n1.conf", OTHER]
    tally.same("a node that is right", checked(*right)[0], 0)
    tally.same("somebody that there isn't", checked(*right, "no-such-one")[0], 2)
    few = checked(*right, before=["prlimit", "--nofile=100:100", "--memlock=65536:65536"])
    tally.true(f"low limits are told: {few}", few[0] == 0 and "100 files open" in few[1] and "lock 65536 bytes" in few[1])
    tally.same("nothing is left", [it for it in os.listdir("/tmp") if it.startswith("nettlebeam-trial")], [])


def far_checks(tally, federation):
    """`nettlebeamd --check` says what each node says."""
    folder, cluster = federation.folder, Cluster(federation.folder)
    cluster.configure("n1", start="false {user}")
    (site,) = federation.make("argonne:3", jobs=JOBS.format(link=cluster.link()))
    until(lambda: site.said("nodes").count(" up\n") == 3, 20, "all nodes are up")
    cluster.cut("n2")
    status, told = checked(f"{SERVICE}/nettlebeamd", "--check", site.config, ME)
    tally.same("a node whose start fails, and one that can't be asked", (status, f"n1: no job of {ME} would start" in told, "n2: it can't be asked: no route" in told), (2, True, True))
    tally.same("and none that is right", f"n3: no job of {ME}" in told, False)
    kept = "".join(line for line in read(site.config).splitlines(True) if not line.startswith(("link", "health", "retry")))
    write(site.config, kept.replace("[jobs]\n", "[jobs]\nstart = nice -n 5\n"))
    status, told = checked(f"{SERVICE}/nettlebeamd", "--check", site.config)
    tally.same(f"a start that changes no user: {told!r}", (status, "[jobs] start = nice -n 5: it has no {user}" in told), (2, True))


SCENES = {it.__name__: it for it in (node_checks, far_checks)}
