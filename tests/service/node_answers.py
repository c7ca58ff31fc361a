"""Scenes of a node by itself: what its program answers to each request, and what it makes of what is left of a job."""
import json
import os
import signal
import subprocess

from tests.service.cluster import NODE, Cluster, processes_with
from tests.service.scenes import ME, read
from tests.service.sites import stat_of, until


class Asked:
    """A node's program that is asked by hand."""

    def __init__(self, config):
        self.process = subprocess.Popen([NODE, "--config", config], stdin=subprocess.PIPE, stdout=subprocess.PIPE)
        self.number, self.told = 0, []

    def ask(self, ask, body=b"", **more):
        """The answer to a request, without its number."""
        self.number += 1
        head = {"n": self.number, "ask": ask, **more, **({"size": len(body)} if body else {})}
        self.process.stdin.write(json.dumps(head).encode() + b"\n" + body)
        self.process.stdin.flush()
        while True:
            answer = json.loads(self.process.stdout.readline())
            if answer.pop("n", None) == self.number:
                return answer
            self.told.append(answer)

    def said(self, ask, body=b"", **more):
        """The word of the answer."""
        return self.ask(ask, body, **more)["answer"]

    def state(self, job):
        """What it says of a run."""
        return self.ask("look", ids=[job])["runs"][job]["state"]

    def wait(self, job, state, seconds=20):
        """Waits until a run is in a state."""
        until(lambda: self.state(job) == state, seconds, f"{job} is {state}")

    def end(self):
        """Ends the link."""
        self.process.stdin.close()
        return self.process.wait(20)


def order(folder, **more):
    """What a service tells of a job."""
    told = {"name": "x", "owner": ME, "nodes": 1, "limit": 100, "hosts": ["n1"], "facts": {}, "folder": folder, "number": "1"}
    return {**told, "alone": True, **more}


def node_answers(tally, federation):
    """What a node answers to each request."""
    cluster, folder = Cluster(federation.folder), federation.folder
    node = Asked(f"{folder}/n1.conf")
    hello = node.ask("hello")
    tally.same("hello", (hello["answer"], hello["version"], hello["boot"], hello["runs"]), ("hello", 1, read(f"{folder}/n1.boot").strip(), {}))
    tally.same("an account", [node.said("account", owner=it) for it in (ME, "no-such-one")], ["known", "no account"])
    tally.same("no account", node.said("prepare", b"x", id="1.a", order=order(folder, owner="no-such-one")), "no account")
    tally.same("a request that isn't known", node.said("dance"), "unread")
    tally.same("a wrong identifier", node.said("prepare", b"x", id="../1.a", order=order(folder)), "unread")
    tally.same("a run that isn't there", node.state("1.a"), "unknown")
    run = node.ask("prepare", b"echo $NODE > out; sleep 1; exit 3\n", id="1.a", order=order(folder))
    tally.same("prepared", (run["answer"], node.state("1.a")), ("ready", "ready"))
    tally.same("another nonce is late", node.said("start", id="1.a", nonce="0" * 32), "late")
    tally.same("started", node.said("start", id="1.a", nonce=run["nonce"]), "started")
    tally.same("asked again", node.said("start", id="1.a", nonce=run["nonce"]), "started")
    tally.same("it can't be dropped", node.said("drop", id="1.a", nonce=run["nonce"]), "started")
    tally.same("it runs", node.state("1.a"), "runs")
    tally.same("and may not be forgotten", node.said("forget", id="1.a", nonce=run["nonce"]), "busy")
    tally.same("nor be prepared", node.said("prepare", b"x", id="1.a", order=order(folder)), "busy")
    tally.same("no other runs beside it", node.ask("prepare", b"x", id="2.a", order=order(folder)), {"answer": "busy", "by": "1.a"})
    node.wait("1.a", "ended")
    until(lambda: node.said("hello") == "hello" and node.told, 20, "its end is told")
    tally.same("its end is told", [(it["told"], it["id"], it["run"]["status"]) for it in node.told], [("ended", "1.a", 3)])
    tally.same("what it used", sorted(node.told[0]["run"]["used"]), ["cput", "mem", "walltime"])
    tally.same("it ran by the node's own words", read(f"{folder}/out"), "n1\n")
    tally.same("of another nonce it isn't forgotten", node.said("forget", id="1.a", nonce="0"), "failed")
    tally.same("forgotten", (node.said("forget", id="1.a", nonce=run["nonce"]), node.state("1.a")), ("done", "unknown"))
    tally.same("again", node.said("forget", id="1.a", nonce=run["nonce"]), "done")
    run = node.ask("prepare", b"echo ran > never\n", id="3.a", order=order(folder))
    tally.same("dropped", (node.said("drop", id="3.a", nonce=run["nonce"]), node.state("3.a")), ("dropped", "unknown"))
    tally.same("it can't be started any more", node.said("start", id="3.a", nonce=run["nonce"]), "late")
    old = node.ask("prepare", b"echo ran > never\n", id="3.a", order=order(folder))
    run = node.ask("prepare", b"echo ran > never\n", id="3.a", order=order(folder))
    tally.same("nor by an older nonce", node.said("start", id="3.a", nonce=old["nonce"]), "late")
    with open(f"{folder}/n1/3.a/nonce", encoding="ascii") as file:
        nonce = json.load(file)
    with open(f"{folder}/n1/3.a/nonce", "w", encoding="ascii") as file:
        json.dump({**nonce, "until": nonce["until"] - 61}, file)
    tally.same("nor after its time", node.said("start", id="3.a", nonce=run["nonce"]), "late")
    run = node.ask("prepare", b"echo ran > never\n", id="3.a", order=order(folder))
    cluster.boot("n1")
    other = Asked(f"{folder}/n1.conf")
    tally.same("nor in another run of the machine", other.said("start", id="3.a", nonce=run["nonce"]), "late")
    tally.same("none of them ran", os.path.exists(f"{folder}/never"), False)
    tally.same("a link ends", (node.end(), other.end()), (0, 0))
    late_prepare(tally, cluster)
    two_links(tally, cluster)
    killed_runner(tally, cluster)
    cluster.configure("n1", free_bytes=1 << 50)
    node = Asked(f"{folder}/n1.conf")
    tally.same("a full disk", (node.ask("hello")["has_room"], node.said("prepare", b"x", id="5.a", order=order(folder))), (False, "no room"))
    node.end()


def node_groups(tally, federation):
    """What a job leaves in a session of its own is ended by its control group, and what that has used is counted."""
    place = next((it for it in ("/sys/fs/cgroup/unified", "/sys/fs/cgroup") if os.path.exists(f"{it}/cgroup.kill") or os.path.exists(f"{it}/cgroup.procs")), "")
    group = f"{place}/nettlebeam-test-{os.getpid()}"
    try:
        os.mkdir(group)
        os.stat(f"{group}/cgroup.kill")
    except OSError as fault:
        print(f"tests/service/rows: node_groups: control groups can't be tried here: {fault}")
        return
    try:
        cluster, folder = Cluster(federation.folder), federation.folder
        cluster.configure("n1", cgroup=group)
        node = Asked(f"{folder}/n1.conf")
        script = b"setsid sleep 300 & echo $! > left\nsetsid sh -c 'i=0; while [ $i -lt 300000 ]; do i=$((i+1)); done; echo > spent' &\nwhile [ ! -e spent ]; do sleep 0.1; done\nexit 7\n"
        run = node.ask("prepare", script, id="1.a", order=order(folder))
        node.said("start", id="1.a", nonce=run["nonce"])
        node.wait("1.a", "ended", 60)
        tally.same("its status", node.ask("look", ids=["1.a"])["runs"]["1.a"]["status"], 7)
        tally.same("what it left is ended", stat_of(int(read(f"{folder}/left"))), None)
        tally.same("and so is its group", [it for it in os.listdir(group) if os.path.isdir(f"{group}/{it}")], [])
        run = node.ask("prepare", b"setsid sleep 300 & echo $! > other\nsleep 300\n", id="2.a", order=order(folder))
        node.said("start", id="2.a", nonce=run["nonce"])
        until(lambda: os.path.exists(f"{folder}/other") and read(f"{folder}/other"), 20, "it runs")
        os.kill(json.loads(read(f"{folder}/n1/2.a/runner"))["pid"], signal.SIGKILL)
        node.wait("2.a", "ended")
        tally.same("also where its runner is killed", stat_of(int(read(f"{folder}/other"))), None)
        node.end()
    finally:
        os.rmdir(group)


def late_prepare(tally, cluster):
    """A request that was held up can't make a used nonce look unused; and what forks runners may be killed."""
    folder = cluster.folder
    node = Asked(f"{folder}/n2.conf")
    run = node.ask("prepare", b"exit 5\n", id="8.a", order=order(folder))
    node.said("start", id="8.a", nonce=run["nonce"])
    node.wait("8.a", "ended")
    again = node.ask("prepare", b"exit 6\n", id="8.a", order=order(folder))
    tally.same("a nonce that was used is never dropped", node.said("drop", id="8.a", nonce=run["nonce"]), "started")
    tally.same("nor used again", node.said("start", id="8.a", nonce=run["nonce"]), "started")
    tally.same("another one may be", node.ask("drop", id="8.a", nonce=again["nonce"]), {"answer": "dropped", "boot": read(f"{folder}/n2.boot").strip()})
    for pid in processes_with("runner_server.py"):
        if f"{folder}/n2/".encode() in words_of(pid):
            os.kill(pid, signal.SIGKILL)
    run = node.ask("prepare", b"exit 7\n", id="9.a", order=order(folder))
    node.said("start", id="9.a", nonce=run["nonce"])
    node.wait("9.a", "ended")
    tally.same("a start behind that", node.ask("look", ids=["9.a"])["runs"]["9.a"]["status"], 7)
    run = node.ask("prepare", b"exit 8\n", id="10.a", order=order(folder))
    node.end()
    cluster.boot("n2")
    node = Asked(f"{folder}/n2.conf")
    tally.same("a nonce of an earlier run of the machine is lost", node.state("10.a"), "lost")
    node.end()


def words_of(pid):
    """The words of a process; nothing where it has gone."""
    try:
        with open(f"/proc/{pid}/cmdline", "rb") as file:
            return file.read()
    except OSError:
        return b""


def two_links(tally, cluster):
    """Two links at one time, of which each tells of what runs."""
    folder = cluster.folder
    one, two = Asked(f"{folder}/n2.conf"), Asked(f"{folder}/n2.conf")
    run = one.ask("prepare", b"trap 'echo heard >> heard' USR1; echo set > trapped; for it in 1 2 3 4 5 6 7 8; do sleep 0.3; done; exit 4\n", id="1.a", order=order(folder))
    tally.same("a second link starts it", two.said("start", id="1.a", nonce=run["nonce"]), "started")
    tally.same("and the first not again", one.said("start", id="1.a", nonce=run["nonce"]), "started")
    tally.same("both say that it runs", (one.state("1.a"), two.state("1.a")), ("runs", "runs"))
    one.end()
    until(lambda: os.path.exists(f"{folder}/trapped"), 10, "it listens")
    tally.same("a signal", two.said("signal", id="1.a", number=int(signal.SIGUSR1)), "done")
    tally.same("a message", two.said("message", b"hear me", id="1.a", files=["out"]), "done")
    tally.same("is written", read(f"{folder}/x.o1"), "hear me\n")
    two.wait("1.a", "ended")
    tally.same("the end of one link ends no job", two.ask("look", ids=["1.a"])["runs"]["1.a"]["status"], 4)
    run = two.ask("prepare", b"sleep 300\n", id="6.a", order=order(folder))
    two.said("start", id="6.a", nonce=run["nonce"])
    until(lambda: os.path.exists(f"{folder}/n2/6.a/started"), 10, "it is started")
    tally.same("an end that is asked for", two.said("end", id="6.a"), "done")
    two.wait("6.a", "ended")
    tally.same("has its status", two.ask("look", ids=["6.a"])["runs"]["6.a"]["status"], 143)
    two.end()


def killed_runner(tally, cluster):
    """A runner that is killed leaves its script, which is ended; and a node that is switched off has lost its runs."""
    folder = cluster.folder
    node = Asked(f"{folder}/n3.conf")
    run = node.ask("prepare", b"echo $$ > pid; sleep 300\n", id="4.a", order=order(folder))
    node.said("start", id="4.a", nonce=run["nonce"])
    until(lambda: os.path.exists(f"{folder}/pid") and read(f"{folder}/pid"), 10, "it runs")
    os.kill(json.loads(read(f"{folder}/n3/4.a/runner"))["pid"], signal.SIGKILL)
    node.wait("4.a", "ended")
    tally.same("its script is ended", (node.ask("look", ids=["4.a"])["runs"]["4.a"]["status"], stat_of(int(read(f"{folder}/pid")))), (255, None))
    run = node.ask("prepare", b"sleep 300\n", id="7.a", order=order(folder))
    node.said("start", id="7.a", nonce=run["nonce"])
    until(lambda: os.path.exists(f"{folder}/n3/7.a/started"), 10, "another runs")
    cluster.switch_off("n3")
    cluster.switch_on("n3")
    node = Asked(f"{folder}/n3.conf")
    tally.same("a node that was switched off has lost it", node.ask("hello")["runs"]["7.a"]["state"], "lost")
    node.end()


SCENES = {it.__name__: it for it in (node_answers, node_groups)}
