"""Scenes with strangers at the socket: whatever they send, they are answered by a fault or dropped, and others don't wait."""
import json
import os
import random
import socket
import subprocess
import sys
import threading
import time

OTHER_USER = ["setpriv", "--reuid=65534", "--regid=65534", "--clear-groups"]


def connect(path):
    """A connection to the socket."""
    stream = socket.socket(socket.AF_UNIX, socket.SOCK_STREAM)
    stream.settimeout(30)
    stream.connect(path)
    return stream


def answer_of(path, data, is_whole=True):
    """What is answered to these bytes: a status, or None where the client is dropped."""
    with connect(path) as stream:
        try:
            stream.sendall(data)
            if is_whole:
                stream.shutdown(socket.SHUT_WR)
        except BrokenPipeError:
            pass
        try:
            with stream.makefile("rb") as file:
                line = file.readline()
                return json.loads(line)["status"] if line else None
        except ConnectionResetError:
            return None


def head(**values):
    """The line of a request."""
    return json.dumps(values).encode() + b"\n"


def odd_requests(pick):
    """Requests that ask nothing."""
    yield bytes(pick.randrange(256) for _ in range(pick.randrange(200)))
    yield bytes(pick.randrange(256) for _ in range(pick.randrange(200))).replace(b"\n", b"") + b"\n"
    whole = head(words=["qstat"], role=None)
    yield whole[: pick.randrange(len(whole))]
    yield whole[: pick.randrange(1, len(whole) - 2)] + b"\n"
    odd = [None, 5, "qstat", [], {}, [[]], [5], [None], True, ["qstat", "a\nb"], ["qstat", "\0"], ["qstat", "\x7f"], ["qstat", "\ud800"]]
    yield head(words=pick.choice(odd))
    yield head(words=["qstat"], role=pick.choice([5, [], {}, "root", "admin", "operator", "", "a/b"]))
    yield head(words=["qstat"], more=5)
    yield head(words=["qsub"], facts=pick.choice([5, [], {"folder": 5}, {"other": ""}, {"folder": "a\0b"}]), size=0)
    yield head(words=["qsub"], size=pick.choice([-1, 1.5, "5", True, 10**30, []]))
    yield head(words=["qsub"], size=pick.randrange(1, 100))
    yield b"[" * pick.randrange(1, 50_000) + b"\n"
    yield b'{"words":' * pick.randrange(1, 9_000) + b"\n"
    yield b"1" * pick.randrange(1, 100_000) + b"\n"


class Honest(threading.Thread):
    """A client that asks again and again, and notes how long it waits."""

    def __init__(self, site):
        super().__init__()
        self.site = site
        self.ending = False
        self.waits = []

    def run(self):
        while not self.ending:
            began = time.monotonic()
            try:
                status = self.site.ask("qstat").status
            except Exception:  # whatever went wrong, it wasn't answered
                status = None
            self.waits.append(time.monotonic() - began if status == 0 else 1e9)
            time.sleep(0.02)

    def end(self):
        """The longest wait."""
        self.ending = True
        self.join()
        return max(self.waits)


def strangers(tally, federation):
    """Random bytes, cut JSON, wrong types, lines in words."""
    (site,) = federation.make("argonne:4", jobs="run = no", more="[clients]\nseconds = 5\n")
    site.submit("true\n")
    pick = random.Random(5)
    honest = Honest(site)
    honest.start()
    statuses, count = set(), 0
    try:
        while count < 10_000:
            for data in odd_requests(pick):
                status = answer_of(site.socket, data)
                if status not in (2, None):
                    tally.fail(f"{data[:200]!r} is answered {status}")
                statuses.add(status)
                count += 1
    finally:
        longest = honest.end()
    print(f"tests/service/rows: strangers: {count} requests; an honest client waited {1000 * longest:.0f} ms at most, of {len(honest.waits)} times")
    tally.true("faults and drops, and nothing else", statuses <= {2, None})
    tally.true("an honest client is answered within a second", longest < 1)
    tally.same("nothing was kept", len(site.jobs()), 1)


def besiege(path):
    """Sends too much, too slowly, and never reads; the statuses of what is too much, and how many were dropped."""
    found = {"no line": answer_of(path, b"x" * (17 << 20))}
    found["long script"] = answer_of(path, head(words=["qsub"], size=68 << 20) + b"x" * (68 << 20))
    silent = [connect(path) for _ in range(80)]
    slow = [connect(path) for _ in range(80)]
    deaf = [connect(path) for _ in range(80)]
    for stream in deaf:
        stream.sendall(head(words=["jobs"]))
    for number in range(30):
        for stream in slow:
            try:
                stream.sendall(head(words=["qstat"])[number : number + 1])
            except OSError:
                pass
        time.sleep(0.05)
    more = [answer_of(path, head(words=["seen"])) for _ in range(30)]
    found["beside them"] = sorted(set(more))
    time.sleep(3)
    found["silent and kept"] = 0
    for stream in silent:
        try:
            found["silent and kept"] += stream.recv(1) != b""
        except OSError:
            pass
    for stream in silent + slow + deaf:
        stream.close()
    return found


def take_places(path, count):
    """Takes so many places at a socket and keeps them, once a line is printed, until standard input ends."""
    streams = [connect(path) for _ in range(count)]
    print("ready", flush=True)
    sys.stdin.read()
    for stream in streams:
        stream.close()


def heavy_strangers(tally, federation):
    """Too much, too slowly, and never read, by another user."""
    (site,) = federation.make("argonne:4", jobs="run = no", more="[clients]\nseconds = 3\nscript_bytes = 1000000\n")
    for _ in range(60):
        site.ask("qsub", "-N", "listed", body=b"true\n")
    honest = Honest(site)
    honest.start()
    try:
        command = [*(OTHER_USER if os.getuid() == 0 else []), "/usr/bin/python3", "-B", __file__, site.socket]
        done = subprocess.run(command, capture_output=True, text=True, check=False)
        wanted = {"no line": 2, "long script": 2, "beside them": [0], "silent and kept": 0}
        tally.same("what is too much is answered, and the silent are dropped", json.loads(done.stdout or "null"), wanted)
    finally:
        longest = honest.end()
    print(f"tests/service/rows: heavy_strangers: an honest client waited {1000 * longest:.0f} ms at most, of {len(honest.waits)} times")
    tally.true("an honest client is answered within a second", longest < 1)
    tally.same("nothing was kept of them", len(site.jobs()), 60)
    with open(f"/proc/{site.process.pid}/status", encoding="ascii") as file:
        rss = next(int(line.split()[1]) for line in file if line.startswith("VmRSS"))
    print(f"tests/service/rows: heavy_strangers: the daemon has {rss // 1024} MiB")
    tally.true("the daemon stays below 300 MiB", rss < 300 * 1024)


def many(tally, federation):
    """1,000 submissions by 50 clients at once."""
    (site,) = federation.make("argonne:4", jobs="run = no")
    answered, lock = [], threading.Lock()

    def submit():
        for _ in range(20):
            job = site.submit("true\n")
            with lock:
                answered.append(job)

    clients = [threading.Thread(target=submit) for _ in range(50)]
    began = time.monotonic()
    for client in clients:
        client.start()
    for client in clients:
        client.join()
    spent = time.monotonic() - began
    print(f"tests/service/rows: many: 1,000 submissions by 50 clients took {spent:.2f} s")
    tally.same("all are answered, each by its own identifier", len(set(answered)), 1000)
    tally.same("all are there", len(site.jobs()), 1000)
    scripts = os.listdir(f"{site.home}/spool/scripts")
    tally.same("with their scripts", sorted(scripts), sorted(answered))


SCENES = {it.__name__: it for it in (strangers, heavy_strangers, many)}

if __name__ == "__main__":
    print(json.dumps(besiege(sys.argv[1])))
