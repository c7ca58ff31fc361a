"""What `nettlebeamd --check` finds at the nodes: each says itself what is wrong there, and what may be."""
from __future__ import annotations

import concurrent.futures
import contextlib
import json
import os
import resource
import signal
import subprocess
import threading
import time
from typing import List, Sequence, Tuple

from .common.config import Config
from .common.processes import FILES_OF_JOBS
from .node.checks import look
from .node.settings import own_node_keys, told_node_keys

SECONDS = 45
AT_ONCE = 16
MOST_APART = 5.0  # seconds between two clocks
SPARE_FILES = 200  # besides those of clients
Lines = Tuple[List[str], List[str]]


def files_notes(config: Config) -> List[str]:
    """Whether this account may have a file open for each client."""
    most = resource.getrlimit(resource.RLIMIT_NOFILE)[1]
    if most == resource.RLIM_INFINITY or most >= config.clients.most + SPARE_FILES:
        return []
    return [f"[clients] most = {config.clients.most}, and this account may have {most} files open (ulimit -Hn, LimitNOFILE=)"]


def of_nodes(config: Config, users: Sequence[str]) -> Lines:
    """What is wrong at the nodes, and what may be."""
    jobs = config.jobs
    if jobs.run == "no":
        return [], files_notes(config)
    if not jobs.link:
        found = look(told_node_keys(own_node_keys(jobs, os.path.join(config.site.spool, "runs"), FILES_OF_JOBS)), users)
        return [f"[jobs] {line}" for line in found.faults], [*files_notes(config), *(f"[jobs] {line}" for line in found.notes)]
    faults, notes = [], files_notes(config)  # type: List[str], List[str]
    with concurrent.futures.ThreadPoolExecutor(AT_ONCE) as pool:
        for host, told in zip(jobs.hosts, pool.map(lambda it: of_host(config, it, users), jobs.hosts)):
            faults += [f"{host}: {line}" for line in told[0]]
            notes += [f"{host}: {line}" for line in told[1]]
    return faults, notes


def of_host(config: Config, host: str, users: Sequence[str]) -> Lines:
    """What one node says by its link."""
    words = [word.replace("{host}", host) for word in config.jobs.link]
    try:
        line, why = asked(words, json.dumps({"n": 1, "ask": "check", "users": list(users)}).encode() + b"\n")
    except OSError as fault:
        return [f"{words[0]}: {fault.strerror}"], []
    try:
        told = json.loads(line)
        faults, notes = [str(it) for it in told["faults"]], [str(it) for it in told["notes"]]
        apart = abs(float(told["moment"]) - time.time())
    except (KeyError, TypeError, ValueError):
        return [f"it can't be asked: {why or line.decode('utf-8', 'replace')[:200] or 'no answer'}"], []
    return faults, notes + ([f"its clock is {apart:.0f} seconds apart from this machine's"] if apart > MOST_APART else [])


def asked(words: Sequence[str], line: bytes) -> Tuple[bytes, str]:
    """The answer by a link, which stays until it has come, and the end of what the link said instead."""
    pipe = subprocess.PIPE
    with subprocess.Popen(words, stdin=pipe, stdout=pipe, stderr=pipe, start_new_session=True) as process:
        assert process.stdin and process.stdout and process.stderr
        timer = threading.Timer(SECONDS, lambda: os.killpg(process.pid, signal.SIGKILL))
        timer.start()
        try:
            with contextlib.suppress(BrokenPipeError):
                process.stdin.write(line)
                process.stdin.flush()
            answer = process.stdout.readline()
            why = "" if answer else process.stderr.read(4096).decode("utf-8", "replace")
            with contextlib.suppress(BrokenPipeError):
                process.stdin.close()
            process.wait()
        finally:
            timer.cancel()
    return answer, " ".join(why.split())[-200:]
