"""Forks runners of jobs: `python3 -IS runner_server.py DESCRIPTOR FOLDER`, the descriptor being that of a socket.

Each message on the socket is the folder of a run in FOLDER, with two descriptors: that of the run's lock, and a pipe by which
the runner tells that it is there. So a job's start costs a fork, and no interpreter has to be started for it. The process has
one thread, so that what it forks is whole. It ends once nobody has the other end of the socket; the runners go on.
"""
from __future__ import annotations

import os
import signal
import socket
import sys
from typing import List, Tuple

sys.path.insert(0, os.path.dirname(os.path.dirname(os.path.dirname(os.path.realpath(__file__)))))

from nettlebeam_service.common.processes import hold_version  # noqa: E402
from nettlebeam_service.node import job_runner  # noqa: E402

LONGEST_FOLDER = 4096
DESCRIPTORS = 2
FAILED = 1


def receive(asked: socket.socket) -> Tuple[str, List[int]]:
    """The next folder with its descriptors; nothing once there is no other end."""
    data, descriptors, _, _ = socket.recv_fds(asked, LONGEST_FOLDER, DESCRIPTORS)
    for descriptor in descriptors:
        os.set_inheritable(descriptor, False)
    return os.fsdecode(data), list(descriptors)


def fork_runner(folder: str, descriptors: List[int], asked: socket.socket) -> None:
    """Forks the runner of a folder. Where that fails nothing is told by the pipe, which ends."""
    if os.fork():
        return
    try:
        asked.close()
        lock, tell = descriptors
        job_runner.run_job(folder, lock, tell)
        os._exit(0)
    except BaseException as fault:  # nothing of the server may go on in the child
        print(f"the runner failed: {fault!r}", file=sys.stderr, flush=True)
        os._exit(FAILED)


def main() -> None:
    """Forks runners until nobody asks any more."""
    hold_version()
    signal.signal(signal.SIGCHLD, signal.SIG_IGN)  # so that the kernel forgets those that have ended
    with socket.socket(fileno=int(sys.argv[1])) as asked:
        asked.set_inheritable(False)
        while True:
            folder, descriptors = receive(asked)
            if not folder:
                return
            try:
                fork_runner(folder, descriptors, asked)
            except OSError as fault:
                print(f"{folder}: {fault}", file=sys.stderr, flush=True)
            finally:
                for descriptor in descriptors:
                    os.close(descriptor)


if __name__ == "__main__":
    main()
