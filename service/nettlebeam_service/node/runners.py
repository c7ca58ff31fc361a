"""Starts the runners of a node's runs, by a process that is up already and forks them."""
from __future__ import annotations

import os
import socket
import subprocess
import sys
import threading
from typing import Optional

MOST_TRIES = 3
SERVER = os.path.join(os.path.dirname(os.path.realpath(__file__)), "runner_server.py")


class Runners:
    """The process that forks runners. It is started when it is needed, and anew where it was killed."""

    def __init__(self, folder: str):
        self.folder = folder
        self.guard = threading.Lock()
        self.process: Optional["subprocess.Popen[bytes]"] = None
        self.asking: Optional[socket.socket] = None

    def open(self) -> socket.socket:
        """The socket by which the process is asked; with the guard held."""
        if self.asking is not None and self.process is not None and self.process.poll() is None:
            return self.asking
        if self.asking is not None:
            self.asking.close()
        ours, theirs = socket.socketpair(socket.AF_UNIX, socket.SOCK_SEQPACKET)
        with theirs:
            words = [sys.executable, "-IS", SERVER, str(theirs.fileno()), os.path.join(self.folder, "")]
            null = subprocess.DEVNULL
            self.process = subprocess.Popen(words, pass_fds=(theirs.fileno(),), stdin=null, stdout=null, start_new_session=True)
        self.asking = ours
        return ours

    def close(self) -> None:
        """Has the process started anew when it is needed next."""
        with self.guard:
            if self.asking is not None:
                self.asking.close()
            self.asking = None

    def warm(self) -> None:
        """Has the process there before it is needed. Where that fails the start tells."""
        try:
            with self.guard:
                self.open()
        except OSError:
            pass

    def start(self, folder: str, lock: int) -> bool:
        """Starts the runner of a folder, which gets the lock; whether it is there.

        A runner starts nothing before it has told that it is there. So where the pipe ends without a word nothing was started,
        since the runner or what forks it was killed, and it is asked again.
        """
        return any(self.ask(folder, lock) for _ in range(MOST_TRIES))

    def ask(self, folder: str, lock: int) -> bool:
        """Asks for a runner; whether it is there."""
        told, tell = os.pipe()
        try:
            try:
                with self.guard:
                    socket.send_fds(self.open(), [os.fsencode(folder)], [lock, tell])
            except OSError:
                self.close()
                return False
            finally:
                os.close(tell)
            return os.read(told, 1) == b"."
        finally:
            os.close(told)
