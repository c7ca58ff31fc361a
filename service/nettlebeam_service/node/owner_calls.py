"""Calls commands as a job's owner. What they say is read up to a limit, since the owner may say whatever there is room for."""
from __future__ import annotations

import contextlib
import os
import select
import signal
import subprocess
import threading
import time
from typing import IO, Dict, Optional, Sequence, Tuple

HELPING_SECONDS = 15.0
MOST_SAID = 4096
CHUNK = 1 << 16
LOOK_SECONDS = 0.05
DYING_SECONDS = 1.0
NOT_STARTED, NO_END = 127, 124


def feed(stream: IO[bytes], given: bytes) -> None:
    """Writes what a command reads, which may end before it has read all."""
    with contextlib.suppress(OSError), stream:
        stream.write(given)


def last_said(stream: IO[bytes], process: "subprocess.Popen[bytes]", end: float) -> bytes:
    """The last bytes that a command says, until it ends or its time is over. What it leaves isn't waited for."""
    said, place = b"", stream.fileno()
    while time.monotonic() < end:
        has_ended = process.poll() is not None
        if select.select([place], [], [], 0 if has_ended else LOOK_SECONDS)[0]:
            data = os.read(place, CHUNK)
            said = (said + data)[-MOST_SAID:]
            if not data:
                break
        if has_ended:
            break
    return said


def call(words: Sequence[str], environment: Dict[str, str], given: bytes = b"", seconds: float = HELPING_SECONDS) -> Tuple[int, str]:
    """Calls a command: its status, and the last that it said."""
    pipe = subprocess.PIPE
    try:
        process = subprocess.Popen(
            words, stdin=pipe, stdout=pipe, stderr=subprocess.STDOUT, cwd="/", env=environment, start_new_session=True
        )
    except OSError as fault:
        return NOT_STARTED, f"{words[0]}: {fault.strerror}"
    assert process.stdin and process.stdout
    end = time.monotonic() + seconds
    threading.Thread(target=feed, args=(process.stdin, given), daemon=True).start()
    with process.stdout:
        said = last_said(process.stdout, process, end)
    status = ended_within(process, max(0.0, end - time.monotonic()))
    if status is None:
        with contextlib.suppress(OSError):
            os.killpg(process.pid, signal.SIGKILL)
        ended_within(process, DYING_SECONDS)  # another user's may stay
        return NO_END, f"{words[0]}: no end within {seconds:g} s"
    return status, " ".join(said.decode("utf-8", "replace").split())


def ended_within(process: "subprocess.Popen[bytes]", seconds: float) -> Optional[int]:
    """The status of a command that ends within a time."""
    try:
        return process.wait(seconds)
    except subprocess.TimeoutExpired:
        return None


def help_job(words: Sequence[str], environment: Dict[str, str], given: bytes) -> str:
    """Runs a command beside a job; why it failed, or nothing."""
    status, said = call(words, environment, given)
    return (said[-300:] or f"{words[0]}: status {status}") if status else ""
