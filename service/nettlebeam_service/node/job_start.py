"""The start of a job's script, as its runner sees it: what the configured command is given, and what it says.

The command gets the text for the owner's shell by a pipe, and no file of the service. The shell makes ready all that the script
needs, says one word, and runs the script only if it reads the answer. The runner keeps that the script goes before it answers.
So a script whose command has ended, or is given up, without that answer hasn't run, and never will.
"""
from __future__ import annotations

import os
import select
import signal
import time
from typing import Any, Dict

from .job_processes import Script, boot_time

ANSWER = b"go\n"
CHUNK = 1 << 16
MOST_KEPT = 4096  # bytes of what the command says
MOST_TOLD = 160  # of them in what is said of a script that hasn't run
WORD_SECONDS = 60.0  # for which the word is waited for
LOOK_SECONDS = 0.05
UNWRITABLE = 254  # the status of a shell that can write the job's files nowhere: no fault of its node
ORDERED = "it was told to end"


def plain(text: bytes) -> str:
    """The end of what a command said, in one line that fits what is kept."""
    line = " ".join(text.decode("ascii", "replace").split())
    return "".join(it if it.isascii() and it.isprintable() and it not in "\"\\" else "'" for it in line)[-MOST_TOLD:]


class Start:
    """The pipes of a command that starts a script. Nothing of it waits for the command."""

    def __init__(self, word: str):
        self.word = word.encode()
        self.given, self.give = os.pipe()
        self.said, self.say = os.pipe()
        self.data = b""
        self.place = 0
        self.kept = b""
        self.tail = b""
        self.has_word = False
        self.is_silent = False  # whether nobody has the other end any more

    def become(self) -> None:
        """In the child: makes the pipes its streams."""
        os.dup2(self.given, 0)
        os.dup2(self.say, 1)
        os.dup2(self.say, 2)

    def begin(self, path: str) -> None:
        """Begins to give what a file has."""
        os.close(self.given)
        os.close(self.say)
        os.set_blocking(self.give, False)
        os.set_blocking(self.said, False)
        with open(path, "rb") as file:
            self.data = file.read()

    def is_giving(self) -> bool:
        """Whether something is left to be given."""
        return self.place < len(self.data)

    def feed(self) -> None:
        """Gives as much as is taken now."""
        try:
            while self.is_giving():
                self.place += os.write(self.give, self.data[self.place : self.place + CHUNK])
        except BlockingIOError:
            pass
        except BrokenPipeError:
            self.place = len(self.data)

    def listen(self) -> None:
        """Hears what was said, of which the first is kept. Whoever says more waits."""
        try:
            data = os.read(self.said, CHUNK)
        except BlockingIOError:
            return
        self.is_silent = not data
        self.kept += data[: MOST_KEPT - len(self.kept)]
        self.tail += data
        self.has_word = self.has_word or self.word in self.tail
        self.tail = self.tail[-len(self.word) :]

    def poll(self) -> None:
        """Waits a moment for what may be given or heard."""
        if self.is_silent:
            time.sleep(LOOK_SECONDS)
            return
        waiting = select.poll()
        waiting.register(self.said, select.POLLIN)
        if self.is_giving():
            waiting.register(self.give, select.POLLOUT)
        waiting.poll(1000 * LOOK_SECONDS)

    def answer(self) -> None:
        """Lets the script run."""
        try:
            os.write(self.give, ANSWER)
        except BrokenPipeError:
            pass  # its shell was killed, which its status says

    def close(self) -> None:
        """Gives nothing more: without the answer nothing runs any more."""
        os.close(self.give)
        self.data = b""

    def give_all(self) -> None:
        """Gives all, and the end: to a shell of an older service, which waits for no answer."""
        os.set_blocking(self.give, True)
        self.feed()
        self.close()

    def words(self) -> bytes:
        """What the command said besides the word."""
        return b"\n".join(line for line in self.kept.splitlines() if not self.word or self.word not in line)


def await_word(script: Script, start: Start, end: float) -> str:
    """Waits until a script may run, by this moment at most; nothing, or why it hasn't run."""
    last = min(end, boot_time() + WORD_SECONDS)
    while not start.has_word:
        start.feed()
        start.listen()
        if start.has_word:
            break
        if script.has_ended():
            start.listen()
            return "the command of start ended"
        if signal.sigtimedwait({signal.SIGTERM}, 0) is not None:
            return ORDERED
        if boot_time() > last:
            return f"no word within {WORD_SECONDS:g} s"
        start.poll()
    if boot_time() > last:  # this was stopped on its way: the service may take the job for ended
        return f"no word within {WORD_SECONDS:g} s"
    try:
        os.rename("waiting", "going")
    except OSError as fault:
        return f"what is to be known of it can't be kept: {fault}"
    start.answer()
    return ""


def why_unrun(why: str, start: Start, status: int) -> Dict[str, Any]:
    """What is kept of a script that hasn't run: why, in the command's own words if it said some, and whose fault that is."""
    told = plain(start.words()) or f"{why} with status {status}"
    return {"unrun": told, **({"of_owner": True} if status == UNWRITABLE else {})}

