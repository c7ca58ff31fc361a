"""What the tests share that play worked rows: what is found is compared with what is wanted, and the program is called."""
from __future__ import annotations

import argparse
import os
import re
import resource
import shutil
import signal
import subprocess
import sys
import tempfile
import traceback
from typing import Callable

TOP = os.path.dirname(os.path.dirname(os.path.abspath(__file__)))
PROGRAM = f"{TOP}/crates/nettlebeam/out/nettlebeam"
# The pages whose commands are played.
PAGES = [f"{TOP}/docs/{name}.md" for name in ("OPERATING", "BY_HAND")]


class Tally:
    """Counts what was found as wanted, and what wasn't."""

    def __init__(self, tool: str) -> None:
        self.tool, self.scene, self.passed, self.failed = tool, "", 0, 0

    def same(self, what: str, found: object, wanted: object) -> None:
        """Counts a comparison, and prints one that fails."""
        if found == wanted:
            self.passed += 1
        else:
            self.fail(f"{what}\n  found  {found!r}\n  wanted {wanted!r}")

    def true(self, what: str, holds: object) -> None:
        """Counts what has to hold."""
        self.same(what, bool(holds), True)

    def fail(self, what: str) -> None:
        """Counts what failed."""
        self.failed += 1
        print(f"{self.tool}: {self.scene}: FAILED: {what}")

    def play(self, name: str, scene: Callable[[], None]) -> None:
        """Plays a scene: where it breaks off it has failed, and the next can be played."""
        self.scene = name
        try:
            scene()
        except Exception:
            self.fail(traceback.format_exc())

    def end(self) -> int:
        """Prints the last line, and gives the status."""
        print(f"{self.passed} passed, {self.failed} failed")
        return 1 if self.failed else 0


def has_program(tool, program):
    """Whether the program is there; where it isn't, that is told, and counted as failed."""
    if os.access(program, os.X_OK):
        return True
    print(f"{tool}: {program} isn't there: it is built by (cd crates/nettlebeam && rt run -- --version)")
    print("0 passed, 1 failed")
    return False


def words_of(tool, about, scenes=(), has_lanes=False):
    """The words of a tool: the program that it plays with, the scenes to play where it has some, and how many at a time where
    it can play them side by side. It ends where the program isn't there."""
    parser = argparse.ArgumentParser(description=about, formatter_class=argparse.RawDescriptionHelpFormatter)
    parser.add_argument("--program", default=PROGRAM)
    if scenes:
        parser.add_argument("scenes", nargs="*", metavar="SCENE", help=", ".join(scenes))
    if has_lanes:
        parser.add_argument("--lanes", type=int, default=1, help="how many scenes are played at a time")
    words = parser.parse_args()
    words.program = os.path.abspath(words.program)
    if not has_program(tool, words.program):
        sys.exit(1)
    return words


def in_folder(play):
    """Has something played in a folder of its own."""
    folder = tempfile.mkdtemp()
    try:
        play(folder)
    finally:
        shutil.rmtree(folder, ignore_errors=True)


def call(words, text=b"", **how):
    """A call of a program: its status, its output and its words on standard error."""
    done = subprocess.run(words, input=text, capture_output=True, check=False, **how)
    return done.returncode, done.stdout.decode(), done.stderr.decode()


def blocks_of(text):
    """The indented blocks of a page: each begins with this line and is cut of its indentation."""
    blocks = []
    for block in re.findall(r"(?:^(?: {4,}.*)?\n)+", text, re.MULTILINE):
        lines = block.strip("\n").split("\n")
        if lines[0].startswith("    "):
            indent = len(lines[0]) - len(lines[0].lstrip())
            blocks.append("\n".join(line[indent:] for line in lines).rstrip() + "\n")
    return blocks


def limited(**limits):
    """What sets limits of a process: of the bytes of a file, or of memory."""

    def limit():
        # a write beyond the limit fails, and doesn't end the process
        signal.signal(signal.SIGXFSZ, signal.SIG_IGN)
        for name, most in limits.items():
            resource.setrlimit(getattr(resource, f"RLIMIT_{name}"), (most, most))

    return limit
