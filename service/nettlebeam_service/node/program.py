"""A node's end of a link: `nettlebeam-node [--config FILE | --settings TEXT]`, or `nettlebeam-node --check [--config FILE] [USER ..]`,
which says what is wrong and what may be, and ends.

It reads requests from standard input and writes answers to standard output: each is a line of JSON, and where the line has a
`size` that many bytes behind it. The answer to a request has its number `n`; what is told by itself has none. The end of the
input ends this process and nothing else.
"""
from __future__ import annotations

import json
import os
import select
import signal
import sys
import threading
from typing import Any, Dict, List, Optional, Tuple

from ..common.config import ConfigFault
from ..common.processes import hold_version
from .checks import Found, look
from .settings import CONFIG, NodeKeys, read_node_keys, told_node_keys
from .work import Work

USAGE = "usage: nettlebeam-node [--config FILE], or nettlebeam-node --check [--config FILE] [USER ..], which tries what jobs need"
CHUNK = 1 << 16
LONGEST_LINE = 16 * 1024 * 1024  # the variables of a job are in it, whose characters may take six bytes each
MOST_BYTES = 64 * 1024 * 1024
AT_ONCE = 16
SILENT_SECONDS = 900.0  # a service says something more often, so a link that is silent for so long leads nowhere
ENDING_SECONDS = 60.0


class Ended(Exception):
    """Nothing more comes, or nothing that can be read."""


class Input:
    """Reads requests from a descriptor."""

    def __init__(self, descriptor: int):
        self.descriptor = descriptor
        self.held = bytearray()

    def more(self) -> None:
        """Waits for bytes."""
        if not select.select([self.descriptor], [], [], SILENT_SECONDS)[0]:
            raise Ended
        data = os.read(self.descriptor, CHUNK)
        if not data:
            raise Ended
        self.held += data

    def line(self) -> bytes:
        """The next line."""
        looked = 0
        while True:
            end = self.held.find(b"\n", looked)
            if end >= 0:
                line = bytes(self.held[:end])
                del self.held[: end + 1]
                return line
            looked = len(self.held)
            if looked > LONGEST_LINE:
                raise Ended
            self.more()

    def request(self) -> Tuple[Dict[str, Any], bytes]:
        """The next request, and its bytes."""
        try:
            request = json.loads(self.line())
            size = int(request.get("size") or 0)
        except (AttributeError, TypeError, ValueError, RecursionError):
            raise Ended from None
        if not 0 <= size <= MOST_BYTES:
            raise Ended
        while len(self.held) < size:
            self.more()
        body = bytes(self.held[:size])
        del self.held[:size]
        return request, body


class Server:
    """Answers the requests of one link, several at a time."""

    def __init__(self, keys: NodeKeys, descriptor: int, output: int):
        self.input = Input(descriptor)
        self.output = output
        self.guard = threading.Lock()
        self.places = threading.Semaphore(AT_ONCE)
        self.threads: List[threading.Thread] = []
        self.work = Work(keys, self.write)

    def write(self, answer: Dict[str, Any]) -> None:
        """Writes a line. Where nobody reads it, nothing is lost but that."""
        data = json.dumps(answer).encode() + b"\n"
        with self.guard:
            try:
                while data:
                    data = data[os.write(self.output, data) :]
            except OSError:
                pass

    def serve(self) -> None:
        """Answers until the input ends, and then lets what was begun come to its end."""
        try:
            while True:
                request, body = self.input.request()
                self.places.acquire()
                thread = threading.Thread(target=self.answer, args=(request, body), daemon=True)
                self.threads = [it for it in self.threads if it.is_alive()] + [thread]
                thread.start()
        except Ended:
            pass
        for thread in self.threads:
            thread.join(ENDING_SECONDS)

    def answer(self, request: Dict[str, Any], body: bytes) -> None:
        """Answers one request."""
        try:
            self.write({"n": request.get("n"), **self.work.answer(request, body)})
        finally:
            self.places.release()


def keys_of(words: List[str]) -> Optional[NodeKeys]:
    """The settings that the words name; None where they are wrong."""
    if not words:
        return read_node_keys(CONFIG)
    if len(words) == 2 and words[0] == "--config":
        return read_node_keys(words[1])
    if len(words) == 2 and words[0] == "--settings":
        return told_node_keys(words[1])
    return None


def check(words: List[str]) -> int:
    """Tells what is wrong, and what may be."""
    path, users = (words[1], words[2:]) if words[:1] == ["--config"] and len(words) > 1 else (CONFIG, words)
    try:
        found = look(read_node_keys(path), users)
    except (ConfigFault, OSError) as fault:
        found = Found([str(fault)], [])
    for line in (*found.faults, *found.notes):
        print(f"nettlebeam-node: {path}: {line}", file=sys.stderr)
    print(f"{path}: {len(found.faults)} faults, {len(found.notes)} notes")
    return 2 if found.faults else 0


def main(words: List[str]) -> int:
    """The program."""
    if words[:1] == ["--check"] and not any(it.startswith("-") and it != "--config" for it in words[1:]):
        return check(words[1:])
    try:
        keys = keys_of(words)
    except ConfigFault as fault:
        print(f"nettlebeam-node: {fault}", file=sys.stderr)
        return 2
    if keys is None:
        print(USAGE, file=sys.stderr)
        return 2
    hold_version()
    os.umask(0o077)
    for number in (signal.SIGHUP, signal.SIGINT):
        signal.signal(number, lambda *_: None)  # what is started here gets its own again
    try:
        # what is started here must not write between the answers
        output = os.dup(1)
        os.dup2(2, 1)
        Server(keys, 0, output).serve()
    except OSError as fault:
        print(f"nettlebeam-node: {fault}", file=sys.stderr)
        return 3
    return 0
