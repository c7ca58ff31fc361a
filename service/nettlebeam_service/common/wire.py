"""Requests and replies at the socket: a line of JSON, and behind it as many bytes as the line says.

A request is `{"words": [..], "role": .., "facts": {..}, "size": N}` and N bytes: the script of a qsub, or the packet of a
take. A reply is `{"status": S, "words": "..", "size": N}` and N bytes, which are what the site answered. So a script and a
packet are never read as JSON, and the line can be short.
"""
from __future__ import annotations

import json
import os
from dataclasses import dataclass, field
from typing import Any, Dict, List, Optional, Tuple

LONGEST_HEAD = 256 * 1024
LONGEST_FACT = 4096
LONGEST_LISTS = 65_536
MOST_VARIABLES = 1024 * 1024
MOST_NAMES = 10_000  # of variables, each of which costs more than its bytes
LONGEST_VARIABLE = 128 * 1024 - 1  # more isn't taken by the kernel of one word
# what a client tells of where it submits
OF_CLIENTS = ("folder", "home", "host", "lang", "path", "shell", "tz", "umask")
# what a client tells of what it submits, as the options of PBS have it
OF_OPTIONS = (
    *("account", "arguments", "array", "at", "chunks", "depend", "err", "interpreter", "join", "keep"),
    *("mail", "mail_to", "name", "out", "queue", "resources", "script_words", "slurm", "variables"),
)
# what a client tells of itself with a qsub; the service passes it to the job, and rests nothing on it
FACTS = (*OF_CLIENTS, *OF_OPTIONS)
# those that the node of a job is told
OF_RUNS = (
    *(*OF_CLIENTS, "array", "array_id", "chunks", "err", "index", "interpreter", "join", "keep", "out"),
    *("queue", "script_words", "slurm", "variables"),
)
# those that may be longer than the others
LISTS = ("depend", "resources", "arguments")
# what the service of a job's origin adds, for the service where it runs
ADDED = ("array_id", "ctime", "index", "owner")


class Malformed(Exception):
    """The bytes are no request."""


@dataclass
class Request:
    """What a client asks."""

    words: List[str]
    role: Optional[str] = None
    facts: Dict[str, str] = field(default_factory=dict)
    size: Optional[int] = None
    body: bytes = b""


@dataclass
class Reply:
    """What a client is told: 0 done, 1 not done as asked, 2 may not be asked, 3 a fault of the service or the site."""

    status: int
    answer: bytes | bytearray = b""
    words: str = ""

    def head(self) -> bytes:
        """The line in front of the answer's bytes."""
        return json.dumps({"status": self.status, "words": self.words, "size": len(self.answer)}).encode() + b"\n"


def is_fact(value: Any, key: str = "") -> bool:
    """Whether a value is a text that a file name or an environment may have. All facts fit into one word of a command."""
    if not isinstance(value, str) or len(value) > (LONGEST_LISTS if key in LISTS else LONGEST_FACT) or "\0" in value:
        return False
    try:
        return bool(os.fsencode(value)) or not value
    except UnicodeEncodeError:
        return False


def read_head(line: bytes) -> Request:
    """A request, without its bytes."""
    try:
        value = json.loads(line)
    except (ValueError, RecursionError):
        raise Malformed("the request is no line of JSON") from None
    if not isinstance(value, dict) or not value.keys() <= {"words", "role", "facts", "size"}:
        raise Malformed("a request is an object with words, role, facts and size")
    words, role, facts, size = (value.get(key) for key in ("words", "role", "facts", "size"))
    if not isinstance(words, list) or not all(isinstance(word, str) for word in words):
        raise Malformed("words is no list of texts")
    if role is not None and not isinstance(role, str):
        raise Malformed("role is no text")
    facts = {} if facts is None else facts
    if not isinstance(facts, dict) or not facts.keys() <= set(FACTS) or not all(is_fact(it, key) for key, it in facts.items()):
        raise Malformed(f"facts are texts: {', '.join(FACTS)}")
    if size is not None and (type(size) is not int or size < 0):
        raise Malformed("size is no number of bytes")
    return Request(words, role, facts, size)


def split_body(request: Request) -> Tuple[Dict[str, str], bytes]:
    """The variables in front of a script, where the facts say how many bytes they have, and the script. In the body each is
    `NAME=VALUE` with a NUL behind it, so that they are never read as JSON."""
    text = request.facts.get("variables", "0")
    size = int(text) if text.isascii() and text.isdigit() and len(text) < 9 else -1
    if not 0 <= size <= min(MOST_VARIABLES, len(request.body)):
        raise Malformed("the variables have no such size")
    if request.body.count(b"\0", 0, size) > MOST_NAMES:
        raise Malformed(f"there are more than {MOST_NAMES} variables")
    variables: Dict[str, str] = {}
    for pair in request.body[:size].split(b"\0")[:-1] if size else []:
        name, mark, value = pair.partition(b"=")
        if not name or not mark or len(pair) >= LONGEST_VARIABLE:
            raise Malformed("the variables are none")
        variables[os.fsdecode(name)] = os.fsdecode(value)
    return variables, request.body[size:]


def are_variables(value: Any) -> bool:
    """Whether a value that another site told is a job's variables."""
    if not isinstance(value, dict) or len(value) > MOST_NAMES:
        return False
    if sum(len(str(key)) + len(str(it)) + 2 for key, it in value.items()) > MOST_VARIABLES:
        return False
    texts = all(isinstance(it, str) and "\0" not in it and len(it) < LONGEST_VARIABLE for pair in value.items() for it in pair)
    return texts and all(name and "=" not in name for name in value)
