"""Which words may be asked by whom, and the line of the site that they make.

A line of a site says by its first words who asks, and in which role. So nothing of a request may become such a word: the
user is put in front by the service, and a look or a line of the scheduler is passed on only in exactly its own form, since
`jobs qsub` would else submit a job of a user called `jobs`. Which words there are the program tells itself.
"""
from __future__ import annotations

import re
from typing import AbstractSet, Mapping, NamedTuple, Optional, Pattern, Sequence, Tuple

ROLES = ("operator", "admin")
READING = ("qstat", "plan", "ship")  # what changes nothing of a utility's lines and of a site's own

USER = re.compile(r"[A-Za-z][A-Za-z0-9_.-]{0,14}\Z")
PRINTABLE = re.compile(r"[!-~]+\Z")
JOB = r"[0-9]{1,10}(?:\.[A-Za-z][A-Za-z0-9-]{0,14})?"
NUMBER = r"[0-9]{1,20}"
NAME = r"[A-Za-z][A-Za-z0-9-]{0,14}"
OF_BOARD = ("plan", "plan-json", "why", "chart", "machine", "machine-json", "usage")  # what goes through all jobs
KINDS = ("utility", "user", "look", "site")  # as the program calls them
FEW = 100  # jobs that a line may name without being costly


def forms(**texts: str) -> Mapping[str, Pattern[str]]:
    """Patterns of whole lines, by their first words."""
    return {word: re.compile(f"{word}{text}\\Z") for word, text in ((it.replace("_", "-"), text) for it, text in texts.items())}


FOR_ALL = forms(
    why=f" {JOB} {NUMBER}",
    machine=f" {NUMBER}",
    machine_json=f" {NUMBER}",
    reservations="",
    reservations_json="",
    jobs=f"(?: {JOB})*",
    roster="",
    seen="",
    seen_json="",
    chart=f" {NUMBER}",
    plan=f" {NUMBER}(?: but(?: {JOB})+)?",
    plan_json=f" {NUMBER}(?: but(?: {JOB})+)?",
)
FOR_THE_SITE = forms(
    grant=f" {JOB} {NAME}",
    begin=f" {JOB} {NUMBER}",
    finish=f" {JOB} {NUMBER} [0-9]{{1,3}}",
    handback=f" {JOB}",
    decline=f" {JOB}",
    retire=f" {NUMBER} {NUMBER}",
    ship=f" {NAME}",
    roster=f"(?: {NAME}:{NUMBER}){{1,16}}",
)


class Denied(Exception):
    """The words may not be asked, or not by this client. The text tells why."""


class Client(NamedTuple):
    """Who is at the other end, as the kernel tells it, and the roles that the groups permit."""

    uid: int
    user: Optional[str]
    roles: Tuple[str, ...] = ()
    is_site: bool = False
    trouble: str = ""  # why nothing may be asked in this user's name


class Known:
    """The words that lines of the program may begin with, as it tells them: the utilities, what operators ask behind their names,
    the looks, and a site's own lines, which are read as such whoever asks."""

    def __init__(self) -> None:
        self.utilities: AbstractSet[str] = frozenset()
        self.of_operators: AbstractSet[str] = frozenset()
        self.looks: AbstractSet[str] = frozenset()
        self.of_sites: AbstractSet[str] = frozenset()

    def learn(self, words: Mapping[str, AbstractSet[str]]) -> None:
        """Takes the words by their kinds."""
        self.utilities, self.of_operators, self.looks, self.of_sites = (words[kind] for kind in KINDS)

    def changes(self, words: Sequence[str]) -> bool:
        """Whether the answer to words of a client may tell of a change of the queue or of the machine."""
        changing = (self.utilities | self.of_operators | self.of_sites).difference(READING)
        return words[0] in changing and words != ["roster"]


def check_words(words: Sequence[str]) -> None:
    """Each word must be one that can stand in a line by itself."""
    if not words:
        raise Denied("no word is asked")
    for word in words:
        if not PRINTABLE.match(word):
            raise Denied(f"{word[:40]!r} is empty, or has a blank or a byte that isn't printable ASCII")


def name_of(client: Client) -> str:
    """The client's name in lines."""
    if client.user is None:
        raise Denied(f"the user number {client.uid} has no login name")
    if not USER.match(client.user):
        raise Denied(f"the login name {client.user} can't be a user's name: 1 to 15 letters, digits, _ - and ., a letter first")
    if client.trouble:
        raise Denied(client.trouble)
    return client.user


def asker(client: Client, role: Optional[str]) -> str:
    """The first word of a user's line."""
    user = name_of(client)
    if role is None:
        return user
    if role not in ROLES:
        raise Denied(f"{role[:40]!r} is neither operator nor admin")
    if role not in client.roles:
        raise Denied(f"{user} may not ask as {role}")
    return f"{user}/{role}"


def line_of(known: Known, client: Client, words: Sequence[str], role: Optional[str]) -> str:
    """The line that these words of this client make. Denied where they may not be asked."""
    check_words(words)
    verb, line = words[0], " ".join(words)
    if verb in known.utilities:
        return f"{asker(client, role)} {line}"
    if verb in known.of_operators:
        if role is None:
            raise Denied(f"{verb} is asked as operator or admin")
        return f"{asker(client, role)} {line}"
    look = FOR_ALL.get(verb) if verb in known.looks else None
    form = FOR_THE_SITE.get(verb) if verb in known.of_sites else None
    if look and look.match(line):
        return line
    if form and not client.is_site:
        raise Denied(f"{verb} is asked by the site's own account alone")
    if form and form.match(line):
        return line
    raise Denied(f"the words of {verb} are wrong" if look or form else f"{verb[:40]!r} is nothing that can be asked here")


def is_costly(words: Sequence[str]) -> bool:
    """Whether a line goes through all jobs of the board, or through many: it costs by what it names."""
    if words[:1] and words[0] in OF_BOARD:
        return True
    # brackets may mean all members of an array
    named = sum(FEW + 1 if "[" in word else 1 for word in words[1:] if word[:1].isdigit())
    return named > FEW if named else words[:1] in (["jobs"], ["qstat"], ["details"])

