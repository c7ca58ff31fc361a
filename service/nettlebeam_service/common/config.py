"""The configuration of a site's service: an INI file, every key with a default but the site's directory."""
from __future__ import annotations

import configparser
import math
import os
import shlex
from dataclasses import dataclass, field, fields, replace
from typing import Any, Dict, List, Mapping, Tuple

from .journal import Nameless, owner_of
from .queue_keys import NoQueue, Queue, check_sites, read_queues

Words = Tuple[str, ...]


class ConfigFault(Exception):
    """The configuration can't be used. The text says which key, and why."""


@dataclass(frozen=True)
class SiteKeys:
    """[site]: the site, and who may ask it what."""

    directory: str = ""
    program: str = "nettlebeam"
    spool: str = "/var/spool/nettlebeam/{site}"
    socket: str = "/run/nettlebeam/{site}.sock"
    operators: str = ""
    admins: str = ""
    backup: Words = ()
    backup_seconds: float = 120.0
    free_bytes: int = 16 * 1024 * 1024


@dataclass(frozen=True)
class ClientKeys:
    """[clients]: what the users at the socket may take of the service."""

    seconds: float = 60.0
    most: int = 1000
    most_of_user: int = 250
    script_bytes: int = 16 * 1024 * 1024
    user_bytes: int = 64 * 1024 * 1024
    jobs_of_user: int = 1000
    spool_of_user: int = 1024**3
    priority: int = 0
    sites: str = "here"


@dataclass(frozen=True)
class JobKeys:
    """[jobs]: whether and how jobs run here."""

    run: str = "yes"
    start: Words = ()
    stop: Words = ()
    least_uid: int = 1000
    hosts: Words = ()
    link: Words = ()
    count: str = "yes"
    health: float = 300.0
    retry_most: float = 300.0
    cgroup: str = ""
    shell: str = ""
    login: str = "yes"
    elsewhere: str = ""
    mail: Words = ()
    every: float = 10.0
    handback: float = 600.0
    grace: float = 10.0


@dataclass(frozen=True)
class PageKeys:
    """[page]: the page for browsers on this machine; the port 0 means none."""

    port: int = 0
    jobs: int = 100


@dataclass(frozen=True)
class HouseKeys:
    """[house]: what is done once in a while; `every = 0` means nothing."""

    every: float = 86_400.0
    accounting: str = "{spool}/accounting"
    keep: float = 86_400.0
    retire: float = 604_800.0
    compact: float = 86_400.0
    compact_bytes: int = 1024 * 1024
    history: str = ""


@dataclass(frozen=True)
class PeerKeys:
    """[peer NAME]: how another site is reached, by a command or by a shared folder, whose files a key seals."""

    command: Words = ()
    folder: str = ""
    key: str = ""
    soon: float = 2.0
    every: float = 300.0
    seconds: float = 60.0
    retry: float = 5.0
    retry_most: float = 300.0


@dataclass(frozen=True)
class Config:
    """A whole configuration, with the name of the site whose journal is in its directory."""

    name: str
    site: SiteKeys
    clients: ClientKeys = ClientKeys()
    jobs: JobKeys = JobKeys()
    page: PageKeys = PageKeys()
    house: HouseKeys = HouseKeys()
    peers: Mapping[str, PeerKeys] = field(default_factory=dict)
    queues: Tuple[Queue, ...] = ()


SECTIONS = {"site": SiteKeys, "clients": ClientKeys, "jobs": JobKeys, "page": PageKeys, "house": HouseKeys}
QUEUES = "queues"
RUNS = ("yes", "drain", "no")
COUNTS = ("yes", "no")
LOGINS = ("yes", "no")
GREATEST_PORT = 65_535


def read_value(default: Any, text: str) -> Any:
    """The value of a key, of the type of its default. ValueError where the text is none."""
    if isinstance(default, tuple):
        return tuple(shlex.split(text))
    if isinstance(default, (int, float)):
        number = type(default)(text)
        if not 0 <= number < math.inf:
            raise ValueError("below 0, or no number")
        return number
    return text


def read_section(kind: Any, title: str, items: Mapping[str, str]) -> Any:
    """The keys of a section."""
    defaults = {it.name: it.default for it in fields(kind)}
    values = {}
    for key, text in items.items():
        if key not in defaults:
            raise ConfigFault(f"[{title}] {key}: there is no such key; there are {', '.join(defaults)}")
        try:
            values[key] = read_value(defaults[key], text)
        except ValueError as fault:
            raise ConfigFault(f"[{title}] {key} = {text}: {fault}") from None
    return kind(**values)


def name_in(directory: str) -> str:
    """The name of the site in a directory."""
    path = os.path.join(directory, "journal")
    try:
        return owner_of(path)
    except OSError as fault:
        raise ConfigFault(f"[site] directory = {directory}: {path}: {fault.strerror}") from None
    except Nameless as fault:
        raise ConfigFault(f"[site] directory = {directory}: {path}: {fault}") from None


def read_peers(parser: configparser.ConfigParser, name: str) -> Dict[str, PeerKeys]:
    """The sections of the other sites, of which the site tells whether its roster has them."""
    peers = {}
    for title in parser.sections():
        kind, _, peer = title.partition(" ")
        if kind != "peer":
            continue
        peer = peer.strip()
        if not peer or peer == name:
            raise ConfigFault(f"[{title}]: {peer or 'this'} is no other site")
        keys = read_section(PeerKeys, title, dict(parser[title]))
        if bool(keys.command) == bool(keys.folder):
            raise ConfigFault(f"[{title}]: give either command or folder")
        if bool(keys.folder) != bool(keys.key):
            raise ConfigFault(f"[{title}]: a folder needs a key, with which its files are sealed, and a command has none")
        peers[peer] = keys
    return peers


def read_config(path: str) -> Config:
    """Reads a configuration file."""
    parser = configparser.ConfigParser(interpolation=None, default_section="", inline_comment_prefixes=(" ;", " #"))
    parser.optionxform = str  # type: ignore[assignment]
    try:
        with open(path, encoding="utf-8") as file:
            parser.read_file(file)
    except OSError as fault:
        raise ConfigFault(f"{path}: {fault.strerror}") from None
    except (configparser.Error, UnicodeDecodeError) as fault:
        raise ConfigFault(" ".join(str(fault).split())) from None
    unknown = [title for title in parser.sections() if title not in (*SECTIONS, QUEUES) and title.split(" ")[0] != "peer"]
    if unknown:
        raise ConfigFault(f"[{unknown[0]}]: there is no such section; there are {', '.join(SECTIONS)}, {QUEUES} and peer NAME")
    given = {title: dict(parser[title]) if title in parser else {} for title in SECTIONS}
    parts = {title: read_section(kind, title, given[title]) for title, kind in SECTIONS.items()}
    keys: SiteKeys = parts["site"]
    if not keys.directory:
        raise ConfigFault("[site] directory: name the directory of the site")
    name = name_in(keys.directory)
    named = {it: getattr(keys, it).replace("{site}", name) for it in ("spool", "socket")}
    parts["site"] = replace(keys, **named)
    parts["house"] = replace(parts["house"], accounting=parts["house"].accounting.replace("{spool}", parts["site"].spool))
    check_jobs(parts["jobs"])
    if parts["page"].port > GREATEST_PORT:
        raise ConfigFault(f"[page] port = {parts['page'].port}: above {GREATEST_PORT}")
    try:
        check_sites(parts["clients"].sites)
        queues = read_queues(dict(parser[QUEUES]) if QUEUES in parser else {})
    except NoQueue as fault:
        raise ConfigFault(str(fault) if QUEUES in str(fault) else f"[clients] sites: {fault}") from None
    return Config(name, peers=read_peers(parser, name), queues=queues, **parts)


def check_jobs(keys: JobKeys) -> None:
    """`run` and `count` are among their words, no host is there twice, and a link leads to hosts."""
    if keys.run not in RUNS:
        raise ConfigFault(f"[jobs] run = {keys.run}: none of {', '.join(RUNS)}")
    twice: List[str] = [host for host in keys.hosts if keys.hosts.count(host) > 1]
    if twice:
        raise ConfigFault(f"[jobs] hosts: {twice[0]} is there twice")
    if keys.count not in COUNTS:
        raise ConfigFault(f"[jobs] count = {keys.count}: none of {', '.join(COUNTS)}")
    if keys.login not in LOGINS:
        raise ConfigFault(f"[jobs] login = {keys.login}: none of {', '.join(LOGINS)}")
    if keys.link and not keys.hosts:
        raise ConfigFault("[jobs] link: name the hosts that it leads to")
    if keys.link and not any("{host}" in word for word in keys.link):
        raise ConfigFault("[jobs] link: it has no {host}, so that all nodes would be one machine")
