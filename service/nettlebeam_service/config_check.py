"""What `nettlebeamd --check` finds beyond the form of a configuration: whether what it names is there for this account."""
from __future__ import annotations

import grp
import os
import re
import shutil
import subprocess
from typing import Dict, List, Sequence, Set

from .common.ask import Unasked, ask
from .common.config import Config
from .peers.seal import BadSeal, read_key
from .site import pairing
from .site.answers import Answer

ROSTER_SECONDS = 10

MARK = re.compile(r"\{[^{}]*\}")
MARKS: Dict[str, Set[str]] = {"start": {"{user}", "{id}"}, "stop": {"{user}", "{id}", "{pid}", "{signal}"}, "link": {"{host}"}}


def command_faults(key: str, words: Sequence[str]) -> List[str]:
    """What is wrong with a command: its program isn't there."""
    if not words or "{" in words[0] or shutil.which(words[0]):
        return []
    return [f"{key}: there is no program {words[0]}"]


def mark_faults(key: str, words: Sequence[str]) -> List[str]:
    """Marks that nothing is put in for."""
    known = MARKS[key]
    found = {mark for word in words for mark in MARK.findall(word)} - known
    return [f"[jobs] {key}: nothing is put in for {mark}; there are {', '.join(sorted(known))}" for mark in sorted(found)]


def group_faults(config: Config) -> List[str]:
    """Groups that aren't there."""
    found = []
    for key, name in (("operators", config.site.operators), ("admins", config.site.admins)):
        try:
            if name:
                grp.getgrnam(name)
        except KeyError:
            found.append(f"[site] {key} = {name}: there is no such group")
    return found


def key_faults(config: Config) -> List[str]:
    """Keys of shared folders that can't be read."""
    found = []
    for name, peer in config.peers.items():
        try:
            if peer.key:
                read_key(peer.key)
        except OSError as fault:
            found.append(f"[peer {name}] key = {peer.key}: {fault.strerror}")
        except BadSeal as fault:
            found.append(f"[peer {name}] {fault}")
    return found


def roster_of(config: Config) -> Dict[str, int]:
    """The roster that the site knows: by the service, where one has the site now, and else by the program. None where neither
    tells it."""
    try:
        told = ask(config.site.socket, ["roster"])
        return Answer(told.answer, told.words, told.status).roster()
    except Unasked:
        pass
    words = [config.site.program, "at", config.site.directory, "roster"]
    try:
        done = subprocess.run(words, stdin=subprocess.DEVNULL, capture_output=True, timeout=ROSTER_SECONDS, check=False)
    except (OSError, subprocess.TimeoutExpired):
        return {}
    return Answer(done.stdout, "", done.returncode).roster()


def peer_faults(config: Config, roster: Dict[str, int]) -> List[str]:
    """Sections of sites that the roster hasn't."""
    unknown = [name for name in config.peers if roster and name not in roster]
    return [f"[peer {name}]: {name} is no other site of the roster: {' '.join(roster)}" for name in unknown]


def pairing_faults(config: Config) -> List[str]:
    """A spool that isn't the site's."""
    try:
        pairing.check(config.site.directory, config.site.spool)
    except pairing.Foreign as fault:
        return [f"[site] spool = {config.site.spool}: {fault}"]
    return []


def destination_faults(config: Config, roster: Dict[str, int]) -> List[str]:
    """Sites of [clients] and [queues] that the roster hasn't."""
    named = [("[clients] sites", config.clients.sites), *((f"[queues] {queue.name}", queue.sites) for queue in config.queues)]
    pairs = [(key, name) for key, text in named for name in text.split("+") if name not in ("here", "any")]
    return [f"{key}: {name} is no site of the roster: {' '.join(roster)}" for key, name in pairs if roster and name not in roster]


def faults(config: Config, roster: Dict[str, int]) -> List[str]:
    """All that is wrong."""
    site, jobs = config.site, config.jobs
    found = command_faults("[site] program", [site.program]) + command_faults("[site] backup", site.backup)
    for key, words in (("start", jobs.start), ("stop", jobs.stop), ("link", jobs.link)):
        found += command_faults(f"[jobs] {key}", words) + mark_faults(key, words)
    found += command_faults("[jobs] mail", jobs.mail)
    if not os.access(site.directory, os.R_OK | os.W_OK | os.X_OK):
        found.append(f"[site] directory = {site.directory}: this account may not write there")
    if os.path.exists(site.spool) and not os.access(site.spool, os.R_OK | os.W_OK | os.X_OK):
        found.append(f"[site] spool = {site.spool}: this account may not write there")
    return found + pairing_faults(config) + group_faults(config) + key_faults(config) + peer_faults(config, roster) + destination_faults(config, roster)


def notes(config: Config) -> List[str]:
    """What has to be made before the service starts."""
    place = config.site.spool
    while not os.path.exists(place):
        place = os.path.dirname(place) or "."
    if place == config.site.spool or os.access(place, os.W_OK | os.X_OK):
        return []
    return [f"[site] spool = {config.site.spool}: it isn't there yet, and this account may not make it in {place}"]
