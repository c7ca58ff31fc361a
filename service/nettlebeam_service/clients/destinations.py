"""Where a job may run: at the own site, unless its words, its queue or the configuration name others. A job that none of these sites
could ever hold is refused."""
from __future__ import annotations

import asyncio
import json
import pwd
from dataclasses import asdict
from typing import Dict, List, Optional, Sequence, Tuple

from ..common.config import Config
from ..common.queue_keys import Queue
from ..common.wire import Request
from ..site.lines import Client
from ..site.looks import full_name
from ..site.site import Site
from ..site.spool import Spool
from ..words.options import as_words, parse
from .users import is_member

BATCH = "batch"  # the queue of a site that names none
OF_SITE = "AhlNp"  # the options of a line that the site takes


class Unplaced(Exception):
    """A job can't be had as it is asked for. The text says why."""


def number(pairs: Dict[str, str], name: str, usual: int) -> int:
    """A number of a list of resources; if it is none the site says so."""
    text = pairs.get(name, "")
    return int(text) if text.isascii() and text.isdigit() and len(text) <= 9 else usual


class Destinations:
    """Puts the sites of jobs into the words that ask for them."""

    def __init__(self, config: Config, site: Site, spool: Spool):
        self.config = config
        self.site = site
        self.spool = spool

    async def placed(self, client: Client, request: Request) -> str:
        """Puts into a submission or an alteration where its jobs may run; what is said of that."""
        verb = request.words[0]
        if verb not in ("qsub", "qalter"):
            return ""
        if not self.site.roster:
            await self.site.learn_roster()  # the site has just been started
        options, operands = parse(verb, request.words[1:])
        lists = [argument for letter, argument in options if letter == "l"]
        are_whole = all(letter in OF_SITE and (argument is not None or letter == "h") for letter, argument in options)
        if not are_whole or (verb == "qalter" and not lists):
            return ""  # the site says what is wrong with the words
        pairs = dict(pair.partition("=")[::2] for pair in (lists[-1] or "").split(",")) if lists else {}
        asked = dict(pairs)
        if verb == "qsub":
            said = await self.submission(client, request, pairs)
        else:
            said = await asyncio.to_thread(self.alteration, operands, pairs)
        if pairs != asked:
            text = ",".join(f"{name}={value}" for name, value in pairs.items())
            kept = as_words([option for option in options if option[0] != "l"])
            request.words = [verb, *kept, "-l", text, "--", *operands]
        return said

    async def submission(self, client: Client, request: Request, pairs: Dict[str, str]) -> str:
        """Takes the queue of a submission for its sites and its limit."""
        queue, where = self.queue_of(request.facts.pop("queue", ""))
        if where:
            pairs["sites"] = where
        if queue is not None:
            await asyncio.to_thread(self.check_user, client, request, queue)
            pairs.setdefault("walltime", str(queue.usual_seconds()))
            self.check_limits(queue, pairs)
            request.facts["queue"] = queue.name
        sites = self.sites_in(pairs.get("sites", queue.sites if queue else self.config.clients.sites))
        self.check_sites(queue, sites)
        self.check_room(sites, number(pairs, "nodes", 1))
        pairs["sites"] = "+".join(sites)
        return "" if sites == [self.config.name] else f"it may run at {', '.join(sites)}"

    def alteration(self, operands: Sequence[str], pairs: Dict[str, str]) -> str:
        """Looks at the queues of the jobs that are altered, of which there may be many."""
        sites = self.sites_in(pairs["sites"]) if "sites" in pairs else []
        queues = {queue.name: queue for queue in self.config.queues}
        for word in operands if queues else ():
            try:
                facts = self.spool.facts(full_name(word, self.config.name)) or {}
            except ValueError:
                continue  # the site says what is wrong with it
            queue = queues.get(str(facts.get("queue", "")))
            if queue is not None:
                self.check_limits(queue, pairs)
                self.check_sites(queue, sites)
        if sites:
            pairs["sites"] = "+".join(sites)
        return ""

    def told(self) -> bytes:
        """The queues, a line of JSON for each, the first of them that of jobs which name none."""
        queues = self.config.queues or (Queue(BATCH, self.config.clients.sites),)
        lines = [json.dumps({**asdict(queue), "sites": self.sites_in(queue.sites)}) for queue in queues]
        return "".join(f"{line}\n" for line in lines).encode("ascii")

    def sites_in(self, text: str) -> List[str]:
        """The sites that a text names."""
        found: List[str] = []
        for word in text.split("+"):
            found += self.site.roster if word == "any" else [self.config.name if word == "here" else word]
        return list(dict.fromkeys(found))

    def queue_of(self, text: str) -> Tuple[Optional[Queue], str]:
        """The queue that is meant, if there are some by name, and the site that is named with it."""
        name, at, where = text.partition("@")
        queues = self.config.queues
        if queues:
            found = next((queue for queue in queues if queue.name == name), None) if name else queues[0]
            if found is None:
                raise Unplaced(f"{text}: there is no queue of this name; there are {', '.join(queue.name for queue in queues)}")
            return found, where
        if at and name not in ("", BATCH):
            raise Unplaced(f"{text}: the only queue is {BATCH}")
        chosen = where or ("" if name == BATCH else name)
        if chosen and chosen not in self.site.roster:
            raise Unplaced(f"{text}: there is no queue and no site of this name; there are {', '.join([BATCH, *self.site.roster])}")
        return None, chosen

    def check_user(self, client: Client, request: Request, queue: Queue) -> None:
        """Unplaced if the user may not use a queue. Who asks in a role may, and so may the site's own account."""
        user = client.user or ""
        is_trusted = client.is_site or (request.role is not None and request.role in client.roles)
        if not (queue.users or queue.groups) or user in queue.users or is_trusted:
            return
        try:
            entry = pwd.getpwnam(user)
        except KeyError:
            entry = None
        if entry is None or not any(is_member(entry, group) for group in queue.groups):
            raise Unplaced(f"the queue {queue.name} is for {', '.join([*queue.users, *(f'the group {it}' for it in queue.groups)])}")

    def check_limits(self, queue: Queue, pairs: Dict[str, str]) -> None:
        """Unplaced if more is asked for than a queue permits."""
        nodes, seconds = number(pairs, "nodes", 1), number(pairs, "walltime", 1)
        if queue.most_nodes and nodes > queue.most_nodes:
            raise Unplaced(f"the queue {queue.name} has jobs of at most {queue.most_nodes} nodes, and not of {nodes}")
        if queue.most_seconds and seconds > queue.most_seconds:
            raise Unplaced(f"the queue {queue.name} has jobs of at most {queue.most_seconds} seconds, and not of {seconds}")

    def check_sites(self, queue: Optional[Queue], sites: Sequence[str]) -> None:
        """Unplaced if a queue hasn't one of these sites."""
        others = [name for name in sites if name not in self.sites_in(queue.sites)] if queue else []
        if queue and others:
            raise Unplaced(f"the queue {queue.name} is at {', '.join(self.sites_in(queue.sites))}, and not at {others[0]}")

    def check_room(self, sites: Sequence[str], nodes: int) -> None:
        """Unplaced if none of these sites has nodes enough, by the roster that is known here."""
        known = {name: self.site.roster[name] for name in sites if name in self.site.roster}
        if known and len(known) == len(sites) and nodes > max(known.values()):
            told = ", ".join(f"{name} {count}" for name, count in known.items())
            raise Unplaced(f"{nodes} nodes are more than any site has that the job may run at: {told}")
