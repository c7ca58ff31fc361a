"""What a client's request does: a line for the site, or something of the spool."""
from __future__ import annotations

import asyncio
import contextlib
import json
from typing import Any, Callable, Coroutine, Dict, Set

from ..common.files import remove
from ..common.identifiers import IDENTIFIER
from ..common.wire import Malformed, Reply, Request, split_body
from ..housekeeping.compacting import Compacting, Uncompacted
from ..peers.eligibility import Eligibility
from ..peers.unheard_changes import Unheard
from ..site.backup import NoBackup
from ..site.exchange import Exchange
from ..site.answers import Answer
from ..site.lines import Client, Denied, asker, check_words, line_of
from ..site.looks import now, told_of
from ..site.packets import BadPacket
from ..site.site import Lost, NotKept, Silent, Site, Stopped
from ..site.spool import Spool
from ..waits.group_submission import WAITING_FACTS, NotEntered
from ..waits.waits import Waits
from .destinations import Destinations, Unplaced
from .node_requests import OF_NODES, NodeRequests
from .signals import TO_RUNNING, Signals
from .user_limits import Exceeded, UserLimits

OF_SERVICE = ("site", "queues", "members", "details", "usage")


class Requests:
    """Answers requests. `changed` is called where an answer may tell of a change."""

    def __init__(
        self,
        site: Site,
        spool: Spool,
        exchange: Exchange,
        signals: Signals,
        compacting: Compacting,
        nodes: NodeRequests,
        waits: Waits,
        unheard: Unheard,
        user_limits: UserLimits,
        eligibility: Eligibility,
        destinations: Destinations,
        changed: Callable[[], None],
    ):
        self.site = site
        self.spool = spool
        self.exchange = exchange
        self.changed = changed
        self.signals = signals
        self.compacting = compacting
        self.nodes = nodes
        self.waits = waits
        self.unheard = unheard
        self.left: Set["asyncio.Future[Reply]"] = set()  # what goes on though its client was told that the site does not answer
        self.user_limits = user_limits
        self.eligibility = eligibility
        self.destinations = destinations

    async def answer(self, client: Client, request: Request) -> Reply:
        """The reply to a request of this client."""
        try:
            return await self.within_time(self.do(client, request))
        except (Denied, BadPacket, Malformed) as fault:
            return Reply(2, words=str(fault))
        except Lost as fault:
            return Reply(3, words=f"nothing changes this site now: {fault}")
        except (NotKept, NotEntered) as fault:
            return Reply(3, words=str(fault))
        except Silent:
            return Reply(3, words="the site does not answer; it may do later what was asked")
        except Stopped as fault:
            return Reply(3, words=f"the site stopped: {fault}")
        except NoBackup as fault:
            return Reply(3, words=f"the backup failed, so that no packet may leave: {fault}")
        except Uncompacted as fault:
            return Reply(3, words=f"the journal isn't compacted: {fault}")
        except (Exceeded, Unplaced) as fault:
            return Reply(1, words=str(fault))
        except OSError as fault:
            return Reply(3, words=f"the spool: {fault.strerror or fault}")

    async def within_time(self, work: Coroutine[Any, Any, Reply]) -> Reply:
        """The reply that something gives. Where the site stands still it goes on by itself, and its client is told so."""
        if self.site.waiting.silent.is_set():
            work.close()
            return Reply(3, words="the site does not answer; nothing was asked of it")
        doing = asyncio.ensure_future(work)
        silent: "asyncio.Future[Any]" = asyncio.ensure_future(self.site.waiting.silent.wait())
        try:
            await asyncio.wait([doing, silent], return_when=asyncio.FIRST_COMPLETED)
            if doing.done():
                return doing.result()
            self.left.add(doing)
            doing.add_done_callback(self.left_ended)
            raise Silent
        except asyncio.CancelledError:
            doing.cancel()
            raise
        finally:
            silent.cancel()

    def left_ended(self, doing: "asyncio.Future[Reply]") -> None:
        """What was asked is done, though its client was told that the site does not answer."""
        self.left.discard(doing)
        if not doing.cancelled():
            doing.exception()  # which nobody waits for
        self.changed()

    async def do(self, client: Client, request: Request) -> Reply:
        """Does what is asked, as far as the client has room for it."""
        check_words(request.words)
        if not self.site.known.utilities:
            raise Stopped(self.site.trouble)  # the program hasn't told yet what may be asked
        request.words = await self.waits.arrays.expanded(request.words)
        said = await self.destinations.placed(client, request)
        async with self.user_limits.hold(client, request):
            reply = await self.do_words(client, request)
        if said and not reply.status:
            reply.words = "\n".join(filter(None, (said, reply.words)))
        return reply

    async def do_words(self, client: Client, request: Request) -> Reply:
        """Does what the words ask."""
        verb = request.words[0]
        if (verb == "alter" or self.site.known.changes(request.words)) and not self.site.has_room():
            return Reply(3, words="the disk of the site is full")
        if verb in TO_RUNNING:
            return await self.signals.answer(client, request)
        if verb in OF_NODES:
            return await self.nodes.answer(client, request)
        if verb == "take":
            return await self.take(client, request)
        if verb == "script":
            return await self.script(client, request)
        if verb == "compact":
            return await self.compact(client, request)
        if verb == "qsub" and request.size is not None:
            return await self.submit(client, request)
        if verb in OF_SERVICE:
            return Reply(0, await self.told(client, request))
        if verb == "alter":
            return await self.waits.altering.answer(client, request)
        line = line_of(self.site.known, client, request.words, request.role)
        if verb == "ship":
            self.check_known(request.words[1])
            return (await self.exchange.packet(request.words[1])).reply()
        if verb == "why":
            return (await self.why(request.words[1], line)).reply()
        if verb == "grant":
            return self.changed_by(await self.eligibility.grant(*request.words[1:3]))
        if verb == "qstat":
            return (await self.site.look(line)).with_names(self.waits.arrays.called()).reply()
        if not self.site.known.changes(request.words):
            return (await self.site.look(line)).reply()
        answer = await self.unheard.with_words(request.words, await self.site.ask(line))
        self.signals.note(client, request.words, answer)
        if verb == "roster":
            with contextlib.suppress(Stopped):  # the answer is there, and the next child is asked for the roster anyhow
                await self.site.learn_roster()
        return self.changed_by(answer)

    async def told(self, client: Client, request: Request) -> bytes:
        """What the service answers by itself."""
        verb = request.words[0]
        if verb == "queues":
            return self.destinations.told()
        if verb == "members":
            return json.dumps(self.waits.arrays.called()).encode("ascii") + b"\n"
        if verb == "details":
            return await self.waits.details.answer(client, request.words, request.role)
        if verb == "usage":
            return await self.waits.usage.answer(client, request.words, request.role)
        return f"{self.waits.here}\n".encode("ascii")

    async def why(self, job: str, line: str) -> Answer:
        """The site's answer to why a job waits, with what the service knows of that."""
        answer, told = await asyncio.gather(self.site.look(line), told_of(self.site, [job]))
        known = next(iter(told.values()), None)
        return await self.unheard.with_hint(known, self.waits.with_reason(answer, known))

    def check_known(self, peer: str) -> None:
        """Denied where the roster hasn't this peer, which may have been told a longer one: it reads why in its log."""
        if self.site.roster and peer not in self.site.roster:
            raise Denied(f"{peer[:40]!r} is no site of the roster that is known here")

    def changed_by(self, answer: Answer) -> Reply:
        """The reply that hands an answer on which may tell of a change."""
        self.changed()
        return answer.reply()

    async def submit(self, client: Client, request: Request) -> Reply:
        """Submits a job with its script, which the disk has before the site is asked."""
        line = line_of(self.site.known, client, request.words, request.role)
        variables, script = split_body(request)
        facts: Dict[str, Any] = {**request.facts, "owner": asker(client, None), "ctime": str(now())}
        facts.pop("variables", None)
        if variables:
            facts["variables"] = variables
        if any(key in facts for key in WAITING_FACTS):
            answer, jobs = await self.waits.group_submission.submit(asker(client, request.role), request.words, facts, script)
        else:
            answer = await self.submit_one(line, facts, script)
            jobs = [*filter(None, [answer.identifier()])]
        self.waits.releasing.wake()
        return self.changed_by(await self.waits.with_mail(answer, jobs, facts))

    async def submit_one(self, line: str, facts: Dict[str, Any], script: bytes) -> Answer:
        """Submits one job that waits for nothing."""
        self.spool.submissions += 1
        try:
            draft = await asyncio.to_thread(self.spool.draft, facts, script)
            try:
                answer = await self.site.ask(line)
                job = answer.identifier()
                if job:
                    self.waits.groups.disown(job)
                    self.spool.name(draft, job)
            finally:
                remove(draft)  # where it got no name
        finally:
            self.spool.submissions -= 1
        await self.spool.names.done()
        return answer

    async def take(self, client: Client, request: Request) -> Reply:
        """Takes a packet that a peer has brought, or the site's own account, whose word is as good as the site's."""
        if not client.is_site:
            raise Denied("take is asked by the site's own account alone")
        if len(request.words) > 2:
            raise Denied("the words of take are wrong")
        peer = request.words[1] if len(request.words) == 2 else ""
        if peer:
            self.check_known(peer)
        return self.changed_by(await self.exchange.take_packet(request.body, peer))

    async def compact(self, client: Client, request: Request) -> Reply:
        """Has the journal compacted now, and tells what the program says."""
        if not client.is_site:
            raise Denied("compact is asked by the site's own account alone")
        if len(request.words) > 1:
            raise Denied("the words of compact are wrong")
        return Reply(0, f"{await self.compacting.compact()}\n".encode("ascii"))

    async def script(self, client: Client, request: Request) -> Reply:
        """The facts and the script of a job, for the peer that the job is granted to."""
        if not client.is_site:
            raise Denied("script is asked by the site's own account alone")
        if len(request.words) != 3 or not IDENTIFIER.match(request.words[1]):
            raise Denied("the words of script are wrong")
        _, job, peer = request.words
        told = (await told_of(self.site, [job])).get(job)
        if told is None or not self.eligibility.may_read(told, peer):
            return Reply(1, words=f"{job} isn't granted to {peer}, or has begun")
        return Reply(0, await self.exchange.script_text(job))
