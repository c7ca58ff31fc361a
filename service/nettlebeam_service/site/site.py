"""The site itself: the program's process `serve`, and those that wait for its answers."""
from __future__ import annotations

import asyncio
import contextlib
import os
import time
from typing import AsyncIterator, Callable, Dict, Optional, Sequence

from ..common.commands import call
from ..common.processes import processor_seconds
from .answers import NOT_KEPT, Answer, FrameReader
from .lines import Known
from .lost_state import LostState
from .unanswered import IS_FOR_SOMEBODY, Unanswered

SHORTEST_PAUSE, LONGEST_PAUSE = 0.1, 60.0  # before a child that has ended is started again, each time twice as long
CHUNK = 1 << 20
END_SECONDS = 120
WORDS_SECONDS = 20.0
# in frames; and without the second the child would compact its journal by itself, at moments that no backup knows of
OPTIONS = ("--frames", "--keep-history")


class Stopped(Exception):
    """The site gives no answer. What was asked may be kept or not."""


class Silent(Stopped):
    """The site's program stands still. It may do later what was asked."""


class NotKept(Stopped):
    """The site's disk has no room for what the line would change. Nothing of it is kept, so it may be asked again."""


class Lost(Stopped):
    """The site isn't asked what would change it, since it has lost what others know of it."""


class Interlude:
    """A time in which no child has the site's directory."""

    def __init__(self) -> None:
        self.begun = asyncio.Event()
        self.over = asyncio.Event()


def settle(asked: "asyncio.Future[Answer]", answer: Answer) -> None:
    """Hands an answer to the one who asked: as a fault where the line isn't kept."""
    if answer.status == NOT_KEPT:
        asked.set_exception(NotKept(answer.beside() or "nothing of the line is kept"))
    else:
        asked.set_result(answer)


class Site:
    """Keeps one `serve` as a child, writes lines to it as they come, and hands each answer to the one who asked."""

    def __init__(self, program: str, folder: str, free_bytes: int, lost_state: LostState, log: Callable[[str], None]):
        self.program = program
        self.folder = folder
        self.known = Known()
        self.roster: Dict[str, int] = {}  # the nodes of all sites, as this site knows them; none before it has answered
        self.free_bytes = free_bytes
        self.lost_state = lost_state
        self.log = log
        self.waiting = Unanswered(lambda: Silent("it does not answer"), log)
        self.process: Optional[asyncio.subprocess.Process] = None
        self.trouble = "it hasn't started yet"
        self.ending = False
        self.ready = asyncio.Event()
        self.interlude: Optional[Interlude] = None
        self.open = asyncio.Event()  # whether lines are written as they come
        self.open.set()
        self.long_looks = asyncio.Semaphore(1)  # for lines of which one has to follow another

    async def look(self, line: str) -> Answer:
        """The answer to a line that changes nothing. Stopped where none comes."""
        return await self.ask_parts([line.encode("ascii")], False)

    async def ask(self, line: str) -> Answer:
        """The answer to a line that may change the site, or what others know of it."""
        return await self.ask_parts([line.encode("ascii")], True)

    async def ask_parts(self, parts: Sequence[bytes | memoryview], is_change: bool) -> Answer:
        """The answer to a line of these parts, which may be long: they are not put together here."""
        await self.open.wait()
        if self.lost_state.loss and is_change:
            raise Lost(self.lost_state.loss)
        if self.process is None or self.process.stdin is None or self.ending:
            raise Stopped(self.trouble)
        if IS_FOR_SOMEBODY.get() and self.waiting.silent.is_set():
            raise self.waiting.fault()
        answer: asyncio.Future[Answer] = self.waiting.add()
        # where the child has ended, this writes nothing, and the end is told to all that wait
        for part in (*parts, b"\n"):
            self.process.stdin.write(part)
        return await answer

    def processor_seconds(self) -> float:
        """How long the child has had a processor."""
        return processor_seconds(self.process.pid) if self.process else 0.0

    def has_room(self) -> bool:
        """Whether the disk has room for what changes the site. A write that fails would end the child, for all who ask."""
        state = os.statvfs(self.folder)
        return state.f_bavail * state.f_frsize >= self.free_bytes

    async def run(self) -> None:
        """Starts the child, and starts it again whenever it ends, until `stop`."""
        pause = SHORTEST_PAUSE
        watching = asyncio.ensure_future(self.waiting.watch())
        while not self.ending:
            began = time.monotonic()
            try:
                await self.run_once()
            except OSError as fault:
                self.trouble = f"{self.program}: {fault.strerror}"
            if self.interlude and not self.interlude.begun.is_set():
                self.ready.clear()
                self.interlude.begun.set()
                await self.interlude.over.wait()
                pause = SHORTEST_PAUSE
                continue
            self.open.set()
            if self.ending:
                break
            if self.ready.is_set() and time.monotonic() - began > pause:
                pause = SHORTEST_PAUSE
            self.ready.clear()
            self.log(f"the site stopped: {self.trouble}; it is started again in {pause:g} s")
            await asyncio.sleep(pause)
            pause = min(2 * pause, LONGEST_PAUSE)
        watching.cancel()

    async def run_once(self) -> None:
        """One life of the child."""
        await self.learn_words()
        pipe, command = asyncio.subprocess.PIPE, (self.program, "serve", *OPTIONS, self.folder)
        process = await asyncio.create_subprocess_exec(
            *command, stdin=pipe, stdout=pipe, stderr=pipe, start_new_session=True, limit=CHUNK
        )
        self.trouble = "its process ended"
        errors = asyncio.ensure_future(self.read_errors(process))
        self.process = process
        self.open.set()
        probe = asyncio.ensure_future(self.probe())
        try:
            await self.read_answers(process)
        finally:
            self.process = None
            if process.stdin:
                process.stdin.close()
            await errors
            status = await process.wait()
            if status < 0:
                self.trouble = f"its process was ended by signal {-status}"
            self.waiting.fail(lambda: Stopped(self.trouble))
            await asyncio.wait([probe])

    @contextlib.asynccontextmanager
    async def alone(self) -> AsyncIterator[None]:
        """A time in which no child has the directory: the child answers what was asked, and ends. Who asks meanwhile waits for
        the next child. Stopped where the site doesn't answer anyhow."""
        process = self.process
        if process is None or process.stdin is None or self.ending or self.interlude or not self.ready.is_set():
            raise Stopped(self.trouble)
        self.open.clear()
        interlude = self.interlude = Interlude()
        try:
            process.stdin.close()
            try:
                await asyncio.wait_for(interlude.begun.wait(), END_SECONDS)
            except asyncio.TimeoutError:
                self.log(f"the site's process is ended, since it didn't end by itself within {END_SECONDS} s")
                process.kill()
                await interlude.begun.wait()
            yield
        finally:
            self.interlude = None
            interlude.over.set()

    async def learn_words(self) -> None:
        """Has the program tell which words it knows. OSError where it doesn't. Each child may be of another program."""
        try:
            done = await call((self.program, "words"), WORDS_SECONDS, most=CHUNK)
            self.known.learn(Answer(done.out).by_kinds())
        except (asyncio.TimeoutError, KeyError):
            raise OSError(0, "it doesn't tell its words") from None

    async def probe(self) -> None:
        """Waits until the site answers, so that others are told that it does."""
        try:
            await self.learn_roster()
            self.ready.set()
            self.log("the site answers")
        except Stopped:
            pass

    async def learn_roster(self) -> None:
        """Asks the site for the roster that it knows. One may be kept though its answer was lost, so each child is asked."""
        self.roster = (await self.look("roster")).roster() or self.roster

    async def read_answers(self, process: asyncio.subprocess.Process) -> None:
        """Hands out the answers, until the child's output ends."""
        reader = FrameReader()
        assert process.stdout
        while True:
            data = await process.stdout.read(CHUNK)
            if not data:
                return
            reader.feed(data)
            for answer in iter(reader.next, None):
                asked = self.waiting.next()
                if asked is None:
                    self.log("the site answered what nobody had asked")
                    process.kill()
                    return
                if not asked.done():
                    settle(asked, answer)

    async def read_errors(self, process: asyncio.subprocess.Process) -> None:
        """Logs what the child tells on standard error, and keeps the last of it."""
        assert process.stderr
        while True:
            data = await process.stderr.read(CHUNK)
            if not data:
                return
            for line in data.decode("utf-8", "replace").splitlines():
                self.trouble = line.strip()
                self.log(f"site: {self.trouble}")

    async def stop(self) -> None:
        """Has the child answer what was asked, and end."""
        self.ending = True
        self.open.set()
        if self.process and self.process.stdin:
            self.process.stdin.close()
            try:
                await asyncio.wait_for(asyncio.shield(self.process.wait()), 30)
            except asyncio.TimeoutError:
                self.log("the site doesn't end; it is left to itself")
