"""A site in a directory, used through processes of the program and compared with a site of the plain model.

Whatever a process answered must be what the model says, and must stand in the journal. Where a process was killed or
the disk was full, the journal says how far it came, and the model follows it.
"""
import json
import os
import re
import shutil
import signal
import subprocess
import tempfile
import threading
import time
from itertools import zip_longest
from typing import NamedTuple

from tests.model.plain_model import Answer, Packet, Site
from tests.model.plain_words import READABLE
from tests.site.disk_journals import Damaged, Directory, Wrong, journal_of, read_journal, shown

LONGEST_WAIT = 120
PIPE_BYTES = 65_536
FAULTS = ("refused", "usage", "gap", "unread", "foreign", "forgotten", "cannot be read", "other roster")
NOT_KEPT = Answer("not kept\n")


class Line(NamedTuple):
    """A line for a site; of a `take` the packet that its text is of, or the answer where it is none of this run."""

    text: bytes
    packet: Packet = None
    stray: str = None


class Ended(NamedTuple):
    """How a process ended, and what it wrote."""

    status: int
    out: bytes
    err: bytes


class Cut(NamedTuple):
    """What may stop a process: a kill after so many seconds, a disk that takes no file longer than this, or is full, or
    a reader of its answers that has gone away."""

    kill_after: float = None
    most_bytes: int = None
    is_full: bool = False
    is_deaf: bool = False

    def explains(self, status):
        """Whether a process that was stopped so may end with this status."""
        if self.kill_after is not None and status == -signal.SIGKILL:
            return True
        return status == 3 and (self.most_bytes is not None or self.is_full or self.is_deaf)


# No file of the program gets longer than the first word says, and a write that would is an error and no signal. The shell
# does it, since a child of a process with threads must do nothing before it begins.
LIMITED = ["sh", "-c", 'trap "" XFSZ; exec prlimit --fsize="$0" "$@"']


def start(program, words, cut=Cut()):
    """Starts a process of the program."""
    before = [] if cut.most_bytes is None else [*LIMITED, str(cut.most_bytes)]
    pipe = subprocess.PIPE
    return subprocess.Popen([*before, program, *words], stdin=pipe, stdout=pipe, stderr=pipe)


def feed(stream, given, pieces=1, is_whole=True):
    """Writes to the input of a process in so many pieces, and closes it where that is all; a process may end before."""
    size = len(given) // pieces + 1
    try:
        for place in range(0, len(given), size):
            stream.write(given[place : place + size])
            stream.flush()
        if is_whole:
            stream.close()
    except BrokenPipeError:
        pass


def ask(process, given, most):
    """Gives a process a part of its input, and reads so many bytes of its answers, or fewer where no more come."""
    feeder = threading.Thread(target=feed, args=(process.stdin, given, 1, False))
    watch = threading.Timer(LONGEST_WAIT, process.kill)
    watch.start()
    feeder.start()
    out = process.stdout.read(most)
    feeder.join()
    watch.cancel()
    return out


def finish(process, given=b"", pieces=1):
    """Gives a process its input, and waits for its end."""
    stream, process.stdin = process.stdin, None
    feeder = threading.Thread(target=feed, args=(stream, given, pieces))
    feeder.start()
    try:
        out, err = process.communicate(timeout=LONGEST_WAIT)
    except subprocess.TimeoutExpired:
        process.kill()
        process.communicate()
        raise Wrong(f"no end after {LONGEST_WAIT} seconds") from None
    finally:
        feeder.join()
    return Ended(process.returncode, out, err)


def run(program, words, given=b"", cut=Cut(), pieces=1):
    """Runs a process to its end, or to its kill."""
    process = start(program, words, cut)
    if cut.is_deaf:
        process.stdout.close()
    if cut.kill_after is None:
        return finish(process, given, pieces)
    timer = threading.Timer(cut.kill_after, process.kill)
    timer.start()
    try:
        return finish(process, given, pieces)
    finally:
        timer.cancel()


def is_fault(answer):
    """Whether a line of an answer tells of a refusal, a misuse or a fault."""
    return any(line.startswith(FAULTS) for line in answer.text.splitlines())


class DiskSite:
    """A site: its directory, and its model."""

    def __init__(self, program, path, roster, number):
        self.program = program
        self.model = Site(roster, number)
        self.name = roster.names[number]
        self.directory = Directory(path, self.name, self.header(3, roster))
        # what the site held when its journal was compacted last, and how many entries say so
        self.base, self.base_entries = Site(roster, number), 1
        self.disk = None
        self.not_kept = 0
        self.compactions = 0

    def header(self, version, roster):
        """The first entry of the site's journal, where this roster was known when the journal was made."""
        return " ".join([f"nettlebeam {version}", self.name, *roster.words()]).encode()

    def replayed(self, entries, packets):
        """A site of the model that was told these entries, of which the first say what it held before."""
        site = self.base.copy()
        for entry in entries[self.base_entries :]:
            if entry.startswith(b"take "):
                site.take(packets[entry[5:]])
            else:
                site.answer(entry)
        return site

    # Making

    def make(self, cut=Cut()):
        """Makes the directory, at the second attempt where the first was cut short."""
        words = ["init", self.directory.path, self.name, *self.base.roster.words()]
        ended = run(self.program, words, cut=cut)
        if self.directory.journal()[0] != self.directory.entries:
            if ended.status == 0:
                raise Wrong(f"{self.name}: init ended with status 0 and left no header")
            ended = run(self.program, words)
            self.expect_status(ended, 0, "init")
        if self.directory.journal()[0] != self.directory.entries:
            raise Wrong(f"{self.name}: init left another journal: {shown(self.directory.file())}")
        self.directory.tail = self.directory.journal()[1]
        if os.stat(f"{self.directory.path}/journal").st_mode & 0o077:
            raise Wrong(f"{self.name}: others than the owner may use the journal")
        self.expect_status(run(self.program, words), 3, "a second init")

    def expect_status(self, ended, status, what):
        """Sees that a process ended with this status, and said why where that is none of success."""
        if ended.status != status:
            raise Wrong(f"{self.name}: {what}: status {ended.status}, not {status}: {shown(ended.err)}")
        if status and not ended.err.startswith(b"nettlebeam: "):
            raise Wrong(f"{self.name}: {what}: status {status} and no cause: {shown(ended.err)}")

    # Answers

    def expected(self, line):
        """The model's answer to a line."""
        if line.packet:
            return self.model.take(line.packet)
        return Answer(line.stray + "\n") if line.stray else self.model.answer(line.text)

    def came_out(self, answers, out, is_whole):
        """How many of the answers came out whole, and how many at least in part."""
        place = 0
        for index, (line, answer) in enumerate(answers):
            block = answer.text.encode() + b"\n"
            found = out[place : place + len(block)]
            place += len(found)
            if found == block:
                continue
            if is_whole or place < len(out) or not block.startswith(found):
                raise Wrong(f"{self.name}: {shown(line.text)}: answered {shown(found)}, and not {shown(block)}")
            return index, index + bool(found)
        if place < len(out):
            raise Wrong(f"{self.name}: answered more than was asked: {shown(out[place:])}")
        return len(answers), len(answers)

    def follow(self, answers, before, said, is_whole, is_group=False):
        """Sees that the journal has what was answered, and takes the model back to what the journal has. Lines that
        came as one group are all there or none."""
        needed = sum(answer.kept for _, answer in (answers if is_whole else answers[:said]))
        if self.is_compacted(needed):
            done, before = self.find_compaction(answers, before)
            answers, said = answers[done:], max(0, said - done)
        kept = [line.text for line, answer in answers if answer.kept]
        new = self.directory.new_entries()
        for found, wanted in zip_longest(new, kept[: len(new)], fillvalue=b"nothing"):
            if found != wanted:
                raise Wrong(f"{self.name}: the journal has {shown(found)}, and not {shown(wanted)}")
        needed = len(kept) if is_whole else sum(answer.kept for _, answer in answers[:said])
        if len(new) < needed:
            raise Wrong(f"{self.name}: {needed} lines that change something were answered, the journal has {len(new)}")
        if is_group and 0 < len(new) < len(kept):
            raise Wrong(f"{self.name}: of a group of {len(kept)} lines the journal has {len(new)}")
        self.directory.entries += new
        if len(new) < len(kept):
            self.model, left = before, list(answers)
            count = len(new)
            while count:
                line, answer = left.pop(0)
                count -= answer is not NOT_KEPT and self.expected(line).kept

    def asked(self, make_line, count):
        """So many lines with the model's answers, and the input that has these lines."""
        answers = []
        for _ in range(count):
            line = make_line(self.model)
            answers.append((line, self.expected(line)))
        return answers, b"".join(line.text + b"\n" for line, _ in answers)

    def behind_lines_not_kept(self, before, answers, out):
        """The lines with their answers where some came out as not kept, which then change nothing."""
        self.model, place, told = before.copy(), 0, []
        block = NOT_KEPT.text.encode() + b"\n"
        for line, _ in answers:
            told.append((line, NOT_KEPT if out.startswith(block, place) else self.expected(line)))
            place += len(told[-1][1].text) + 1
        return told

    def serve(self, make_line, count, cut=Cut(), pieces=1, options=()):
        """Pipes lines into `serve`. Gives those that were answered, with their answers, but for lines that aren't kept."""
        before = self.model.copy()
        answers, given = self.asked(make_line, count)
        ended = run(self.program, ["serve", *options, self.directory.path], given, cut, pieces)
        if cut.is_full or cut.most_bytes is not None:
            answers = self.behind_lines_not_kept(before, answers, ended.out)
            self.not_kept += sum(answer is NOT_KEPT for _, answer in answers)
        is_whole = ended.status == 0
        if not cut.explains(ended.status):
            self.expect_status(ended, 0, "serve")
        whole, said = self.came_out(answers, ended.out, is_whole and not cut.is_deaf)
        # what is written at once, and fits into the pipe, comes together
        is_group = pieces == 1 and len(given) <= PIPE_BYTES
        self.follow(answers, before, said, is_whole, is_group)
        return ended, [it for it in answers[:whole] if it[1] is not NOT_KEPT]

    def at(self, line, cut=Cut()):
        """Asks one line by `at`. Gives it with its answer, where that came out."""
        before = None if cut == Cut() else self.model.copy()
        answer = self.expected(line)
        ended = run(self.program, *self.words_at(line), cut)
        is_whole = not cut.explains(ended.status)
        if is_whole:
            self.expect_status(ended, int(is_fault(answer)), shown(line.text))
        text = answer.text.encode()
        whole = ended.out == text
        if not whole and (is_whole or not text.startswith(ended.out)):
            raise Wrong(f"{self.name}: at: {shown(line.text)}: answered {shown(ended.out)}, and not {shown(text)}")
        self.follow([(line, answer)], before, int(is_whole or bool(ended.out)), is_whole)
        return ended, [(line, answer)] if whole and is_whole else []

    def words_at(self, line):
        """The words of a call of `at`, and its standard input."""
        if line.text.startswith(b"take "):
            return ["at", self.directory.path, "take"], line.text[5:] + b"\n"
        return ["at", self.directory.path, *line.text.split()], b""

    @staticmethod
    def is_for_at(line):
        """Whether a line can be handed to `at` in words, so that the journal has the same bytes."""
        words = line.text.split()
        readable = READABLE.fullmatch(line.text) and line.text == b" ".join(words)
        return line.text.startswith(b"take ") or bool(words and readable and line.text != b"take")

    # Two processes

    def at_twice(self, lines):
        """Asks two lines at the same moment. Either may come first, and both are answered."""
        processes = [start(self.program, self.words_at(line)[0]) for line in lines]
        ends = [finish(process) for process in processes]
        new = self.directory.new_entries()
        before = self.model
        for order in ((0, 1), (1, 0)):
            self.model = before.copy()
            answers = {index: self.expected(lines[index]) for index in order}
            kept = [lines[index].text for index in order if answers[index].kept]
            wanted = [(answers[index].text.encode(), int(is_fault(answers[index]))) for index in (0, 1)]
            if kept == new and [(end.out, end.status) for end in ends] == wanted:
                self.directory.entries += new
                return [(lines[index], answers[index]) for index in order]
        raise Wrong(f"{self.name}: two at once: {[line.text for line in lines]} ended so: {ends}, and kept {new}")

    def at_beside_serve(self, make_line, count, last):
        """Asks a line by `at` while `serve` has the directory, so that it has to wait until that ends."""
        before = self.model.copy()
        answers, given = self.asked(make_line, count)
        serving = start(self.program, ["serve", self.directory.path])
        out = ask(serving, given, sum(len(answer.text) + 1 for _, answer in answers))
        asking = start(self.program, self.words_at(last)[0])
        rest = finish(serving)
        self.came_out(answers, out + rest.out, True)
        self.expect_status(rest, 0, "serve")
        answers.append((last, self.expected(last)))
        if finish(asking).out != answers[-1][1].text.encode():
            raise Wrong(f"{self.name}: at beside serve: {shown(last.text)} was answered otherwise")
        self.follow(answers, before, len(answers), True)
        return answers

    # Compacting

    def front_of(self, model):
        """The entries of a journal that is compacted where the site holds this."""
        return [self.header(4, model.roster), *(text.encode() for text in model.compacted())]

    def is_compacted(self, needed):
        """Whether another journal has come into the place of the one that was known, which would have so many entries more
        at least. Both may begin with the same, where the lines between two compactions have changed nothing."""
        entries, known = self.directory.journal()[0], self.directory.entries
        goes_on = entries[: len(known)] == known and len(entries) >= len(known) + needed
        return bool(entries) and entries[0].startswith(b"nettlebeam 4 ") and not goes_on

    def note_compaction(self, front, model):
        """The journal begins with these entries, which say what the site held."""
        self.directory.entries, self.base, self.base_entries = front, model.copy(), len(front)
        self.compactions += 1

    def find_compaction(self, answers, before):
        """How many of these lines were done when the journal was compacted, and the model as it was then. Where several are
        possible, since lines changed nothing of what the site holds, it is the most."""
        entries, _ = self.directory.journal()
        if before is None or len(entries) < 2:
            raise Wrong(f"{self.name}: the journal was compacted where nothing may: {shown(self.directory.file())}")
        reached = json.loads(entries[1])["reached"]
        kept_now, after, known, front, found = self.model, before.copy(), None, [], None
        self.model = after
        try:
            for done in range(len(answers) + 1):
                if after.version == reached:
                    if known != (after.roster, after.heard):
                        known, front = (after.roster, [list(version) for version in after.heard]), self.front_of(after)
                    kept = [line.text for line, answer in answers[done:] if answer.kept]
                    new = entries[len(front) :]
                    if entries[: len(front)] == front and new == kept[: len(new)]:
                        found = done, front, after.copy()
                if done < len(answers) and answers[done][1] is not NOT_KEPT:
                    self.expected(answers[done][0])
        finally:
            self.model = kept_now
        if not found:
            raise Wrong(f"{self.name}: the journal was compacted to what the site never held: {shown(entries[1])}")
        done, front, after = found
        self.note_compaction(front, after)
        return done, after

    def compact(self, cut=Cut()):
        """Has the journal compacted. Whatever stops that, it is the old one or the new one, and both are whole."""
        front, old = self.front_of(self.model), self.directory.entries
        before, after = len(journal_of(old)), len(journal_of(front))
        ended = run(self.program, ["compact", self.directory.path], cut=cut)
        if cut.explains(ended.status):
            found = self.directory.journal()[0]
            if found not in ((old,) if ended.status == 3 else (old, front)):
                raise Wrong(f"{self.name}: a compaction that was stopped left {len(found)} entries: {shown(self.directory.file())}")
        else:
            self.expect_status(ended, 0, "compact")
            told = f"compacted: {before} bytes before, {after} now\n" if after < before else f"not compacted: {before} bytes, {after} if it were\n"
            if ended.out != told.encode():
                raise Wrong(f"{self.name}: compact: {shown(ended.out)}, and not {shown(told)}")
            found, wanted = self.directory.journal()[0], front if after < before else old
            if found != wanted:
                raise Wrong(f"{self.name}: compact left {shown(self.directory.file())}, and not {shown(journal_of(wanted))}")
        self.directory.note_tail(self.directory.journal()[1])
        if found == front != old:
            self.note_compaction(front, self.model)
        return ended

    def at_beside_compact(self, line, kill_after=None):
        """Asks a line by `at` while the journal is being compacted, or while that is killed: it waits for the directory."""
        before = self.model.copy()
        answer = self.expected(line)
        compacting = start(self.program, ["compact", self.directory.path])
        asking = start(self.program, self.words_at(line)[0])
        if kill_after is not None:
            time.sleep(kill_after)
            compacting.kill()
        ended, other = finish(asking), finish(compacting)
        if ended.out != answer.text.encode():
            raise Wrong(f"{self.name}: at beside compact: {shown(line.text)}: {shown(ended.out)} {shown(ended.err)}, and not {shown(answer.text)}")
        self.expect_status(ended, int(is_fault(answer)), "at beside compact")
        if kill_after is None or other.status != -signal.SIGKILL:
            self.expect_status(other, 0, "compact")
        self.follow([(line, answer)], before, 1, True)
        return other, [(line, answer)]

    # Checks

    def check(self):
        """Calls `check`, which must tell what the model has, and change nothing."""
        before = self.directory.file()
        ended = run(self.program, ["check", self.directory.path])
        self.expect_status(ended, 0, "check")
        seen = " ".join(f"{name} {counter}" for name, counter in zip(self.model.roster.names, self.model.version))
        form = " (compacted)" if self.base_entries > 1 else ""
        front = f"entries {len(self.directory.entries)}{form}, seen {seen}, jobs {len(self.model.jobs())}, "
        wanted = f"{front}unfinished bytes {len(self.directory.tail)}\n".encode()
        if ended.out != wanted:
            raise Wrong(f"{self.name}: check: {shown(ended.out)}, and not {shown(wanted)}")
        if self.directory.file() != before:
            raise Wrong(f"{self.name}: check changed the journal")

    def damage(self, pick, packets):
        """Damages a copy of the directory; an opening must name the first damaged line, or show what is left."""
        with tempfile.TemporaryDirectory(dir=os.path.dirname(self.directory.path)) as folder:
            copy = f"{folder}/copy"
            shutil.copytree(self.directory.path, copy)
            file = bytearray(self.directory.file())
            place = pick.randrange(len(file))
            if pick.random() < 0.3:
                del file[place:]
            else:
                file[place] = pick.choice([byte for byte in (*b"-+\n a0", file[place] ^ 1) if byte != file[place]])
            with open(f"{copy}/journal", "wb") as journal:
                journal.write(file)
            ended = run(self.program, ["at", copy, "ann", "qstat", "-f"])
            self.see_damage(bytes(file), ended, packets)

    def see_damage(self, file, ended, packets):
        """Compares the opening of a damaged file with what the file's lines say."""
        try:
            entries, _ = read_journal(file)
        except Damaged as damage:
            self.expect_status(ended, 3, f"a journal with line {damage.line} damaged")
            if not re.search(rf"\b{damage.line}\b".encode(), ended.err):
                raise Wrong(f"{self.name}: line {damage.line} is damaged, not {shown(ended.err)}") from None
            return
        if not entries:
            self.expect_status(ended, 3, "a journal without an entry")
            return
        if entries[0] == self.header(4, self.base.roster) and len(entries) < self.base_entries:
            self.expect_status(ended, 3, "a journal without what the site knew and had heard")
            return
        self.expect_status(ended, 0, "a journal with a closed gate")
        listing = self.replayed(entries, packets).listing(True).encode()
        if ended.out != listing:
            raise Wrong(f"{self.name}: what is before a closed gate lists {shown(ended.out)}, and not {shown(listing)}")
