"""A model of a disk, by the calls that tests/disk/record_calls.c records: what a program sees of it, and what a power cut may leave.

A file's disk has what was synced. Of what was written since, it may have any sectors of 512 bytes, in any order, where others
may be 0 if the file got longer. A write of one byte is done or it isn't, and so is a change of who may use the file. A folder's
disk has the names that it had when the folder was synced, and of each name that was made, taken away or given to another file
since, it may have the change or not: a rename is one change, whatever the disk has of the file."""
from __future__ import annotations

import os
import random
from typing import Dict, List, NamedTuple, Optional, Tuple, Union

SECTOR = 512
# Which of the changes a disk has that weren't synced: all, none, or some at random.
Chance = Union[random.Random, bool]


class Call(NamedTuple):
    """A call that the program has made."""

    kind: str
    descriptor: int
    offset: int
    given: bytes


class Kept(NamedTuple):
    """A file as a disk has it: its bytes, and who may do what with it."""

    content: bytes
    mode: int


Files = Dict[str, Kept]


def read_calls(record: bytes) -> List[Call]:
    """The calls of a record."""
    calls, place = [], 0
    while place < len(record):
        end = record.index(b"\n", place)
        kind, descriptor, offset, length = record[place:end].decode().split(" ")
        place = end + 1 + int(length)
        calls.append(Call(kind, int(descriptor), int(offset), record[end + 1 : place]))
    return calls


def overwrite(content: bytearray, offset: int, given: bytes) -> None:
    """Writes bytes at an offset; what lies between is 0."""
    content.extend(bytes(max(0, offset - len(content))))
    content[offset : offset + len(given)] = given


def falls(chance: Chance) -> bool:
    """Whether a disk has a change."""
    return chance if isinstance(chance, bool) else chance.random() < 0.5


class File:
    """A file or a folder: what a program sees of it, what the disk surely has, and what was written since."""

    def __init__(self, content: bytes = b"", mode: int = 0o600, is_folder: bool = False):
        self.now = self.synced = content
        self.mode = self.synced_mode = mode
        self.since: List[Tuple[int, Optional[bytes]]] = []  # a write, or a cut
        self.is_folder = is_folder

    def write(self, offset: int, given: bytes) -> None:
        changed = bytearray(self.now)
        overwrite(changed, offset, given)
        self.now = bytes(changed)
        self.since.append((offset, given))

    def cut(self, length: int) -> None:
        self.now = self.now[:length]
        self.since.append((length, None))

    def sync(self, has_mode: bool) -> None:
        """The disk has what was written, and who may do what with the file, if that is asked for."""
        self.synced, self.since = self.now, []
        if has_mode:
            self.synced_mode = self.mode

    def is_settled(self) -> bool:
        """Whether the disk surely has all of it."""
        return not self.since and self.mode == self.synced_mode

    def left(self, chance: Chance) -> Kept:
        """What a disk may have of it."""
        content = bytearray(self.synced)
        for offset, given in self.since:
            if given is None:
                if falls(chance):
                    del content[offset:]
                continue
            start = offset
            while start < offset + len(given):
                end = min((start // SECTOR + 1) * SECTOR, offset + len(given))
                if falls(chance):
                    overwrite(content, start, given[start - offset : end - offset])
                elif len(given) > 1 and chance is not False and falls(chance):
                    # the file got longer, and the bytes aren't there
                    content.extend(bytes(max(0, end - len(content))))
                start = end
        return Kept(bytes(content), self.mode if falls(chance) else self.synced_mode)


Names = Dict[str, File]


class Change(NamedTuple):
    """A change of the names in a folder: what the path names from then on, if anything, and the path that named it before."""

    path: str
    file: Optional[File]
    old: Optional[str] = None

    def make(self, names: Names) -> None:
        if self.old is not None and names.get(self.old) is self.file:
            del names[self.old]
        if self.file is None:
            names.pop(self.path, None)
        else:
            names[self.path] = self.file


class Disk:
    """The files below a folder, by their paths."""

    def __init__(self, folder: str, files: Optional[Files] = None):
        self.folder = folder
        self.names: Names = {folder: File(is_folder=True)}
        for path, kept in (files or {}).items():
            self.names.setdefault(os.path.dirname(path), File(is_folder=True))
            self.names[path] = File(*kept)
        self.synced_names = dict(self.names)
        self.since: List[Change] = []
        self.open: Dict[int, File] = {}
        self.mask = os.umask(0)
        os.umask(self.mask)

    def path(self, given: bytes) -> str:
        """The path of a call."""
        return os.path.normpath(os.path.join(self.folder, os.fsdecode(given)))

    def paths(self, call: Call) -> Tuple[str, str]:
        """Both paths of a rename."""
        old, new = call.given.split(b"\0")
        return self.path(old), self.path(new)

    def descriptors(self, file: Optional[File]) -> List[int]:
        """By which descriptors the program may have a file."""
        return [descriptor for descriptor, it in self.open.items() if it is file]

    def change(self, change: Change) -> None:
        """Changes the names of a folder, which its disk may have or not."""
        change.make(self.names)
        self.since.append(change)

    def change_names(self, call: Call) -> None:
        """One call of the program that is about a path."""
        if call.kind == "rename":
            old, new = self.paths(call)
            if old in self.names:
                self.change(Change(new, self.names[old], old))
            return
        path = self.path(call.given)
        is_here = path.startswith(self.folder + "/")
        if call.kind == "create" and is_here and path not in self.names:
            self.change(Change(path, File(mode=call.offset & ~self.mask)))
        if call.kind in ("open", "create"):
            self.open.pop(call.descriptor, None)
            if path in self.names:
                self.open[call.descriptor] = self.names[path]
        elif call.kind == "mkdir" and is_here:
            self.change(Change(path, File(is_folder=True)))
        elif call.kind == "unlink" and path in self.names:
            self.change(Change(path, None))

    def do(self, call: Call) -> None:
        """One call of the program."""
        if call.kind in ("open", "create", "mkdir", "rename", "unlink"):
            self.change_names(call)
            return
        file = self.open.get(call.descriptor)
        if file is None:
            return
        if call.kind == "write":
            file.write(call.offset, call.given)
        elif call.kind == "say":
            file.write(len(file.now), call.given)
        elif call.kind == "cut":
            file.cut(call.offset)
        elif call.kind == "chmod":
            file.mode = call.offset & 0o7777
        elif call.kind in ("sync", "datasync"):
            file.sync(has_mode=call.kind == "sync")
            self.sync_names(file)

    def sync_names(self, folder: File) -> None:
        """The disk has the names of a folder."""
        later = []
        for change in self.since:
            if self.names.get(os.path.dirname(change.path)) is folder:
                change.make(self.synced_names)
            else:
                later.append(change)
        self.since = later

    def is_settled(self) -> bool:
        """Whether the disk surely has all that was done."""
        return not self.since and all(file.is_settled() for file in self.names.values())

    def left(self, chance: Chance) -> Files:
        """The files that a disk may have."""
        names = dict(self.synced_names)
        for change in self.since:
            if falls(chance):
                change.make(names)
        there = {path for path in names if path == self.folder or os.path.dirname(path) in names}
        found: Dict[int, Kept] = {}
        for path in sorted(there):
            file = names[path]
            if not file.is_folder and id(file) not in found:
                found[id(file)] = file.left(chance)
        return {path: found[id(names[path])] for path in sorted(there) if not names[path].is_folder}
