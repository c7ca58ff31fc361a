"""What the disk has of a site: the entries of its journal, what stands behind the journal's gate, and what was cut from it."""
import glob
import hashlib
import os
import subprocess

DISK_BYTES = 268_435_456
FIRST_DIGEST = b"0" * 16


class Wrong(Exception):
    """Something isn't what the model says."""


class Damaged(Exception):
    """A line of a journal isn't an entry."""

    def __init__(self, line):
        super().__init__(line)
        self.line = line


def shown(text, most=300):
    """The front of a text, for a message."""
    return repr(text if len(text) <= most else text[:most] + b"..")


def read_journal(file):
    """The entries of a journal's bytes, and what stands behind its closed gate."""
    entries, digest, place = [], FIRST_DIGEST, 0
    while file and file[place : place + 1] != b"-":
        end = file.find(b"\n", place)
        line = file[place:end] if end >= 0 else file[place:]
        digest = hashlib.sha256(digest + line[19:]).hexdigest()[:16].encode()
        if end < 0 or line[:19] != b"+ " + digest + b" ":
            raise Damaged(len(entries) + 1)
        entries.append(line[19:])
        place = end + 1
    return entries, file[place + 1 :]


def journal_of(entries):
    """The bytes of a journal at rest that has these entries."""
    lines, digest = [], FIRST_DIGEST
    for entry in entries:
        digest = hashlib.sha256(digest + entry).hexdigest()[:16].encode()
        lines.append(b"+ " + digest + b" " + entry + b"\n")
    return b"".join(lines) + b"-"


class SmallDisk:
    """A file system in memory that can be filled. An OSError where none may be mounted here."""

    def __init__(self, folder):
        self.folder = folder
        os.mkdir(folder)
        command = ["mount", "-t", "tmpfs", "-o", f"size={DISK_BYTES}", "tmpfs", folder]
        if subprocess.run(command, stderr=subprocess.DEVNULL, check=False).returncode:
            raise OSError("no file system in memory may be mounted")

    def fill(self, free):
        """Takes all room but so many bytes."""
        state = os.statvfs(self.folder)
        room = state.f_bavail * state.f_frsize
        with open(f"{self.folder}/filler", "wb") as file:
            os.posix_fallocate(file.fileno(), 0, max(1, room - free))

    def is_used(self):
        """Whether a quarter of it is used, so that the lines of a few more steps, and a last exchange, still fit."""
        state = os.statvfs(self.folder)
        return state.f_bavail * 4 < state.f_blocks * 3

    def empty(self):
        """Gives the room back."""
        os.remove(f"{self.folder}/filler")

    def unmount(self):
        """Ends the file system."""
        subprocess.run(["umount", self.folder], check=True)


class Directory:
    """The directory of a site, and the entries that its journal must have."""

    def __init__(self, path, name, header):
        self.path, self.name, self.entries, self.tail = path, name, [header], b""

    def file(self):
        """The bytes of the journal; none where there is no file."""
        try:
            with open(f"{self.path}/journal", "rb") as file:
                return file.read()
        except FileNotFoundError:
            return b""

    def note_tail(self, tail):
        """Sees that what an earlier process left behind the closed gate is kept beside the journal, once it was cut."""
        if self.tail and tail != self.tail and not any(self.tail in text for text in self.cut_files()):
            raise Wrong(f"{self.name}: what was cut is in no file beside the journal: {shown(self.tail)}")
        self.tail = tail

    def cut_files(self):
        """What was cut from the journal by all openings."""
        for name in glob.glob(f"{glob.escape(self.path)}/journal.cut-*"):
            with open(name, "rb") as file:
                yield file.read()

    def journal(self):
        """The entries of the journal, and what stands behind its gate."""
        try:
            return read_journal(self.file())
        except Damaged as damage:
            raise Wrong(f"{self.name}: the journal is damaged at line {damage.line}") from None

    def new_entries(self):
        """The entries that the journal has beyond those that it had."""
        entries, tail = self.journal()
        if entries[: len(self.entries)] != self.entries:
            raise Wrong(f"{self.name}: the journal has lost entries, or changed them")
        self.note_tail(tail)
        return entries[len(self.entries) :]
