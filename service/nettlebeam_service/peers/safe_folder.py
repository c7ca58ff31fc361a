"""A folder below one that others can write. It is never reached by a symbolic link, so that nothing is written elsewhere."""
from __future__ import annotations

import contextlib
import errno
import os
import stat
from typing import Iterator, Optional, Tuple

from ..site.packets import LONGEST_PACKET
from .seal import BadSeal

MOST_BYTES = LONGEST_PACKET + 1024
MODE = 0o2770  # the other site's account writes here too
State = Optional[Tuple[int, int]]


class SafeFolder:
    """A folder by its name in the shared one, which is opened anew for each call, and files in it by their names."""

    def __init__(self, shared: str, name: str):
        self.shared = shared
        self.name = name

    def path(self, name: str) -> str:
        """What a file is called for people."""
        return os.path.join(self.shared, self.name, name)

    def open_below(self, shared: int) -> int:
        """The folder. FileNotFoundError where it isn't there, OSError where another kind of file has its place."""
        try:
            return os.open(self.name, os.O_RDONLY | os.O_DIRECTORY | os.O_NOFOLLOW | os.O_CLOEXEC, dir_fd=shared)
        except OSError as fault:
            if fault.errno not in (errno.ELOOP, errno.ENOTDIR):
                raise
            where = os.path.join(self.shared, self.name)
            raise OSError(fault.errno, f"{where} is a symbolic link or no folder, so nothing is read or written there") from None

    @contextlib.contextmanager
    def opened(self, is_made: bool = False) -> Iterator[int]:
        """The folder, as long as the block runs; made where it isn't there and is wanted."""
        shared = os.open(self.shared, os.O_RDONLY | os.O_DIRECTORY | os.O_CLOEXEC)
        try:
            is_new = False
            if is_made:
                with contextlib.suppress(FileExistsError):
                    os.mkdir(self.name, MODE, dir_fd=shared)
                    is_new = True
            place = self.open_below(shared)
        finally:
            os.close(shared)
        try:
            if is_new:
                os.fchmod(place, MODE)
            yield place
        finally:
            os.close(place)

    def put(self, name: str, data: bytes) -> None:
        """Writes a file under another name first, so that nobody reads half of it. The group of the folder may read it."""
        new = f"{name}.new"
        with self.opened(is_made=True) as place:
            with contextlib.suppress(FileNotFoundError):
                os.remove(new, dir_fd=place)
            how = os.O_WRONLY | os.O_CREAT | os.O_EXCL | os.O_NOFOLLOW | os.O_CLOEXEC
            with open(os.open(new, how, 0o640, dir_fd=place), "wb") as file:
                os.fchmod(file.fileno(), 0o640)
                file.write(data)
                file.flush()
                os.fsync(file.fileno())
            os.rename(new, name, src_dir_fd=place, dst_dir_fd=place)

    def get(self, name: str) -> Optional[bytes]:
        """What a file has; None where it isn't there."""
        try:
            with self.opened() as place:
                descriptor = os.open(name, os.O_RDONLY | os.O_NOFOLLOW | os.O_NONBLOCK | os.O_CLOEXEC, dir_fd=place)
        except FileNotFoundError:
            return None
        with open(descriptor, "rb") as file:
            found = os.fstat(file.fileno())
            if not stat.S_ISREG(found.st_mode) or found.st_size > MOST_BYTES:
                raise BadSeal("it is no file that a site has written")
            return file.read(MOST_BYTES + 1)

    def remove(self, name: str) -> None:
        """Takes a file away."""
        with self.opened() as place:
            os.remove(name, dir_fd=place)

    def state(self, name: str) -> State:
        """What tells a file from an earlier one of its name; None where there is none."""
        try:
            with self.opened() as place:
                found = os.stat(name, dir_fd=place, follow_symlinks=False)
        except FileNotFoundError:
            return None
        return found.st_ino, found.st_mtime_ns
