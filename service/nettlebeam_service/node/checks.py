"""What can be known of a node before its first job: what is wrong with its settings, its machine and its start, and what may be."""
from __future__ import annotations

import contextlib
import ctypes
import errno
import os
import pwd
import resource
import secrets
import shutil
import struct
import subprocess
import time
from typing import Iterator, List, NamedTuple, Optional, Sequence

from .owner_calls import call
from .settings import NodeKeys, boot_of
from .store import LEAST_INODES
from .trials import Trials
from .wrapper import account, as_owner, environment_of

LIKELY = 60_000  # above are numbers of systems, as that of nobody
NO_SHELLS = ("nologin", "false")
LEAST_TEMPORARY = 64 * 1024 * 1024
LEAST_FILES = 1024
LEAST_LOCKED = 64 * 1024 * 1024
UNSET = 5  # TIME_ERROR of <sys/timex.h>
SIZE_OF_TIMEX = 256
EARLIEST = 1_700_000_000.0  # this program is younger


class Found(NamedTuple):
    """What is wrong, and what may be."""

    faults: List[str]
    notes: List[str]


def look(keys: NodeKeys, users: Sequence[str]) -> Found:
    """Looks at all of it. These users' jobs are tried, or one's whom the machine has."""
    found = Found([], [])
    for part in (folder_faults, cgroup_faults, clock_faults):
        found.faults.extend(part(keys))
    found.notes.extend(limits_notes())
    found.notes.extend(temporary_notes())
    if not found.faults:
        look_at_starts(keys, users, found)
    return found


def folder_faults(keys: NodeKeys) -> Iterator[str]:
    """What is wrong with the folder of runs, and the file that names the run of the machine."""
    place = keys.folder
    while not os.path.exists(place):
        place = os.path.dirname(place) or "."
    if not os.access(place, os.R_OK | os.W_OK | os.X_OK):
        yield f"folder = {keys.folder}: this account may not write in {place}"
    state = os.statvfs(place)
    if state.f_bavail * state.f_frsize < keys.free_bytes:
        yield f"folder = {keys.folder}: {state.f_bavail * state.f_frsize} bytes are free, and free_bytes = {keys.free_bytes}"
    if state.f_files and state.f_favail < LEAST_INODES:
        yield f"folder = {keys.folder}: {state.f_favail} inodes are free"
    with contextlib.suppress(OSError):
        boot_of(keys)
        return
    yield f"boot = {keys.boot}: it can't be read"


def cgroup_faults(keys: NodeKeys) -> Iterator[str]:
    """Whether a control group can be made where they are to be, a process put there, and ended by it."""
    if not keys.cgroup:
        return
    group = os.path.join(keys.cgroup, f"trial-{secrets.token_hex(4)}")
    try:
        os.mkdir(group)
        try:
            os.stat(f"{group}/cgroup.kill")
            put_child(f"{group}/cgroup.procs")
        finally:
            os.rmdir(group)
    except OSError as fault:
        yield f"cgroup = {keys.cgroup}: {fault}"


def put_child(path: str) -> None:
    """Puts a child into a group, as a job's first process is; OSError if that can't be done."""
    words = ["/bin/sh", "-c", 'echo 0 > "$1"', "sh", path]
    if subprocess.run(words, stdin=subprocess.DEVNULL, stderr=subprocess.DEVNULL, check=False).returncode:
        raise OSError(errno.EACCES, os.strerror(errno.EACCES), path)


def clock_faults(keys: NodeKeys) -> Iterator[str]:
    """Whether the clock has a likely day."""
    if time.time() < EARLIEST:
        yield f"the clock of this machine says {time.strftime('%Y-%m-%d')}"


def limits_notes() -> Iterator[str]:
    """Limits of this account, which jobs have too, and that often are too low; and a clock that nothing sets."""
    files, locked = resource.getrlimit(resource.RLIMIT_NOFILE)[0], resource.getrlimit(resource.RLIMIT_MEMLOCK)[0]
    if files != resource.RLIM_INFINITY and files < LEAST_FILES:
        yield f"a process may have {files} files open (ulimit -n), jobs too"
    if locked != resource.RLIM_INFINITY and locked < LEAST_LOCKED:
        yield f"a process may lock {locked} bytes of memory (ulimit -l); MPI over fast networks needs more, unless start raises it"
    if ctypes.CDLL(None).adjtimex(ctypes.create_string_buffer(struct.pack("i", 0), SIZE_OF_TIMEX)) == UNSET:
        yield "nothing keeps this machine's clock right, such as NTP, as far as its kernel knows"


def temporary_notes() -> Iterator[str]:
    """Whether jobs have room for temporary files."""
    place = os.environ.get("TMPDIR", "/tmp")
    try:
        state = os.statvfs(place)
    except OSError as fault:
        yield f"{place}: {fault.strerror}; jobs have their temporary files in /var/tmp or at home"
        return
    if state.f_bavail * state.f_frsize < LEAST_TEMPORARY or (state.f_files and state.f_favail < LEAST_INODES):
        yield f"{place} has {state.f_bavail * state.f_frsize} bytes free; without room jobs have their temporary files in /var/tmp or at home"
    elif os.stat(place).st_mode & 0o1777 != 0o1777:
        yield f"{place} isn't everybody's to write, with the sticky bit"


def likely_user(keys: NodeKeys) -> Optional[str]:
    """Somebody of this machine who may have jobs."""
    for entry in pwd.getpwall():
        is_person = keys.least_uid <= entry.pw_uid < LIKELY and os.path.basename(entry.pw_shell) not in NO_SHELLS
        if is_person and entry.pw_uid not in (0, os.getuid()):
            return entry.pw_name
    return None


def look_at_starts(keys: NodeKeys, users: Sequence[str], found: Found) -> None:
    """Whether a shell starts as others, and as whom."""
    if not keys.start:
        found.notes.append(f"start isn't given: only jobs of {account()} run")
    elif not any("{user}" in word for word in keys.start):
        found.faults.append(f"start = {' '.join(keys.start)}: it has no {{user}}, so that jobs of others would run as {account()}: none does")
    elif os.getuid() and not keys.stop:
        found.notes.append(f"stop isn't given: {account()} may not signal jobs of others, unless start passes signals on")
    if any(word.split("/")[-1] in ("sudo", "systemd-run") for word in keys.start[:1]) and not shutil.which(keys.start[0]):
        return  # which is said already
    likely = likely_user(keys) if keys.start else account()
    if not users and likely is None:
        found.notes.append(f"no account has a number from {keys.least_uid} on, so no start was tried: name one after --check")
    for user in users or [it for it in (likely,) if it]:
        found.faults.extend(start_faults(keys, user))


def start_faults(keys: NodeKeys, user: str) -> Iterator[str]:
    """Whether jobs of a user start."""
    try:
        entry = pwd.getpwnam(user)
    except KeyError:
        yield f"there is no account {user} here"
        return
    if not keys.start and user != account():
        yield f"no job of {user} would start: start isn't given"
        return
    if entry.pw_uid < keys.least_uid and user != account():
        yield f"jobs of {user}, whose number is {entry.pw_uid}, are left alone: least_uid = {keys.least_uid}"
        return
    why = Trials(keys).of(entry).why
    if why:
        yield f"no job of {user} would start: {why}"
        return
    words = [*as_owner(keys.start, user, f"trial-{secrets.token_hex(4)}"), "/bin/sh", "-c", "id -u"]
    _, said = call(words, environment_of(entry))
    if said != str(entry.pw_uid):
        yield f"jobs of {user} would run as {said}, and not as {entry.pw_uid}"

