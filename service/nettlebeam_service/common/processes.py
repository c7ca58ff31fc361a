"""Locks and processes, so that a process number that was given anew is never taken for the old process."""
from __future__ import annotations

import contextlib
import fcntl
import os
import resource
import signal
import time
from typing import List, Optional, Set, Tuple

LONGEST_END = 5.0
MOST_FILES = 65_536
# how many files a process may have open that this service starts, as it was when the service was started
FILES_OF_JOBS = resource.getrlimit(resource.RLIMIT_NOFILE)[0]


def allow_many_files() -> None:
    """Lets this process have a file open for each client."""
    soft, hard = resource.getrlimit(resource.RLIMIT_NOFILE)
    most = MOST_FILES if hard == resource.RLIM_INFINITY else min(hard, MOST_FILES)
    if soft != resource.RLIM_INFINITY and soft < most:
        resource.setrlimit(resource.RLIMIT_NOFILE, (most, hard))


def hold_version() -> None:
    """Keeps an update from removing the version whose modules this process has, as long as it or a process that it forks lives."""
    top = os.path.dirname(os.path.dirname(os.path.dirname(os.path.realpath(__file__))))
    with contextlib.suppress(OSError):
        fcntl.flock(os.open(top, os.O_RDONLY | os.O_DIRECTORY | os.O_CLOEXEC), fcntl.LOCK_SH | fcntl.LOCK_NB)


def processor_seconds(pid: int) -> float:
    """How long a process has had a processor; 0 where it isn't there."""
    try:
        with open(f"/proc/{pid}/stat", encoding="ascii", errors="replace") as file:
            fields = file.read().rpartition(")")[2].split()
    except OSError:
        return 0.0
    return (int(fields[11]) + int(fields[12])) / os.sysconf("SC_CLK_TCK")


def lock(path: str) -> Optional[int]:
    """Takes the lock of a file, which is made where it isn't there: a descriptor, or None where another has it.

    The lock is of the open file. It passes to children that get the descriptor, and ends with the last who has it.
    """
    descriptor = os.open(path, os.O_RDWR | os.O_CREAT | os.O_CLOEXEC, 0o600)
    try:
        fcntl.flock(descriptor, fcntl.LOCK_EX | fcntl.LOCK_NB)
    except BlockingIOError:
        os.close(descriptor)
        return None
    except BaseException:
        os.close(descriptor)
        raise
    return descriptor


def is_locked(path: str) -> bool:
    """Whether somebody has the lock of a file."""
    try:
        descriptor = os.open(path, os.O_RDWR | os.O_CLOEXEC)
    except FileNotFoundError:
        return False
    try:
        fcntl.flock(descriptor, fcntl.LOCK_SH | fcntl.LOCK_NB)
        return False
    except BlockingIOError:
        return True
    finally:
        os.close(descriptor)


def boot() -> str:
    """The name of this run of the machine."""
    with open("/proc/sys/kernel/random/boot_id", encoding="ascii") as file:
        return file.read().strip()


def stat_of(pid: int) -> Optional[Tuple[int, int]]:
    """Of a process the session and the tick at which it started; None where it isn't there, or has ended."""
    try:
        with open(f"/proc/{pid}/stat", encoding="ascii", errors="replace") as file:
            fields = file.read().rpartition(")")[2].split()
    except (FileNotFoundError, ProcessLookupError, PermissionError):
        return None
    return None if fields[0] in "ZX" else (int(fields[3]), int(fields[19]))


def started_at(pid: int) -> int:
    """The tick at which a process that is there started."""
    with open(f"/proc/{pid}/stat", encoding="ascii", errors="replace") as file:
        return int(file.read().rpartition(")")[2].split()[19])


def members(session: int, since: int) -> List[int]:
    """The processes of a session that was begun at this tick.

    As long as one of them lives the kernel gives the number to no other process. A session that got the number later has
    no process as old as the leader was, and where its leader lives that one is younger.
    """
    leader = stat_of(session)
    if leader is not None and leader[1] != since:
        return []
    if are_hidden():
        return hidden_members(session, since)
    found = []
    for name in os.listdir("/proc"):
        if name.isdigit():
            stat = stat_of(int(name))
            if stat and stat[0] == session and stat[1] >= since:
                found.append(int(name))
    return found


def are_hidden() -> bool:
    """Whether /proc hides the processes of other users, as by its option `hidepid`."""
    try:
        with open("/proc/1/stat", "rb"):
            return False
    except OSError:
        return True


def hidden_members(session: int, since: int) -> List[int]:
    """The same where /proc hides some: the kernel is asked of each number that there may be. Of those that are hidden nothing tells
    when they started, nor whether they have ended and nobody has asked how."""
    with open("/proc/sys/kernel/pid_max", encoding="ascii") as file:
        most = int(file.read())
    found = []
    for pid in range(1, most + 1):
        try:
            if os.getsid(pid) != session:
                continue
        except OSError:
            continue
        stat = stat_of(pid)
        if stat[1] >= since if stat else not os.path.exists(f"/proc/{pid}"):
            found.append(pid)
    return found


def groups_of(pids: List[int]) -> Set[int]:
    """The process groups of processes."""
    found = set()
    for pid in pids:
        with contextlib.suppress(OSError):
            found.add(os.getpgid(pid))
    return found


def end_session(session: int, since: int, most: float = LONGEST_END) -> bool:
    """Kills what is left of a session. False where something of it is still there after a while, or may not be killed."""
    end = time.monotonic() + most
    while True:
        left = members(session, since)
        if not left:
            return True
        for pid in left:
            try:
                os.kill(pid, signal.SIGKILL)
            except ProcessLookupError:
                pass
            except PermissionError:
                return False
        if time.monotonic() > end:
            return False
        time.sleep(0.02)


def holders(path: str) -> List[int]:
    """The processes of this account that have a file open, but this one."""
    place, found = os.path.realpath(path), []
    for name in os.listdir("/proc"):
        if name.isdigit() and int(name) != os.getpid():
            try:
                if any(os.readlink(it.path) == place for it in os.scandir(f"/proc/{name}/fd")):
                    found.append(int(name))
            except OSError:
                pass
    return found


def end_holders(path: str, most: float = LONGEST_END) -> bool:
    """Kills the processes that have a file open, with their sessions. False where one is still there after a while."""
    end = time.monotonic() + most
    while True:
        left = holders(path)
        if not left:
            return True
        sessions = {it[0] for it in map(stat_of, left) if it} - {os.getsid(0)}
        for name in os.listdir("/proc"):
            stat = stat_of(int(name)) if name.isdigit() else None
            if stat and (stat[0] in sessions or int(name) in left):
                with contextlib.suppress(OSError):
                    os.kill(int(name), signal.SIGKILL)
        if time.monotonic() > end:
            return False
        time.sleep(0.02)


def signal_holder(pid: int, lock_path: str, number: int) -> bool:
    """Sends a signal to the process that holds a lock. False where it has ended, or its number is another's by now.

    The descriptor names the process that has the number now. Where the lock is held after that, it is the holder.
    """
    try:
        descriptor = os.pidfd_open(pid)
    except ProcessLookupError:
        return False
    try:
        if not is_locked(lock_path):
            return False
        signal.pidfd_send_signal(descriptor, number)
        return True
    except ProcessLookupError:
        return False
    finally:
        os.close(descriptor)


def end_cgroup(path: str, most: float = LONGEST_END) -> bool:
    """Kills what is in a control group, and removes it. False where something of it is still there after a while."""
    end = time.monotonic() + most
    while os.path.isdir(path):
        try:
            with open(os.path.join(path, "cgroup.kill"), "w", encoding="ascii") as file:
                file.write("1")
            os.rmdir(path)
        except OSError:
            pass
        if time.monotonic() > end:
            return False
        time.sleep(0.02)
    return True
