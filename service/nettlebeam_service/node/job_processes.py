"""The processes of one job, for its runner."""
from __future__ import annotations

import ctypes
import os
import resource
import signal
import time
from typing import Any, Dict, List, Optional, Sequence, Set, Tuple

SUBREAPER = 36  # PR_SET_CHILD_SUBREAPER of <linux/prctl.h>
LIBRARY = ctypes.CDLL(None)
CLEANING_SECONDS = 10
STOP_SECONDS = 15  # after which a command that sends a signal is ended, and called again
STOP_TRIES = 2
LEFT_SECONDS = 10  # for which what a job leaves is ended again and again
MOST_LOG = 8192  # bytes of a run's log
MOST_TOLD = 300  # bytes of what a command says that failed
MOST_GROUPS = 2000  # that one command is given
GONE = "No such process"


def note(text: str) -> None:
    """Writes what went wrong into the run's log, which stays short whatever comes."""
    try:
        room = MOST_LOG - os.fstat(2).st_size
        os.write(2, f"{text.rstrip()}\n".encode("utf-8", "replace")[: max(0, room)])
    except OSError:
        pass  # where nobody can be told, the job goes on


def quietly(*errors: int) -> List[Tuple[Any, ...]]:
    """What gives a command no stream of this process, but a descriptor for its errors."""
    streams: List[Tuple[Any, ...]] = [(os.POSIX_SPAWN_OPEN, number, "/dev/null", os.O_RDWR, 0) for number in (0, 1, 2)]
    return streams + [(os.POSIX_SPAWN_DUP2, it, 2) for it in errors]


def tick_of(pid: int) -> int:
    """The tick at which a process started."""
    with open(f"/proc/{pid}/stat", encoding="ascii", errors="replace") as file:
        return int(file.read().rpartition(")")[2].split()[19])


def session_of(pid: int) -> Optional[int]:
    """The session of a process that lives."""
    try:
        with open(f"/proc/{pid}/stat", encoding="ascii", errors="replace") as file:
            fields = file.read().rpartition(")")[2].split()
    except OSError:
        return None
    return None if fields[0] in "ZX" else int(fields[3])


def is_alive_in(pid: int, session: int) -> bool:
    """Whether a child of this process lives, and is of a session: asked of the kernel, since /proc may hide it."""
    try:
        return os.getsid(pid) == session and os.waitid(os.P_PID, pid, os.WEXITED | os.WNOHANG | os.WNOWAIT) is None
    except OSError:
        return False


def children() -> List[int]:
    """The children of this process."""
    try:
        with open(f"/proc/self/task/{os.getpid()}/children", encoding="ascii") as file:
            return [int(word) for word in file.read().split()]
    except OSError:
        return []


def has_ended_within(pid: int, seconds: float) -> bool:
    """Whether a child ends, with status 0, within a time. One that doesn't end is killed with its group."""
    end = time.monotonic() + seconds
    while time.monotonic() < end:
        found, status = os.waitpid(pid, os.WNOHANG)
        if found:
            return status == 0
        time.sleep(0.01)
    try:
        os.killpg(pid, signal.SIGKILL)
    except OSError:
        pass  # it is another user's; it is reaped when it ends
    raise TimeoutError(f"no end within {seconds:g} s")


def boot_time() -> float:
    """Seconds since the machine started, those in which it was suspended counted."""
    return time.clock_gettime(time.CLOCK_BOOTTIME)


def adopt() -> None:
    """Has what the processes of a job leave become children of this process, so that it is known whether any is left."""
    LIBRARY.prctl(SUBREAPER, 1, 0, 0, 0)


def has_children() -> bool:
    """Whether this process has a child that goes on. Those that have ended are reaped."""
    try:
        while os.waitpid(-1, os.WNOHANG) != (0, 0):
            pass
        return True
    except ChildProcessError:
        return False


def calls_for(stop: Sequence[str], groups: Set[int], session: int) -> List[List[int]]:
    """The groups that each call of a command gets: all of them, if its last word names a group; else one, or the session."""
    if not any("{pid}" in word for word in stop):
        return [[session]]
    found, most = sorted(groups), MOST_GROUPS if stop[-1] in ("{pid}", "-{pid}") else 1
    return [found[place : place + most] for place in range(0, len(found), most)]


def stop_words(stop: Sequence[str], groups: Sequence[int], number: int) -> List[str]:
    """The words of a command that sends a signal to groups. The last word is there for each of them."""
    words = [word.replace("{signal}", str(number)) for word in stop]
    last = words.pop()
    words = [word.replace("{pid}", str(groups[0])) for word in words]
    return [*words, *([last.replace("{pid}", str(it)) for it in groups] if "{pid}" in last else [last])]


def said_by(descriptor: int) -> str:
    """What a command that has ended left in a pipe."""
    os.set_blocking(descriptor, False)
    try:
        return " ".join(os.read(descriptor, MOST_TOLD).decode("utf-8", "replace").split())
    except BlockingIOError:
        return ""


class Script:
    """The script's processes: a session, whose number nobody else gets before its first process is reaped."""

    def __init__(self, pid: int, run: Dict[str, Any]):
        self.pid = pid
        self.stop: List[str] = run["stop"]
        self.cgroup: str = run.get("cgroup") or ""
        self.is_reaped = False
        self.began = boot_time()
        self.said: Set[str] = set()

    def has_ended(self) -> bool:
        """Whether its first process has ended. It is not reaped by this."""
        return os.waitid(os.P_PID, self.pid, os.WEXITED | os.WNOHANG | os.WNOWAIT) is not None

    def reap_others(self) -> None:
        """Reaps what its processes left and what has ended since, which this process has adopted."""
        while True:
            found = os.waitid(os.P_ALL, 0, os.WEXITED | os.WNOHANG | os.WNOWAIT)
            if found is None or found.si_pid == self.pid:
                return
            os.waitpid(found.si_pid, 0)

    def end(self) -> int:
        """Ends what the script has left, whose first process has ended; its status. Where it has left nothing, as far as this
        process has no more children, there is nothing to look for."""
        status = self.reap()
        self.end_left()
        self.kill_group()
        return status

    def reap(self) -> int:
        """The status of the first process, which has ended; 128 and the signal where one ended it."""
        self.is_reaped = True
        code = os.waitstatus_to_exitcode(os.waitpid(self.pid, 0)[1])
        return code if code >= 0 else 128 - code

    def used(self) -> Dict[str, int]:
        """What the job has used, once it is reaped: seconds of processors, kilobytes of the greatest of its processes, seconds.

        Of a process that nobody of the job waited for the kernel tells nothing, but where the job has a control group.
        """
        spent = resource.getrusage(resource.RUSAGE_CHILDREN)
        seconds = spent.ru_utime + spent.ru_stime
        try:
            with open(f"{self.cgroup}/cpu.stat", encoding="ascii") as file:
                seconds = int(dict(line.split() for line in file)["usage_usec"]) / 1e6
        except (OSError, KeyError, ValueError):
            pass
        return {"cput": round(seconds), "mem": spent.ru_maxrss, "walltime": round(boot_time() - self.began)}

    def leave(self) -> None:
        """Removes the job's control group."""
        end = time.monotonic() + CLEANING_SECONDS
        while self.cgroup and os.path.isdir(self.cgroup) and time.monotonic() < end:
            try:
                os.rmdir(self.cgroup)
            except OSError:
                self.kill_group()
                time.sleep(0.02)

    def kill_group(self) -> None:
        """Ends all that is in the job's control group, also what made a session of its own."""
        if self.cgroup:
            try:
                with open(f"{self.cgroup}/cgroup.kill", "w", encoding="ascii") as file:
                    file.write("1")
            except OSError as fault:
                self.say(f"{self.cgroup}: {fault}")

    def members(self) -> Set[int]:
        """The processes of its session that live. Where /proc hides those of other users, those that are children of this process:
        all that it has left are at last."""
        found = {int(name) for name in os.listdir("/proc") if name.isdigit() and session_of(int(name)) == self.pid}
        return found | {pid for pid in children() if is_alive_in(pid, self.pid)}

    def groups(self) -> Set[int]:
        """The process groups of its session."""
        found = set() if self.is_reaped else {self.pid}
        for pid in self.members():
            try:
                found.add(os.getpgid(pid))
            except OSError:
                pass
        return found

    def say(self, text: str) -> None:
        """Writes what went wrong, once."""
        if text not in self.said:
            self.said.add(text)
            note(text)

    def call_stop(self, groups: Sequence[int], number: int) -> bool:
        """Calls the command that sends a signal to process groups; whether it could. TimeoutError if it hangs each time."""
        words = stop_words(self.stop, groups, number)
        for tries in range(STOP_TRIES):
            told, tell = os.pipe()
            try:
                pid = os.posix_spawnp(words[0], words, os.environ, file_actions=quietly(tell), setpgroup=0, setsigmask=[])
                if has_ended_within(pid, STOP_SECONDS):
                    return True
                told_words = said_by(told)
                if GONE not in told_words:  # else groups had ended meanwhile
                    self.say(told_words or f"{words[0]} failed")
                return False
            except TimeoutError as fault:
                self.say(f"{words[0]}: {fault}, so that the job may go on" if tries else f"{words[0]}: {fault}; it is called again")
            except OSError as fault:
                self.say(f"{words[0]}: {fault}")
                return False
            finally:
                os.close(told)
                os.close(tell)
        raise TimeoutError

    def stop_groups(self, number: int) -> bool:
        """Has the configured command send a signal to all process groups of the session; whether it could."""
        try:
            return all([self.call_stop(groups, number) for groups in calls_for(self.stop, self.groups(), self.pid)])
        except TimeoutError:
            return False

    def signal(self, number: int) -> None:
        """Sends a signal to all of its session, by the configured command where there is one."""
        if self.stop and self.stop_groups(number):
            return
        if self.is_reaped and os.path.exists(f"/proc/{self.pid}"):
            return  # the kernel gives no number of a session to others, so nothing of it is left
        for pid in self.members():
            try:
                os.kill(pid, number)
            except OSError:
                pass

    def end_left(self) -> None:
        """Ends what is left of its session, until nothing is."""
        end = time.monotonic() + LEFT_SECONDS
        while has_children():
            self.signal(signal.SIGKILL)
            time.sleep(0.02)
            left = self.members()
            if not left:
                return
            if time.monotonic() > end:
                self.say(f"processes of the job go on, since they can't be ended: {' '.join(map(str, sorted(left)))}")
                return
