"""The runner of one job, a process that `runner_server.py` forks.

It keeps the job's lock as long as it lives, starts the script once, ends it when its time is over or when it is told so by
SIGTERM, and writes how it ended. It needs `job_processes.py` and `job_start.py` and no other module of the service, so that it
stays small.

What the node's machine keeps of a start is not synced: after a crash of the machine nothing is started by what its disk has,
since all of it names the run of the machine that wrote it. How a job ended is synced, so that it is known after a crash.
"""
from __future__ import annotations

import json
import os
import resource
import signal
import time
from typing import Any, Dict, List, Optional, Tuple

from .job_processes import CLEANING_SECONDS, Script, adopt, boot_time, has_ended_within, note, quietly, tick_of
from .job_start import ORDERED, Start, await_word, why_unrun

ROOM = 512
LOST = 255
DELETED = 143
LEAST_KILLED = 128  # from this status on the owner's shell may have left its folder
LATE_SECONDS = 30  # how long behind the end of its nonce a script may start
LONGEST_WAIT = 60.0
OVER, ORDER = "limit", "order"  # what brings a script's end about, if it isn't the script


def overwrite(path: str, value: Dict[str, Any], is_synced: bool = False) -> None:
    """Writes over a file that has room for it."""
    descriptor = os.open(path, os.O_WRONLY | os.O_CREAT | os.O_CLOEXEC, 0o600)
    try:
        os.pwrite(descriptor, json.dumps(value).encode().ljust(ROOM), 0)
        if is_synced:
            os.fsync(descriptor)
    finally:
        os.close(descriptor)


def sync_folder() -> None:
    """Has the disk keep the names in the folder."""
    descriptor = os.open(".", os.O_RDONLY | os.O_CLOEXEC)
    try:
        os.fsync(descriptor)
    finally:
        os.close(descriptor)


def insist(action: Any) -> None:
    """Does what a full disk may refuse, again and again until it is done; the lock is held meanwhile."""
    while True:
        try:
            action()
            return
        except OSError as fault:
            note(f"{fault}; this is tried again in 5 s")
            time.sleep(5)


def boot_of() -> str:
    """The name of this run of the machine, as the node's program has it."""
    try:
        with open("taken", encoding="ascii") as file:
            return str(json.loads(file.read())["boot"])
    except FileNotFoundError:
        with open("/proc/sys/kernel/random/boot_id", encoding="ascii") as file:
            return file.read().strip()


def enter(cgroup: str) -> None:
    """In the child: makes a control group, and goes into it. Where that can't be done the session has to do."""
    try:
        os.makedirs(cgroup, exist_ok=True)
        with open(f"{cgroup}/cgroup.procs", "w", encoding="ascii") as file:
            file.write("0")
    except OSError as fault:
        note(f"{cgroup}: {fault}")


def become_script(run: Dict[str, Any], begun: Start) -> None:
    """In the child: takes the token that lets the script start, and becomes what starts it."""
    begun.become()
    os.setsid()
    if run.get("cgroup"):
        enter(run["cgroup"])
    overwrite("ready", {"pid": os.getpid(), "tick": tick_of(os.getpid()), "boot": boot_of()})
    if boot_time() > run.get("until", boot_time()) + LATE_SECONDS:
        raise OSError("it is too late: this was stopped on its way")
    os.rename("ready", "started")  # there is one `ready` in the life of a job
    os.closerange(3, 64)
    signal.pthread_sigmask(signal.SIG_SETMASK, [])
    for number in (signal.SIGPIPE, signal.SIGXFSZ, signal.SIGHUP, signal.SIGINT):
        signal.signal(number, signal.SIG_DFL)
    if "open_files" in run:
        resource.setrlimit(resource.RLIMIT_NOFILE, (run["open_files"], resource.getrlimit(resource.RLIMIT_NOFILE)[1]))
    os.chdir("/")
    os.execvpe(run["command"][0], run["command"], run["environment"])


def start(run: Dict[str, Any], begun: Start) -> int:
    """Starts the command that starts the script; its process."""
    pid = os.fork()
    if pid == 0:
        try:
            become_script(run, begun)
        except BaseException as fault:  # nothing of the runner may go on in the child
            os.write(2, f"the script can't be started: {fault}\n".encode())
        os._exit(LOST)
    begun.begin("input")
    return pid


def asked_signal() -> Optional[int]:
    """The signal that the service asks for by a file. The file is gone once the signal is sent."""
    try:
        with open("signal", encoding="ascii") as file:
            return int(file.read())
    except (OSError, ValueError):
        return None


def wait(script: Script, begun: Start, end: float, grace: float) -> Tuple[int, str]:
    """Waits for the script's end, and brings it about at a moment or when SIGTERM comes: a status, and what brought it about."""
    expected = {signal.SIGCHLD, signal.SIGTERM, signal.SIGUSR1}
    kill, by = None, ""
    while not script.has_ended():
        script.reap_others()
        begun.listen()
        now = boot_time()
        if kill is None and now >= end:
            by = by or OVER
            script.signal(signal.SIGTERM)
            kill = now + grace
        elif kill is not None and now >= kill:
            script.signal(signal.SIGKILL)
            script.kill_group()
            kill = now + 1
        rest = (end if kill is None else kill) - boot_time()
        got = signal.sigtimedwait(expected, min(LONGEST_WAIT, max(0.0, rest)))  # which doesn't count what was suspended
        if got is not None and got.si_signo == signal.SIGTERM and kill is None:
            end, by = 0.0, ORDER
        elif got is not None and got.si_signo == signal.SIGUSR1:
            number = asked_signal()
            if number is not None:
                script.signal(number)
                os.remove("signal")
    return script.end(), by


def run_script(run: Dict[str, Any]) -> Dict[str, Any]:
    """Runs the script to its end: how that was."""
    begun = Start(run.get("word", ""))
    script = Script(start(run, begun), run)
    end, why = boot_time() + run["limit"], ""
    if "word" in run:
        why = await_word(script, begun, end)
        begun.close()
    else:
        begun.give_all()
    status, by = wait(script, begun, 0.0 if why else end, run["grace"])
    ended = {"status": status, "used": script.used()}
    script.leave()
    begun.listen()
    if begun.words():
        note(begun.words().decode("utf-8", "replace"))
    if why == ORDERED:
        return {**ended, "status": DELETED, "ended_by": ORDER}
    if why:
        return {**ended, "status": LOST, **why_unrun(why, begun, status)}
    return {**ended, "ended_by": by} if by else ended


def write_exit(ended: Dict[str, Any]) -> None:
    """Tells how the script ended, and what it used."""
    overwrite("exit.new", {"moment": int(time.time()), **ended}, is_synced=True)
    os.rename("exit.new", "exit")
    sync_folder()


def clean(words: List[str], environment: Dict[str, str]) -> None:
    """Removes, as the owner, the folder that the owner's shell made for the job and couldn't remove."""
    try:
        cleaner = os.posix_spawnp(words[0], words, environment, file_actions=quietly(), setpgroup=0, setsigmask=[])
    except OSError as fault:
        note(f"{words[0]}: {fault}")
        return
    try:
        has_ended_within(cleaner, CLEANING_SECONDS)
    except TimeoutError:
        pass


def prepare_process(folder: str, lock: int) -> Dict[str, Any]:
    """Makes this process one that no other has to do with; what it is told to run."""
    os.setsid()
    adopt()
    signal.signal(signal.SIGCHLD, signal.SIG_DFL)
    signal.pthread_sigmask(signal.SIG_BLOCK, {signal.SIGCHLD, signal.SIGTERM, signal.SIGINT, signal.SIGHUP, signal.SIGUSR1})
    os.set_inheritable(lock, False)
    os.chdir(folder)
    log = os.open("log", os.O_WRONLY | os.O_CREAT | os.O_APPEND | os.O_CLOEXEC, 0o600)
    null = os.open("/dev/null", os.O_RDWR | os.O_CLOEXEC)
    for number, source in enumerate((null, log, log)):
        os.dup2(source, number)
    with open("/proc/self/comm", "w", encoding="ascii") as file:
        file.write(f"run {os.path.basename(folder)}"[:15])  # which `ps` shows
    with open("run.json", "rb") as file:
        run: Dict[str, Any] = json.loads(file.read())
    overwrite("runner", {"pid": os.getpid()})
    return run


def run_job(folder: str, lock: int, tell: int) -> None:
    """Runs the job of a folder, once whoever asked for that has been told that this process is there."""
    run = prepare_process(folder, lock)
    try:
        os.write(tell, b".")
    except BrokenPipeError:
        pass  # whoever asked was killed meanwhile; the job runs all the same
    os.close(tell)
    ended = run_script(run)
    insist(lambda: write_exit(ended))
    if ended["status"] >= LEAST_KILLED and "clean" in run:
        clean(run["clean"], run["environment"])
