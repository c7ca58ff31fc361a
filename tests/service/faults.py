"""What goes wrong with a site's disk, its backup and its program: disks that are full, copies that hang, programs that stand still."""
from __future__ import annotations

import contextlib
import os
import signal
import subprocess
import time

# A backup of an administrator's own. Where a file says so it takes so many seconds.
BACKUP = """#!/bin/sh
cp "$1/site/journal" "$1.copy.new" || exit 1
if [ -e "$1.slow" ]; then
    seconds=$(cat "$1.slow")
    rm -f "$1.slow"
    sleep "$seconds"
fi
mv "$1.copy.new" "$1.copy"
"""
BACKUP_SECONDS = 5


class Disk:
    """A file system in memory that can be filled."""

    def __init__(self, folder: str, room: int) -> None:
        self.folder = folder
        self.empty_at = 0.0
        os.makedirs(folder)
        subprocess.run(["mount", "-t", "tmpfs", "-o", f"size={room}", "tmpfs", folder], check=True)

    def fill(self, free: int) -> None:
        """Takes all room but so many bytes."""
        self.empty()
        state = os.statvfs(self.folder)
        room = state.f_bavail * state.f_frsize - free
        if room > 0:
            with open(f"{self.folder}/filler", "wb") as file:
                os.posix_fallocate(file.fileno(), 0, room)

    def empty(self) -> None:
        """Gives the room back."""
        if os.path.exists(f"{self.folder}/filler"):
            os.remove(f"{self.folder}/filler")

    def unmount(self) -> None:
        """Ends the file system."""
        subprocess.run(["umount", "-l", self.folder], check=False)


# what runs a script on a node. If a file says so it fails: always, for all but trials, or now and then
START = """#!/bin/sh
# start HOST ID COMMAND ..
host=$1 id=$2
shift 2
how=$(cat "{folder}/$host.fails" 2> /dev/null)
case $how,$id in
always,* | jobs,[0-9]*) echo "no slot is free at $host" >&2; exit 1;;
sometimes,*) [ $(($$ % 3)) != 0 ] || {{ echo "$host is busy" >&2; exit 75; }};;
esac
TMPDIR={folder}/$host.tmp NODE=$host exec "$@"
"""
TEMPORARY_BYTES = 1024 * 1024


class Starts:
    """What starts jobs on hosts: the command, which may fail, and the folder of temporary files, which may be full."""

    def __init__(self, folder: str, hosts: list[str], has_disks: bool) -> None:
        self.folder = folder
        self.command = f"{folder}/start"
        self.back_at: dict[str, float] = {}
        self.disks: dict[str, Disk] = {}
        with open(self.command, "w", encoding="ascii") as file:
            file.write(START.format(folder=folder))
        os.chmod(self.command, 0o755)
        for host in hosts:
            if has_disks:
                self.disks[host] = Disk(f"{folder}/{host}.tmp", TEMPORARY_BYTES)
            else:
                os.makedirs(f"{folder}/{host}.tmp")
            os.chmod(f"{folder}/{host}.tmp", 0o1777)

    def words(self, host: str) -> str:
        """The words of `start` for a host."""
        return f"{self.command} {host} {{id}}"

    def fail(self, host: str, how: str, seconds: float) -> None:
        """Has starts there fail for so long."""
        with open(f"{self.folder}/{host}.fails.new", "w", encoding="ascii") as file:
            file.write(how)
        os.rename(f"{self.folder}/{host}.fails.new", f"{self.folder}/{host}.fails")
        self.back_at[host] = time.monotonic() + seconds

    def fill(self, host: str, seconds: float) -> None:
        """Takes all room of temporary files there for so long."""
        if host in self.disks:
            self.disks[host].fill(0)
            self.disks[host].empty_at = time.monotonic() + seconds

    def supervise(self, all_of_them: bool = False) -> None:
        """Ends what is over."""
        for host in [it for it, moment in self.back_at.items() if all_of_them or time.monotonic() > moment]:
            del self.back_at[host]
            os.remove(f"{self.folder}/{host}.fails")
        for disk in self.disks.values():
            if all_of_them or time.monotonic() > disk.empty_at:
                disk.empty()

    def end(self) -> None:
        """Ends the file systems."""
        for disk in self.disks.values():
            disk.unmount()


class Copies:
    """The backups of sites."""

    def __init__(self, folder: str) -> None:
        self.command = f"{folder}/backup"
        with open(self.command, "w", encoding="ascii") as file:
            file.write(BACKUP)
        os.chmod(self.command, 0o755)
        # a site's part of its configuration
        self.section = f"[site]\nbackup = {self.command} {{home}}\nbackup_seconds = {BACKUP_SECONDS}"

    def slow(self, home: str, seconds: int) -> None:
        """The next copy of the journal of the site at this home takes so long."""
        with open(f"{home}.slow", "w", encoding="ascii") as file:
            file.write(str(seconds))

    def hasten(self, home: str) -> None:
        """It takes no longer than others."""
        with contextlib.suppress(FileNotFoundError):
            os.remove(f"{home}.slow")


class Stills:
    """Processes that stand still for a while."""

    def __init__(self) -> None:
        self.until: dict[int, float] = {}

    def stop(self, pid: int, seconds: float) -> None:
        """A process stands still for so long."""
        with contextlib.suppress(ProcessLookupError):
            os.kill(pid, signal.SIGSTOP)
            self.until[pid] = time.monotonic() + seconds

    def supervise(self, all_of_them: bool = False) -> None:
        """Those whose time is over go on."""
        for pid in [it for it, moment in self.until.items() if all_of_them or time.monotonic() > moment]:
            del self.until[pid]
            with contextlib.suppress(ProcessLookupError):
                os.kill(pid, signal.SIGCONT)
