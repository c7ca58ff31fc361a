"""Which spool a site has, and which site a spool has: each names the other, and another is refused.

    DIRECTORY/spool     the path of the spool; whose service runs has its lock
    SPOOL/site          the path of the site's directory

The notes about jobs that run are in the spool. So a service with another spool would take them for lost, tell the site that they
have ended, and give their nodes to others.
"""
from __future__ import annotations

import os

from ..common.files import read_text, sync, write
from ..common.processes import lock


class Foreign(Exception):
    """The spool isn't that of the site, or the site has a service already. The text names the other."""


def named_in(path: str) -> str:
    """The path that a file names; nothing where it isn't there, or was cut when it was made."""
    text = read_text(path)
    return text[:-1] if text.endswith("\n") else ""


def check(directory: str, spool: str) -> None:
    """Foreign where the site names another spool, or the spool another site."""
    place, folder = os.path.realpath(directory), os.path.realpath(spool)
    theirs, its = named_in(os.path.join(place, "spool")), named_in(os.path.join(folder, "site"))
    if theirs and theirs != folder:
        raise Foreign(f"the site {place} has the spool {theirs}, as its file spool says, and not {folder}")
    if its and its != place:
        raise Foreign(f"the spool {folder} is of the site {its}, as its file site says, and not of {place}")


def claim(directory: str, spool: str) -> int:
    """Has a site and a spool name each other, and takes the lock that says so: a descriptor to be kept open. Foreign where another
    service has the site."""
    place, folder = os.path.realpath(directory), os.path.realpath(spool)
    held = lock(os.path.join(place, "spool"))
    if held is None:
        raise Foreign(f"another service has the site {place}, with the spool {named_in(os.path.join(place, 'spool'))}")
    check(directory, spool)
    if not named_in(os.path.join(folder, "site")):
        path = os.path.join(folder, "site")
        write(f"{path}.new", f"{place}\n".encode("utf-8", "surrogateescape"))
        os.rename(f"{path}.new", path)
        sync(folder)
    if not named_in(os.path.join(place, "spool")):
        os.ftruncate(held, 0)
        os.pwrite(held, f"{folder}\n".encode("utf-8", "surrogateescape"), 0)
        os.fsync(held)
        sync(place)
    return held
