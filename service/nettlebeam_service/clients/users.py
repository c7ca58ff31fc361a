"""Who is at the other end of a socket: the kernel tells the number, the machine's tables the name and the groups."""
from __future__ import annotations

import asyncio
import grp
import os
import pwd
import socket
import struct
import time
from typing import Dict, Tuple

from ..common.config import SiteKeys
from ..site.lines import Client, Known

KEPT_SECONDS = 30
CREDENTIALS = struct.Struct("iII")


def uid_of(connection: socket.socket) -> int:
    """The user number of the process that connected."""
    data = connection.getsockopt(socket.SOL_SOCKET, socket.SO_PEERCRED, CREDENTIALS.size)
    return int(CREDENTIALS.unpack(data)[1])


def is_member(user: pwd.struct_passwd, group: str) -> bool:
    """Whether a user is in a group, by name; a group that isn't there has no members."""
    try:
        return grp.getgrnam(group).gr_gid in os.getgrouplist(user.pw_name, user.pw_gid)
    except KeyError:
        return False


def look_up(uid: int, keys: SiteKeys) -> Client:
    """What the tables say of a user number. It may take long where they are on another machine."""
    is_site = uid == os.getuid()
    try:
        user = pwd.getpwuid(uid)
    except KeyError:
        return Client(uid, None, (), is_site)
    groups = {"operator": keys.operators, "admin": keys.admins}
    roles = tuple(role for role, group in groups.items() if group and is_member(user, group))
    return Client(uid, user.pw_name, roles, is_site)


class Users:
    """Users by their numbers, looked up in a thread, and kept for half a minute."""

    def __init__(self, keys: SiteKeys, words: Known):
        self.keys = keys
        self.words = words
        self.known: Dict[int, Tuple[float, Client]] = {}

    async def client(self, uid: int) -> Client:
        """The client of a user number."""
        now = time.monotonic()
        until, client = self.known.get(uid, (0.0, None))
        if client is None or until < now:
            client = await asyncio.to_thread(look_up, uid, self.keys)
            if len(self.known) > 10_000:
                self.known.clear()
            self.known[uid] = (now + KEPT_SECONDS, client)
        is_reserved = client.user in self.words.of_sites
        return client._replace(trouble=f"the login name {client.user} is a word of the scheduler's lines") if is_reserved else client
