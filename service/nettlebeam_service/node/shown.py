"""Files of the service that a job's owner may read, and nobody else: by an access list, which their own account may give them."""
from __future__ import annotations

import os
import shutil
import struct

from ..common.files import put

LIST = "system.posix_acl_access"
VERSION = 2
ANYBODY = 0xFFFFFFFF
# tags and rights of <linux/posix_acl.h>
OF_OWNER, OF_USER, OF_GROUP, MASK, OF_OTHERS = 1, 2, 4, 16, 32
READ, RUN = 4, 1


def show(path: str, uid: int, rights: int) -> None:
    """Lets a user read a file, or enter a folder. OSError if the file system has no access lists."""
    own = rights | (2 if os.path.isdir(path) else 0)
    if uid == os.geteuid():
        os.chmod(path, own << 6)
        return
    entries = ((OF_OWNER, own, ANYBODY), (OF_USER, rights, uid), (OF_GROUP, 0, ANYBODY), (MASK, rights, ANYBODY), (OF_OTHERS, 0, ANYBODY))
    os.setxattr(path, LIST, struct.pack("<I", VERSION) + b"".join(struct.pack("<HHI", *it) for it in entries))


def put_shown(folder: str, uid: int, nodes: bytes, script: bytes) -> None:
    """Writes what a job reads of the run's folder."""
    shutil.rmtree(folder, ignore_errors=True)
    os.mkdir(folder, 0o700)
    for name, data, rights in (("nodes", nodes, READ), ("script", script, READ | RUN)):
        path = os.path.join(folder, name)
        put(path, data)
        show(path, uid, rights)
    show(folder, uid, READ | RUN)


def let_through(folder: str) -> None:
    """Lets everybody through a folder of this account, whose files each have their own rights."""
    state = os.stat(folder)
    if state.st_uid == os.geteuid() and state.st_mode & 0o011 != 0o011:
        os.chmod(folder, state.st_mode & 0o777 | 0o011)
