"""The settings of a node: `/etc/nettlebeam/node.conf`, or what the service tells the node that is its own machine."""
from __future__ import annotations

import configparser
import json
import resource
from dataclasses import asdict, dataclass
from typing import Any, Dict, Tuple

from ..common.config import LOGINS, ConfigFault, JobKeys, read_section

CONFIG = "/etc/nettlebeam/node.conf"
SECTION = "node"
Words = Tuple[str, ...]


@dataclass(frozen=True)
class NodeKeys:
    """[node]: where runs are kept, and as whom and how scripts run."""

    folder: str = "/var/spool/nettlebeam-node"
    start: Words = ()
    stop: Words = ()
    least_uid: int = 1000
    shell: str = ""
    login: str = "yes"
    grace: float = 10.0
    free_bytes: int = 16 * 1024 * 1024
    cgroup: str = ""
    boot: str = "/proc/sys/kernel/random/boot_id"
    open_files: int = 0


def read_node_keys(path: str) -> NodeKeys:
    """Reads the settings of a node's file."""
    parser = configparser.ConfigParser(interpolation=None, default_section="", inline_comment_prefixes=(" ;", " #"))
    parser.optionxform = str  # type: ignore[assignment]
    try:
        with open(path, encoding="utf-8") as file:
            parser.read_file(file)
    except OSError as fault:
        raise ConfigFault(f"{path}: {fault.strerror}") from None
    except (configparser.Error, UnicodeDecodeError) as fault:
        raise ConfigFault(" ".join(str(fault).split())) from None
    if parser.sections() != [SECTION]:
        raise ConfigFault(f"{path}: it has one section, [{SECTION}]")
    keys: NodeKeys = read_section(NodeKeys, SECTION, dict(parser[SECTION]))
    if keys.login not in LOGINS:
        raise ConfigFault(f"{path}: login = {keys.login}: none of {', '.join(LOGINS)}")
    return keys


def told_node_keys(text: str) -> NodeKeys:
    """The settings that the service tells."""
    told: Dict[str, Any] = json.loads(text)
    return NodeKeys(**{key: tuple(value) if isinstance(value, list) else value for key, value in told.items()})


def own_node_keys(jobs: JobKeys, folder: str, open_files: int) -> str:
    """What the service tells the node that is its own machine: what its file says of jobs, as a text."""
    keys = NodeKeys(
        folder=folder,
        start=jobs.start,
        stop=jobs.stop,
        least_uid=jobs.least_uid,
        shell=jobs.shell,
        login=jobs.login,
        grace=jobs.grace,
        free_bytes=0,  # the site's own bound stands before it
        cgroup=jobs.cgroup,
        open_files=open_files,
    )
    return json.dumps(asdict(keys))


def files_of_jobs(keys: NodeKeys) -> int:
    """How many files a process of a job may have open: as told, or as this account has it here."""
    return keys.open_files or resource.getrlimit(resource.RLIMIT_NOFILE)[0]


def boot_of(keys: NodeKeys) -> str:
    """The name of this run of the machine."""
    with open(keys.boot, encoding="ascii") as file:
        return file.read().strip()
