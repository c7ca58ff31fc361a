"""What a job's owner runs: a text for the shell that makes the job's environment, and then runs the script.

The service's account can't write in the owner's folder. So the owner's shell reads the text from its standard input, and after
it, if the owner can't be shown a file of the run's folder, the names of the hosts and the script. Nothing of it stands in a
list of processes. When all is ready the shell says a word, and the script runs only if it reads the answer (`job_start.py`).
"""
from __future__ import annotations

import os
import pwd
import shlex
from typing import Any, Dict, List, NamedTuple, Sequence

from ..words.resources import read_chunks, times_of
from .job_files import OF_THE_RUN, interpreter_of, more_exports, placed, shown_id, variables_text
from .job_slurm import HOST_FILES, mpi_text, slurm_exports
from .login_shell import login_texts, reader_of
from .job_start import UNWRITABLE

PATH = "/usr/local/bin:/usr/bin:/bin"
QUEUE = "batch"  # of a site that names none
LONGEST_FIRST_LINE = 256  # as much of it as the kernel reads
# the names of POSIX.1-2017 for what the submitter's environment had
SUBMITTERS = {
    "PBS_O_HOME": "home",
    "PBS_O_HOST": "host",
    "PBS_O_LANG": "lang",
    "PBS_O_PATH": "path",
    "PBS_O_SHELL": "shell",
    "PBS_O_TZ": "tz",
    "PBS_O_WORKDIR": "folder",
}

# a folder that the owner may write and that has room; the first of these in which there is one
PLACES = """\
of_all=${{TMPDIR:-/tmp}} TMPDIR=
trap 'rm -rf "$TMPDIR"; exit 143' TERM
umask 077
for place in "$of_all" /var/tmp "${{HOME:-/}}"
do
    TMPDIR=$(mktemp -d "$place/nettlebeam-{job}.XXXXXX") || continue
    if head -c {room} /dev/zero > "$TMPDIR/room" && chmod 700 "$TMPDIR/room"
    then
        [ -x "$TMPDIR/room" ] || without=$TMPDIR
        rm "$TMPDIR/room"
        break
    fi
    rm -rf "$TMPDIR"
    TMPDIR=
done 2> /dev/null
[ "$TMPDIR" ] || {{ echo "no folder with room can be made in $of_all, /var/tmp or ${{HOME:-/}}" >&2; exit 255; }}
unset of_all place
export TMPDIR
"""
TEXT = """\
{is_other}
{places}
{ready}
PBS_NODEFILE=$nodes
export PBS_NODEFILE
{mpi}
{exports}
umask {umask}
{change}
PBS_JOBDIR=$PWD
export PBS_JOBDIR
if ! (: > {out} && : > {err}) 2> /dev/null
then
    unwritten=$PWD
    cd || cd /
    (: > {out} && : > {err}) || {{ rm -rf "$TMPDIR"; exit {unwritable}; }}
fi
{keep}
echo {word}
read -r answer && [ "$answer" = go ] || {{ rm -rf "$TMPDIR"; exit 255; }}
exec < /dev/null >> {out} 2>> {err}
[ -z "${{unwritten:-}}" ] || echo "nettlebeam: $unwritten can't be written here, so the job's files are in $PWD" >&2
cd "$PBS_JOBDIR"
[ -z "${{without:-}}" ] || echo "nettlebeam: nothing may be executed in $TMPDIR (noexec)" >&2
[ -z "${{moved:-}}" ] || echo "nettlebeam: there is no folder $moved here; the job runs in $PWD" >&2
[ -z "${{lost:-}}" ] || echo "nettlebeam: this can't be written here, so files of $PWD are:$lost" >&2
# from here on the script is told of signals too, and this shell waits for what it makes of them
trap : HUP INT QUIT USR1 USR2 ALRM TERM
set -- {shell} "$script"
{without_execution}
{interpreter}
{words}
{login}
(
{own_variables}
exec "$@"
)
status=$?
cd /
rm -rf "$TMPDIR"
exit $status
"""

# if a file of the run's folder can be shown to the owner, and if it can't: then its bytes come after the text
SHOWN = "nodes={own}/nodes script={own}/script"
CARRIED = """\
nodes=$TMPDIR/nodes script=$TMPDIR/script
head -c {size} > "$nodes" && head -c {more} > "$script" && chmod 700 "$script" || {{ rm -rf "$TMPDIR"; exit 255; }}"""
LEAST_ROOM = 4096

# what a service tells of a job that it has prepared: its whole name, its owner, nodes and limit, its hosts, the facts of its
# submission, and the folder and the number of its files
Order = Dict[str, Any]


def umask_of(facts: Dict[str, Any]) -> str:
    """The submitter's umask in octal digits."""
    text = str(facts.get("umask", ""))
    return text if text and len(text) <= 4 and set(text) <= set("01234567") else "077"


def exports_of(job: str, order: Order) -> Dict[str, str]:
    """The variables of POSIX.1-2017 for a batch job, and those of PBS."""
    facts = order["facts"]
    named = {name: facts[key] for name, key in SUBMITTERS.items() if key in facts}
    return {
        "PBS_ENVIRONMENT": "PBS_BATCH",
        "PBS_JOBID": shown_id(job, facts),
        "PBS_JOBNAME": order["name"],
        "PBS_O_LOGNAME": order["owner"],
        "PBS_O_QUEUE": str(facts.get("queue") or QUEUE),
        "PBS_QUEUE": str(facts.get("queue") or QUEUE),
        **more_exports(order["nodes"], facts),
        **slurm_exports(job, order["name"], order["hosts"], facts),
        **named,
    }


def nodes_text(hosts: Sequence[str], facts: Dict[str, Any]) -> bytes:
    """What PBS_NODEFILE has."""
    times = times_of(read_chunks(facts.get("chunks", "")), len(hosts))
    return "".join(f"{host}\n" * count for host, count in zip(hosts, times)).encode()


def change_of(folder: str) -> str:
    """What changes to a folder, or to the owner's home where there is no such folder."""
    return f"cd {shlex.quote(folder)} 2>/dev/null || {{ moved={shlex.quote(folder)}; cd || cd /; }}" if folder else "cd || cd /"


class Way(NamedTuple):
    """How an owner's shell gets what the run's folder has: shown there, or carried after the text; the word that it says; and
    whether a login shell is before the script."""

    own: str
    word: str
    is_shown: bool
    is_login: bool


def text_of(job: str, order: Order, hosts: bytes, shell: str, script: bytes, way: Way) -> str:
    """The text for the shell that runs a job. A script that names its program itself is started by that."""
    facts, exports = order["facts"], exports_of(job, order)
    variables = variables_text(facts, (*exports, *OF_THE_RUN, *HOST_FILES))
    chosen = interpreter_of(facts, order["hosts"][0])
    keep, login, own_variables = ":", ":", variables
    if way.is_login:
        reader = reader_of(chosen or named_words(script), shell)
        keep, login, own_variables = login_texts(way.word, umask_of(facts), variables, reader)
    carried = (0 if way.is_shown else len(hosts) + len(script)) + (len(os.fsencode(keep)) if way.is_login else 0)
    return TEXT.format(
        **files_of(job, order),
        is_other=other_than_this(order["owner"]),
        places=places_text(job, carried),
        ready=SHOWN.format(own=shlex.quote(way.own)) if way.is_shown else CARRIED.format(size=len(hosts), more=len(script)),
        word=way.word,
        unwritable=UNWRITABLE,
        exports="\n".join(f"{name}={shlex.quote(value)}; export {name}" for name, value in exports.items()),
        umask=umask_of(facts),
        words=script_words(facts),
        shell="" if script.startswith(b"#!") else shlex.quote(shell),
        without_execution=without_execution(script),
        mpi=mpi_text(),
        keep=keep,
        login=login,
        own_variables=own_variables,
        interpreter=f'set -- {" ".join(map(shlex.quote, chosen))} "$script"' if chosen else ":",
    )


def places_text(job: str, carried: int = 0) -> str:
    """What makes a folder with room for so many bytes, as the owner."""
    return PLACES.format(job=job, room=LEAST_ROOM + carried)


def other_than_this(owner: str) -> str:
    """What keeps another's shell from running as this account, as when the configured command changes no user."""
    if owner == account():
        return ":"
    why = f"nettlebeam: start runs jobs of {owner} as {account()}, who could read and change the site"
    return f'[ "$(id -u)" != {os.getuid()} ] || {{ echo {shlex.quote(why)} >&2; exit 255; }}'


def script_words(facts: Dict[str, Any]) -> str:
    """What gives a job's script the words that it is called with."""
    try:
        words = shlex.split(str(facts.get("script_words", "")))
    except ValueError:
        words = []  # no utility submits such words
    return f'set -- "$@" {" ".join(map(shlex.quote, words))}' if words else ":"


def named_words(script: bytes) -> List[str]:
    """The program that a script's first line names, and what stands after it as one word; none if it names none."""
    line = script.partition(b"\n")[0]
    return os.fsdecode(line[2:LONGEST_FIRST_LINE]).strip().split(None, 1) if line.startswith(b"#!") else []


def without_execution(script: bytes) -> str:
    """What has a script that names its program started by that where nothing may be executed in the job's folder, as on a file system
    that is mounted so. The kernel takes what stands behind the program as one word."""
    if not script.startswith(b"#!"):
        return ":"
    named = " ".join(map(shlex.quote, named_words(script)))
    why = "nothing may be executed in ${script%/*} (noexec), so the script is started by the program that its first line names"
    return f'[ -x "$script" ] || {{ echo "nettlebeam: {why}" >&2; set -- {named} "$script"; }}'


def files_of(job: str, order: Order) -> Dict[str, str]:
    """Where the job's files are, as words of a shell: what changes to their folder, and their names there."""
    name, number = order["name"], order["number"]
    return placed(change_of(order["folder"]), f"{name}.o{number}", f"{name}.e{number}", job, order["facts"])


def message_text(files: Dict[str, str], names: Sequence[str]) -> str:
    """The text for a shell of the owner that puts what it reads behind what files of a job have."""
    first, *others = dict.fromkeys(files[name] for name in names)  # both may be one
    return f"{files['change']}\ntee -a {' '.join(others)} >> {first}\n" if others else f"{files['change']}\ncat >> {first}\n"


def clean_text(job: str) -> str:
    """The words for a shell of the owner that remove what a job's shell has left."""
    return " ".join(["rm -rf --", *(f"{place}/nettlebeam-{job}.??????" for place in ('"${TMPDIR:-/tmp}"', "/var/tmp", '"${HOME:-/}"'))])


def environment_of(owner: pwd.struct_passwd) -> Dict[str, str]:
    """The environment that the configured command is started with."""
    return {
        "HOME": owner.pw_dir,
        "LOGNAME": owner.pw_name,
        "PATH": PATH,
        "SHELL": owner.pw_shell or "/bin/sh",
        "USER": owner.pw_name,
    }


def as_owner(start: Sequence[str], owner: str, name: str) -> List[str]:
    """The words that run others as the owner. A command that helps a job has another name than the job itself."""
    return [word.replace("{user}", owner).replace("{id}", name) for word in start]


def shell_reading(size: int) -> List[str]:
    """A shell that runs the text of so many bytes at the head of its standard input."""
    return ["/bin/sh", "-c", f'eval "$(head -c {size})"']


def account() -> str:
    """The login name of this service."""
    return pwd.getpwuid(os.getuid()).pw_name
