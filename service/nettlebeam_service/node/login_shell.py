"""The shell of a job's owner, and a login shell before the script, whose profile sets what `module load` and the like need.

The login shell becomes the script. So that a profile can't keep a script from running, a file with the job's own variables is
removed by the last step before the script: while it is there, the script hasn't run, and runs without a login shell. Nothing that
a profile writes is in the job's files.
"""
from __future__ import annotations

import os
import shlex
from typing import List, Sequence

USUAL = "/bin/sh"
READERS = ("ash", "bash", "dash", "ksh", "ksh93", "mksh", "sh", "zsh")  # which know -l and -c together
SHELLS = (*READERS, "csh", "fish", "tcsh")

# what has the job's own variables go before those of a profile; `$0` is the file that has them
COMMAND = (
    'exec >&7 2>&8 7>&- 8>&- || exit; TMPDIR=${0%/*}; export TMPDIR; . "$0" || exit; '
    'command -p rm -f -- "$0"; [ ! -e "$0" ] || exit; exec "$@"'
)
KEEP = """\
cat > "$TMPDIR/{word}" << '{word}' || {{ rm -rf "$TMPDIR"; exit 255; }}
umask {umask}
cd "$PBS_JOBDIR"
{variables}
{word}"""
# a signal that ends the login shell is one that ends the job
RUN = """\
(exec {reader} -l -c {command} "$TMPDIR/{word}" "$@" 7>&1 8>&2 > /dev/null 2>&1)
status=$?
if [ ! -e "$TMPDIR/{word}" ] || [ "$status" -gt 128 ]
then
    cd /
    rm -rf "$TMPDIR"
    exit $status
fi
echo "nettlebeam: a login shell ended with status $status before the script, which runs without it:" {reader} -l >&2"""
WITHOUT = '. "$TMPDIR/{word}"\ncommand -p rm -f -- "$TMPDIR/{word}"'


def shell_of(configured: str, own: str) -> str:
    """What runs a script that doesn't name its program: the shell that is configured, else the owner's own if it is one."""
    return configured or (own if os.path.basename(own) in SHELLS else USUAL)


def reader_of(program: Sequence[str], own: str) -> List[str]:
    """The shell that reads the profile: that of the script, so that its functions get there, or the owner's."""
    words = list(program[: 2 if program and os.path.basename(program[0]) == "env" else 1])
    if words and os.path.basename(words[-1]) in READERS:
        return words
    return [own if os.path.basename(own) in READERS else USUAL]


def login_texts(word: str, umask: str, variables: str, reader: Sequence[str]) -> List[str]:
    """What keeps the job's variables, what runs the script behind a login shell, and what sets them where that has failed."""
    words = " ".join(map(shlex.quote, reader))
    return [
        KEEP.format(word=word, umask=umask, variables=variables),
        RUN.format(word=word, reader=words, command=shlex.quote(COMMAND)),
        WITHOUT.format(word=word),
    ]
