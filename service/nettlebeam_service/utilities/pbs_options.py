"""The options of PBS's qsub that POSIX's profile here doesn't have."""
from __future__ import annotations

import os
import time

from ..words.dates import moment_of
from ..words.dependencies import read_depends
from ..words.options import Fault, naming
from ..words.ranges import range_text, read_range
from .other_options import OTHERS

TYPE_CHECKING = False
if TYPE_CHECKING:
    from typing import Callable, Dict, List, Optional, Tuple

    from .submitting import Submission

    Option = Callable[[Submission, str], None]

MOST_VARIABLES = 1024 * 1024
LONGEST_VARIABLE = 128 * 1024 - 1  # more isn't taken by the kernel of one word
LONGEST_PATH = 4000
# what belongs to the machine, the account or the shell that qsub is called by
NOT_OF_JOBS = ("PWD", "OLDPWD", "SHLVL", "_", "DISPLAY", "TMPDIR", "HOME", "USER", "LOGNAME", "SHELL")
OUR_OWN = ("PBS_", "NETTLEBEAM_")


def path_of(text: str, letter: str) -> str:
    """A path of the folder of the submission, without the host in front."""
    head, colon, rest = text.partition(":")
    path = rest if colon and "/" not in head else text
    if not path:
        raise Fault(f"-{letter} {text}: no path")
    if len(path) > LONGEST_PATH or "\n" in path:
        raise Fault(f"-{letter}: this path can't be had")
    folder = path.endswith("/") or path == "."
    whole = os.path.normpath(os.path.join(os.getcwd(), path))
    return whole + "/" if folder and whole != "/" else whole


def one_of(texts: Tuple[str, ...], letter: str, text: str) -> str:
    """A text that must be one of these."""
    if text not in texts:
        raise Fault(f"-{letter} {text}: none of {', '.join(texts)}")
    return text


def join(submission: Submission, text: str) -> None:
    """-j: whether output and errors are one file."""
    submission.facts["join"] = one_of(("oe", "eo", "n"), "j", text)


def keep(submission: Submission, text: str) -> None:
    """-k: what stays in the home of its owner."""
    if text != "n" and (not text or not set(text) <= set("oed")):
        raise Fault(f"-k {text}: none of o, e, oe, d and n")
    submission.facts["keep"] = "" if text == "n" or "d" in text else text


def queue(submission: Submission, text: str) -> None:
    """-q: a queue, or a site to run at, which the service knows."""
    submission.facts["queue"] = text


def shell(submission: Submission, text: str) -> None:
    """-S: what runs the script, by the host."""
    if not all(part.partition("@")[0].startswith("/") for part in text.split(",")):
        raise Fault(f"-S {text}: give whole paths, as /bin/bash or /bin/bash@host")
    submission.facts["interpreter"] = text


def mail(submission: Submission, text: str) -> None:
    """-m: when mail is sent."""
    if text != "n" and (not text or not set(text) <= set("abej")):
        raise Fault(f"-m {text}: give letters of a, b, e and j, or n")
    submission.facts["mail"] = text


def mail_to(submission: Submission, text: str) -> None:
    """-M: to whom."""
    people = text.split(",")
    if not all(it and it.isprintable() and " " not in it and not it.startswith("-") for it in people):
        raise Fault(f"-M {text}: no list of users")
    submission.facts["mail_to"] = text


def begin_at(submission: Submission, text: str) -> None:
    """-a: when it may begin."""
    submission.facts["at"] = str(moment_of(text, time.time()))


def array(submission: Submission, text: str) -> None:
    """-J and -t: an array."""
    indices, most = read_range(text)
    submission.facts["array"] = range_text(indices, most)


def attributes(text: str) -> List[Tuple[str, str]]:
    """The pairs of -W; a part without a name belongs to the value before."""
    pairs: List[Tuple[str, str]] = []
    for part in text.split(","):
        name, mark, value = part.partition("=")
        if mark:
            pairs.append((name.strip(), value))
        elif pairs:
            pairs[-1] = (pairs[-1][0], f"{pairs[-1][1]},{part}")
        else:
            raise Fault(f"-W {text}: no list of attributes with values")
    return pairs


def more_attributes(submission: Submission, text: str) -> None:
    """-W: attributes."""
    for name, value in attributes(text):
        if name == "depend":
            read_depends(value)
            submission.facts["depend"] = value
        elif name == "block":
            submission.is_blocking = one_of(("true", "false"), "W block=", value) == "true"
        elif name == "umask":
            if not value or len(value) > 4 or not set(value) <= set("01234567"):
                raise Fault(f"-W umask={value}: no octal number")
            submission.facts["umask"] = value
        elif name in ("stagein", "stageout"):
            raise Fault(f"-W {name}: no file is copied for a job here: have the script copy it by cp or scp")
        else:
            submission.say(f"-W {name} is without effect here")


def rerun(submission: Submission, text: str) -> None:
    """-r: no job begins twice."""
    if one_of(("y", "n"), "r", text) == "y":
        submission.say("-r y is without effect: no job begins twice here")


def checkpoint(submission: Submission, text: str) -> None:
    """-c: there are no checkpoints."""
    if text != "n":
        submission.say(f"-c {text} is without effect: there are no checkpoints here")


def as_user(submission: Submission, text: str) -> None:
    """-u: a job runs as who submits it."""
    import pwd

    me = pwd.getpwuid(os.geteuid()).pw_name
    if any(part.partition("@")[0] != me for part in text.split(",")):
        submission.say(f"-u {text} is without effect: a job runs as {me}, who submits it")


def project(submission: Submission, text: str) -> None:
    """-P: the account, too."""
    from .submitting import set_account

    set_account(submission, text)


BY_LETTER: Dict[str, Option] = {
    **OTHERS,
    "a": begin_at,
    "c": checkpoint,
    "e": lambda submission, text: submission.facts.update(err=path_of(text, "e")),
    "J": array,
    "j": join,
    "k": keep,
    "M": mail_to,
    "m": mail,
    "o": lambda submission, text: submission.facts.update(out=path_of(text, "o")),
    "P": project,
    "q": queue,
    "r": rerun,
    "S": shell,
    "t": array,
    "u": as_user,
    "W": more_attributes,
    "z": lambda submission, text: setattr(submission, "is_silent", True),
}


def apply_more(submission: Submission, options: List[Tuple[str, Optional[str]]]) -> None:
    """Reads these options. Of one that is given twice the last counts; lists of variables and of attributes are joined."""
    if any(letter == "V" for letter, _ in options):
        submission.variables = {name: value for name, value in os.environ.items() if is_of_jobs(name)}
    last = {letter: place for place, (letter, _) in enumerate(options)}
    for place, (letter, argument) in enumerate(options):
        if letter == "v" and argument is not None:
            submission.variables.update(variables_of(submission, argument))
        elif letter in BY_LETTER and (letter == "W" or place == last[letter]):
            try:
                BY_LETTER[letter](submission, argument or "")
            except Fault as fault:
                raise naming(submission.option(letter), argument or "", fault) from None
    for key in ("out", "err") if submission.output_folder else ():
        if key[0] not in submission.facts.get("keep", ""):
            submission.facts.setdefault(key, submission.output_folder)
    size = sum(len(os.fsencode(name)) + len(os.fsencode(value)) + 2 for name, value in submission.variables.items())
    if size > MOST_VARIABLES:
        raise Fault(f"the variables have {size} bytes, and at most {MOST_VARIABLES} are taken")
    for name, value in submission.variables.items():
        if len(os.fsencode(name)) + len(os.fsencode(value)) + 2 > LONGEST_VARIABLE:
            raise Fault(f"the variable {name} has more than {LONGEST_VARIABLE} bytes")


def is_of_jobs(name: str) -> bool:
    """Whether -V hands a variable on."""
    return name not in NOT_OF_JOBS and not name.startswith(OUR_OWN)


def split_variables(text: str) -> List[str]:
    """The parts of a list of variables. A comma in quotes, or behind a backslash, is part of a value."""
    parts: List[str] = []
    part, quote, place = "", "", 0
    while place < len(text):
        char = text[place]
        place += 1
        if char == "\\" and place < len(text) and text[place] in ",\\'\"":
            part, place = part + text[place], place + 1
        elif char == quote or (not quote and char in "'\""):
            quote = "" if quote else char
        elif char == "," and not quote:
            parts, part = [*parts, part], ""
        else:
            part += char
    return [*parts, part]


def variables_of(submission: Submission, text: str) -> Dict[str, str]:
    """The variables that -v names, or gives values."""
    found: Dict[str, str] = {}
    for part in split_variables(text) if text.strip() else ():
        name, mark, value = part.partition("=")
        name = name.strip()
        if not name or "\0" in part:
            raise Fault(f"-v {text[:100]}: no list of variables")
        if mark:
            found[name] = value
        elif name in os.environ:
            found[name] = os.environ[name]
        else:
            submission.say(f"-v {name}: there is no such variable here")
    return found
