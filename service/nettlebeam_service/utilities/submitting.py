"""`qsub`: a script with its options, those of POSIX.1-2017 and those of PBS, on the command line and in its directives."""
from __future__ import annotations

import os
import sys

from ..common.ask import Told, ask
from ..words.options import OPTIONS, Fault, parse, unknown_option
from ..words.resources import Resources, without_effect
from .directives import directives

TYPE_CHECKING = False
if TYPE_CHECKING:
    from typing import Dict, List, Optional, Tuple

    Options = List[Tuple[str, Optional[str]]]

MOST_BYTES = 16 * 1024 * 1024
MOST_ARGUMENTS = 2000
LONGEST_NAME = 15
LONGEST_ACCOUNT = 63
ACCOUNT_KEPT = "the account {} is kept by the service: qstat -f shows it, and the site's own listings don't"
FROM_ENVIRONMENT = (("HOME", "home"), ("LANG", "lang"), ("PATH", "path"), ("SHELL", "shell"), ("TZ", "tz"))


class Submission:
    """What is submitted: the words for the site, the facts for the job, and what is said to the user beside."""

    def __init__(self) -> None:
        self.words: List[str] = []
        self.facts: Dict[str, str] = {}
        self.said: List[str] = []
        self.resources = Resources()
        self.variables: Dict[str, str] = {}
        self.output_folder = ""  # of files for which no option names another place
        self.is_blocking = False
        self.is_silent = False
        self.utility = "qsub"
        self.form = "{name}\n"
        self.has_brackets = True
        self.option_names: Dict[str, str] = {}  # of those that have another name than that of qsub

    def option(self, letter: str) -> str:
        """The option that a letter of qsub is."""
        return self.option_names.get(letter, f"-{letter}")

    def answer(self, name: str) -> bytes:
        """What is written of the job that was made."""
        return b"" if self.is_silent else self.form.format(name=name if self.has_brackets else name.replace("[]", "")).encode()

    def say(self, text: str) -> None:
        """Has something said, once."""
        if text not in self.said:
            self.said.append(text)


def is_name(text: str) -> bool:
    """Whether a text is the name of a job."""
    letters = text.replace("-", "").replace("_", "").replace(".", "")
    return text.isascii() and text[:1].isalpha() and (letters.isalnum() or not letters)


def read_script(operands: List[str]) -> bytes:
    """The script that is named, or that of standard input."""
    try:
        if operands and operands[0] != "-":
            with open(operands[0], "rb") as file:
                script = file.read(MOST_BYTES + 1)
        else:
            script = sys.stdin.buffer.read(MOST_BYTES + 1)
    except OSError as fault:
        raise Fault(f"{operands[0] if operands else 'standard input'}: {fault.strerror}") from None
    if len(script) > MOST_BYTES:
        raise Fault(f"a script has at most {MOST_BYTES} bytes")
    return script


def quoted(word: str) -> str:
    """A word as a shell reads it."""
    return "'" + word.replace("'", "'\"'\"'") + "'"


def facts() -> Dict[str, str]:
    """What the job is told of where it was submitted."""
    umask = os.umask(0o077)
    os.umask(umask)
    try:
        folder = os.getcwd()
    except OSError as fault:
        raise Fault(f"this folder: {fault.strerror}") from None
    told = {"folder": folder, "host": os.uname().nodename, "umask": f"{umask:03o}"}
    for name, key in FROM_ENVIRONMENT:
        if name in os.environ:
            told[key] = os.environ[name]
    return told


def name_job(submission: Submission, name: str) -> None:
    """Gives the job a name. The site has short ones; the job's files have the whole."""
    submission.words += ["-N", name]
    if len(name) > LONGEST_NAME and is_name(name):
        submission.words[-1] = name[:LONGEST_NAME]
        submission.facts["name"] = name
        submission.say(f"the queue tells the first {LONGEST_NAME} characters of the name {name}")


def is_account(text: str) -> bool:
    """Whether a text is an account as centres have them, though the site takes none of its form."""
    is_of_site = is_name(text) and len(text) <= LONGEST_NAME
    has_form = text.isascii() and all(it.isalnum() or it in "_.:/+@-" for it in text)
    return has_form and 0 < len(text) <= LONGEST_ACCOUNT and not is_of_site


def set_account(submission: Submission, text: str) -> None:
    """Gives the job an account. One that the site doesn't take is kept by the service."""
    submission.facts.pop("account", None)
    if not is_account(text):
        submission.words += ["-A", text]
        return
    submission.facts["account"] = text
    submission.say(ACCOUNT_KEPT.format(text))


def apply(submission: Submission, options: Options) -> None:
    """Reads the options; of one that is given twice the last counts, but for lists of resources and variables."""
    last = dict(options)
    for letter, argument in options:
        if letter == "l" and argument is not None:
            submission.resources.add(argument)
    if any(letter not in "AhlNpC" for letter in last):
        from .pbs_options import apply_more

        apply_more(submission, options)
    for letter in "Ap":
        if letter in last and last[letter] is None:
            submission.words.append(f"-{letter}")
        elif letter == "p" and letter in last:
            submission.words += ["-p", str(last["p"])]
        elif letter in last:
            set_account(submission, str(last["A"]))
    if "h" in last:
        submission.words.append("-h")
    for letter in "lN":
        if letter in last and last[letter] is None:
            submission.words.append(f"-{letter}")
    name = last.get("N")
    if name is not None:
        name_job(submission, name)


def read(words: List[str]) -> Tuple[Submission, Options, bytes]:
    """What the words of a qsub submit, its options with those of the script, and the script."""
    submission = Submission()
    options, operands = parse("qsub", words)
    for letter, argument in options:
        if argument is None and letter in OPTIONS["qsub"] and letter not in "AlNp":  # the site says what is wrong with these
            raise Fault(f"-{letter} needs an argument")
    is_program = bool(operands) and words[len(words) - len(operands) - 1 : len(words) - len(operands)] == ["--"]
    submission.facts = facts()
    if is_program:
        script, in_script = f"#!/bin/sh\nexec {' '.join(map(quoted, operands))}\n".encode("utf-8", "surrogateescape"), []
    else:
        prefix = dict(options).get("C")
        script = read_script(operands)
        in_script = directives(script, os.environ.get("PBS_DPREFIX", "#PBS") if prefix is None else prefix)
        if operands[1:]:
            submission.say(f"{operands[1]} is passed over, since a script is given no words")
    all_options = in_script + options
    named = os.path.basename(operands[0]) if operands and not is_program else ""
    if is_name(named) and not any(letter == "N" for letter, _ in all_options):
        all_options.append(("N", named))
    submission.facts["arguments"] = " ".join(words)[:MOST_ARGUMENTS]
    return submission, all_options, script


def submit(path: str, words: List[str], role: Optional[str]) -> Told:
    """Submits a job with its script. What an unknown option's argument is nobody knows, so that nothing is read then."""
    unknown = unknown_option(words)
    if unknown:
        return Told(1, b"usage 2\n", f"usage 2 (UnknownOption): qsub has no option {unknown}")
    submission, options, script = read(words)
    return send(path, submission, options, script, role)


def send(path: str, submission: Submission, options: Options, script: bytes, role: Optional[str]) -> Told:
    """Submits what has these options."""
    apply(submission, options)
    submission.words += submission.resources.words()
    submission.facts.update(submission.resources.facts())
    idle = without_effect(submission.resources.idle)
    if idle:
        submission.say(idle)
    variables = b"".join(os.fsencode(f"{name}={value}") + b"\0" for name, value in submission.variables.items())
    if variables:
        submission.facts["variables"] = str(len(variables))
    for line in submission.said:
        print(f"{submission.utility}: {line}", file=sys.stderr)
    told = ask(path, ["qsub", *submission.words], role, submission.facts, variables + script)
    if told.status in (1, 2):
        from .complaints import explained

        return explained("qsub", options, told, submission.option_names)
    name = told.name()
    told.answer = submission.answer(name) if not told.status else told.answer
    if submission.is_blocking and not told.status:
        from .blocking import wait_for

        sys.stdout.buffer.write(told.answer)
        sys.stdout.buffer.flush()
        return Told(wait_for(path, name), b"", told.words)
    return told
