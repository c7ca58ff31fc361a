"""The options of qsub that Torque and OpenPBS have besides: each is done, or said to be without effect, or refused by its name."""
from __future__ import annotations

import os

from ..words.options import Fault
from .directives import words_of
from .submitting import quoted

TYPE_CHECKING = False
if TYPE_CHECKING:
    from typing import Callable, Dict

    from .submitting import Submission

    Option = Callable[[Submission, str], None]

IDLE = {
    "b": "qsub asks the service once",
    "f": "qsub ends once the job is submitted, or with -W block=true once it has ended",
    "K": "how long a job has to end is a matter of the site",
}
REFUSED = {
    "D": "a job has no root folder of its own here",
    "G": "no graphical program is run here",
    "I": "there are no interactive jobs here: submit a script",
    "L": "ask for nodes by -l nodes=NUMBER:ppn=PROCESSORS",
    "R": "files aren't removed here: send the output elsewhere by -o /dev/null or -e /dev/null",
    "T": "a job has no prologue of its own here: put its lines at the head of the script",
    "X": "there is no display for jobs here",
    "x": "there are no interactive jobs here: submit a script",
}


def folder(letter: str) -> Option:
    """What takes the folder that a job works in. Torque's -d leaves the output in that of the submission."""

    def take(submission: Submission, text: str) -> None:
        """Takes it."""
        path = os.path.normpath(os.path.join(os.getcwd(), text))
        if not text or "\n" in text or not os.path.isdir(path):
            raise Fault(f"-{letter} {text}: there is no such folder here")
        if letter == "d" and path != submission.facts.get("folder"):
            submission.output_folder = os.path.join(os.getcwd(), "")
        submission.facts["folder"] = path

    return take


def script_words(submission: Submission, text: str) -> None:
    """-F: the words that the script is called with, as a shell reads them."""
    submission.facts["script_words"] = " ".join(map(quoted, words_of(text)))


def idle(letter: str) -> Option:
    """What says that an option is without effect."""
    return lambda submission, text: submission.say(f"-{letter}{text and ' '}{text} is without effect: {IDLE[letter]}")


def refused(letter: str) -> Option:
    """What refuses an option."""

    def refuse(submission: Submission, text: str) -> None:
        """Refuses it."""
        raise Fault(f"-{letter}{text and ' '}{text}: {REFUSED[letter]}")

    return refuse


OTHERS: Dict[str, Option] = {
    **{letter: idle(letter) for letter in IDLE},
    **{letter: refused(letter) for letter in REFUSED},
    "d": folder("d"),
    "F": script_words,
    "w": folder("w"),
}
