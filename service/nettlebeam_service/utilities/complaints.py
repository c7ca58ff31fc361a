"""What is told where the site doesn't do what the words of a utility ask: its answer, and its words as they are."""
from __future__ import annotations

from ..common.ask import Told
from ..words.options import FLAGS, OPTIONS

TYPE_CHECKING = False
if TYPE_CHECKING:
    from typing import Dict, List, Optional, Tuple

    Options = List[Tuple[str, Optional[str]]]

# the options that the site has itself; what it answers to these alone is handed on as it is
OF_SITE = {"qsub": "AhlNpC", "qalter": "AlNp", "qhold": "h", "qrls": "h"}
PBS_LISTS = (":", "select", "ncpus", "mem")
USAGES = tuple(f"usage {number}" for number in range(1, 9))
BAD_VALUE, UNKNOWN_SITE = "usage 4", "usage 6"
NOT_ASKED = 2  # the status of words that the service takes for none


def is_plain(utility: str, options: Options) -> bool:
    """Whether the site has all options itself, so that its answer is handed on to the last byte."""
    is_list = any(mark in (argument or "") for letter, argument in options if letter == "l" for mark in PBS_LISTS)
    more = set(OPTIONS.get(utility, "") + FLAGS) - set(OF_SITE.get(utility, ""))
    return not is_list and more.isdisjoint(letter for letter, _ in options)


def explained(utility: str, options: Options, told: Told, names: Dict[str, str]) -> Told:
    """What the site answered, and where it is about the options which these are, those of the script among them; some have other
    names than those of qsub. What PBS has besides is complained of on standard error alone, so that nothing takes a complaint for
    an identifier."""
    given = [(names.get(letter, f"-{letter}"), argument) for letter, argument in options if argument is not None]
    queue = dict(options).get("q")
    if queue and told.begins(f"{queue}: "):
        return Told(told.status, b"", f"{names.get('q', '-q')} {told.words}")
    words = told.words
    if given and (told.is_just(BAD_VALUE, UNKNOWN_SITE) or told.status == NOT_ASKED):
        words += f"\nthe options are {' '.join(f'{name} {argument}' for name, argument in given)}"
    is_complaint = told.is_just(*USAGES) or utility == "qsub"
    return Told(told.status, b"" if is_complaint and not is_plain(utility, options) else told.answer, words)
