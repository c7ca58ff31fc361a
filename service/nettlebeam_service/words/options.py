"""The words of the utilities: options and operands by the utility syntax of POSIX.1-2017, and as PBS's utilities take them, with
options behind operands."""
from __future__ import annotations

TYPE_CHECKING = False
if TYPE_CHECKING:
    from typing import List, Optional, Tuple

    Options = List[Tuple[str, Optional[str]]]

# the letters with an argument
OPTIONS = {
    "qsub": "AabCcDdeFGJjKkLlMmNoPpqRrSTtuvWw",
    "qalter": "AaceJjklMmNoprStuvW",
    "qselect": "AhlNpqsu",
    "qsig": "s",
    "qstat": "uFD",
    "qdel": "mW",
    "qhold": "h",
    "qrls": "h",
    "pbsnodes": "vCF",
    "tracejob": "cfnpw",
}


# those of qsub without one
FLAGS = "fhInVXxz"


class Fault(Exception):
    """The words can't be asked."""


def naming(option: str, argument: str, fault: Fault) -> Fault:
    """A fault of an option's argument that names both."""
    text = str(fault)
    if text.startswith(option):
        return fault
    return Fault(f"{option} {text}" if text.startswith(argument) else f"{option} {argument}: {text}")


def seconds_of(value: str) -> str:
    """A time limit in seconds, where it is given as MM:SS, HH:MM:SS or DD:HH:MM:SS; what has another form is left to the site."""
    parts = value.split(":")
    if not 2 <= len(parts) <= 4 or not all(it.isascii() and it.isdigit() and len(it) <= 9 for it in parts):
        return value
    sums = [int(it) * unit for it, unit in zip(reversed(parts), (1, 60, 3600, 86_400))]
    return str(sum(sums))


def parse_front(utility: str, words: List[str]) -> Tuple[Options, List[str], bool]:
    """The options in front of the first operand, the words from there on, and whether `--` ended the options. An option whose
    argument is missing has none: the site says so."""
    taking, place = OPTIONS.get(utility, ""), 0
    options: Options = []
    while place < len(words):
        word = words[place]
        if word == "--":
            return options, words[place + 1 :], True
        if not word.startswith("-") or word == "-":
            break
        place += 1
        for index, letter in enumerate(word[1:], 2):
            if letter not in taking:
                options.append((letter, None))
                continue
            argument: Optional[str] = word[index:] or None
            if argument is None and place < len(words):
                argument = words[place]
                place += 1
            options.append((letter, argument))
            break
    return options, words[place:], False


def unknown_option(words: List[str]) -> str:
    """The first option of a qsub that is none, as it was typed; nothing if all are known."""
    place = 0
    while place < len(words) and words[place].startswith("-") and words[place] not in ("-", "--"):
        word, place = words[place], place + 1
        for index, letter in enumerate(word[1:], 2):
            if letter in OPTIONS["qsub"]:
                place += word[index:] == ""  # the next word is its argument
                break
            if letter not in FLAGS:
                return word if word.startswith("--") else f"-{letter}"
    return ""


def parse(utility: str, words: List[str]) -> Tuple[Options, List[str]]:
    """The options of a utility, and its operands."""
    options, operands, _ = parse_front(utility, words)
    return options, operands


def parse_anywhere(utility: str, words: List[str]) -> Tuple[Options, List[str]]:
    """The same where options may stand behind operands, up to `--`."""
    options: Options = []
    operands: List[str] = []
    while words:
        some, words, is_ended = parse_front(utility, words)
        options += some
        if is_ended:
            return options, operands + words
        operands += words[:1]
        words = words[1:]
    return options, operands


class Words:
    """The words of a utility, read once: its options, its operands, and the words for the site, which are those that were given
    unless an option stands behind an operand: then all options are put in front, as POSIX wants them."""

    def __init__(self, utility: str, words: List[str]):
        self.options, behind, is_ended = parse_front(utility, words)
        self.operands = behind
        self.of_site = words
        if not is_ended and any(word.startswith("-") and word != "-" for word in behind):
            more, self.operands = parse_anywhere(utility, behind)
            self.options += more
            self.of_site = [*as_words(self.options), "--", *self.operands]


def as_words(options: Options) -> List[str]:
    """The words that options are."""
    return [word for letter, argument in options for word in ([f"-{letter}"] if argument is None else [f"-{letter}", argument])]
