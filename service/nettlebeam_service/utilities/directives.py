"""The directives at the head of a script, with quotes as a shell reads them."""
from __future__ import annotations

from ..words.options import FLAGS, OPTIONS, Fault, parse

TYPE_CHECKING = False
if TYPE_CHECKING:
    from typing import List, Optional, Tuple

    Options = List[Tuple[str, Optional[str]]]


def words_of(text: str) -> List[str]:
    """The words of a line as a shell reads them, without any expansion."""
    words: List[str] = []
    word: Optional[str] = None
    quote, place = "", 0
    while place < len(text):
        char = text[place]
        place += 1
        if quote:
            if char == quote:
                quote = ""
            elif char == "\\" and quote == '"' and text[place : place + 1] in ('"', "\\", "$", "`"):
                word, place = (word or "") + text[place], place + 1
            else:
                word = (word or "") + char
        elif char in "\"'":
            quote, word = char, word or ""
        elif char == "\\" and place < len(text):
            word, place = (word or "") + text[place], place + 1
        elif char.isspace():
            words += [] if word is None else [word]
            word = None
        elif char == "#" and word is None:
            break
        else:
            word = (word or "") + char
    if quote:
        raise Fault(f"a quote {quote} isn't closed")
    return words if word is None else [*words, word]


def directives(script: bytes, prefix: str) -> Options:
    """The options of the directives at the head of a script: behind the prefix, up to the first line that is no comment."""
    found: Options = []
    for number, line in enumerate(script.split(b"\n"), 1):
        text = line.decode("utf-8", "surrogateescape").strip()
        if prefix and text.startswith(prefix):
            try:
                found += options_in(text[len(prefix) :])
            except Fault as fault:
                raise Fault(f"line {number}: {text}: {fault}") from None
        elif text and not text.startswith("#"):
            break
    return found


def options_in(text: str) -> Options:
    """The options of one directive."""
    words = words_of(text)
    if words and words[0].startswith("--"):
        raise Fault(f"there is no option {words[0]} here")
    options, operands = parse("qsub", words)
    if operands:
        raise Fault(f"{operands[0]} is no option")
    for letter, argument in options:
        check_known(letter, argument)
    return options


def check_known(letter: str, argument: Optional[str]) -> None:
    """Fault where there is no such option, or its argument is missing."""
    if letter in OPTIONS["qsub"]:
        if argument is None:
            raise Fault(f"-{letter} needs an argument")
    elif letter not in FLAGS:
        raise Fault(f"there is no option -{letter} here")
