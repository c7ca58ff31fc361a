"""The utilities around a job's one start: qselect, qsig, qmsg, qmove and qrerun, as POSIX.1-2017 has them where it can be so; and
the way to pbsnodes."""
from __future__ import annotations

from ..common.ask import Told, ask
from ..words.options import OPTIONS, Fault, parse

TYPE_CHECKING = False
if TYPE_CHECKING:
    from typing import Dict, List, Optional, Tuple


def read_words(utility: str, words: List[str], letters: str) -> Tuple[Dict[str, str], List[str]]:
    """The options of a utility, the last of a letter, and its operands. Fault where a letter isn't one of these."""
    options, operands = parse(utility, words)
    found: Dict[str, str] = {}
    for letter, argument in options:
        if letter not in letters:
            raise Fault(f"there is no option -{letter} here")
        if argument is None and letter in OPTIONS.get(utility, ""):
            raise Fault(f"-{letter} needs an argument")
        found[letter] = argument or ""
    return found, operands


def some(operands: List[str], what: str) -> List[str]:
    """The operands, of which there must be some."""
    if not operands:
        raise Fault(f"name {what}")
    return operands


def qsig(words: List[str], path: str, role: Optional[str]) -> Told:
    """`qsig [-s signal] job ..` sends a signal to jobs that run at this site."""
    options, jobs = read_words("qsig", words, "s")
    return ask(path, ["qsig", options.get("s", "TERM"), *some(jobs, "a job")], role)


def qmsg(words: List[str], path: str, role: Optional[str]) -> Told:
    """`qmsg [-EO] message job ..` writes a message behind the errors or the output of jobs that run at this site."""
    options, operands = read_words("qmsg", words, "EO")
    if len(operands) < 2 or not operands[0]:
        raise Fault("give a message and a job")
    files = "-" + "".join(letter for letter in "EO" if letter in (options or "E"))
    message = operands[0].encode("utf-8", "surrogateescape")
    return ask(path, ["qmsg", files, *operands[1:]], role, body=message)


def qmove(words: List[str], path: str, role: Optional[str]) -> Told:
    """`qmove sites job ..` lets jobs run at these sites and no others: it is `qalter -l sites=..`."""
    _, operands = read_words("qmove", words, "")
    if len(operands) < 2:
        raise Fault("give a site, or several joined by +, and a job")
    sites = operands[0].rpartition("@")[2]
    if not sites or not all(char.isalnum() or char in "+-" for char in sites):
        raise Fault(f"{operands[0]} is no site")
    return ask(path, ["qalter", "-l", f"sites={sites}", "--", *operands[1:]], role)


def qrerun(words: List[str]) -> Told:
    """`qrerun job ..` is refused: no job begins twice."""
    _, jobs = read_words("qrerun", words, "")
    lines = [f"{job} isn't run again, since no job begins twice: submit its script anew by qsub" for job in some(jobs, "a job")]
    return Told(1, b"", "\n".join(lines))


def run(utility: str, words: List[str], path: Optional[str], role: Optional[str]) -> Told:
    """Asks for what the user typed."""
    if utility == "qrerun":
        return qrerun(words)
    if path is None:
        raise Fault("NETTLEBEAM_SOCKET isn't set, and this machine hasn't one service of a site")
    if utility == "qselect":
        from .selecting import qselect

        return qselect(words, path)
    if utility == "tracejob":
        from .tracing import tracejob

        return tracejob(path, words, role)
    if utility == "pbsnodes":
        from .pbsnodes import pbsnodes

        return pbsnodes(path, words, role)
    return {"qsig": qsig, "qmsg": qmsg, "qmove": qmove}[utility](words, path, role)
