"""`qalter`: the values that the site has of a job, and what the service tells it and has it wait for; and what `qdel` takes of
PBS's options."""
from __future__ import annotations

import os
import time

from ..common.ask import Told, ask
from ..words.options import Fault, Words, as_words, naming
from ..words.resources import Resources, without_effect

TYPE_CHECKING = False
if TYPE_CHECKING:
    from typing import Dict, List, Optional, Tuple

    Options = List[Tuple[str, Optional[str]]]

OF_SERVICE = "aejkMmoSvVW"


def waits_in(letter: str, argument: str) -> Dict[str, str]:
    """The facts of -a and -W."""
    if letter == "a":
        from ..words.dates import moment_of

        return {"at": str(moment_of(argument, time.time()))}
    from ..words.dependencies import read_depends
    from .pbs_options import attributes

    found: Dict[str, str] = {}
    for name, value in attributes(argument):
        if name != "depend":
            raise Fault(f"-W {name}: only depend can be altered")
        try:
            if value:
                read_depends(value)
        except Fault as fault:
            raise naming("-W", argument, fault) from None
        found["depend"] = value
    return found


def facts_in(options: Options) -> Tuple[Dict[str, str], bytes, List[str]]:
    """The facts and the variables that options for the service give jobs anew, and what is said of them."""
    from .pbs_options import apply_more
    from .submitting import Submission

    for letter, argument in options:
        if argument is None and letter != "V":
            raise Fault(f"-{letter} needs an argument")
    submission = Submission()
    apply_more(submission, [(letter, argument) for letter, argument in options if letter not in "aW"])
    facts = submission.facts
    for letter, argument in options:
        if letter in "aW" and argument is not None:
            facts.update(waits_in(letter, argument))
    variables = b"".join(os.fsencode(f"{name}={value}") + b"\0" for name, value in submission.variables.items())
    return ({**facts, "variables": str(len(variables))} if variables else facts), variables, submission.said


def resource_facts(resources: Resources) -> Dict[str, str]:
    """What a new list of resources tells the job; the chunks of an older one go with its nodes."""
    if "nodes=" not in resources.pairs:
        return {}
    return {"chunks": "", "resources": "", **resources.facts()}


def name_in(options: Options) -> Tuple[Options, Dict[str, str]]:
    """The options with the name that the site takes, which is short, and the fact that has the whole name."""
    from .submitting import LONGEST_NAME, is_name

    name = dict(options).get("N") or ""
    if len(name) <= LONGEST_NAME or not is_name(name):
        return options, {}
    return [(letter, name[:LONGEST_NAME] if letter == "N" else argument) for letter, argument in options], {"name": name}


def account_in(options: Options) -> Tuple[Options, Dict[str, str]]:
    """The options without an account that the service keeps, and the fact that has it; of another one that none is kept."""
    from .submitting import is_account

    account = dict(options).get("A")
    if account is None or not is_account(account):
        return options, {"account": ""} if account else {}
    return [(letter, argument) for letter, argument in options if letter != "A"], {"account": account}


def alter(path: str, words: Words, role: Optional[str]) -> Told:
    """Alters jobs: what the site has of them, and behind that what the service keeps."""
    options, operands = words.options, words.operands
    resources = Resources()
    for letter, argument in options:
        if letter == "l" and argument is not None:
            resources.add(argument)
    others = [(letter, argument) for letter, argument in options if letter in OF_SERVICE]
    facts, variables, said = facts_in(others) if others else ({}, b"", [])
    of_site = [(letter, argument) for letter, argument in options if letter not in OF_SERVICE and (letter != "l" or argument is None)]
    if any(letter == "N" for letter, _ in of_site):
        of_site, named = name_in(of_site)
        facts.update(named)
    of_site, account = account_in(of_site) if any(letter == "A" for letter, _ in of_site) else (of_site, {})
    if account.get("account"):
        from .submitting import ACCOUNT_KEPT

        facts.update(account)
        said.append(ACCOUNT_KEPT.format(account["account"]))
    older = {**resource_facts(resources), **account}
    is_needed = bool(facts or older.get("chunks"))  # else only what was told of older nodes goes away
    facts.update(older)
    plain = as_words(of_site) + resources.words()
    told = Told(0, b"", "")
    if plain or not facts:
        told = ask(path, ["qalter", *plain, "--", *operands], role)
    if facts and (not plain or told.has_line("done")):
        by_service = ask(path, ["alter", *operands], role, facts, variables)
        if not plain or (is_needed and (not told.status or by_service.status > 1)):
            told = by_service
    told.words = "\n".join(filter(None, (*said, without_effect(resources.idle), told.words)))
    return told


def without_options(words: Words) -> Tuple[List[str], List[str]]:
    """The words of a `qdel` without PBS's options, and what is said of these."""
    options, operands = words.options, words.operands
    for letter, argument in options:
        if letter in "mW" and argument is None:
            raise Fault(f"-{letter} needs an argument")
    said = [f"-{letter}{f' {argument}' if argument else ''} is without effect here" for letter, argument in options if letter in "mpWx"]
    left = [(letter, argument) for letter, argument in options if letter not in "mpWx"]
    return [*as_words(left), "--", *operands], said
