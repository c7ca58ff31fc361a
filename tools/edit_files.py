"""Edits, which are wrong bodies: where they stand, what they change, and in which function."""
from __future__ import annotations

import os
import pathlib
import re
from typing import NamedTuple

TOP = pathlib.Path(__file__).resolve().parent.parent
FUNCTION = re.compile(r"( *)(?:pub(?:\([^)]*\))? )?(?:const )?fn (\w+)")
OF_ANOTHER = re.compile(r"\.\./(\w+)/specs/\w+\.antt$")
IMPL = re.compile(r"impl\b.*\{$")


class Flawed(Exception):
    """An edit that can't be applied."""


class Change(NamedTuple):
    """What an edit puts in the place of a text that stands once in a file."""

    path: str
    old: str
    new: str


def crate_names() -> list[str]:
    """The names of crates.txt, in its order."""
    lines = (line.split("#")[0].strip() for line in (TOP / "crates.txt").read_text().splitlines())
    return [line.split(":")[0].split()[0] for line in lines if line]


def listed(name: str) -> list[str]:
    """The libraries that crates.txt lists for a crate, those of the toolchain too."""
    for line in (TOP / "crates.txt").read_text().splitlines():
        head, _, libraries = line.split("#")[0].partition(":")
        if head.split()[:1] == [name]:
            return libraries.split()
    return []


def below(names: list[str]) -> list[str]:
    """The libraries of the repository below these crates, the lowest first."""
    own, found, waiting = crate_names(), set[str](), list(names)
    while waiting:
        waiting = [library for name in waiting for library in listed(name) if library in own and library not in found]
        found.update(waiting)
    return [name for name in own if name in found]


def edits_in(name: str, folder: str) -> list[pathlib.Path]:
    """The edits of one folder of a crate."""
    return sorted((TOP / "crates" / name / folder).glob("*.edit"))


def edits_of(name: str) -> list[pathlib.Path]:
    """All edits of a crate."""
    return edits_in(name, "edits") + edits_in(name, "must-fail")


def with_edits() -> list[str]:
    """The crates that have edits."""
    return [name for name in crate_names() if edits_of(name)]


def crate_of(edit: pathlib.Path) -> str:
    """The name of the crate of an edit."""
    return edit.parent.parent.name


def changes_of(edit: pathlib.Path) -> list[Change]:
    """What an edit changes."""
    path, old, changes = "", "", list[Change]()
    for line in edit.read_text(encoding="utf-8").split("\n"):
        if line.startswith("file: "):
            path = line[len("file: ") :].strip()
            if os.path.normpath(path) != path or not (path.startswith(("src/", "specs/", "proofs/")) or OF_ANOTHER.match(path)):
                raise Flawed(f"{path} is no file below src/, specs/ or proofs/, and none of another crate's specs/")
            if not (edit.parent.parent / path).is_file():
                raise Flawed(f"there is no file {path}")
        elif line.startswith("old: "):
            old = line[len("old: ") :]
        elif line.startswith("new:"):
            if not path or not old:
                raise Flawed("a line 'new:' stands before any 'file:' or 'old:'")
            changes.append(Change(path, old, line[len("new:") :].removeprefix(" ")))
            old = ""
    if not changes:
        raise Flawed("it has no pair of 'old:' and 'new:'")
    return changes


def applied(edit: pathlib.Path, texts: dict[str, str]) -> dict[str, str]:
    """These texts of files and those that the edit changes, once it is applied."""
    found = dict(texts)
    for path, old, new in changes_of(edit):
        text = found.get(path) or (edit.parent.parent / path).read_text(encoding="utf-8")
        count = text.count(old)
        if count != 1:
            raise Flawed(f"an 'old:' text stands in {path} {count} times, and not once")
        if new == old:
            raise Flawed(f"a 'new:' text is its 'old:' text, so {path} stays as it is")
        found[path] = text.replace(old, new)
    return found


def flaw(edit: pathlib.Path) -> str | None:
    """Why an edit can't be applied, or None where it can."""
    try:
        applied(edit, {})
    except Flawed as why:
        return str(why)
    return None


def module_of(path: str) -> str:
    """The path of the module that a file below src/ is, empty at the crate's root."""
    words = path.removeprefix("src/").removesuffix(".rt").split("/")
    return "" if words in (["lib"], ["main"]) else "::".join(words)


def type_of(head: str) -> str:
    """How a check names what an impl is of: the type, and behind it the trait if there is one."""
    words = re.sub(r"^impl\b", "", head.rstrip("{ "))
    for _ in range(words.count("<")):
        words = re.sub(r"<[^<>]*>", "", words)
    words = words.split(" where ")[0].replace(" + ", " ")
    before, of_trait, name = words.partition(" for ")
    names = [part.split("::")[-1].strip() for part in (name, before) if part.strip()]
    return "".join(names) if of_trait else names[0]


def function_at(text: str, at: int) -> str | None:
    """The function of a module's text in whose body this place is, as a check names it below the module."""
    lines = text[: text.index("\n", at)].split("\n")
    for number in range(len(lines) - 1, -1, -1):
        found = FUNCTION.match(lines[number])
        if found and not found[1]:
            return found[2]
        if found:
            heads = [line for line in lines[:number] if IMPL.match(line)]
            return f"{type_of(heads[-1])}::{found[2]}" if heads else None
        if lines[number] == "}":
            return None
    return None


def functions_of(edit: pathlib.Path) -> set[str]:
    """The functions whose bodies an edit changes, each by its path below the crate; a whole module where it changes another
    item."""
    found = set[str]()
    for path, old, _ in changes_of(edit):
        text = (edit.parent.parent / path).read_text(encoding="utf-8")
        function = function_at(text, text.index(old)) if text.count(old) == 1 else None
        found.add("::".join(word for word in (module_of(path), function) if word))
    return found
