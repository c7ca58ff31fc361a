"""Whose journal a file is: its first entry, behind a gate, a blank, a digest and a blank, is `nettlebeam FORMAT SITE ..`."""
from __future__ import annotations

LONGEST = 4096  # bytes of which the name is among the first
NAME_PLACE = 4


class Nameless(Exception):
    """The file doesn't tell whose it is."""


def owner_of(path: str) -> str:
    """The name of the site whose journal this is. OSError where the file can't be read."""
    with open(path, "rb") as file:
        words = file.readline(LONGEST).decode("ascii", "replace").split()
    if len(words) <= NAME_PLACE or words[0] != "+" or words[2] != "nettlebeam":
        raise Nameless("it doesn't begin with the name of a site")
    return words[NAME_PLACE]
