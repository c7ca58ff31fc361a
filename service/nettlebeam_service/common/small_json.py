"""JSON for the utilities: a user waits for the start of a utility at each call, and the library's `json` takes longer to load
than all else that they need, so they use what it is made of. An interpreter that has this otherwise takes the library."""
from __future__ import annotations

TYPE_CHECKING = False
if TYPE_CHECKING:
    from typing import Any


class Reading:
    """How values are read: as the library does it."""

    strict = True
    object_hook = None
    object_pairs_hook = None
    parse_float = float
    parse_int = int
    parse_constant = float


try:
    from _json import encode_basestring_ascii as quoted
    from _json import make_scanner

    scan: Any = make_scanner(Reading())  # type: ignore[arg-type]
except (ImportError, TypeError):
    from json import dumps as quoted  # type: ignore[assignment]

    scan = None


def dumps(value: Any) -> str:
    """The text of a value that is made of dictionaries with texts as keys, lists, texts, whole numbers, truths and None."""
    if isinstance(value, str):
        return str(quoted(value))
    if value is None or isinstance(value, bool):
        return {None: "null", True: "true", False: "false"}[value]
    if isinstance(value, dict):
        return "{" + ", ".join(f"{quoted(key)}: {dumps(it)}" for key, it in value.items()) + "}"
    if isinstance(value, (list, tuple)):
        return "[" + ", ".join(map(dumps, value)) + "]"
    return str(int(value))


def loads(text: str) -> Any:
    """The value of a text. ValueError where it is none."""
    if scan is None:
        from json import loads as read

        return read(text)
    try:
        value, end = scan(text, 0)
    except StopIteration:
        raise ValueError("no JSON") from None
    if text[end:].strip():
        raise ValueError("something stands behind the JSON")
    return value
