"""Files that the disk has to keep."""
from __future__ import annotations

import json
import os
from typing import Any, Dict, Optional


def sync(path: str) -> None:
    """Has the disk keep what a file or a folder has."""
    descriptor = os.open(path, os.O_RDONLY | os.O_CLOEXEC)
    try:
        os.fsync(descriptor)
    finally:
        os.close(descriptor)


def put(path: str, data: bytes, keep: int = 0) -> None:
    """Writes a file anew, as it is known until the machine stops. So many bytes at least are taken of the disk, blanks behind
    the data."""
    with open(os.open(path, os.O_WRONLY | os.O_CREAT | os.O_TRUNC | os.O_CLOEXEC, 0o600), "wb") as file:
        file.write(data.ljust(keep))


def write(path: str, data: bytes, keep: int = 0) -> None:
    """Writes a file anew and syncs it."""
    put(path, data, keep)
    sync(path)


def remove(path: str) -> None:
    """Removes a file that may be there."""
    try:
        os.remove(path)
    except FileNotFoundError:
        pass


def read_text(path: str) -> str:
    """The text of a small file; nothing where it isn't there."""
    try:
        with open(path, encoding="utf-8", errors="replace") as file:
            return file.read(65_536)
    except FileNotFoundError:
        return ""


def read_json(path: str, is_line: bool = False) -> Optional[Dict[str, Any]]:
    """The object in a file, or in its first line; None where there is no such file, or it isn't whole."""
    try:
        with open(path, "rb") as file:
            value = json.loads(file.readline() if is_line else file.read())
    except (FileNotFoundError, NotADirectoryError, ValueError):
        return None
    return value if isinstance(value, dict) else None
