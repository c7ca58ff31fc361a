"""What the utilities that an earlier version put in PREFIX/bin import, which an update replaces one by one."""
from __future__ import annotations

from .utilities.by_name import main

__all__ = ["main"]
