"""The form of a job's identifier, such as `1.argonne`."""
from __future__ import annotations

import re

IDENTIFIER = re.compile(r"[1-9][0-9]{0,9}\.[A-Za-z][A-Za-z0-9-]{0,14}\Z")
