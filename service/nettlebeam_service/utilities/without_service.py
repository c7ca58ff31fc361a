"""The utilities for a site without a service: the program is called for the directory NETTLEBEAM_DIR, as the user who is logged
in."""
from __future__ import annotations

import os
import sys

ROLES = ("", "operator", "admin")


def program_near(here: str) -> str:
    """The program beside a folder's utilities, or that of the repository; nothing where there is none."""
    return next((path for path in (f"{here}/nettlebeam", f"{here}/../nettlebeam") if os.access(path, os.X_OK)), "")


def main(name: str, words: list[str], here: str) -> int:
    """A utility: the program in this process's place. What it tells is the utility's answer."""
    import pwd

    program, role = program_near(here), os.environ.get("NETTLEBEAM_ROLE", "")
    if role not in ROLES:
        print(f"{name}: NETTLEBEAM_ROLE is neither operator nor admin: {role}", file=sys.stderr)
        return 2
    if not program:
        print(f"{name}: there is no program nettlebeam beside {here}/{name}", file=sys.stderr)
        return 2
    user = pwd.getpwuid(os.geteuid()).pw_name + (f"/{role}" if role else "")
    os.execv(program, [program, "at", os.environ["NETTLEBEAM_DIR"], user, name, *words])
