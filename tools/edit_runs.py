"""Runs of the prover over crates with edits: each function whose body an edit makes wrong has to be refused.

Several edits of one crate are tried in one run where they change other functions and don't stand in one another's way: the
prover reads the libraries once, and proves these functions and those that they call. A function that is refused only since
it calls another that is wrong tells nothing of its own edit, which is then tried alone. An edit counts as refused where a
clause is not proved; where a proof just names what the edit took away, that shows nothing, and counts as failed."""
from __future__ import annotations

import os
import pathlib
import re
import shutil
import subprocess
import tempfile
from typing import NamedTuple

import edit_files
from edit_files import TOP

PROGRAM = shutil.which("rt") or "/usr/local/bin/rt"
KIT = pathlib.Path(PROGRAM).resolve().parent.parent
SECONDS = 1800
# What the prover says where a proof names what isn't there, and where values are known at which a clause is false, which
# holds whatever a proof names.
UNKNOWN = re.compile(r"has no field|is not in scope|has no `|was not admitted")
FALSE = re.compile(r"the goal fails at|allow values at which this goal is false|may be false: the known facts")
CALLS = re.compile(r"no proof: it calls|depends on")


class Found(NamedTuple):
    """What came of an edit: whether it was refused by a clause, and what to say."""

    refused: bool
    said: str


class Ran(NamedTuple):
    """What the prover ended with and said."""

    status: int
    lines: list[str]


def library(name: str) -> pathlib.Path:
    """Where a library of the repository or of the toolchain stands once it is built."""
    own = TOP / "crates" / name / "out" / "rlib" / f"{name}.rlib"
    return own if name in edit_files.crate_names() else KIT / "rlibs" / f"{name}.rlib"


def words_of(name: str) -> list[str]:
    """The words of a check of a crate, without the functions."""
    root = "src/main.rt" if (TOP / "crates" / name / "src" / "main.rt").is_file() else "src/lib.rt"
    return check_words(name, root, edit_files.listed(name), edit_files.below([name]))


def check_words(name: str, root: str, cited: list[str], below: list[str]) -> list[str]:
    """The words of a check of a crate that cites these libraries, over these of the repository."""
    words = [str(KIT / "bin" / "rattle"), "check", "--crate-name", name, root]
    for given in dict.fromkeys(["std", *cited]):
        words += ["--extern", f"{given}={library(given)}"]
    words += ["-L", f"dependency={KIT}/rlibs"]
    for given in below:
        words += ["-L", f"dependency={library(given).parent}"]
    words += ["--antt-project", str(KIT / "rattle" / "logic" / "antt-project.json")]
    return [*words, "--logic-built", str(KIT / "logic_built"), "--jobs", "1"]


def run(name: str, texts: dict[str, str], functions: list[str]) -> Ran:
    """Proves these functions of a crate, in which these files have other texts."""
    with tempfile.TemporaryDirectory(prefix="edit-") as folder:
        for part in ("src", "specs", "proofs"):
            if (TOP / "crates" / name / part).is_dir():
                shutil.copytree(TOP / "crates" / name / part, f"{folder}/{part}")
        for path, text in texts.items():
            pathlib.Path(folder, path).write_text(text, encoding="utf-8")
        words = words_of(name) + [word for function in functions for word in ("--only", function)]
        try:
            ran = subprocess.run(words, cwd=folder, stdin=subprocess.DEVNULL, stdout=subprocess.PIPE, stderr=subprocess.STDOUT,
                                 text=True, errors="replace", timeout=SECONDS, check=False)
        except subprocess.TimeoutExpired:
            return Ran(124, [f"the check had not ended after {SECONDS} seconds"])
        return Ran(ran.returncode, ran.stdout.splitlines())


def is_of(line: str, crate: str, function: str) -> bool:
    """Whether the line tells of the function, or of a closure in it."""
    module, _, own = function.rpartition("::")
    names = (f"{crate}::{function}", f"{crate}::{module}::fn::{own}", f"{crate}::fn::{function}")
    return any(line.startswith(f"fn {name}{behind}") for name in names for behind in (":", "::")) or f"::fn::{function}" in line


def proof_folders(function: str) -> tuple[str, ...]:
    """The folders in which a proof of the function, or of a closure in it, stands."""
    return (f"proofs/{function.replace('::', '/')}/", f"/fn/{'/'.join(function.split('::')[-2:])}/", f"/fn/{function.split('::')[-1]}/")


def judge(edit: pathlib.Path, functions: list[str], ran: Ran, is_alone: bool) -> Found | None:
    """What came of an edit, or None where the run tells too little of it: its function calls another that is wrong, or what
    is said may be of another function."""
    crate = edit_files.crate_of(edit)
    label = f"{crate}/{edit.stem}"
    told = [line for line in ran.lines for function in functions if line.startswith("fn ") and is_of(line, crate, function)]
    own = [line for line in told if not line.endswith(": proved") and not CALLS.search(line)]
    if not told and ran.status == 1:
        first = next((line for line in ran.lines if "error" in line), ran.lines[-1] if ran.lines else "")
        return Found(False, f"{label}: NOT TRIED: the prover can't read it: {first[:200]}")
    if ran.status not in (0, 1):
        return Found(False, f"{label}: NOT TRIED: status {ran.status}: {(ran.lines or [''])[-1][:200]}")
    if not own:
        if any(CALLS.search(line) for line in told):
            return None
        return Found(False, f"{label}: LET THROUGH: it is still proved")
    clauses = clause_lines(functions, own, ran) or [line for line in ran.lines if is_alone and FALSE.search(line)]
    if clauses:
        return Found(True, f"{label}: refused: {clauses[0][:160]}")
    if not is_alone:
        return None
    return Found(False, f"{label}: REFUSED BY NO CLAUSE: a proof names what the edit took away: {own[0][:160]}")


def clause_lines(functions: list[str], own: list[str], ran: Ran) -> list[str]:
    """The lines that tell of a clause of these functions that is not proved. Where a proof of theirs names what isn't there,
    only those count that tell of values at which the clause is false: the others may lack just that answer."""
    folders = [folder for function in functions for folder in proof_folders(function)]
    errors = [line for line in ran.lines if ": error: " in line and any(folder in line for folder in folders)]
    if any(UNKNOWN.search(line) for line in errors):
        return [line for line in errors if FALSE.search(line)]
    return [line for line in own if "did not prove" in line] + errors


def named(edit: pathlib.Path) -> list[str]:
    """The functions of an edit, or the modules of the items that it changes where it changes no function."""
    found = edit_files.functions_of(edit)
    modules = {edit_files.module_of(change.path) for change in edit_files.changes_of(edit)}
    return sorted(found - modules or found)


def groups(edits: list[pathlib.Path]) -> list[list[pathlib.Path]]:
    """The edits of one crate in groups, of each of which all can be applied at once, and no two change one function."""
    made, alone = list[tuple[list[pathlib.Path], set[str], dict[str, str]]](), list[list[pathlib.Path]]()
    for edit in edits:
        functions = set(named(edit))
        # a module's items may be in each of its functions
        is_alone = any(edit_files.module_of(change.path) in functions for change in edit_files.changes_of(edit))
        for group, taken, texts in [] if is_alone else made:
            if taken & functions:
                continue
            try:
                changed = edit_files.applied(edit, texts)
            except edit_files.Flawed:
                continue
            group.append(edit)
            taken |= functions
            texts.update(changed)
            break
        else:
            made.append(([edit], functions, edit_files.applied(edit, {})))
            if is_alone:
                alone.append(made.pop()[0])
    return [group for group, _, _ in made] + alone


def tried(edits: list[pathlib.Path]) -> list[Found]:
    """Tries these edits of one crate, which can be applied at once, and those of which that tells nothing once more alone."""
    name, texts = edit_files.crate_of(edits[0]), dict[str, str]()
    for edit in edits:
        texts = edit_files.applied(edit, texts)
    ran = run(name, texts, sorted({function for edit in edits for function in named(edit)}))
    found = list[Found]()
    for edit in edits:
        came = judge(edit, named(edit), ran, len(edits) == 1)
        alone = came is None or came.said.find("NOT TRIED") >= 0
        if alone and len(edits) > 1:
            found += tried([edit])
        elif came is None or ran.status == 2 or not came.refused and not names_function(edit):
            found.append(over_crate(edit))
        else:
            found.append(came)
    return found


def names_function(edit: pathlib.Path) -> bool:
    """Whether the edit changes a function, and not just items of modules."""
    return not {edit_files.module_of(change.path) for change in edit_files.changes_of(edit)} & set(named(edit))


def over_crate(edit: pathlib.Path) -> Found:
    """Tries an edit whose function the prover doesn't know by the name made for it, or that changes no function: it proves the
    whole modules, and then the whole crate, since what such an edit turns may be said elsewhere, as by a law."""
    modules = sorted({edit_files.module_of(change.path) for change in edit_files.changes_of(edit)})
    label = f"{edit_files.crate_of(edit)}/{edit.stem}"
    for functions in (modules, list[str]()):
        ran = run(edit_files.crate_of(edit), edit_files.applied(edit, {}), functions)
        clauses = [line for line in ran.lines if "did not prove" in line or FALSE.search(line)]
        if ran.status == 1 and clauses:
            return Found(True, f"{label}: refused: {clauses[0][:160]}")
    return Found(False, f"{label}: REFUSED BY NO CLAUSE or let through, status {ran.status}: {(ran.lines or [''])[-1][:160]}")


def lacking(libraries: list[str]) -> list[str]:
    """Those of these libraries that are not built."""
    return [name for name in libraries if not os.path.isdir(library(name))]
