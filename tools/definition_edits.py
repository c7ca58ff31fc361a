"""Runs of the prover over definitions that an edit makes wrong: some worked scene has to come out otherwise.

Of a wrong body the clause that fails is told. Of a wrong definition nothing like it can be: a law that cites it has a proof
written by hand, which breaks with every change, also with one that means the same. So the definition is read again, changed,
beside worked scenes: values and runs that the definitions compute, whose outcome was worked by hand. The edit is refused
where the outcome of a scene is another, once both are computed as far as they go."""
from __future__ import annotations

import pathlib
import re
import shutil
import subprocess
import tempfile
from typing import NamedTuple

import edit_files
import edit_runs
from edit_files import TOP

# The crates whose scenes are of a crate's definitions; other crates' definitions have none.
SCENES = {"fed_model": ["fed_theory", "test_scenes"], "fed_easy": ["fed_easy", "test_scenes"]}
# A function beside those of the crate, by whose proof the scenes are read. It claims nothing.
FUNCTION = "worked::scenes_are_computed"
MODULE = """//! Worked scenes.
ghost use Rattle.std.specs.Prelude.{◌≡◌, ℕ};

/// Does nothing.
pub fn scenes_are_computed()
    ensures { (n : ℕ) → n ≡ n }
{}
"""
PROOF = """use Rattle.std.proofs.Common.{{refl}}
{imports}
use Rattle.{crate}.proofs.worked.scenes_are_computed.Goals as goal

both : {{A B : Type 0}} → A → B → A
both a b = a

pub returns : goal.returns
returns c = λ n. {term}
"""
SCENE = re.compile(r"(?m)^([a-z]\w*) = refl$")
ERROR = re.compile(r"\./proofs/(\w+)\.antt:[0-9:]+ error: `(\w+)`")
COMPUTED = "computed as far as they go, the two types differ"


class Ran(NamedTuple):
    """What the prover ended with and said."""

    status: int
    text: str


def is_of_definitions(edit: pathlib.Path) -> bool:
    """Whether the edit changes definitions, of its own crate or of another."""
    return all("specs/" in change.path for change in edit_files.changes_of(edit))


def owner_of(edit: pathlib.Path) -> str:
    """The crate whose definitions the edit changes."""
    found = edit_files.OF_ANOTHER.match(edit_files.changes_of(edit)[0].path)
    return found[1] if found else edit_files.crate_of(edit)


def scenes_of(crate: str) -> dict[str, str]:
    """The files of scenes of a crate's definitions, as if they were that crate's own. A file that cites another crate, which
    isn't below this one, is of other definitions."""
    known = {crate, *SCENES[crate], *edit_files.listed(crate)}
    found = dict[str, str]()
    for owner in SCENES[crate]:
        for file in sorted((TOP / "crates" / owner / "proofs").glob("*Scenes.antt")):
            text = file.read_text(encoding="utf-8")
            if known.issuperset(set(re.findall(r"Rattle\.(\w+)\.", text)) & set(edit_files.crate_names())):
                found[file.stem] = text
    for stem, text in found.items():
        for owner in SCENES[crate]:
            text = text.replace(f"Rattle.{owner}.proofs.", f"Rattle.{crate}.proofs.")
        for name in SCENE.findall(text):
            text = re.sub(rf"(?m)^{name} :", f"pub {name} :", text)
        found[stem] = text
    return found


def write(edit: pathlib.Path, folder: pathlib.Path) -> None:
    """Writes the crate with the changed definitions, and the scenes of them."""
    crate = owner_of(edit)
    for part in ("src", "specs", "proofs"):
        shutil.copytree(TOP / "crates" / crate / part, folder / part)
    for path, text in edit_files.applied(edit, {}).items():
        (folder / "specs" / pathlib.Path(path).name).write_text(text, encoding="utf-8")
    scenes, imports, term = scenes_of(crate), list[str](), "refl"
    listed = (folder / "proofs" / "Lib.antt").read_text(encoding="utf-8")
    for stem, text in scenes.items():
        (folder / "proofs" / f"{stem}.antt").write_text(text, encoding="utf-8")
        listed += "" if re.search(rf"(?m)^(pub )?mod {stem}$", listed) else f"pub mod {stem}\n"
        names = SCENE.findall(text)
        if names:
            imports.append(f"use Rattle.{crate}.proofs.{stem}.{{{', '.join(names)}}}")
        for name in names:
            term = f"both ({term}) {name}"
    (folder / "proofs" / "Lib.antt").write_text(listed, encoding="utf-8")
    root, proof = folder / "src" / "lib.rt", folder / "proofs" / FUNCTION.replace("::", "/")
    root.write_text(root.read_text(encoding="utf-8") + "\n/// Worked scenes.\npub mod worked;\n", encoding="utf-8")
    (folder / "src" / "worked.rt").write_text(MODULE, encoding="utf-8")
    proof.mkdir(parents=True)
    (proof / "Answers.antt").write_text(PROOF.format(crate=crate, imports="\n".join(imports), term=term), encoding="utf-8")


def run(edit: pathlib.Path) -> Ran:
    """Computes the scenes by the changed definitions."""
    words = edit_runs.words_of(owner_of(edit)) + ["--only", FUNCTION]
    with tempfile.TemporaryDirectory(prefix="edit-") as folder:
        write(edit, pathlib.Path(folder))
        try:
            ran = subprocess.run(words, cwd=folder, stdin=subprocess.DEVNULL, stdout=subprocess.PIPE, stderr=subprocess.STDOUT,
                                 text=True, errors="replace", timeout=edit_runs.SECONDS, check=False)
        except subprocess.TimeoutExpired:
            return Ran(124, f"the check had not ended after {edit_runs.SECONDS} seconds")
    return Ran(ran.returncode, ran.stdout)


def tried(edit: pathlib.Path) -> edit_runs.Found:
    """What came of an edit of definitions."""
    label = f"{edit_files.crate_of(edit)}/{edit.stem}"
    if owner_of(edit) not in SCENES:
        return edit_runs.Found(False, f"{label}: NOT TRIED: no scenes are of the definitions of {owner_of(edit)}")
    ran = run(edit)
    errors = [it for it in re.split(r"(?m)^(?=\S+\.(?:antt|rt):)", ran.text) if ": error" in it.split("\n")[0]]
    scenes = sorted({f"{found[2]} of {found[1]}" for it in errors if COMPUTED in it and (found := ERROR.match(it))})
    strange = [it for it in errors if not it.startswith("./proofs/")]
    if strange or ran.status not in (0, 1):
        return edit_runs.Found(False, f"{label}: NOT TRIED: status {ran.status}: {(strange or [ran.text])[0][:200].strip()}")
    if scenes:
        return edit_runs.Found(True, f"{label}: refused: {', '.join(scenes[:3])}")
    return edit_runs.Found(False, f"{label}: {'LET THROUGH: all scenes come out the same' if not errors else 'REFUSED BY NO VALUE'}")


def libraries_of(name: str) -> list[str]:
    """The libraries of the repository that a run over a crate's definitions stands on."""
    return edit_files.below([name])
