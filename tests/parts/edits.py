"""The edits that the prover has to refuse fit the code as it stands.

Of each edit in crates/NAME/must-fail and in strength/NAME, each `old:` text stands exactly once in its file, once the pairs before it are
taken in, and the file is another then.
"""

from __future__ import annotations

from collections.abc import Iterator
from functools import partial
from pathlib import Path

from harness.checks import Check
from harness.jobs import Job
from harness.program import ROOT, Room


def faults_of(edit: Path, crate: Path) -> list[str]:
    """What does not fit in an edit."""
    texts: dict[Path, str] = {}
    before: dict[Path, str] = {}
    path = old = None
    for line in edit.read_text(encoding="utf-8").splitlines():
        if line.startswith("file: "):
            path = crate / line.removeprefix("file: ").strip()
        elif line.startswith("old: "):
            old = line.removeprefix("old: ")
        elif line.startswith("new:"):
            if path is None or old is None or not path.is_file():
                return ["a 'new:' line without its file or its 'old:' line"]
            text = texts.get(path) or path.read_text(encoding="utf-8")
            before.setdefault(path, text)
            if text.count(old) != 1:
                return [f"{text.count(old)} times in {path.relative_to(ROOT)}: {old}"]
            texts[path] = text.replace(old, line.removeprefix("new:").removeprefix(" "))
            old = None
    return [] if texts != before else ["it changes nothing"]


def crate_of(edit: Path) -> Path:
    folder = edit.parent
    return folder.parent if folder.name == "must-fail" else ROOT / "crates" / folder.name


def try_edits(edits: list[Path], _: Room) -> Iterator[Check]:
    for edit in edits:
        yield Check(str(edit.relative_to(ROOT)), tuple(faults_of(edit, crate_of(edit))))


def jobs() -> Iterator[Job]:
    for folder in sorted([*ROOT.glob("crates/*/must-fail"), *ROOT.glob("strength/*")]):
        if edits := sorted(folder.glob("*.edit")):
            yield Job(f"edits of {folder.relative_to(ROOT)}", partial(try_edits, edits))
