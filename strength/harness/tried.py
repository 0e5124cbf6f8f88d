"""What was refused, with a sum of each edit's text and of its crate's files."""

from __future__ import annotations

from functools import cache
from hashlib import sha256
from threading import Lock

from .edits import ROOT, STRENGTH
from .room import PARTS

TRIED = STRENGTH / "tried"
WRITING = Lock()


@cache
def crate_sum(crate: str) -> str:
    folder = ROOT / "crates" / crate
    files = sorted(str(path.relative_to(ROOT)) for part in PARTS for path in (folder / part).rglob("*") if path.is_file())
    return sha256("".join(f"{sha256((ROOT / file).read_bytes()).hexdigest()}  {file}\n" for file in files).encode()).hexdigest()


def sum_of(crate: str, file: str) -> str:
    """The sum of an edit over the files of its crate."""
    text = sha256((STRENGTH / crate / file).read_bytes()).hexdigest()
    return sha256(f"{crate_sum(crate)}  -\n{text}  -\n".encode()).hexdigest()[:32]


def listed() -> dict[str, str]:
    """The sums of the edits that were refused, by their names."""
    lines = TRIED.read_text().splitlines() if TRIED.exists() else []
    return {name: told for told, name in (line.split(" ", 1) for line in lines)}


def keep(name: str, told: str) -> None:
    """Writes an edit that was refused into the list, in the place of what it had of the same edit."""
    with WRITING:
        sums = listed() | {name: told}
        TRIED.write_text("".join(f"{sums[name]} {name}\n" for name in sorted(sums)))
