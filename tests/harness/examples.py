"""The examples, and what the commands must write on them.

examples/ holds sources, each with its input lines in NAME.in; refused/ there holds sources that are refused, and steps/ sources with steps that were written
by hand. tests/examples has for NAME.cf what must be written: NAME.out by `run`, NAME.target by `compile`, NAME.pre, NAME.check, and NAME.steps by `prove`. A
source that is linear only on the numbers of a line has NAME.err in place of the last four, the line with which these commands refuse it. A source that is
refused has NAME.err; steps have NAME.out with the lines in which `verify` accepts them, or NAME.err with that in which it rejects them.
A target or steps that are given to the program, as a page quotes it, lie beside their source instead, and so do lines with keys, in NAME.keyed.
"""

from __future__ import annotations

from pathlib import Path

from .program import ROOT, Room

EXAMPLES = ROOT / "examples"
EXPECTED = ROOT / "tests/examples"
KINDS = {"compile": "target", "pre": "pre", "check": "check", "prove": "steps"}


def names(folder: str = "") -> list[str]:
    """The names of the sources of a folder, as `even` or `steps/wide`."""
    return sorted(str(path.relative_to(EXAMPLES).with_suffix("")) for path in (EXAMPLES / folder).glob("*.cf"))


def source(name: str) -> Path:
    return EXAMPLES / f"{name}.cf"


def named(name: str) -> Path:
    """The source by the name that it has in a room where the examples are laid."""
    return source(name).relative_to(ROOT)


def lay(room: Room) -> None:
    """Puts the folder examples/ into a room, so that its files have the names that the pages quote."""
    (room.folder / EXAMPLES.name).symlink_to(EXAMPLES)


def lines(name: str) -> Path:
    return EXAMPLES / f"{name}.in"


def expectation(name: str, kind: str) -> Path:
    """The file with what must be written, which may be missing."""
    given = EXAMPLES / f"{name}.{kind}"
    return given if given.exists() else EXPECTED / f"{name}.{kind}"


def is_late(name: str) -> bool:
    """Whether the source is linear only on the numbers of a line."""
    return expectation(name, "err").exists()


def text_of(path: Path) -> bytes:
    """What a file holds, nothing where it is missing."""
    return path.read_bytes() if path.exists() else b""
