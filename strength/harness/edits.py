"""The edits: wrong bodies of a crate, each as lines that take the place of others."""

from __future__ import annotations

from collections.abc import Iterable, Iterator
from dataclasses import dataclass
from functools import cache
from pathlib import Path

from .functions import Function, functions, types

ROOT = Path(__file__).resolve().parent.parent.parent
STRENGTH = ROOT / "strength"


class Unfit(Exception):
    """An edit that does not fit the code, with the reason."""


@dataclass(frozen=True)
class Line:
    """A line of a file of the crate, by the file's path and the number of lines before it."""

    path: str
    number: int


@dataclass(frozen=True)
class Edit:
    """An edit by its crate and its file's name, the lines that it writes, and the functions in which these stand."""

    crate: str
    file: str
    lines: tuple[tuple[Line, str], ...]
    functions: tuple[Function, ...]

    @property
    def name(self) -> str:
        return f"{self.crate}/{self.file}"

    @property
    def is_of_bodies(self) -> bool:
        """Whether it changes bodies alone: no contract, no type, no constant, no definition and no proof."""
        return all(any(line.path == it.path and line.number in it.body for it in self.functions) for line, _ in self.lines)

    @property
    def units(self) -> frozenset[str]:
        """What of the crate it has proved anew."""
        return frozenset(function.unit for function in self.functions)


@cache
def text_of(crate: str, path: str) -> str:
    return (ROOT / "crates" / crate / path).read_text(encoding="utf-8")


def sources_of(crate: str) -> list[str]:
    """The paths of the crate's sources."""
    folder = ROOT / "crates" / crate
    return sorted(str(path.relative_to(folder)) for path in (folder / "src").rglob("*.rt"))


@cache
def modules_of(crate: str) -> dict[str, tuple[str, ...]]:
    """The module of each type of the crate."""
    return dict(found for path in sources_of(crate) for found in types(path, text_of(crate, path)))


@cache
def functions_of(crate: str, path: str) -> tuple[Function, ...]:
    return tuple(functions(path, text_of(crate, path), modules_of(crate))) if path.startswith("src/") else ()


def replaced(text: str, old: str, new: str) -> str:
    if text.count(old) != 1:
        raise Unfit(f"{text.count(old)} times in its file: {old}")
    return text.replace(old, new)


def edited(edit: Path) -> dict[str, str]:
    """The texts that an edit makes of the files of its crate, by their paths."""
    texts: dict[str, str] = {}
    path = old = None
    for line in edit.read_text(encoding="utf-8").splitlines():
        if line.startswith("file: "):
            path = line.removeprefix("file: ").strip()
        elif line.startswith("old: "):
            old = line.removeprefix("old: ")
        elif line.startswith("new:"):
            if path is None or old is None:
                raise Unfit("a 'new:' line without its file or its 'old:' line")
            new = line.removeprefix("new:").removeprefix(" ")
            texts[path] = replaced(texts.get(path) or text_of(edit.parent.name, path), old, new)
            old = None
    return texts


def changed(crate: str, texts: dict[str, str]) -> Iterator[tuple[Line, str]]:
    """The lines that differ in these texts; an edit makes no line more and none less."""
    for path, text in texts.items():
        pairs = zip(text_of(crate, path).split("\n"), text.split("\n"), strict=True)
        yield from ((Line(path, number), new) for number, (old, new) in enumerate(pairs) if old != new)


def functions_at(crate: str, lines: Iterable[Line]) -> Iterator[Function]:
    """The innermost functions that hold these lines."""
    for line in lines:
        around = [it for it in functions_of(crate, line.path) if line.number in it.lines]
        yield from around[-1:]


def read(edit: Path) -> Edit:
    crate = edit.parent.name
    lines = tuple(changed(crate, edited(edit)))
    if not lines:
        raise Unfit("it changes nothing")
    around = dict.fromkeys(functions_at(crate, (line for line, _ in lines)))
    return Edit(crate, edit.name, lines, tuple(around))


def edits_of(crate: str) -> list[Path]:
    return sorted((STRENGTH / crate).glob("*.edit"))
