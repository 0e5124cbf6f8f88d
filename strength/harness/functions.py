"""The functions of a source, by their lines; the sources are in the layout of `rt fmt`."""

from __future__ import annotations

import re
from collections.abc import Iterator, Mapping
from dataclasses import dataclass
from pathlib import PurePosixPath

FUNCTION = re.compile(r'(?:pub(?:\([^)]*\))? )?(?:const )?(?:unsafe )?(?:extern +)?fn (\w+)')
IMPL = re.compile(r"(?:unsafe )?impl(?:<[^>]*>)? (?:(\w+)(<[^>]*>)? for )?(\w+)")
BLOCK = re.compile(r"(?:pub(?:\([^)]*\))? )?(impl|trait|mod|macro_rules!)\b.*\{")
CYCLE = re.compile(r"#\[cycle\((\w+)\)\]")
SKIPPED = re.compile(r"//[^\n]*|(b?\"(?:\\.|[^\"\\])*\"|b?'(?:\\.|[^'\\])')", re.DOTALL)
TYPE = re.compile(r"(?:pub(?:\([^)]*\))? )?(?:struct|enum|trait) (\w+)")


@dataclass(frozen=True)
class Function:
    """A function of a crate: its file, the first of its lines with those of its attributes, the lines of its body, and the cycle of calls in which it stands.

    Its own name is below the module, which is none where that is not known.
    """

    path: str
    lines: range
    body: range
    module: tuple[str, ...] | None
    own: str
    cycle: str | None

    @property
    def name(self) -> str:
        """Its name below the crate, or the end of it, as `--only` takes it."""
        return "::".join((*(self.module or ()), self.own))

    @property
    def unit(self) -> str:
        """What is proved at once: the function, or its cycle."""
        return f"+{self.cycle}" if self.cycle else self.name


def module_of(path: str) -> tuple[str, ...]:
    """The modules that lead to what a file of src/ holds."""
    parts = PurePosixPath(path).relative_to("src").with_suffix("").parts
    return tuple(part for part in parts if part not in ("lib", "main", "mod"))


def types(path: str, text: str) -> Iterator[tuple[str, tuple[str, ...]]]:
    """The types of a file with its module; functions of an `impl` are named below the module of its type."""
    for line in without_texts(text).split("\n"):
        if told := TYPE.match(line):
            yield told[1], module_of(path)


def indent_of(line: str) -> str:
    return line[: len(line) - len(line.lstrip(" "))]


def end_of(lines: list[str], first: int) -> int:
    """The line of the brace that closes what opens on this line or behind it."""
    indent = indent_of(lines[first])
    closed = f"{indent}}}", f"{indent}{{}}"
    return next((at for at in range(first, len(lines)) if lines[at] in closed), first)


def opening_of(lines: list[str], first: int, last: int) -> int:
    """The line of the brace that opens the body of the function that stands on these lines."""
    indent = indent_of(lines[first])
    return next((at for at in range(first, last) if indent_of(lines[at]) == indent and lines[at].endswith("{")), last)


def blocks(lines: list[str]) -> list[tuple[range, str]]:
    """The blocks in which functions stand, with their first lines, the outer before the inner."""
    heads = [at for at, line in enumerate(lines) if BLOCK.fullmatch(line.strip())]
    return [(range(at, end_of(lines, at)), lines[at].strip()) for at in heads]


def first_attribute(lines: list[str], first: int) -> int:
    """The line where the attributes and comments above this line begin."""
    return next((at + 1 for at in range(first - 1, -1, -1) if not lines[at].strip().startswith(("#[", "//"))), 0)


def cycle_of(lines: list[str]) -> str | None:
    """The cycle that one of these attributes names."""
    return next((told[1] for line in lines if (told := CYCLE.fullmatch(line.strip()))), None)


def without_texts(source: str) -> str:
    """The source with no literal text in it, each line in its place."""
    return SKIPPED.sub(lambda told: "\n" * told[1].count("\n") if told[1] else told[0], source)


def place_of(path: str, block: str | None, modules: Mapping[str, tuple[str, ...]]) -> tuple[tuple[str, ...] | None, str] | None:
    """The module of a function in a block and what stands before its name there, or none where it has no name of its own.

    The module is none where the block is for a type of another crate, or for a trait with an argument that is no plain name.
    """
    if block is None:
        return module_of(path), ""
    told = IMPL.match(block)
    if told is None:
        return None
    argument = (told[2] or "").strip("<>")
    is_plain = argument.isidentifier() or not argument
    return modules.get(told[3]) if is_plain else None, f"{told[3]}{told[1] or ''}{argument if is_plain else ''}::"


def functions(path: str, text: str, modules: Mapping[str, tuple[str, ...]]) -> Iterator[Function]:
    """The functions of a file with a body, but for those that a trait or a macro writes; the types of the crate stand in these modules."""
    lines = without_texts(text).split("\n")
    around = blocks(lines)
    for at, line in enumerate(lines):
        told = FUNCTION.match(line.strip())
        place = place_of(path, next((head for span, head in reversed(around) if at in span), None), modules)
        last = end_of(lines, at)
        body = range(opening_of(lines, at, last) + 1, last)
        if told and place and body:
            first = first_attribute(lines, at)
            yield Function(path, range(first, last + 1), body, place[0], place[1] + told[1], cycle_of(lines[first:at]))
