"""Texts of edition 3 that are longer than those of language 2 may be, up to their own limit and past it, and inputs longer than those of language 2.

`prove` has to write the very text that stands here, and `verify` to take it; what `compile` writes is taken by `exec`. One byte past the limit nothing is
written.
"""

from __future__ import annotations

import subprocess
from collections.abc import Iterable, Iterator, Sequence
from dataclasses import dataclass
from functools import partial
from itertools import product
from pathlib import Path
from typing import IO

from harness.checks import Check, ended, equal
from harness.jobs import Job
from harness.program import MOST_SECONDS, NO_INPUT, Ended, Room

from .editions import HEADER

LONGEST_TEXT = 1_048_576
LONGEST_WRITTEN = 67_108_864
TOO_LONG = b"text too long\n"
LIMIT = 10
MAX = 2**127 - 1
INPUT_LIMIT = 16_777_216


def joined(parts: Sequence[str], sign: str) -> str:
    """The parts as a tree of halves, so that it stays low."""
    if len(parts) == 1:
        return parts[0]
    half = len(parts) // 2
    return f"({joined(parts[:half], sign)}){sign}({joined(parts[half:], sign)})"


# Steps: a choose of one case in each branch, and chooses of a number.

VALUES = ("true", "false")


@dataclass(frozen=True)
class Branched:
    """A program with a choose that asks all of its truth parameters, and behind it one choose for each of some literals."""

    names: tuple[str, ...]
    literals: tuple[str, ...]

    def source(self) -> bytes:
        params = ", ".join(f"{name}: bool" for name in self.names)
        results = ", ".join(["int"] * (len(self.literals) + 1))
        others = "".join(f", choose (x: int) where x == {literal}" for literal in self.literals)
        asked = joined([*self.names, "true"], " || ")
        return HEADER + f"def main({params}): ({results}) = (choose (x: int) where x == 7 && ({asked}){others})\n".encode()

    def block(self, number: int, branch: str, literal: str) -> str:
        types, level = ", ".join(["bool"] * len(self.names)), len(self.names)
        steps = f"choose {number}{branch} {{\ncase {{\nclean;\nlast 0;\nclean;\n}}\n}}\n"
        return f"{steps}comfusy 2\nmain ({types}): int = solve {number} {{\narm [] {{\nlet {literal};\ngive v{level}\n}}\n}}\n"

    def branch(self, values: Iterable[str]) -> str:
        return f" ({', '.join(f'{name} = {value}' for name, value in zip(self.names, values))})"

    def steps(self) -> bytes:
        """What `prove` has to write."""
        blocks = [self.block(1, self.branch(values), "7") for values in product(VALUES, repeat=len(self.names))]
        return "".join(blocks + [self.block(i, "", literal) for i, literal in enumerate(self.literals, 2)]).encode()

    def verified(self) -> bytes:
        numbers = [1] * 2 ** len(self.names) + list(range(2, len(self.literals) + 2))
        return "".join(f"choose {number}: verified\n" for number in numbers).encode()


def branched(size: int) -> Branched:
    """The program whose steps have so many bytes: its names fill them, and the digits of its literals what is left."""
    count, literals = 8, 7
    letters = "abcdefgh"[:count]
    least = Branched(tuple(letters), ("1",) * literals)
    more, digits = divmod(size - len(least.steps()), 2**count)
    lengths = [1 + more // count + (i < more % count) for i in range(count)]
    each = [1 + digits // literals + (i < digits % literals) for i in range(literals)]
    return Branched(tuple(letter * length for letter, length in zip(letters, lengths)), tuple("1" * length for length in each))


def try_steps(room: Room) -> Iterator[Check]:
    """Steps of the longest, which are written and taken, and those of one byte more, which are not written."""
    for what, size in ("past the limit of language 2", LONGEST_TEXT + 1), ("of the longest", LONGEST_WRITTEN):
        program = branched(size)
        room.put("file", program.source())
        room.put("steps", program.steps())
        seen = room.run(("prove", "file"), NO_INPUT)
        yield equal(f"long-texts, steps {what}", (seen.said() if seen.status else len(seen.out), size), (seen.out == program.steps(), True))
        yield ended(f"long-texts, steps {what}, verify", room.run(("verify", "file", "steps"), NO_INPUT), 0, program.verified())
    room.put("file", branched(LONGEST_WRITTEN + 1).source())
    yield ended("long-texts, steps past the limit", room.run(("prove", "file"), NO_INPUT), LIMIT, err=TOO_LONG)
    room.put("file", program.source())
    room.put("steps", program.steps() + b" ")
    yield ended("long-texts, steps past the limit, verify", room.run(("verify", "file", "steps"), NO_INPUT), 6, err=b"steps text too long\n")


# Targets: calls of a choose with many cases, each of which gives large numbers, and a set of large numbers.

OUTPUTS, UNEQUAL = 90, 8
ELEMENT = f"{MAX}, "


def compiled(calls: int, more: int = 0) -> bytes:
    """A program whose target holds its choose so many times, and is so many bytes longer than that has to be."""
    names = [f"y{i}" for i in range(OUTPUTS)]
    outputs = "".join(f", {name}: int" for name in names)
    relation = [f"a + x != {i}" for i in range(UNEQUAL)] + [f"{name} == {MAX - i}" for i, name in enumerate(names)]
    call = f"(let (x, {', '.join(names)}) = f(a) in x)"
    count, digits = divmod(more, len(ELEMENT))
    elements = ["K"] * count + ["1" * (1 + digits // 2), "1" * (1 + digits - digits // 2)]
    lines = (
        f"const K = {MAX}",
        f"def f(a: int): (int{', int' * OUTPUTS}) = choose (x: int{outputs}) where {joined(relation, ' && ')}",
        f"def main(a: int): (int, int) = ({joined([call] * calls, ' + ')}, card({{{', '.join(elements)}}}))",
    )
    return HEADER + "".join(f"{line}\n" for line in lines).encode()


@dataclass(frozen=True)
class Sizes:
    """How many bytes the target of a program with two calls has, and how many each call more adds."""

    two: int
    each: int

    @classmethod
    def seen(cls, room: Room) -> Sizes:
        two, three = (len(compile_plain(room, compiled(calls)).out) for calls in (2, 3))
        return cls(two, three - two)

    def source(self, size: int) -> bytes:
        """The program whose target has so many bytes."""
        calls, more = divmod(size - self.two, self.each)
        return compiled(2 + calls, more)


def compile_plain(room: Room, source: bytes, *flags: str) -> Ended:
    room.put("file", source)
    return room.run(("compile", "file", "--plain", *flags), NO_INPUT)


def try_targets(room: Room) -> Iterator[Check]:
    """Targets that are longer than language 2 lets them be are taken by `exec`; those past the limit are not written, nor those that tallies lead past it."""
    sizes = Sizes.seen(room)
    room.put("input", b"3\n-170141183460469231731687303715884105727\n")
    seen = compile_plain(room, sizes.source(3 * LONGEST_TEXT))
    room.put("target", seen.out)
    yield equal("long-texts, a target of 3 MiB", (seen.status, 0), (len(seen.out), 3 * LONGEST_TEXT))
    yield ended("long-texts, a target of 3 MiB, exec", room.run(("exec", "target")), 0, room.run(("run", "file", "--plain")).out)
    longest = sizes.source(LONGEST_WRITTEN)
    seen = compile_plain(room, longest)
    yield equal("long-texts, a target of the longest", (seen.status, 0), (len(seen.out), LONGEST_WRITTEN), (seen.out[:10], HEADER))
    yield ended("long-texts, a target and its tallies past the limit", compile_plain(room, longest, "--stats"), LIMIT, err=TOO_LONG)
    yield ended("long-texts, a target past the limit", compile_plain(room, sizes.source(LONGEST_WRITTEN + 1)), LIMIT, err=TOO_LONG)


# Inputs.

BLOCK = (b"12" + b" " * 1021 + b"\n") * 1024
BLOCKS = 40
MOST_GROWTH = 8 << 20
SOURCE = b"def main(a: int): int = a\n"
TARGET = b"main (int): int = v0\n"


def resident(child: subprocess.Popen[bytes]) -> int:
    """The most memory that a program had, in bytes."""
    text = Path(f"/proc/{child.pid}/status").read_text(encoding="ascii")
    return next(int(line.split()[1]) << 10 for line in text.splitlines() if line.startswith("VmHWM"))


def try_input(command: str, text: bytes, room: Room) -> Iterator[Check]:
    """An input of 40 MiB of edition 3 is answered as it comes, and takes no memory; one of language 2 is answered up to its limit."""
    for edition, front in (3, HEADER), (2, b""):
        room.put("file", front + text)
        name = f"long-texts, {command} of edition {edition}"
        with open(room.folder / "out", "wb") as out, open(room.folder / "err", "wb") as err:
            child = subprocess.Popen([room.program, command, room.folder / "file"], stdin=subprocess.PIPE, stdout=out, stderr=err, bufsize=0)
            grew = fed(child)
            status = child.wait(MOST_SECONDS)
        lines = BLOCKS * 1024 if edition == 3 else INPUT_LIMIT // 1024
        wanted = (0, b"") if edition == 3 else (11, b"input too long\n")
        yield equal(name, ((status, room.front("err")), wanted), (room.front("out") == b"12\n" * lines, True))
        yield equal(f"{name}, memory", (grew is None or grew < MOST_GROWTH or grew, True))


def fed(child: subprocess.Popen[bytes]) -> int | None:
    """Gives all blocks to a program, and answers how its memory grew on the way; none where it stops reading before."""
    with child.stdin:
        try:
            put(child.stdin, BLOCK)
            first = resident(child)
            for _ in range(BLOCKS - 1):
                put(child.stdin, BLOCK)
            return resident(child) - first
        except (BrokenPipeError, StopIteration):
            return None


def put(stream: IO[bytes], text: bytes) -> None:
    """Writes all bytes of a text to a pipe."""
    rest = memoryview(text)
    while rest:
        rest = rest[stream.write(rest) :]


def jobs() -> Iterator[Job]:
    yield Job("long-texts, steps", try_steps)
    yield Job("long-texts, targets", try_targets)
    for command, text in ("run", SOURCE), ("exec", TARGET):
        yield Job(f"long-texts, {command}", partial(try_input, command, text))
