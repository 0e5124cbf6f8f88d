"""The samples that `check` writes, put into their program.

The program's main is one choose or one match over its parameters. Where `check` tells of no outputs, or of a number that no arm covers, `run` finds no
solution; of two outputs the relation is true.
"""

from __future__ import annotations

import re
from collections.abc import Iterator
from dataclasses import dataclass

from harness.checks import Check, ended
from harness.program import Room
from harness.samples import line_at

CHOOSE = re.compile(r"def main\(([^)]*)\): [a-z, ()]* = choose \(([^)]*)\) where (.*)", re.S)
MATCH = re.compile(r"def main\(([a-z]*): int\): int = match ([a-z]*) with ")
NONE = "no solution at choose 1"


@dataclass(frozen=True)
class Asked:
    """A program of which `check` writes samples: its parameters, and of a choose its outputs and its relation."""

    program: str
    params: str
    outputs: str = ""
    relation: str = ""

    def line(self, sample: str) -> str:
        """The input line of what stands in a sample behind `for`."""
        pairs = [tuple(param.split(": ")) for param in self.params.split(", ")] if self.params else []
        return line_at(pairs, sample.removeprefix(" for "))

    def tester(self) -> str:
        """The program that answers whether values of the parameters and of the outputs satisfy the relation."""
        params = f"{self.params}, " if self.params else ""
        return f"def main({params}{self.outputs}): bool = {self.relation}"

    def hides(self) -> bool:
        """Whether the first output hides a parameter."""
        return f", {self.outputs.split(':')[0]}:" in f", {self.params}"


def asked_of(program: str) -> Asked | None:
    if choose := CHOOSE.fullmatch(program):
        return Asked(program, *choose.groups())
    match = MATCH.match(program)
    return Asked(program, f"{match[1]}: int") if match and match[1] == match[2] else None


def try_replies(name: str, room: Room, program: str, reply: str, *lines: str) -> Check:
    """A program has the same reply to each of these lines."""
    room.put("file", f"{program}\n".encode())
    room.put("input", "".join(f"{line}\n" for line in lines).encode())
    return ended(name, room.run(("run", "file")), 0, f"{reply}\n".encode() * len(lines))


def try_samples(name: str, program: str, wrote: str, room: Room) -> Iterator[Check]:
    """The samples among the lines that `check` has written of a program."""
    asked = asked_of(program)
    for line in wrote.splitlines() if asked else []:
        place = f"{name}, {line}"
        if line.startswith("choose 1: no outputs"):
            sample = line.removeprefix("choose 1: no outputs")
            yield try_replies(place, room, program, NONE, asked.line(sample))
        elif line.startswith("match 1: misses "):
            yield try_replies(place, room, program, NONE, line.removeprefix("match 1: misses "))
        elif line.startswith("choose 1: two outputs") and not asked.hides():
            sample, both = line.removeprefix("choose 1: two outputs").split(": ", 1)
            at = asked.line(sample)
            yield try_replies(place, room, asked.tester(), "true", *(f"{at} {outputs}" for outputs in both.split(" and ", 1)))
