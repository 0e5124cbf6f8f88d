"""The worked runs, whose answers are known."""

from __future__ import annotations

from dataclasses import dataclass

from shared import ROOT, Room
from harness.examples import expectation, lines, source


@dataclass(frozen=True)
class Worked:
    """A run whose answer is known: its words, the files that they name, and the input. A target that it compiles is tried on the lines."""

    name: str
    words: tuple[str, ...]
    source: bytes
    input: bytes = b""
    lines: bytes = b""
    steps: bytes = b""

    def lay(self, room: Room) -> None:
        """Puts its files and its input where the program runs."""
        room.put("file", self.source)
        room.put("steps", self.steps)
        room.put("input", self.input)


def case(name: str, part: str) -> bytes:
    return (ROOT / "tests/cases" / name / part).read_bytes()


def example(name: str) -> bytes:
    return source(name).read_bytes()


def steps(name: str) -> bytes:
    return expectation(name, "steps").read_bytes()


SPLIT = (
    b"def main(s: set): (set, set) = choose (l: set, r: set) where l union r == s && l inter r == {} "
    b"&& card(l) - card(r) <= 1 && card(r) - card(l) <= 1\n"
)
SETS = b"{}\n{3,1,2,1}\n{5}\n{-4,0,7}\n{1,2,3,4,5,6}\n"
MATCH = b"def main(a: int): int = match a with { 2 * i then i ; 4 * i + 1 then -i }\n"
PRODUCT = b"def main(a: int, b: int): int = choose (x: int) where a * x == b\n"


def of_source(name: str, text: bytes, given: bytes) -> list[Worked]:
    """A source by each command that takes nothing else."""
    return [
        Worked(f"run {name}", ("run", "file"), text, given),
        Worked(f"compile {name}", ("compile", "file"), text, lines=given),
        Worked(f"pre {name}", ("pre", "file"), text),
        Worked(f"check {name}", ("check", "file"), text),
    ]


def worked_runs() -> list[Worked]:
    """The worked runs, by each command that takes them.

    They are seconds, a set that is split, remainders, a match, a source of edition 3, a target, a workload, a product of an input, steps, and other languages.
    """
    seconds, given = example("seconds"), lines("seconds").read_bytes()
    parcel = example("parcel")
    remainders = case("compile-remainders-plain", "file")
    return [
        *of_source("seconds", seconds, given),
        *of_source("splitting", SPLIT, SETS),
        *of_source("remainders", remainders, case("exec-remainders", "input")),
        *of_source("match", MATCH, b"4\n5\n7\n-3\nx\n"),
        *of_source("parcel", parcel, lines("parcel").read_bytes()),
        Worked("run seconds --plain --stats", ("run", "file", "--plain", "--stats"), seconds, given),
        Worked("exec seconds", ("exec", "file"), case("exec-seconds", "file"), case("exec-seconds", "input")),
        Worked("exec remainders", ("exec", "file"), case("exec-remainders", "file"), case("exec-remainders", "input")),
        Worked("run combination", ("run", "file"), example("combination"), lines("combination").read_bytes()),
        Worked("gen 1", ("gen", "1"), b""),
        Worked("run product", ("run", "file"), PRODUCT, b"3 12\n3 10\n0 5\n-4 12\n"),
        Worked("prove seconds", ("prove", "file"), seconds),
        Worked("prove remainders", ("prove", "file"), remainders),
        Worked("prove parcel", ("prove", "file"), parcel),
        Worked("emit c seconds", ("emit", "c", "file", "--main"), seconds),
        Worked("emit c splitting", ("emit", "c", "file"), SPLIT),
        Worked("emit python splitting", ("emit", "python", "file", "--main"), SPLIT),
        Worked("emit js parcel", ("emit", "js", "file", "--name", "parcel"), parcel),
        Worked("verify seconds", ("verify", "file", "steps"), seconds, steps=steps("seconds")),
        Worked("verify parcel", ("verify", "file", "steps"), parcel, steps=steps("parcel")),
        Worked("verify rounding", ("verify", "file", "steps"), example("even"), steps=steps("steps/other")),
    ]
