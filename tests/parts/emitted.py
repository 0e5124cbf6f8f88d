"""What `emit` writes of the examples, and of the cases that `run` is done with.

Its filter answers as `exec` does, byte for byte, on their lines and on others, near the limit and spoilt; and the file without one is taken. It is done with
what is installed of gcc or clang and rustc, with all warnings as errors, this Python and Node; programs of Rust are compiled several at a time. Of the goals of
examples in which a constant is moved by one, z3 and cvc5 say that they do not hold. `trials/emitted` does the same with more.
"""

from __future__ import annotations

from collections.abc import Iterator, Sequence
from functools import partial
from pathlib import Path
from typing import TypeVar

from harness import examples
from harness.checks import Skipped, ended, equal
from harness.emitted import MAKERS, SOLVERS, SPOILT_GOALS, Asking, Counts, Program, Takers, makers, one_for_each, solvers, try_programs, try_spoilt_goals
from harness.jobs import Checks, Job
from harness.program import NO_INPUT, Room

from .cases import Case, standing

ASKING = Asking(lines=30)
LONGEST_INPUT = 1_048_576
TOGETHER = 12
LANGUAGES = ("c", "python", "js", "rust")

Each = TypeVar("Each")


def try_examples(names: Sequence[str], room: Room) -> Checks:
    programs = [Program(name, examples.text_of(examples.source(name)), examples.text_of(examples.lines(name))) for name in names]
    yield from try_all(programs, room)


def try_all(programs: Sequence[Program], room: Room) -> Checks:
    counts = Counts()
    yield from try_programs(room, programs, Takers(one_for_each()), ASKING, counts)
    yield from (f"emitted, left out: {text}" for text in counts.left_out)


def laid(case: Case, program: Path) -> Program:
    with Room(program) as room:
        made = case.laid(room)
        lines = made.text("input")
        return Program(case.name, made.text("file"), lines if len(lines) <= LONGEST_INPUT else b"")


def try_cases(cases: Sequence[Case], room: Room) -> Checks:
    yield from try_all([laid(case, room.program) for case in cases], room)


def try_names(room: Room) -> Checks:
    """A name that is free is that of the function, in the function and in the filter; a source from the standard input is that of the file."""
    room.put("file", examples.text_of(examples.source("clock")))
    for language in LANGUAGES:
        usual = room.run(("emit", language, "file"), NO_INPUT)
        named = room.run(("emit", language, "file", "--name", "clock"), NO_INPUT)
        yield equal(f"emitted, {language}, a name", (named.out.replace(b"clock", b"answer"), usual.out.replace(b"clock", b"answer")))
        room.put("input", examples.text_of(examples.source("clock")))
        yield ended(f"emitted, {language}, the standard input", room.run(("emit", language, "-")), 0, usual.out)


def try_spoilt(room: Room) -> Checks:
    for name in SPOILT_GOALS:
        yield from try_spoilt_goals(room, name, Takers((), solvers()))


def skipped(what: str, tools: str, _: Room) -> Checks:
    yield Skipped(f"emitted, {what}", f"{tools} is missing")


def missing() -> Iterator[tuple[str, str]]:
    """The languages that nothing takes here, and the solvers that are not here."""
    for language in LANGUAGES:
        if not makers([language]):
            yield language, " and ".join(maker.tool for maker in MAKERS if maker.language == language)
    for solver in SOLVERS:
        if not solver.is_here():
            yield "smt", solver.tool


def in_parts(all: Sequence[Each]) -> Iterator[Sequence[Each]]:
    for start in range(0, len(all), TOGETHER):
        yield all[start : start + TOGETHER]


def is_tried(case: Case) -> bool:
    return case.words() == [b"run", b"file"] and not case.has("status") and not case.has("streams")


def jobs() -> Iterator[Job]:
    yield Job("emitted", try_names)
    yield Job("emitted, spoilt goals", try_spoilt)
    for what, tools in missing():
        yield Job(f"emitted, {what}", partial(skipped, what, tools))
    for names in in_parts([*examples.names(), *examples.names("refused")]):
        yield Job(f"emitted {', '.join(names)}", partial(try_examples, names))
    for cases in in_parts([case for case in standing() if is_tried(case)]):
        yield Job(f"emitted {', '.join(case.name for case in cases)}", partial(try_cases, cases))
