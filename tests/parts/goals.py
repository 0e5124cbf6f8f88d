"""What `emit smt` writes of the examples, and of the cases that `run` is done with.

It is refused as `pre` is, and else for a set in a choose. A solver that is installed, Z3 or cvc5, takes each file without an error, and finds no solution of a
goal: `unsat` is what it should say, while `unknown`, or no answer in time, is no fault.
"""

from __future__ import annotations

import shutil
import subprocess
from collections.abc import Iterator
from dataclasses import dataclass
from functools import partial

from harness import examples
from harness.checks import Skipped, ended, equal
from harness.jobs import Checks, Job
from harness.program import NO_INPUT, Room

from .cases import Case, standing

NO_SETS = 7
MOST_SECONDS = 60
ASKED = b"(check-sat)"
HARMLESS = {b"unsat", b"unknown", b"timeout"}


@dataclass(frozen=True)
class Solver:
    """A solver, which reads a file; each goal has two seconds."""

    tool: str
    words: tuple[str, ...]

    def is_here(self) -> bool:
        return shutil.which(self.tool) is not None

    def asked(self, room: Room, name: str) -> list[bytes]:
        """What it says of the goals in a file, as far as it comes."""
        command = ["timeout", str(MOST_SECONDS), self.tool, *self.words, name]
        return subprocess.run(command, cwd=room.folder, stdout=subprocess.PIPE, stderr=subprocess.STDOUT, check=False).stdout.splitlines()


SOLVERS = Solver("z3", ("-t:2000",)), Solver("cvc5", ("--incremental", "--tlimit-per=2000"))


def try_text(name: str, text: bytes, room: Room) -> Checks:
    room.put("file", text)
    seen, needs = (room.run(words, NO_INPUT) for words in (("emit", "smt", "file"), ("pre", "file")))
    if needs.status or seen.status:
        status, err = (needs.status, needs.err) if needs.status else (NO_SETS, b"no sets in smt\n")
        yield ended(f"goals, {name}", seen, status, err=err)
        return
    room.put("goals.smt2", seen.out)
    for solver in SOLVERS:
        if solver.is_here():
            said = solver.asked(room, "goals.smt2")
            most = seen.out.splitlines().count(ASKED)
            yield equal(f"goals, {name}, {solver.tool}", ([line for line in said if line not in HARMLESS], []), (len(said) <= most, True))


def try_case(case: Case, room: Room) -> Checks:
    yield from try_text(case.name, case.laid(room).text("file"), room)


def skipped(_: Room) -> Checks:
    yield Skipped("goals", f"{' and '.join(solver.tool for solver in SOLVERS)} are missing")


def jobs() -> Iterator[Job]:
    if not any(solver.is_here() for solver in SOLVERS):
        yield Job("goals", skipped)
    for name in (*examples.names(), *examples.names("refused")):
        yield Job(f"goals {name}", partial(try_text, name, examples.text_of(examples.source(name))))
    for case in standing():
        if case.words() == [b"run", b"file"] and not case.has("status") and not case.has("streams"):
            yield Job(f"goals {case.name}", partial(try_case, case))
