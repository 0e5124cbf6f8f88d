"""Each program of the cases and tables that `run` is done with is compiled; `exec` on the target answers as `run` does."""

from __future__ import annotations

from collections.abc import Iterator
from functools import partial
from itertools import islice

from harness.checks import Check, ended, equal
from harness.jobs import Job
from harness.program import NO_INPUT, Room
from harness.rows import Row, rows_of

from . import tables
from .cases import Case, standing
from .editions import HEADER

OTHER_TABLES = ("targets", "words", "steps")
LONGEST_TARGET = 1_048_576


def is_too_long(target: bytes) -> bool:
    """Whether `exec` takes no target of this length. Of edition 3 `compile` writes no such one."""
    return len(target) > LONGEST_TARGET and not target.startswith(HEADER)


def compile_and_exec(name: str, out: bytes, room: Room) -> Iterator[Check]:
    """The program in `file` is compiled, and `exec` on the target answers its input. Of language 2 a target that is too long is refused."""
    for flag in "--plain", "--stats":
        compiled = room.run(("compile", "file", flag), NO_INPUT)
        if compiled.status:
            yield equal(f"compiled {name}", (f"status {compiled.status}", "status 0"))
            continue
        room.put("target", compiled.out)
        if is_too_long(compiled.out):
            yield ended(f"compiled {name} {flag}", room.run(("exec", "target")), 6, err=b"text too long\n")
        else:
            yield ended(f"compiled {name} {flag}", room.run(("exec", "target")), 0, out)


def try_case(case: Case, room: Room) -> Iterator[Check]:
    yield from compile_and_exec(case.name, case.laid(room).text("out"), room)


def try_rows(rows: list[Row], room: Room) -> Iterator[Check]:
    for row in rows:
        _, out, lines, program = row.texts
        room.put("input", lines)
        room.put("file", program)
        yield from compile_and_exec(row.name(), out, room)


def jobs() -> Iterator[Job]:
    for case in standing():
        if case.words() == [b"run", b"file"] and not case.has("status") and not case.has("streams"):
            yield Job(f"compiled {case.name}", partial(try_case, case))
    for table in tables.every():
        if not table.name.startswith(OTHER_TABLES):
            rows = (row for row in rows_of(table) if len(row.columns) == 4 and row.columns[0] == b"0")
            while some := list(islice(rows, tables.ROWS_OF_A_JOB)):
                yield Job(f"compiled {some[0].name()}", partial(try_rows, some))
