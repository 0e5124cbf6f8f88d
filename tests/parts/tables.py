"""The tables that stand in tests/tables; a new one is run once it stands there. The columns of a row are one of these:

  WHAT, PROGRAM                   what `run` refuses the program for; `ok` where it breaks no rule: it is done, or refused for a choose
  STATUS, WRITTEN, INPUT, TEXT    the status of `run` (of `exec`, in a table whose name begins with `targets`) and what it writes, to the standard
                                  error where the status is not 0
  WORDS, WRITTEN, PROGRAM         what a command writes on a program, which it reads from the file named behind the first word; what `check` writes of
                                  samples is put into the program, and what `prove` writes is verified
  STATUS, WRITTEN, REFUSED, INPUT, TEXT   the same of `run` on a program that is linear only on the numbers of a line, with tallies of 0 behind it for
                                  `--stats`; and the text with which all other commands on a source refuse the program, as not linear

In a table whose name begins with `refused` a row is COMMANDS, STATUS, WRITTEN, PROGRAM: with what commands refuse a program of the name `p.cf`. They are
`every` command on a source; all `but run`, which takes products with inputs; all `but verify`, which does not look into a choose; or `run` alone.
In a table whose name begins with `steps` a row is STATUS, WRITTEN, STEPS, PROGRAM: what `verify` writes of the steps.
In a table whose name begins with `verdicts` a row is VERDICTS, PROGRAM: how each line that `check` writes of a program begins, without samples. In `verdicts`
the places of lines are left out, too.
In a table whose name begins with `strict` a row is STRICT, UNIQUE, PROGRAM: what `check --strict` and `check --strict --unique` find in a program, which is
`yes`, or how many answers are not, as `2 no` or `1 undecided`; they write what `check` writes.
In a table whose name begins with `words` a row has a status and the words of a command line, each in a column: none is `-`. The files `source`,
`target` and `steps` stand there. `2 silent` is a status 2 with nothing written, as for words that the system does not hand over.
"""

from __future__ import annotations

import re
from collections.abc import Callable, Iterator
from functools import partial
from itertools import islice
from pathlib import Path

from harness import examples
from harness.checks import Check, ended, without_places
from harness.jobs import Checks, Job, whole
from harness.program import NO_INPUT, USAGE, Ended, Room
from harness.refusals import status_of
from harness.rows import TABLES, Row, rows_of

from .proofs import try_verified
from .samples import try_samples

ROWS_OF_A_JOB = 50
NOT_LINEAR = 8
STRICT = {b"no": 14, b"undecided": 15}
INPUT_LONG = b"11"
TALLIES = b"# fold 0\n# drop-needs 0\n# drop-arms 0\n# drop-lets 0\n"
OTHER_COMMANDS = ("compile", "file"), ("emit", "python", "file"), ("pre", "file"), ("check", "file"), ("prove", "file"), ("verify", "file", "missing")
ON_A_SOURCE = "compile", "emit", "pre", "check", "prove", "verify", "run"
REFUSING = {b"every": ON_A_SOURCE, b"but run": ON_A_SOURCE[:-1], b"but verify": (*ON_A_SOURCE[:-2], "run"), b"run": ("run",)}


def written(name: str, seen: Ended, status: int, text: bytes) -> Check:
    """Checks a run that writes this text, to the standard error where the status is not 0."""
    return ended(name, seen, status, *((b"", text) if status else (text, b"")))


def try_rule(row: Row, room: Room) -> Iterator[Check]:
    what, program = row.columns
    room.put("file", row.texts[1] + b"\n")
    seen = room.run(("run", "file"), NO_INPUT)
    name = row.name(program)
    if what != b"ok":
        yield ended(name, seen, status_of(what.decode()), err=what + b"\n")
    else:
        breaks_none = seen.status == 12 or (seen.status in (9, 10) and seen.err.startswith(b"choose"))
        yield ended(name, seen, seen.status if breaks_none else 0, err=seen.err)


def try_text(command: str, row: Row, room: Room) -> Iterator[Check]:
    _, text, lines, program = row.texts
    yield try_reply(row.name(row.columns[-1]), room, command, int(row.columns[0]), text, lines, program)


def try_reply(name: str, room: Room, command: str, status: int, text: bytes, lines: bytes, program: bytes) -> Check:
    room.put("input", lines)
    room.put("file", program)
    return written(name, room.run((command, "file")), status, text)


def try_late(row: Row, room: Room) -> Iterator[Check]:
    _, text, _, lines, program = row.texts
    name, status = row.name(row.columns[-1]), int(row.columns[0])
    yield try_reply(name, room, "run", status, text, lines, program)
    if status == 0:
        yield ended(f"{name}, --stats", room.run(("run", "file", "--stats")), 0, text + TALLIES)
    others = [room.run(words, NO_INPUT) for words in OTHER_COMMANDS]
    refused = [ended(" ".join(words), seen, NOT_LINEAR, err=row.texts[2] + b"\n") for words, seen in zip(OTHER_COMMANDS, others)]
    yield Check(f"{name}, other commands", tuple(f"{it.name}: {fault}" for it in refused for fault in it.faults))


def try_written(row: Row, room: Room) -> Iterator[Check]:
    command, *flags = row.columns[0].decode().split()
    _, text, program = row.texts
    name = row.name(row.columns[-1])
    room.put("file", program)
    yield ended(name, room.run((command, "file", *flags), NO_INPUT), 0, text)
    if command == "check":
        yield from try_samples(name, program.decode().rstrip("\n"), text.decode(), room)
    if command == "prove":
        yield try_verified(name, "file", text, room)


def verdict_in(line: bytes) -> bytes:
    """A line of `check` without its sample, its outputs or its limit."""
    return re.sub(rb"( for (?!no inputs|any inputs)|(?<=two outputs): |(?<=undecided): ).*", b"", line)


def try_verdicts(row: Row, room: Room) -> Iterator[Check]:
    verdicts, program = row.texts
    room.put("file", program)
    seen = room.run(("check", "file"), NO_INPUT)
    out = without_places(seen.out) if row.table == "verdicts" else seen.out
    lines = [verdict_in(line) for line in out.splitlines()]
    faults = () if seen.status == 0 and lines == verdicts.splitlines() else (f"status {seen.status}, wrote {seen.out!r} {seen.err!r}",)
    yield Check(row.name(row.columns[-1]), faults)


def try_refused(row: Row, room: Room) -> Iterator[Check]:
    """Each of the commands refuses the program with the same text."""
    commands, status, _, program = row.columns
    room.put("p.cf", row.texts[3])
    for command in REFUSING[commands]:
        words = {"verify": (command, "p.cf", "missing"), "emit": (command, "python", "p.cf")}.get(command, (command, "p.cf"))
        yield ended(row.name(program.removeprefix(b"comfusy 3\\n") + b", " + command.encode()), room.run(words, NO_INPUT), int(status), err=row.texts[2])


def try_steps(row: Row, room: Room) -> Iterator[Check]:
    _, text, steps, program = row.texts
    room.put("steps", steps)
    room.put("file", program)
    yield written(row.name(row.columns[-1]), room.run(("verify", "file", "steps"), NO_INPUT), int(row.columns[0]), text)


def try_words(row: Row, room: Room) -> Iterator[Check]:
    """The words of a command line. What is refused writes nothing."""
    for name, path in ("source", examples.source("even")), ("target", examples.expectation("even", "target")), ("steps", examples.expectation("even", "steps")):
        room.put(name, path.read_bytes())
    wanted, *words = row.texts
    seen = room.run(words if words != [b"-"] else [], NO_INPUT)
    said = {b"2": USAGE, b"3": b"cannot read file\n", b"12": b"no memory\n"}.get(wanted, b"")
    yield ended(row.name(b" ".join(row.columns[:6])), seen, int(wanted.removesuffix(b" silent")), seen.out if wanted == b"0" else b"", said)


def strict_end(found: bytes) -> tuple[int, bytes]:
    """The status of a strict `check` that finds this, and what it writes to the standard error."""
    if found == b"yes":
        return 0, b""
    count, so = found.split()
    return STRICT[so], b"check: %s %s %s\n" % (count, b"answer is" if count == b"1" else b"answers are", so)


def try_strict(row: Row, room: Room) -> Iterator[Check]:
    *found, program = row.texts
    room.put("p.cf", program)
    told = room.run(("check", "p.cf"), NO_INPUT)
    yield ended(row.name(row.columns[-1]), told, 0, told.out)
    for flags, what in zip((("--strict",), ("--strict", "--unique")), found):
        status, text = strict_end(what)
        yield ended(row.name(row.columns[-1] + b", " + " ".join(flags).encode()), room.run(("check", *flags, "p.cf"), NO_INPUT), status, told.out, text)


def no_row(row: Row, _: Room) -> Iterator[Check]:
    yield Check(row.name(), ("a row has two to five columns",))


def trial_of(row: Row) -> Callable[[Row, Room], Iterator[Check]]:
    """How a row of so many columns is tried in its table."""
    if row.table.startswith("words"):
        return try_words
    if row.table.startswith("verdicts"):
        return try_verdicts
    if row.table.startswith("strict"):
        return try_strict
    if row.table.startswith("refused"):
        return try_refused
    of_four = try_steps if row.table.startswith("steps") else partial(try_text, "exec" if row.table.startswith("targets") else "run")
    return {2: try_rule, 3: try_written, 4: of_four, 5: try_late}.get(len(row.columns), no_row)


def is_of_replies(row: Row) -> bool:
    """Whether a row is of what `run` or `exec` does with an input of any length."""
    return len(row.columns) != 3 and not row.table.startswith(("words", "verdicts", "strict", "refused", "steps")) and row.columns[0] != INPUT_LONG


def try_rows(rows: list[Row], room: Room) -> Checks:
    for row in rows:
        yield from whole(row.name(), partial(trial_of(row), row), room)


def every() -> list[Path]:
    return sorted(TABLES.iterdir())


def jobs(table: Path) -> Iterator[Job]:
    rows = rows_of(table)
    while some := list(islice(rows, ROWS_OF_A_JOB)):
        yield Job(f"{some[0].name()} to {some[-1].number}", partial(try_rows, some))
