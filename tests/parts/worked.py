"""The examples: each command writes what stands in tests/examples, and that folder holds what it must and nothing else."""

from __future__ import annotations

from collections.abc import Iterator
from functools import partial
from pathlib import Path

from harness import examples
from harness.checks import Check, ended
from harness.examples import EXAMPLES, EXPECTED, KINDS, expectation, is_late, text_of
from harness.jobs import Job
from harness.program import NO_INPUT, ROOT, Room
from harness.refusals import status_of

from .proofs import try_verified

GIVEN = (".target", ".steps")


def try_example(name: str, room: Room) -> Iterator[Check]:
    examples.lay(room)
    yield try_command(name, "run", examples.source(name), "out", room)
    if is_late(name):
        for command in KINDS:
            yield try_refused(name, command, room)
        return
    for command, kind in KINDS.items():
        yield try_command(name, command, examples.named(name), kind, room)
    yield try_command(name, "exec", expectation(name, "target"), "out", room)
    yield try_verified(f"example {name}", examples.source(name), text_of(expectation(name, "steps")), room)


def try_command(name: str, command: str, path: Path, kind: str, room: Room) -> Check:
    """What a command writes on a file of an example."""
    room.put("input", examples.lines(name).read_bytes())
    return ended(f"example {name}, {command}", room.run((command, path)), 0, text_of(expectation(name, kind)))


def try_refused(name: str, command: str, room: Room) -> Check:
    """A source is refused by a command."""
    err = text_of(expectation(name, "err"))
    seen = room.run((command, examples.named(name)), NO_INPUT)
    return ended(f"example {name}, {command}", seen, status_of(err.decode()), err=err)


def try_refused_example(name: str, room: Room) -> Iterator[Check]:
    examples.lay(room)
    yield try_refused(name, "run", room)


def try_steps(name: str, room: Room) -> Iterator[Check]:
    """What `verify` writes on steps that were written by hand."""
    out, err = (text_of(expectation(name, kind)) for kind in ("out", "err"))
    seen = room.run(("verify", examples.source(name), EXAMPLES / f"{name}.steps"), NO_INPUT)
    yield ended(f"example {name}, verify", seen, status_of(err.decode()) if err else 0, out, err)


def owed() -> Iterator[str]:
    """The files with what must be written on the sources that stand there."""
    for name in examples.names():
        yield f"{name}.out"
        yield from [f"{name}.err"] if is_late(name) else [f"{name}.{kind}" for kind in KINDS.values()]
    for name in examples.names("refused"):
        yield f"{name}.err"
    for name in examples.names("steps"):
        yield f"{name}.err" if expectation(name, "err").exists() else f"{name}.out"


def sources_and_inputs() -> Iterator[str]:
    for name in examples.names():
        yield from (f"{name}.cf", f"{name}.in")
        if (EXAMPLES / f"{name}.keyed").exists():
            yield f"{name}.keyed"
    for name in examples.names("refused"):
        yield f"{name}.cf"
    for name in examples.names("steps"):
        yield from (f"{name}.cf", f"{name}.steps")


def holds_just(folder: Path, wanted: set[str]) -> Check:
    """Checks that a folder holds these files, and no others."""
    held = {str(path.relative_to(folder)) for path in folder.rglob("*") if path.is_file()}
    faults = [f"{name} is missing" for name in sorted(wanted - held)] + [f"{name} belongs to nothing" for name in sorted(held - wanted)]
    return Check(f"the files of {folder.relative_to(ROOT)}", tuple(faults))


def try_folders(_: Room) -> Iterator[Check]:
    given = {name for name in owed() if name.endswith(GIVEN) and (EXAMPLES / name).exists()}
    yield holds_just(EXAMPLES, set(sources_and_inputs()) | given)
    yield holds_just(EXPECTED, set(owed()) - given)


def jobs() -> Iterator[Job]:
    tries = {"": try_example, "refused": try_refused_example, "steps": try_steps}
    for folder, try_one in tries.items():
        for name in examples.names(folder):
            yield Job(f"example {name}", partial(try_one, name))
    yield Job("the files of examples", try_folders)
