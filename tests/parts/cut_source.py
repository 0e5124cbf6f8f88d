"""A source that is cut after each of its bytes.

It is refused as a text or for a rule, and then nothing is replied, or it is whole, and then nothing is told.
"""

from __future__ import annotations

from collections.abc import Iterable, Iterator
from functools import partial

from harness import examples
from harness.checks import Check, equal
from harness.jobs import Job
from harness.program import Room

SIZES_OF_A_JOB = 50


def try_cuts(sizes: Iterable[int], room: Room) -> Iterator[Check]:
    room.put("input", b"3661\n")
    whole = examples.source("seconds").read_bytes()
    for size in sizes:
        room.put("file", whole[:size])
        seen = room.run(("run", "file"))
        silent = {0: seen.err, 6: seen.out, 7: seen.out}.get(seen.status)
        if silent is None:
            yield equal(f"cut-source {size}", (f"status {seen.status}", "status 0, 6 or 7"))
        else:
            yield equal(f"cut-source {size}", (silent, b""))


def jobs() -> Iterator[Job]:
    size = examples.source("seconds").stat().st_size
    for first in range(0, size + 1, SIZES_OF_A_JOB):
        sizes = range(first, min(size + 1, first + SIZES_OF_A_JOB))
        yield Job(f"cut-source {first} to {sizes[-1]}", partial(try_cuts, sizes))
