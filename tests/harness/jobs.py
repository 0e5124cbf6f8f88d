"""Parts of the tests that are done side by side, each in a room of its own."""

from __future__ import annotations

import os
from collections.abc import Callable, Iterable, Iterator
from concurrent.futures import ProcessPoolExecutor
from dataclasses import dataclass
from functools import partial
from pathlib import Path

from .checks import Check, Skipped
from .program import Room

MOST_WORKERS = 4

Checks = Iterable[Check | Skipped | str]


@dataclass(frozen=True)
class Job:
    """What is checked in one room: a function of the room, by the name that tells it where it breaks off."""

    name: str
    checks: Callable[[Room], Checks]


def workers() -> int:
    return min(MOST_WORKERS, len(os.sched_getaffinity(0)))


def whole(name: str, checks: Callable[[Room], Checks], room: Room) -> Checks:
    """The checks of this name; where they break off, that is a check that failed."""
    try:
        yield from checks(room)
    except Exception as error:
        yield Check(name, (f"broke off: {type(error).__name__}: {error}",))


def done(program: Path, job: Job) -> list[Check | Skipped | str]:
    with Room(program) as room:
        return list(whole(job.name, job.checks, room))


def side_by_side(program: Path, jobs: Iterable[Job]) -> Iterator[Check | Skipped | str]:
    """Does the jobs side by side, and tells of them in their order."""
    with ProcessPoolExecutor(workers()) as pool:
        for told in pool.map(partial(done, program), list(jobs)):
            yield from told
