"""The cases: folders that stand in tests/cases. What one may hold, each standing for nothing where it is absent:

  words      the words of the command line, one a line
  make       commands for bash that make further files; they run where the program runs
  file       the source; the program finds it under this name
  input      the standard input
  out, err   what the program must write
  status     the number that it must end with
  streams    redirections of the program, in place of those to `input` and from what it writes
  off        the case waits for what this file says

Files made by `make` under these names count as those of the case.
"""

from __future__ import annotations

import shutil
import subprocess
from collections.abc import Iterator, Sequence
from dataclasses import dataclass
from functools import partial
from pathlib import Path

from harness.checks import Check, ended, is_wanted
from harness.jobs import Checks, Job
from harness.program import ROOT, STREAMS, Room, Streams

CASES = ROOT / "tests/cases"


@dataclass(frozen=True)
class Case:
    """A case as it stands in a folder."""

    folder: Path

    @property
    def name(self) -> str:
        return self.folder.name

    def has(self, part: str) -> bool:
        return (self.folder / part).exists()

    def text(self, part: str) -> bytes:
        return (self.folder / part).read_bytes() if self.has(part) else b""

    def words(self) -> list[bytes]:
        return self.text("words").removesuffix(b"\n").split(b"\n") if self.has("words") else []

    def status(self) -> int:
        return int(self.text("status") or b"0")

    def streams(self) -> Streams:
        return Streams.read(self.text("streams").decode()) if self.has("streams") else STREAMS

    def laid(self, room: Room) -> Case:
        """The case where the program runs, with the files that are to be made."""
        shutil.copytree(self.folder, room.folder, dirs_exist_ok=True)
        if self.has("make"):
            subprocess.run(["bash", "make"], cwd=room.folder, check=True)
        return Case(room.folder)


def try_case(case: Case, room: Room) -> Iterator[Check]:
    laid = case.laid(room)
    yield ended(case.name, room.run(laid.words(), laid.streams()), laid.status(), laid.text("out"), laid.text("err"))


def try_unheard(case: Case, err: str, room: Room) -> Iterator[Check]:
    """A case that is refused, where nothing is heard from its standard error: the status and the standard output stay."""
    laid = case.laid(room)
    yield ended(f"errors {case.name} 2>{err}", room.run(laid.words(), Streams(err=err)), laid.status(), laid.text("out"))


def standing() -> list[Case]:
    """The cases that do not wait for anything."""
    return [case for case in every() if not case.has("off")]


def every() -> list[Case]:
    return [Case(folder) for folder in sorted(CASES.iterdir())]


def jobs(names: Sequence[str]) -> Iterator[Job]:
    for case in every():
        if is_wanted(case.name, names):
            yield Job(case.name, partial(tell_off if case.has("off") else try_case, case))


def tell_off(case: Case, _: Room) -> Checks:
    yield f"{case.name} is off: {(case.folder / 'off').read_text().strip()}"


def unheard_jobs() -> Iterator[Job]:
    """Each case that is refused, with a standard error that is closed and with one that is full."""
    for case in standing():
        if case.has("status") and not case.has("streams"):
            for err in "&-", "/dev/full":
                yield Job(f"errors {case.name}", partial(try_unheard, case, err))
