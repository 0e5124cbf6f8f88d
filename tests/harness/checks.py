"""What is checked, what is wrong with it, and how it is told."""

from __future__ import annotations

import re
from collections.abc import Iterable, Sequence
from dataclasses import dataclass
from fnmatch import fnmatchcase

from .program import Ended, short


@dataclass(frozen=True)
class Check:
    """Something that was checked, and what was wrong with it."""

    name: str
    faults: tuple[str, ...] = ()


@dataclass(frozen=True)
class Skipped:
    """Something that was not checked, and why."""

    name: str
    why: str


def ended(name: str, seen: Ended, status: int = 0, out: bytes = b"", err: bytes = b"") -> Check:
    """Checks how a run ended, and what it wrote."""
    faults = [f"status {seen.status}, wanted {status}"] if seen.status != status else []
    for stream, wrote, wanted in ("standard output", seen.out, out), ("standard error", seen.err, err):
        if wrote != wanted:
            faults.append(f"{stream}: {short(wrote)}, wanted {short(wanted)}")
    return Check(name, tuple(faults))


def without_places(text: bytes) -> bytes:
    """What `check` writes of the source `file`, without the places before its lines."""
    return re.sub(rb"(?m)^file:[0-9]+:[0-9]+: ", b"", text)


def equal(name: str, *pairs: tuple[object, object]) -> Check:
    """Checks pairs of what was seen and what is wanted."""
    return Check(name, tuple(f"{seen!r}, wanted {wanted!r}" for seen, wanted in pairs if seen != wanted))


def is_wanted(name: str, names: Sequence[str]) -> bool:
    """Whether one of the names names this one; without names all are wanted."""
    return not names or any(fnmatchcase(name, pattern) for pattern in names)


class Report:
    """Counts checks, and tells those that fail as they come."""

    def __init__(self) -> None:
        self.passed = 0
        self.failed = 0
        self.skipped = 0

    def take(self, checks: Iterable[Check | Skipped | str]) -> None:
        """Takes checks, what was skipped, and remarks that count for nothing."""
        for check in checks:
            if isinstance(check, str):
                print(check, flush=True)
            elif isinstance(check, Skipped):
                self.skipped += 1
                print(f"{check.name} is skipped: {check.why}", flush=True)
            elif check.faults:
                self.failed += 1
                print(f"{check.name}: {'; '.join(check.faults)}", flush=True)
            else:
                self.passed += 1

    def close(self) -> bool:
        """Tells the counts, and answers whether something was checked and nothing failed."""
        skipped = f", {self.skipped} skipped" if self.skipped else ""
        print(f"{self.passed} passed, {self.failed} failed{skipped}")
        return self.passed > 0 and self.failed == 0
