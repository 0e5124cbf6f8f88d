"""The shim beneath the program, C code that refuses allocations, lets calls fail, and counts both."""

from __future__ import annotations

import os
import struct
import subprocess
from collections.abc import Iterator, Sequence
from dataclasses import dataclass

from shared import MOST_SECONDS, ROOT, Ended, Room
from harness.program import UNLIMITED

SOURCE = ROOT / "trials/refuse.c"


@dataclass(frozen=True)
class Call:
    """A call of the program to the system: 'open', 'read' or 'write', its descriptor, the bytes asked for, and its answer."""

    kind: str
    descriptor: int
    asked: int
    answer: int


@dataclass(frozen=True)
class Refused:
    """A run in which allocations were refused, as `3` or `3-`: how it ended, and how many calls it made."""

    which: str
    ended: Ended
    calls: int


class Shim:
    """The program of a room over the shim."""

    MOST_CALLS = 65536
    KINDS = {"o": "open", "r": "read", "w": "write"}
    END = struct.Struct("QQqqqq")

    def __init__(self, room: Room) -> None:
        self.room = room
        self.library = room.folder / "refuse.so"
        subprocess.run(["cc", "-O2", "-shared", "-fPIC", "-o", self.library, SOURCE], check=True)
        self.page = room.folder / "page"
        self.page.write_bytes(bytes(16 + 32 * self.MOST_CALLS))
        self.ends = room.folder / "ends"

    def run(self, words: Sequence[str], seconds: float = MOST_SECONDS, **asked: object) -> Ended:
        """Runs the program over the shim. What is asked are the words of its environment, as `refuse='3-'`."""
        environment = {f"SHIM_{name.upper()}": str(value) for name, value in asked.items() if value is not None}
        environment |= {"LD_PRELOAD": str(self.library), "SHIM_PAGE": str(self.page)}
        return self.room.run(words, environment=environment, seconds=seconds)

    def sweep(self, words: Sequence[str], every: int) -> Ended:
        """Runs the program once, and from each `every`th of its allocations on also in children, where that one is refused, alone and with all behind it."""
        return self.run(words, seconds=UNLIMITED, sweep=f"{every}:{self.ends}")

    def refused(self) -> Iterator[Refused]:
        """The children of the last sweep, in order."""
        with open(self.ends, "rb") as ends:
            while head := ends.read(self.END.size):
                first, last, status, calls, out, err = self.END.unpack(head)
                which = f"{first}" if first == last else f"{first}-"
                yield Refused(which, Ended(os.waitstatus_to_exitcode(status), ends.read(out), ends.read(err)), calls)

    def allocations(self) -> int:
        """How many allocations the last run asked for."""
        with open(self.page, "rb") as page:
            return struct.unpack("QQ", page.read(16))[0]

    def calls(self) -> list[Call]:
        """The calls of the last run, in order."""
        with open(self.page, "rb") as page:
            _, count = struct.unpack("QQ", page.read(16))
            notes = page.read(32 * min(count, self.MOST_CALLS))
        return [Call(self.KINDS[chr(kind)], *rest) for kind, *rest in struct.iter_unpack("qqqq", notes)]
