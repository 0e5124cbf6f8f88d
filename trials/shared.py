"""What the trials share: their words, and the rows in which they tell what they tried."""

from __future__ import annotations

import argparse
import resource
import sys
from collections import Counter
from collections.abc import Iterator
from dataclasses import dataclass
from pathlib import Path

sys.path.insert(0, str(Path(__file__).resolve().parent.parent / "tests"))
from harness.program import ROOT, Ended, Room, found, short  # noqa: E402, F401

GIB = 1 << 30
MOST_SECONDS = 600
COMPARED = ("places", "tried", "wrong", "ended")
COLUMNS = ("trial", "row", *COMPARED, "seconds", "MiB")


def parser(about: str) -> argparse.ArgumentParser:
    """The words that each trial takes."""
    words = argparse.ArgumentParser(description=about, formatter_class=argparse.RawDescriptionHelpFormatter)
    words.add_argument("--program", type=Path, metavar="FILE", help="the built program; else what was built here of these sources, or what ./comfusy starts")
    words.add_argument("--memory", type=int, default=3, metavar="GIB", help="no run has more address space than this")
    words.add_argument("--table", action="store_true", help="tell the rows as a table with tabs, and all else to the standard error")
    words.add_argument("--compare", type=Path, metavar="FILE", help="a table with which the rows are compared")
    return words


class Rooms:
    """Makes rooms for a trial, whose runs have only so much memory."""

    def __init__(self, arguments: argparse.Namespace) -> None:
        self.program = found(arguments.program)
        most = arguments.memory * GIB
        resource.setrlimit(resource.RLIMIT_AS, (most, most))
        resource.setrlimit(resource.RLIMIT_CORE, (0, 0))

    def room(self) -> Room:
        return Room(self.program, MOST_SECONDS)


@dataclass(frozen=True)
class Row:
    """What came of a row of a trial: how many runs were tried, what was wrong, and how they ended; the places at which something failed, or the texts."""

    name: str
    tried: int
    wrong: tuple[str, ...]
    ended: str
    places: int | None = None
    seconds: float | None = None
    peak: int | None = None
    remark: str = ""

    def cells(self, trial: str) -> dict[str, str]:
        """The row as a table has it; `-` stands for what this trial does not tell."""
        seconds = None if self.seconds is None else f"{self.seconds:.2f}"
        mebibytes = None if self.peak is None else self.peak >> 20
        told = (trial, self.name, self.places, self.tried, len(self.wrong), self.ended, seconds, mebibytes)
        return {column: "-" if cell is None else str(cell) for column, cell in zip(COLUMNS, told)}

    def line(self) -> str:
        """The row for people."""
        parts = [f"{self.name:52} {self.tried:6} tried, {len(self.wrong)} wrong: {self.ended}"]
        parts += [f"{self.places} places"] if self.places is not None else []
        parts += [f"{self.seconds:.2f} s"] if self.seconds is not None else []
        parts += [f"{self.peak >> 20} MiB"] if self.peak is not None else []
        return "; ".join(parts + ([self.remark] if self.remark else []))


def ends(counts: Counter[str]) -> str:
    """How many runs ended how."""
    return ", ".join(f"{counts[what]} {what}" for what in sorted(counts))


def recorded(table: Path, trial: str) -> dict[str, dict[str, str]]:
    """The rows of a trial in a table, by their names."""
    head, *lines = (line.split("\t") for line in table.read_text(encoding="utf-8").splitlines())
    rows = (dict(zip(head, line)) for line in lines)
    return {row["row"]: row for row in rows if row["trial"] == trial}


class Told:
    """Tells the rows of a trial as they come, and in the end what was wrong and what differs from the table."""

    def __init__(self, trial: str, arguments: argparse.Namespace) -> None:
        self.trial = trial
        self.is_table = arguments.table
        self.recorded = recorded(arguments.compare, trial) if arguments.compare else None
        self.tried = 0
        self.remarks = 0
        self.wrong: list[str] = []
        self.differing: list[str] = []
        if self.is_table:
            print("\t".join(COLUMNS), flush=True)

    def take(self, row: Row) -> None:
        cells = row.cells(self.trial)
        print("\t".join(cells.values()) if self.is_table else row.line(), flush=True)
        self.tried += row.tried
        self.remarks += bool(row.remark)
        self.wrong += row.wrong
        self.differing += self.differences(cells)

    def differences(self, cells: dict[str, str]) -> Iterator[str]:
        """What a row says otherwise than the table; what was measured may differ."""
        if self.recorded is None:
            return
        then = self.recorded.pop(cells["row"], None)
        if then is None:
            yield f"{cells['row']}: not in the table"
            return
        for column in COMPARED:
            if cells[column] != then[column]:
                yield f"{cells['row']}: {column} {cells[column]}, in the table {then[column]}"

    def close(self, what: str, is_whole: bool = True) -> int:
        """Tells what was wrong and what differs, and counts it; answers the status. Rows that a whole trial did not try differ, too."""
        if self.recorded and is_whole:
            self.differing += [f"{name}: in the table, and not tried" for name in self.recorded]
        for line in self.wrong + self.differing:
            self.say(line)
        large = f", {self.remarks} slow or large" if self.remarks else ""
        differing = f", {len(self.differing)} differ" if self.recorded is not None else ""
        self.say(f"{self.tried} {what}, {len(self.wrong)} wrong{large}{differing}")
        return 1 if self.wrong or self.differing or not self.tried else 0

    def say(self, line: str) -> None:
        """Tells what is no row."""
        print(line, file=sys.stderr if self.is_table else sys.stdout, flush=True)
