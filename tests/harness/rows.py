r"""The tables of texts. A row has columns, each behind a tab but the first.

In a column \n, \t, \r and \xHH stand for bytes, and a piece `%N TEXT%` stands for N copies of TEXT.
"""

from __future__ import annotations

import re
from collections.abc import Iterator
from dataclasses import dataclass
from functools import cached_property
from pathlib import Path

from .program import ROOT

TABLES = ROOT / "tests/tables"
ESCAPE = re.compile(rb"\\(?:([ntr])|x([0-9a-fA-F]{2}))")
COPIES = re.compile(rb"%(\d+) ([^%]*)%")
CONTROLS = {b"n": b"\n", b"t": b"\t", b"r": b"\r"}


def _byte(escape: re.Match[bytes]) -> bytes:
    return CONTROLS[escape[1]] if escape[1] else bytes([int(escape[2], 16)])


def spelled(column: bytes) -> bytes:
    """What the column stands for."""
    return ESCAPE.sub(_byte, COPIES.sub(lambda piece: piece[2] * int(piece[1]), column))


def column_of(text: bytes) -> bytes:
    """A column that stands for the text."""
    return text.replace(b"\t", rb"\t").replace(b"\r", rb"\r").replace(b"\n", rb"\n")


@dataclass(frozen=True)
class Row:
    """A row of a table: its number and its columns as they stand."""

    table: str
    number: int
    columns: tuple[bytes, ...]

    @cached_property
    def texts(self) -> tuple[bytes, ...]:
        """What the columns stand for."""
        return tuple(map(spelled, self.columns))

    def name(self, shown: bytes = b"") -> str:
        place = f"{self.table}, row {self.number}"
        return f"{place}, {shown[:100].decode(errors='backslashreplace')}" if shown else place


def rows_of(table: Path) -> Iterator[Row]:
    for number, line in enumerate(table.read_bytes().removesuffix(b"\n").split(b"\n"), 1):
        yield Row(table.name, number, tuple(line.split(b"\t")))
