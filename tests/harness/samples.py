"""The samples that `check` writes."""

from __future__ import annotations

from collections.abc import Iterable

ANY = {"int": "0", "bool": "false", "set": "{}"}


def line_at(params: Iterable[tuple[str, str]], sample: str) -> str:
    """The input line of a sample as `a = 5, s = {1,2}`, for parameters with their bases. What the sample does not name has any value."""
    values = dict(part.split(" = ") for part in sample.split(", ")) if sample else {}
    return " ".join(values.get(name, ANY[base]) for name, base in params)
