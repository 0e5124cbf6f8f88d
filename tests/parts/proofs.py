"""Steps as `prove` writes them."""

from __future__ import annotations

from pathlib import Path

from harness.checks import Check, ended
from harness.program import NO_INPUT, Room
from harness.steps import verified_lines


def try_verified(name: str, source: str | Path, steps: bytes, room: Room) -> Check:
    """The steps have one block for each choose of a source, and `verify` accepts them all."""
    room.put("steps", steps)
    return ended(f"{name}, verified", room.run(("verify", source, "steps"), NO_INPUT), 0, verified_lines(steps))
