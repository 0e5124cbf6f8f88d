"""docs/SCALE.md: its commands, a section at a time. Where a tool is missing, that is told as skipped.

The hosts of the section on several machines are two logins to this one, over an ssh server that is started for it.
"""

from __future__ import annotations

from collections.abc import Iterator
from functools import partial

from harness.checks import Skipped, equal
from harness.jobs import Checks, Job
from harness.program import ROOT, Room

from .logins import NoLogin, logins
from .quoted import lay, try_commands

PAGE = ROOT / "docs/SCALE.md"
ON_HOSTS = "Several machines"


def try_section(text: str, room: Room) -> Checks:
    lay(room)
    yield from try_commands("scale", text, room)


def try_hosts(text: str, room: Room) -> Checks:
    """The same where commands log in to other machines."""
    lay(room)
    try:
        with logins(room) as client:
            yield from try_commands("scale", text, room, {"PARALLEL_SSH": client})
    except NoLogin as why:
        yield Skipped(f"scale, {ON_HOSTS}", str(why))


def has_sections(others: list[str], _: Room) -> Checks:
    yield equal("scale, sections", (bool(others), True))


def jobs() -> Iterator[Job]:
    """What stands in front has the lines, which each section needs."""
    front, *others = PAGE.read_text(encoding="utf-8").split("\n## ")
    yield Job("scale", partial(has_sections, others))
    for text in others:
        heading, _, commands = text.partition("\n")
        yield Job(f"scale, {heading}", partial(try_hosts if heading == ON_HOSTS else try_section, f"{front}\n{commands}"))
