"""The chapters of the guide with a script for a shell, or with a command that writes a file: their commands, each script laid beside the examples under the name
by which the first command behind it starts it, and each file of another language under the name that is told before it.
"""

from __future__ import annotations

import re
from collections.abc import Iterator
from functools import partial

from harness.checks import equal
from harness.jobs import Checks, Job
from harness.program import ROOT, Room

from .quoted import lay, try_commands

PAGE = ROOT / "docs/GUIDE.md"
SCRIPT = re.compile(r"^```sh\n(?P<text>.*?)^```$.*?^\$ sh (?P<name>\S+)", re.DOTALL | re.MULTILINE)
FILE = re.compile(r"`(?P<name>[\w-]+\.(?:py|mjs|c|rs))`[^`]*\n\n```(?:python|js|c|rust)\n(?P<text>.*?)^```$", re.DOTALL | re.MULTILINE)
WRITING = re.compile(r"^\$ .* > \S+$", re.MULTILINE)


def try_chapter(text: str, room: Room) -> Checks:
    lay(room)
    for script in (*SCRIPT.finditer(text), *FILE.finditer(text)):
        room.put(script["name"], script["text"].encode())
    yield from try_commands("scripts", text, room)


def has_chapters(pattern: re.Pattern[str], chapters: list[str], _: Room) -> Checks:
    yield equal("scripts, chapters", (any(pattern.search(text) for text in chapters) or pattern.pattern, True))


def jobs() -> Iterator[Job]:
    chapters = PAGE.read_text(encoding="utf-8").split("\n## ")
    for pattern in SCRIPT, FILE, WRITING:
        yield Job("scripts", partial(has_chapters, pattern, chapters))
    for text in (text for text in chapters if SCRIPT.search(text) or WRITING.search(text)):
        heading, _, commands = text.partition("\n")
        yield Job(f"scripts, {heading}", partial(try_chapter, commands))
