"""Sections of pages whose commands are done as they stand there, each behind the one before it, in a folder that looks like that of the repository."""

from __future__ import annotations

import os
import shutil
import subprocess
from collections.abc import Mapping

from harness import examples
from harness.checks import Skipped, equal
from harness.jobs import Checks
from harness.program import Room

from .pages import Quote, quotes_of

MOST_SECONDS = 100


def lay(room: Room) -> None:
    """Puts ./comfusy and examples/ into the room."""
    (room.folder / "comfusy").symlink_to(room.program)
    examples.lay(room)


def wanting(quote: Quote) -> str | None:
    """The tool that a command needs, where it is missing."""
    tool = quote.command.split(" | ")[-1].split()[0]
    return None if "/" in tool or shutil.which(tool) else tool


def try_commands(part: str, text: str, room: Room, more: Mapping[str, str] | None = None) -> Checks:
    """Does each command, with more variables in its environment; those behind one that is skipped may need it, and are skipped, too. `echo $?` tells the status
    of the one before it."""
    status = 0
    for quote in quotes_of(text):
        name = f"{part}, {quote.command}"
        if quote.command == "echo $?":
            yield equal(name, (quote.text, f"{status}\n"))
            continue
        if missing := wanting(quote):
            yield Skipped(name, f"{missing} is missing")
            return
        command = ["timeout", str(MOST_SECONDS), "bash", "-c", quote.command]
        done = subprocess.run(command, cwd=room.folder, env=os.environ | (more or {}), stdout=subprocess.PIPE, stderr=subprocess.STDOUT, text=True, check=False)
        status = done.returncode
        yield equal(name, (done.stdout, quote.text))
