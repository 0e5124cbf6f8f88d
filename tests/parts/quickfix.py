"""Vim's compiler file: `:make` on a file that is refused fills the quickfix list with its place and what is told, of both editions, and is empty on a file that
is taken. Where Vim is missing, a line says so.
"""

from __future__ import annotations

import json
import os
import shutil
import subprocess
from collections.abc import Iterator
from functools import partial

from harness import examples
from harness.checks import Check, Skipped, equal
from harness.jobs import Checks, Job
from harness.program import ROOT, Room

MOST_SECONDS = 60
LISTED = "map(filter(getqflist(), 'v:val.valid'), '[bufname(v:val.bufnr), v:val.lnum, v:val.col, v:val.text]')"

Entry = tuple[str, int, int, str]


def made(name: str, room: Room) -> list[Entry]:
    """The quickfix list behind `:make` on this file."""
    words = ["vim", "-n", "-es", "-u", "NONE", "-i", "NONE", "-N", f"+set runtimepath^={ROOT}/editors/vim", "+filetype plugin on", f"+edit {name}"]
    words += ["+silent make!", f"+call writefile([json_encode({LISTED})], 'listed')", "+qall!"]
    environment = os.environ | {"PATH": f"{room.folder}:{os.environ['PATH']}"}
    subprocess.run(words, cwd=room.folder, env=environment, stdin=subprocess.DEVNULL, capture_output=True, timeout=MOST_SECONDS, check=False)
    return [tuple(entry) for entry in json.loads(room.front("listed"))]


def wanted(name: str) -> list[Entry]:
    """The entry that stands for what must be written of a refused example."""
    first, *others = examples.text_of(examples.expectation(name, "err")).decode().splitlines()
    helps = [line.removeprefix("help: ") for line in others if line.startswith("help: ")]
    path = str(examples.named(name))
    where, _, what = first.partition(": ")
    if where.startswith("line "):
        _, line, _, column = where.split()
    elif where.startswith(f"{path}:"):
        line, column = where.removeprefix(f"{path}:").split(":")
    else:
        return [(path, 0, 0, first)]
    return [(path, int(line), int(column), "\n".join([what, *helps]))]


def try_refused(name: str, room: Room) -> Iterator[Check]:
    yield equal(f"quickfix, {name}", (made(str(examples.named(name)), room), wanted(name)))


def try_taken(room: Room) -> Iterator[Check]:
    """A source that is taken, a late program, and a target have no entry; a target that is refused has one."""
    for name in "examples/between.cf", "examples/quotient.cf", "examples/wait.target":
        yield equal(f"quickfix, {name}", (made(name, room), []))
    room.put("refused.target", b"comfusy 3\nmain (int): int = v1 +\n")
    yield equal("quickfix, a target", (made("refused.target", room), [("refused.target", 2, 22, "syntax")]))


def laid(checks, room: Room) -> Checks:
    """The checks in a room with the examples, in which Vim finds the program."""
    examples.lay(room)
    (room.folder / "comfusy").symlink_to(room.program)
    yield from checks(room)


def skipped(_: Room) -> Checks:
    yield Skipped("quickfix", "vim is missing")


def jobs() -> Iterator[Job]:
    if shutil.which("vim") is None:
        yield Job("quickfix", skipped)
        return
    for name in examples.names("refused"):
        yield Job(f"quickfix, {name}", partial(laid, partial(try_refused, name)))
    yield Job("quickfix", partial(laid, try_taken))
