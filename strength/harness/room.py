"""Copies of a crate, in which edits of it are checked."""

from __future__ import annotations

import os
import shutil
import subprocess
from collections.abc import Iterable, Sequence
from contextlib import suppress
from pathlib import Path

from .answer import Answer
from .edits import ROOT, Edit, text_of
from .functions import Function
from .libraries import pool, words
from .taken import take, taken

PARTS = "src", "specs", "proofs"
RATTLE = pool.KIT / "bin/rattle"


def link_or_copy(one: str, other: str) -> None:
    """Gives what was proved a second name, since a check replaces such a file and never writes into it, and copies the rest."""
    if one.endswith(".oantt"):
        os.link(one, other)
    else:
        shutil.copy2(one, other)


class Room:
    """Copies of a crate, with what their checks have proved so far; checks of the whole begin with what those in the checkout keep."""

    def __init__(self, crate: str, folder: Path) -> None:
        self.crate = crate
        self.words = words(crate)
        self.copy = folder / "copy"
        self.kept = folder / "kept"
        self.kept_of_taken = folder / "kept-of-taken"
        with suppress(OSError):
            shutil.copytree(self.source / "out/incremental", self.kept, copy_function=link_or_copy)

    @property
    def source(self) -> Path:
        return ROOT / "crates" / self.crate

    def lay(self, edits: Iterable[Edit]) -> None:
        """Copies the crate anew, with these edits in it."""
        shutil.rmtree(self.copy, ignore_errors=True)
        for part in PARTS:
            if (self.source / part).is_dir():
                shutil.copytree(self.source / part, self.copy / part)
        for path, text in texts_with(edits).items():
            (self.copy / path).write_text(text, encoding="utf-8")

    def check(self, edits: Iterable[Edit], functions: Iterable[Function] | None) -> Answer:
        """Checks these functions and those that they call, or the whole crate, with these edits in it."""
        self.lay(edits)
        return self.checked(self.kept, [] if functions is None else only(functions))

    def check_alone(self, edits: Sequence[Edit]) -> Answer:
        """Checks the functions that these edits change, and takes all others as proved."""
        self.lay(edits)
        take(self.copy, self.crate, taken(self.crate, (unit for edit in edits for unit in edit.units)))
        return self.checked(self.kept_of_taken, ["--allow-holes", *only(function for edit in edits for function in edit.functions)])

    def checked(self, kept: Path, flags: list[str]) -> Answer:
        command = [RATTLE, "check", *self.words, "--incremental", kept, "--jobs", "1", *flags]
        with pool.turn():
            ran = subprocess.run(command, cwd=self.copy, stdout=subprocess.PIPE, stderr=subprocess.STDOUT, text=True, errors="replace", check=False)
        return Answer(ran.returncode, tuple(ran.stdout.rstrip("\n").split("\n")))


def only(functions: Iterable[Function]) -> list[str]:
    return [word for name in dict.fromkeys(function.name for function in functions) for word in ("--only", name)]


def texts_with(edits: Iterable[Edit]) -> dict[str, str]:
    """The texts of the files that these edits change, with the lines of all of them."""
    texts: dict[str, list[str]] = {}
    for edit in edits:
        for line, new in edit.lines:
            texts.setdefault(line.path, text_of(edit.crate, line.path).split("\n"))[line.number] = new
    return {path: "\n".join(lines) for path, lines in texts.items()}
