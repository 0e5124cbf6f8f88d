"""What is proved already is taken as it is.

Where a crate is proved as it stands, a function that no edit changes need not be proved again for those that call it: they are checked against its contract. So in
a copy it has an empty body, and its theorem is taken by the one hole of the copy.
"""

from __future__ import annotations

import shutil
from collections.abc import Iterable, Iterator
from pathlib import Path

from .edits import functions_of, sources_of
from .functions import CYCLE, Function

HOLE = "pub taken {ℓ} : {A : Type ℓ} → A\ntaken = ?\n"


def of_crate(crate: str) -> Iterator[Function]:
    for path in sources_of(crate):
        yield from functions_of(crate, path)


def taken(crate: str, edited: Iterable[str]) -> list[Function]:
    """The functions of a crate that can be taken beside these that are edited: none of a cycle of which one cannot."""
    every = list(of_crate(crate))
    kept = {*edited, *(function.unit for function in every if function.module is None)}
    return [function for function in every if function.unit not in kept]


def proof_of(crate: str, function: Function) -> str:
    place = ".".join(function.name.split("::"))
    name = function.name.split("::")[-1]
    imports = f"use Rattle.{crate}.proofs.{place}.Statement.{{statement}}\nuse Rattle.{crate}.proofs.Taken.{{taken}}\n"
    return f"{imports}\npub {name}_spec : {{M : Type 1}} → statement M\n{name}_spec = taken\n"


def put_proof(folder: Path, crate: str, function: Function) -> None:
    """Writes the proof of a function that is taken in the place of its own answers, or of those of its cycle."""
    home = folder / "proofs" / Path(*function.name.split("::"))
    shutil.rmtree(home.with_name(f"+{home.name}"), ignore_errors=True)
    for old in folder.glob(f"proofs/**/+{function.cycle}") if function.cycle else ():
        shutil.rmtree(old)
    home.mkdir(parents=True, exist_ok=True)
    for name in ("Answers.antt", "Invariants.antt"):
        (home / name).unlink(missing_ok=True)
    (home / "Proof.antt").write_text(proof_of(crate, function), encoding="utf-8")


def empty(lines: list[str], function: Function) -> None:
    """Empties the body of a function, and takes it out of its cycle; each line stays where it is."""
    for at in function.lines:
        if at in function.body:
            lines[at] = "loop {}" if at == function.body[0] else ""
        elif CYCLE.fullmatch(lines[at].strip()):
            lines[at] = ""


def take(folder: Path, crate: str, functions: Iterable[Function]) -> None:
    """Takes these functions as proved, in a copy of the crate."""
    texts: dict[Path, list[str]] = {}
    for function in functions:
        path = folder / function.path
        empty(texts.setdefault(path, path.read_text(encoding="utf-8").split("\n")), function)
        put_proof(folder, crate, function)
    for path, lines in texts.items():
        path.write_text("\n".join(lines), encoding="utf-8")
    (folder / "proofs").mkdir(exist_ok=True)
    (folder / "proofs/Taken.antt").write_text(HOLE, encoding="utf-8")
    with (folder / "proofs/Lib.antt").open("a", encoding="utf-8") as lib:
        lib.write("pub mod Taken\n")
