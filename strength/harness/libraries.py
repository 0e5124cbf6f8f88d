"""The libraries below a crate, and what `rattle check` is told of them."""

from __future__ import annotations

import subprocess
import sys
from importlib.machinery import SourceFileLoader
from importlib.util import module_from_spec, spec_from_loader
from types import ModuleType

from .edits import ROOT


def tool(name: str) -> ModuleType:
    """A script of tools/, as a module."""
    loader = SourceFileLoader(name, str(ROOT / "tools" / name))
    spec = spec_from_loader(name, loader)
    assert spec is not None
    module = sys.modules[name] = module_from_spec(spec)
    loader.exec_module(module)
    return module


pool = tool("pool")


class Unproved(Exception):
    """A crate that is not proved as it stands, or that stands on one."""


def words(name: str) -> list[str]:
    """What the prover is told of a crate: the libraries of tools/pool where it has any, and else those that `rt check` keeps. What is not there is built."""
    crate = pool.crates()[name]
    if pool.POOL.is_dir():
        if not pool.build_all(crate.own):
            raise Unproved(f"{name}: a crate below it is not proved")
        return pool.words(crate)
    if subprocess.run(["rt", "check", name, "--only", ""], cwd=crate.folder, stdout=subprocess.DEVNULL, check=False).returncode:
        raise Unproved(f"{name}: rt check does not build the crates below it")
    return pool.words(crate, lambda other: other.folder / "out/rlib")


def is_proved(name: str) -> bool:
    """Whether the crate's own library was built of its text as it stands."""
    return pool.POOL.is_dir() and pool.crates()[name].is_built
