"""What is shipped: the program of dist/, what ./comfusy starts, and the installation."""

from __future__ import annotations

import os
import re
import shutil
import subprocess
from collections.abc import Iterator, Sequence
from pathlib import Path

from harness import examples
from harness.checks import Check, Skipped, equal
from harness.jobs import Checks, Job
from harness.program import ROOT, Room

from .library import PAGE as LIBRARY_PAGE, blocks_of_page

COPIED = ("crates.txt", "comfusy", "install", "tools", "dist", "examples", "editors", "man", "completions", "docs", "include")
LINE = b"3 4\n"
REPLY = "2"


class Checkout:
    """A checkout whose dist/ holds the program that was built here, and a kit whose `rt` proves nothing.

    That one leaves the file `asked`, and has the built program ready.
    """

    def __init__(self, room: Room) -> None:
        self.room = room
        self.top = room.folder / "checkout"
        self.kit = room.folder / "kit"
        self.asked = room.folder / "asked"
        self.built = self.top / "crates/comfusy/out/comfusy"
        self._copy()
        self._make_kit()
        self.start("dist/renew", "program")

    def start(self, command: str, *words: str | Path, given: bytes = b"", umask: int = -1, **variables: str) -> subprocess.CompletedProcess[bytes]:
        """Runs a command of the checkout with the kit at hand."""
        environment = os.environ | {"PATH": f"{self.kit / 'bin'}:{os.environ['PATH']}"} | variables
        return subprocess.run(
            [self.top / command, *words], input=given, capture_output=True, env=environment, cwd=self.room.folder, umask=umask, check=False
        )

    def reply(self, **variables: str) -> str:
        """What ./comfusy replies to a line."""
        return self.start("comfusy", "run", examples.source("even"), given=LINE, **variables).stdout.decode().rstrip("\n")

    def program(self, *words: str) -> str:
        """The program that tools/program tells of, as the checkout names it."""
        told = self.start("tools/program", *words).stdout.decode().rstrip("\n")
        return told.removeprefix(f"{self.top}/")

    def _copy(self) -> None:
        for name in COPIED:
            copy(ROOT / name, self.top / name)
        for folder in ROOT.glob("crates/*/src"):
            copy(folder, self.top / folder.relative_to(ROOT))
        for folder in self.built.parent, self.top / "crates/cf_num/proofs":
            folder.mkdir(parents=True)
        shutil.copy(self.room.program, self.built)

    def _make_kit(self) -> None:
        (self.kit / "bin").mkdir(parents=True)
        (self.kit / "KIT-ID").write_text("a kit\n")
        (self.kit / "WHAT").write_text("a compiler\n")
        kit = self.kit / "bin/rt"
        kit.write_text(f"#!/bin/sh\ntouch '{self.asked}'\necho usage: comfusy\n")
        kit.chmod(0o755)


def copy(source: Path, to: Path) -> None:
    to.parent.mkdir(parents=True, exist_ok=True)
    (shutil.copytree if source.is_dir() else shutil.copy)(source, to)


def try_start(checkout: Checkout, what: str, wanted: str, **variables: str) -> Check:
    """What ./comfusy starts: dist/'s program (`shipped`), one that is proved and built first (`built`), or one that was built before."""
    checkout.asked.unlink(missing_ok=True)
    reply, seen = checkout.reply(**variables), "built before"
    if checkout.asked.exists():
        seen = "built"
    elif checkout.program() == "dist/comfusy":
        seen = "shipped"
    return equal(f"dist, {what}", (reply, REPLY), (seen, wanted))


def try_same_bytes(room: Room) -> Checks:
    """The program that was built here is that of dist/, byte for byte, where dist/ is of these sources and this kit."""
    asked = subprocess.run([ROOT / "tools/program", "--shipped"], stdout=subprocess.DEVNULL, check=False)
    if asked.returncode:
        yield "dist/ is not of these sources and this kit: dist/renew renews it"
    else:
        same = room.program.read_bytes() == (ROOT / "dist/comfusy").read_bytes()
        yield equal("dist, byte for byte", (same or "other bytes", True))


def try_dist(room: Room) -> Checks:
    yield from try_same_bytes(room)
    checkout = Checkout(room)
    crate = checkout.top / "crates/cf_num"
    text = crate / "src/lib.rt"
    yield try_start(checkout, "as it was renewed", "shipped")
    yield try_start(checkout, "where a rebuild is asked for", "built", COMFUSY_REBUILD="1")
    (crate / "proofs/New.antt").write_text("a proof\n")
    yield try_start(checkout, "with another proof", "shipped")
    with text.open("a", encoding="utf-8") as file:
        file.write("// a remark\n")
    yield try_start(checkout, "with another source", "built")
    shutil.copy(ROOT / "crates/cf_num/src/lib.rt", text)
    (crate / "src/new.rt").write_text("// a file\n")
    yield try_start(checkout, "with one source more", "built")
    (crate / "src/new.rt").unlink()
    (checkout.kit / "KIT-ID").write_text("another name\n")
    yield try_start(checkout, "with a kit of another name", "shipped")
    (checkout.kit / "WHAT").write_text("another compiler\n")
    yield try_start(checkout, "with another kit", "built")
    (checkout.kit / "WHAT").unlink()
    yield try_start(checkout, "without a kit", "shipped")
    with (checkout.top / "dist/comfusy").open("ab") as file:
        file.write(b"\n")
    yield try_start(checkout, "with a byte more in the program", "built before")


def try_taken(room: Room) -> Iterator[Check]:
    """What is tried and measured where none is named: what was built here, and in a fresh checkout what ./comfusy starts."""
    checkout = Checkout(room)
    yield equal("dist, tried where it was built here", (checkout.program("--built"), "crates/comfusy/out/comfusy"))
    shutil.rmtree(checkout.built.parent)
    yield equal("dist, tried in a fresh checkout", (checkout.program("--built"), "dist/comfusy"))


def unreadable(folders: Sequence[Path]) -> list[str]:
    """What not everybody can read, down to two folders below these."""
    paths = [path for folder in folders for path in (folder, *folder.glob("*"), *folder.glob("*/*"))]
    return [str(path) for path in paths if not path.stat().st_mode & 0o004]


def try_install(room: Room) -> Checks:
    """In an empty prefix: what is installed runs an installed example, has a page and completes words."""
    checkout = Checkout(room)
    prefix = room.folder / "prefix"
    ended = checkout.start("install", prefix, umask=0o077)
    yield equal("install", (ended.returncode, 0), (unreadable((prefix / "share", prefix / "bin")), []))
    words = [prefix / "bin/comfusy", "run", prefix / "share/comfusy/examples/even.cf"]
    reply = subprocess.run(words, input=LINE, stdout=subprocess.PIPE, check=False).stdout.decode().rstrip("\n")
    yield equal("install, an example", (reply, REPLY))
    head, *page = (prefix / "share/man/man1/comfusy.1").read_text(encoding="utf-8").splitlines()[:4]
    yield equal("install, the page", (" ".join(page).split(" \\")[0], ".SH NAME comfusy"))
    yield equal("install, the version", *((told, version_of(prefix / "bin/comfusy")) for told in told_versions(head)))
    yield equal("install, a completion", (completed(prefix / "share/bash-completion/completions/comfusy"), "compile"))
    yield equal("install, links of the pages", (dead_links(prefix / "share/doc/comfusy"), []))
    if (checkout.top / "dist/libcomfusy.a").exists():
        named = ("include/comfusy.h", "lib/libcomfusy.a", "lib/libcomfusy.so", "lib/pkgconfig/comfusy.pc")
        yield equal("install, the library", ([name for name in named if not (prefix / name).exists()], []))
        yield from try_linking(prefix, room)
    yield equal("install without a prefix", (checkout.start("install").returncode, 2))


def try_linking(prefix: Path, room: Room) -> Checks:
    """The C example of the library's page, compiled by the line that stands there, runs as it stands there."""
    missing = [tool for tool in ("gcc", "pkg-config") if shutil.which(tool) is None]
    if missing:
        yield Skipped("install, the line for gcc", f"{missing[0]} is missing")
        return
    blocks = blocks_of_page()
    room.put("example.c", blocks["c"][0].encode())
    line = re.search("``(gcc .*?) ``", LIBRARY_PAGE.read_text(encoding="utf-8"))[1]
    environment = os.environ | {"PKG_CONFIG_PATH": str(prefix / "lib/pkgconfig")}
    ran = subprocess.run(["sh", "-c", f"{line} && ./a.out"], capture_output=True, text=True, env=environment, cwd=room.folder, check=False)
    yield equal("install, the line for gcc", (ran.stdout + ran.stderr, blocks["text"][0]))


def version_of(program: Path) -> str:
    """The version that the program tells."""
    told = subprocess.run([program, "--version"], stdout=subprocess.PIPE, check=False).stdout.decode()
    return told.removeprefix("comfusy ").split(",")[0]


def told_versions(head: str) -> list[str]:
    """The versions that the head of the manual page, what tells a linker of the library, and the package for Python have."""
    linked, packed = ((ROOT / name).read_text(encoding="utf-8") for name in ("include/comfusy.pc", "python/backend.py"))
    found = (re.search(r'"Comfusy ([^"]*)"', head), re.search("(?m)^Version: (.*)$", linked), re.search('VERSION = "comfusy", "(.*)"', packed))
    return [one[1] if one else "none" for one in found]


def dead_links(folder: Path) -> list[str]:
    """The links of pages to files that are not there."""
    links = ((page, link) for page in folder.glob("*.md") for link in re.findall(r"\]\(([^)#:]+)[)#]", page.read_text(encoding="utf-8")))
    return [f"{page.name}: {link}" for page, link in links if not (folder / link).exists()]


def completed(file: Path) -> str:
    """What bash completes `comfusy co` to."""
    asked = '. "$0" && COMP_WORDS=(comfusy co) COMP_CWORD=1 && _comfusy && echo "${COMPREPLY[*]}"'
    return subprocess.run(["bash", "-c", asked, file], stdout=subprocess.PIPE, check=False).stdout.decode().rstrip("\n")


def dist_jobs() -> Iterator[Job]:
    yield Job("dist", try_dist)
    yield Job("dist", try_taken)


def install_jobs() -> Iterator[Job]:
    yield Job("install", try_install)
