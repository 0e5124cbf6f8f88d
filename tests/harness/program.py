"""The built program, and a run of it over real files and streams."""

from __future__ import annotations

import os
import shutil
import subprocess
import sys
import tempfile
import threading
from collections.abc import Mapping, Sequence
from dataclasses import dataclass
from pathlib import Path

ROOT = Path(__file__).resolve().parent.parent.parent
SEEN_OUT, SEEN_ERR = "seen.out", "seen.err"
USAGE = b"usage: comfusy compile|pre|check|run|exec|prove FILE, or comfusy emit LANG FILE, or comfusy verify FILE STEPS, or comfusy gen N, or comfusy --help\n"
MOST_SECONDS = 100
UNLIMITED = threading.TIMEOUT_MAX
CLOSED = "&-"

Word = str | bytes | Path


def found(named: Path | None = None) -> Path:
    """The program that is named, or else what was built here of these sources, or what ./comfusy starts."""
    if named is None:
        asked = subprocess.run([ROOT / "tools/program", "--built"], stdout=subprocess.PIPE, text=True, check=False)
        if asked.returncode:
            sys.exit(asked.returncode)
        named = Path(asked.stdout.strip())
    program = named.resolve()
    if not os.access(program, os.X_OK):
        sys.exit(f"{program} is missing; ./comfusy or rt ci builds it")
    return program


@dataclass(frozen=True)
class Ended:
    """How a run ended: its status (below 0 a signal), what it wrote, its processor seconds, and its peak memory in bytes."""

    status: int
    out: bytes
    err: bytes
    seconds: float = 0
    peak: int = 0

    def said(self) -> str:
        """What it ended with, as a fault tells it."""
        return f"status {self.status}, out {short(self.out)}, err {short(self.err)}"


def short(text: bytes, most: int = 120) -> str:
    """The first bytes of a text, on one line."""
    shown = repr(text[:most])[1:]
    return shown if len(text) <= most else f"{shown}.. ({len(text)} bytes)"


@dataclass(frozen=True)
class Streams:
    """The files in which the streams of a run lie, as its folder names them; `&-` is a stream that is closed."""

    input: str = "input"
    out: str = SEEN_OUT
    err: str = SEEN_ERR

    @classmethod
    def read(cls, text: str) -> Streams:
        """The redirections of a shell, as `<input >/dev/full 2>seen.err`."""
        names = {}
        for word in text.split():
            sign = next(sign for sign in ("2>", ">", "<") if word.startswith(sign))
            names[{"<": "input", ">": "out", "2>": "err"}[sign]] = word.removeprefix(sign)
        return cls(**names)

    def closed(self) -> str:
        """The redirections of the streams that are closed."""
        pairs = ("<", self.input), (">", self.out), ("2>", self.err)
        return " ".join(sign + CLOSED for sign, name in pairs if name == CLOSED)


STREAMS = Streams()
NO_INPUT = Streams(input="/dev/null")


class Room:
    """A folder to work in, and the program. Each run has the folder as its own, and the file `input` there as its standard input."""

    def __init__(self, program: Path, seconds: float = MOST_SECONDS) -> None:
        self.program = program
        self.seconds = seconds
        self.folder = Path(tempfile.mkdtemp(prefix="comfusy-"))
        self.put("input", b"")

    def __enter__(self) -> Room:
        return self

    def __exit__(self, *_: object) -> None:
        shutil.rmtree(self.folder)

    def put(self, name: str, text: bytes) -> None:
        """Writes a file of the folder."""
        (self.folder / name).write_bytes(text)

    def front(self, name: str, most: int = -1) -> bytes:
        """The first bytes of a file of the folder, or all."""
        with open(self.folder / name, "rb") as file:
            return file.read(most)

    def run(
        self,
        words: Sequence[Word],
        streams: Streams = STREAMS,
        environment: Mapping[str, str] | None = None,
        seconds: float | None = None,
        most: int = -1,
    ) -> Ended:
        """Runs the program on these words. One that takes longer than this, or than any may, is killed.

        Of what it wrote, at most so many bytes are kept; the files `seen.out` and `seen.err` hold all.
        """
        child = self._start(words, streams, environment)
        end = threading.Timer(seconds or self.seconds, child.kill)
        end.start()
        _, status, used = os.wait4(child.pid, 0)
        end.cancel()
        child.returncode = os.waitstatus_to_exitcode(status)
        out, err = (self.front(name, most) if name in (SEEN_OUT, SEEN_ERR) else b"" for name in (streams.out, streams.err))
        return Ended(child.returncode, out, err, used.ru_utime + used.ru_stime, used.ru_maxrss * 1024)

    def _start(self, words: Sequence[Word], streams: Streams, environment: Mapping[str, str] | None) -> subprocess.Popen[bytes]:
        closed = streams.closed()
        command = [*(["sh", "-c", f'exec "$0" "$@" {closed}'] if closed else []), self.program, *words]
        ways = (streams.input, os.O_RDONLY), (streams.out, os.O_RDWR | os.O_CREAT | os.O_TRUNC), (streams.err, os.O_RDWR | os.O_CREAT | os.O_TRUNC)
        ends = [os.open(os.devnull if name == CLOSED else self.folder / name, how | os.O_CLOEXEC, 0o644) for name, how in ways]
        try:
            return subprocess.Popen(
                command, stdin=ends[0], stdout=ends[1], stderr=ends[2], cwd=self.folder, env=environment, close_fds=False
            )
        finally:
            for end in ends:
                os.close(end)
