"""A program that picks a number whose double lies between two inputs, on lines that come one by one through a pipe."""

from __future__ import annotations

import os
import select
import signal
import subprocess
import time
from collections.abc import Iterator
from functools import partial

from harness import examples
from harness.checks import Check, equal
from harness.jobs import Job
from harness.program import MOST_SECONDS, Room

REPLY_SECONDS = 60


def start(room: Room) -> subprocess.Popen[bytes]:
    words = [room.program, "run", examples.source("even")]
    return subprocess.Popen(words, stdin=subprocess.PIPE, stdout=subprocess.PIPE, stderr=subprocess.DEVNULL, bufsize=0)


def reply(replies: int) -> str:
    """The next line that comes, or what came of it in time."""
    text, end = b"", time.monotonic() + REPLY_SECONDS
    while not text.endswith(b"\n") and select.select([replies], [], [], max(0, end - time.monotonic()))[0]:
        byte = os.read(replies, 1)
        if not byte:
            break
        text += byte
    return text.decode().removesuffix("\n")


def status(child: subprocess.Popen[bytes]) -> int:
    """Its status once it has ended; one that does not end is killed."""
    try:
        return child.wait(MOST_SECONDS)
    except subprocess.TimeoutExpired:
        child.kill()
        return child.wait()


def try_slow_pipe(room: Room) -> Iterator[Check]:
    """The first reply is read before the second line is written."""
    with start(room) as child:
        child.stdin.write(b"3 4\n")
        first = reply(child.stdout.fileno())
        child.stdin.write(b"3 3\n")
        second = reply(child.stdout.fileno())
        child.stdin.close()
        yield equal("slow-pipe", (f"status {status(child)}", "status 0"), (first, "2"), (second, "no solution at choose 1"))


def try_gone_reader(room: Room, source: bytes, said: bytes) -> Iterator[Check]:
    """The reader of replies goes away: the next reply cannot be written, which edition 3 does not tell, or the signal of a broken pipe ends the program."""
    file = room.folder / "even.cf"
    file.write_bytes(source)
    words = [room.program, "run", str(file)]
    with subprocess.Popen(words, stdin=subprocess.PIPE, stdout=subprocess.PIPE, stderr=subprocess.PIPE, bufsize=0) as child:
        child.stdin.write(b"3 4\n")
        first = reply(child.stdout.fileno())
        child.stdout.close()
        child.stdin.write(b"3 3\n")
        seen = status(child)
        yield equal("gone-reader", (seen in (5, -signal.SIGPIPE) or f"status {seen}", True), (first, "2"), (child.stderr.read(), said))


def slow_pipe_jobs() -> Iterator[Job]:
    yield Job("slow-pipe", try_slow_pipe)


def gone_reader_jobs() -> Iterator[Job]:
    even = examples.source("even").read_bytes()
    yield Job("gone-reader", partial(try_gone_reader, source=even, said=b"cannot write output\n"))
    yield Job("gone-reader", partial(try_gone_reader, source=b"comfusy 3\n" + even, said=b""))
