"""Ten million lines through `run` of a source of edition 3: each has its reply, and the program never has more than 20 MiB of memory.

The lines come through a pipe, and the replies are read while they come.
"""

from __future__ import annotations

import subprocess
from collections.abc import Iterator
from contextlib import suppress
from itertools import repeat
from threading import Thread
from typing import IO

from harness.checks import Check, equal
from harness.jobs import Job
from harness.program import MOST_SECONDS, Room

from .editions import HEADER
from .long_texts import resident

SOURCE = HEADER + b"def main(a: int): int = choose (x: int) where 2 * x <= a < 2 * x + 2\n"
LINES_OF_A_BLOCK, BLOCKS = 100_000, 100
MOST_MEMORY = 20 << 20


def feed(stream: IO[bytes]) -> None:
    """Writes all lines, and leaves the stream open; a program that stops reading shows by its replies."""
    lines = b"".join(b"%d\n" % a for a in range(LINES_OF_A_BLOCK))
    with suppress(BrokenPipeError):
        for block in repeat(lines, BLOCKS):
            stream.write(block)
        stream.flush()


def answered(stream: IO[bytes]) -> int:
    """How many blocks of replies come as they should."""
    replies = b"".join(b"%d\n" % (a // 2) for a in range(LINES_OF_A_BLOCK))
    return next((done for done in range(BLOCKS) if stream.read(len(replies)) != replies), BLOCKS)


def try_lines(room: Room) -> Iterator[Check]:
    room.put("file", SOURCE)
    words = [room.program, "run", room.folder / "file"]
    with subprocess.Popen(words, stdin=subprocess.PIPE, stdout=subprocess.PIPE, stderr=subprocess.DEVNULL) as child:
        feeder = Thread(target=feed, args=(child.stdin,))
        feeder.start()
        done = answered(child.stdout)
        if done < BLOCKS:
            child.kill()
        feeder.join()
        yield equal("many-lines", (done, BLOCKS))
        if done == BLOCKS:
            peak = resident(child)
            yield equal("many-lines, memory", (peak <= MOST_MEMORY or peak, True))
            child.stdin.close()
            yield equal("many-lines, the end", (child.stdout.read(), b""), (child.wait(MOST_SECONDS), 0))


def jobs() -> Iterator[Job]:
    yield Job("many-lines", try_lines)
