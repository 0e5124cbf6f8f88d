"""Partitions of 128 MiB of lines with keys, as a mapper of Hadoop Streaming, or behind Spark's `pipe`, is fed: each line has its reply, by its key.

A thousand lines in each million are bad, and a thousand have no key.
"""

from __future__ import annotations

import subprocess
from collections.abc import Iterator
from contextlib import suppress
from functools import partial
from threading import Thread
from typing import IO

from harness.checks import Check, equal
from harness.jobs import Job
from harness.program import MOST_SECONDS, Room

from .many_lines import SOURCE

BYTES, PARTITIONS, LINES_OF_A_BLOCK = 128 << 20, 2, 20_000


def line(partition: int, number: int) -> tuple[bytes, bytes]:
    """A line, and the reply that is due to it."""
    key = b"partition %d of the lines of a day, line %010d" % (partition, number)
    if number % 1000 == 7:
        return key + b"\tx\n", key + b"\tbad input\n"
    if number % 1000 == 8:
        return key + b"\n", b"bad input\n"
    return b"%b\t%d\n" % (key, number), b"%b\t%d\n" % (key, number // 2)


def blocks(partition: int, side: int) -> Iterator[bytes]:
    """The lines (side 0) or the replies (side 1) of a partition, until there are so many bytes of lines."""
    given = start = 0
    while given < BYTES:
        pairs = [line(partition, number) for number in range(start, start + LINES_OF_A_BLOCK)]
        given += sum(len(text) for text, _ in pairs)
        start += LINES_OF_A_BLOCK
        yield b"".join(pair[side] for pair in pairs)


def feed(stream: IO[bytes], partition: int) -> None:
    """Writes all lines and closes the stream; a program that stops reading shows by its replies."""
    with suppress(BrokenPipeError), stream:
        for lines in blocks(partition, 0):
            stream.write(lines)


def try_partition(partition: int, room: Room) -> Iterator[Check]:
    room.put("file", SOURCE)
    words = [room.program, "run", "--key", room.folder / "file"]
    with subprocess.Popen(words, stdin=subprocess.PIPE, stdout=subprocess.PIPE, stderr=subprocess.DEVNULL) as child:
        feeder = Thread(target=feed, args=(child.stdin, partition))
        feeder.start()
        is_whole = all(child.stdout.read(len(replies)) == replies for replies in blocks(partition, 1))
        if not is_whole:
            child.kill()
        feeder.join()
        yield equal(f"partitions, {partition}", (is_whole, True))
        if is_whole:
            yield equal(f"partitions, {partition}, the end", (child.stdout.read(), b""), (child.wait(MOST_SECONDS), 0))


def jobs() -> Iterator[Job]:
    for partition in range(1, PARTITIONS + 1):
        yield Job(f"partitions, {partition}", partial(try_partition, partition))
