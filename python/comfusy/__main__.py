"""The program: `python3 -m comfusy` takes the words of `comfusy`, reads the files that they name and the standard input, and ends with its status.

It reads all input before it replies, where the program replies to each line.
"""

from __future__ import annotations

import os
import sys
from typing import Dict, Optional, Sequence

from .library import Answer, Text, call

WITH_INPUT = (b"run", b"exec")
CANNOT_READ = Answer(4, b"", b"cannot read input\n")
CANNOT_WRITE = Answer(5, b"", b"cannot write output\n")


def files_of(words: Sequence[bytes]) -> Dict[Text, Text]:
    """The files that the words behind the first one name, as far as they can be read."""
    files: Dict[Text, Text] = {}
    for name in words[1:]:
        try:
            with open(name, "rb") as file:
                files[name] = file.read()
        except OSError:
            pass
    return files


def input_for(words: Sequence[bytes]) -> Optional[bytes]:
    """The standard input, if the command reads it; None where it cannot be read."""
    if not words or words[0] not in WITH_INPUT:
        return b""
    try:
        with open(0, "rb", closefd=False) as stream:
            return stream.read()
    except OSError:
        return None


def is_written(descriptor: int, text: bytes) -> bool:
    try:
        with open(descriptor, "wb", closefd=False) as stream:
            stream.write(text)
        return True
    except OSError:
        return not text


def main() -> int:
    words = [os.fsencode(word) for word in sys.argv[1:]]
    given = input_for(words)
    answer = call(words, files_of(words), given or b"")
    if given is None and answer.status == 0:
        answer = CANNOT_READ
    if not is_written(1, answer.out):
        answer = CANNOT_WRITE
    is_written(2, answer.err)
    return answer.status


if __name__ == "__main__":
    sys.exit(main())
