#!/usr/bin/python3 -IS
"""Stands in the place of the native program while tests run: keeps the call, and then becomes the program. web/test/record puts it there.

COMFUSY_NATIVE is the path of the program, and COMFUSY_CALLS that of the folder in which the calls are kept.
"""

import os
import sys

sys.path.insert(0, os.path.dirname(os.path.realpath(__file__)))
from packing import packed

NATIVE = os.environ["COMFUSY_NATIVE"]
WORDS = [os.fsencode(word) for word in sys.argv[1:]]


def bytes_of(path):
    """Returns the bytes of a file, and None for a folder."""
    if os.path.isdir(path):
        return None
    with open(path, "rb") as file:
        return file.read()


def read_input():
    """Returns what a file holds that is the standard input, which is left as it was; nothing of the null device."""
    found, at = bytearray(), os.lseek(0, 0, os.SEEK_CUR)
    while more := os.read(0, 1 << 20):
        found += more
    os.lseek(0, at, os.SEEK_SET)
    return bytes(found)


def keep_call():
    """Keeps the call; files that are named with their path get short names."""
    words = [b"file%d" % i if b"/" in word and os.path.exists(word) else word for i, word in enumerate(WORDS)]
    files = {name: bytes_of(word) for name, word in zip(words, WORDS) if os.path.exists(word)}
    data = packed(words, list(files.items()), read_input())
    with open(os.path.join(os.environ["COMFUSY_CALLS"], os.urandom(8).hex()), "wb") as file:
        file.write(data)


try:
    keep_call()
except OSError:
    pass  # an input that is closed, a folder or a pipe
os.execv(NATIVE, [NATIVE, *WORDS])
