"""How calls of the program are packed: the words, the files by their names, and the input.

Before each count and part stands its length as a little-endian number of 32 bits; for a folder, which can be opened and not read, that is FOLDER. A call
is (words, files, input), where files are pairs of a name and bytes, or None for a folder. Behind an answered call stand the status, the output and
the error.
"""

import struct

FOLDER = 0xFFFFFFFF


def number(value):
    return struct.pack("<I", value)


def part(data):
    return number(FOLDER) if data is None else number(len(data)) + data


def packed(words, files, given):
    """Returns the bytes of a call."""
    listed = [part(word) for word in words] + [number(len(files))] + [part(name) + part(data) for name, data in files]
    return number(len(words)) + b"".join(listed) + part(given)


def packed_with_answer(call, status, out, err):
    return packed(*call) + number(status) + part(out) + part(err)


class Reader:
    """Reads packed calls."""

    def __init__(self, data):
        self.data, self.at = data, 0

    def number(self):
        self.at += 4
        return struct.unpack_from("<I", self.data, self.at - 4)[0]

    def part(self):
        length = self.number()
        if length == FOLDER:
            return None
        self.at += length
        return self.data[self.at - length : self.at]

    def call(self):
        words = [self.part() for _ in range(self.number())]
        files = [(self.part(), self.part()) for _ in range(self.number())]
        return words, files, self.part()


def unpacked(data):
    """Returns the calls that are packed one behind the other."""
    reader, found = Reader(data), []
    while reader.at < len(data):
        found.append(reader.call())
    return found
