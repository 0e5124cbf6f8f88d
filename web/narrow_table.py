#!/usr/bin/env python3
"""Rewrites a module whose table has 64-bit indices to one whose table has 32-bit indices: narrow_table.py MODULE NEW-MODULE

Its memory keeps its 64-bit addresses. Debian's binaryen lowers such a memory, and does not know such a table. In the code each indirect call gets an
instruction that cuts its index to 32 bits; nothing else changes.
"""

import sys
from pathlib import Path

TABLE, ELEMENTS, CODE = 4, 9, 10
CUT = b"\xa7"  # i32.wrap_i64
CALL_INDIRECT = 0x11
# How many numbers stand behind an instruction, where it is not none.
ONE_NUMBER = {0x02, 0x03, 0x04, 0x0C, 0x0D, 0x10, *range(0x20, 0x25), 0x3F, 0x40, 0x41, 0x42, 0xD0, 0xD2}
TWO_NUMBERS = {CALL_INDIRECT, *range(0x28, 0x3F)}
NO_NUMBER = {0x00, 0x01, 0x05, 0x0B, 0x0F, 0x1A, 0x1B, 0xD1, *range(0x45, 0xC5)}
COUNTED = {0x0E: 1, 0x1C: 0}  # as many numbers as the first says, and so many more
FIXED = {0x43: 4, 0x44: 8}  # bytes of a floating-point number
# The numbers behind the second byte of an instruction that begins with 0xfc.
LONG = {**dict.fromkeys(range(8), 0), 8: 2, 9: 1, 10: 2, 11: 1}


class Reader:
    """Reads a module's bytes one after the other."""

    def __init__(self, data):
        self.data, self.at = data, 0

    def is_done(self):
        return self.at >= len(self.data)

    def byte(self):
        self.at += 1
        return self.data[self.at - 1]

    def number(self):
        """Returns the unsigned number that stands here."""
        total = shift = 0
        while True:
            byte = self.byte()
            total |= (byte & 127) << shift
            shift += 7
            if byte < 128:
                return total

    def skip_numbers(self, count):
        for _ in range(count):
            while self.byte() & 128:
                pass

    def take(self, count):
        self.at += count
        return self.data[self.at - count : self.at]


def spelled(number):
    """Returns the bytes of an unsigned number."""
    out = bytearray()
    while number > 127:
        out.append(number & 127 | 128)
        number >>= 7
    return bytes([*out, number])


def skip_operands(reader, code):
    """Skips what stands behind an instruction."""
    if code in ONE_NUMBER:
        reader.skip_numbers(1)
    elif code in TWO_NUMBERS:
        reader.skip_numbers(2)
    elif code in COUNTED:
        reader.skip_numbers(reader.number() + COUNTED[code])
    elif code in FIXED:
        reader.take(FIXED[code])
    elif code == 0xFC:
        reader.skip_numbers(LONG[reader.number()])
    elif code not in NO_NUMBER:
        sys.exit(f"narrow_table: the instruction {code:#x} is not known")


def narrowed_code(data):
    """Returns a function's instructions, with each index of an indirect call cut."""
    reader, out, start = Reader(data), bytearray(), 0
    while not reader.is_done():
        at, code = reader.at, reader.byte()
        if code == CALL_INDIRECT:
            out += data[start:at] + CUT
            start = at
        skip_operands(reader, code)
    return bytes(out + data[start:])


def narrowed_function(data):
    """Returns a function with its locals."""
    reader = Reader(data)
    for _ in range(reader.number()):
        reader.skip_numbers(1)
        reader.byte()
    return data[: reader.at] + narrowed_code(data[reader.at :])


def narrowed_functions(data):
    reader = Reader(data)
    count = reader.number()
    bodies = [narrowed_function(reader.take(reader.number())) for _ in range(count)]
    return spelled(count) + b"".join(spelled(len(body)) + body for body in bodies)


def narrowed_table(data):
    """Returns the section of the one table of functions, with no mark of 64-bit indices in its limits."""
    assert data[:2] == b"\x01\x70", "there is one table, of functions"
    return data[:2] + bytes([data[2] & 3]) + data[3:]


def narrowed_elements(data):
    """Returns the section of the one segment of the table, which begins at a 32-bit number."""
    assert data[:3] == b"\x01\x00\x42", "there is one segment, at a 64-bit number"
    return data[:2] + b"\x41" + data[3:]


NARROWED = {TABLE: narrowed_table, ELEMENTS: narrowed_elements, CODE: narrowed_functions}


def narrowed_module(data):
    reader, out = Reader(data), bytearray()
    out += reader.take(8)
    while not reader.is_done():
        kind = reader.byte()
        section = reader.take(reader.number())
        section = NARROWED.get(kind, bytes)(section)
        out += bytes([kind]) + spelled(len(section)) + section
    return bytes(out)


if __name__ == "__main__":
    Path(sys.argv[2]).write_bytes(narrowed_module(Path(sys.argv[1]).read_bytes()))
