"""Comfusy: a relation in, a program out.

    >>> import comfusy
    >>> even = comfusy.compile("def main(a: int, b: int): int = choose (x: int) where a <= 2 * x && 2 * x <= b")
    >>> even.run("3 4")
    (2,)
    >>> even.check()
    ('choose 1: no outputs for a = 1, b = 0', 'choose 1: two outputs for a = -2, b = 0: -1 and 0')

The package calls the library `libcomfusy.so` by ctypes. `call` is the program on words, files and an input in memory; an `Opened` is a program that was read
once and answers lines one by one.
"""

from .faults import (
    Fault,
    InputTooLong,
    LimitPassed,
    NoSolution,
    NotAccepted,
    NotLinear,
    Overflow,
    SourceError,
    SyntaxFault,
    TypeFault,
)
from .library import Answer, Opened, call
from .program import Program, Reply, Value, compile, replies, value_of

__all__ = [
    "Answer",
    "Fault",
    "InputTooLong",
    "LimitPassed",
    "NoSolution",
    "NotAccepted",
    "NotLinear",
    "Opened",
    "Overflow",
    "Program",
    "Reply",
    "SourceError",
    "SyntaxFault",
    "TypeFault",
    "Value",
    "call",
    "compile",
    "replies",
    "value_of",
]
