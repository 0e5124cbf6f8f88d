"""Programs, and the replies to their lines."""

from __future__ import annotations

import re
from functools import cached_property
from typing import FrozenSet, Iterable, List, Optional, Tuple, Union

from .faults import NoSolution, NotLinear, Overflow, fault_of
from .library import Answer, Opened, Text, call

Value = Union[int, bool, FrozenSet[int]]
Reply = Union[Tuple[Value, ...], NoSolution, Overflow, ValueError]

_FILE = "program"
_NONE = re.compile(r"no solution at choose (\d+)")
_WORD = re.compile(r"\{[^}]*\}|\S+")
_BAD_INPUT = "bad input"


class Program:
    """A program that was accepted: its source, and the target that it is compiled to.

    The target is None for a source that is linear only where the numbers of a line are known. Such a program is solved anew on each line, and has no
    `pre` and no `check`. What answers the lines is read once, and kept while the program is.
    """

    def __init__(self, source: Text, target: Optional[str]) -> None:
        self.source = source
        self.target = target

    def run(self, line: str) -> Tuple[Value, ...]:
        """The values that answer a line.

        Raises NoSolution, Overflow, or ValueError where the line is no input of the program.
        """
        reply = self._reply(line)
        if isinstance(reply, Exception):
            raise reply
        return reply

    def run_all(self, lines: Iterable[str]) -> List[Reply]:
        """The replies to the lines, each as a tuple of values or as the exception that `run` raises."""
        return [self._reply(line) for line in lines]

    def _reply(self, line: str) -> Reply:
        if "\n" in line:
            return ValueError("one line, without a line feed")
        return _reply_of(_text_of(self._opened.line(line)).rstrip("\n"))

    @cached_property
    def _opened(self) -> Opened:
        """What answers the lines, which is read at the first."""
        command, text = ("run", self.source) if self.target is None else ("exec", self.target)
        opened = Opened([command, _FILE], {_FILE: text})
        _text_of(opened.answer)
        return opened

    def __reduce__(self) -> Tuple[object, ...]:
        return Program, (self.source, self.target)

    def pre(self) -> Tuple[str, ...]:
        """For each choose in order the lines of its precondition."""
        return tuple(_done("pre", self.source).splitlines())

    def check(self) -> Tuple[str, ...]:
        """The lines of `comfusy check`: whether there always are outputs, and whether they are the only ones."""
        return tuple(_done("check", self.source).splitlines())


def compile(source: Text) -> Program:
    """The program of a source. Raises a SourceError where it is refused."""
    try:
        return Program(source, _done("compile", source))
    except NotLinear:
        _done("run", source)
        return Program(source, None)


def replies(text: str) -> List[Reply]:
    """The replies that `run` and `exec` write, a line each."""
    return [_reply_of(line) for line in text.splitlines()]


def value_of(word: str) -> Value:
    """The value that a word of a reply spells: a number, a truth value, or a set in braces."""
    if word in ("true", "false"):
        return word == "true"
    if word.startswith("{"):
        return frozenset(int(it) for it in re.findall(r"-?\d+", word))
    return int(word)


def _reply_of(line: str) -> Reply:
    none = _NONE.fullmatch(line)
    if none:
        return NoSolution(int(none[1]))
    if line == "overflow":
        return Overflow("a number passes 2^127 - 1 in absolute value")
    if line == _BAD_INPUT:
        return ValueError(_BAD_INPUT)
    return tuple(value_of(word) for word in _WORD.findall(line))


def _done(command: str, text: Text) -> str:
    return _text_of(call([command, _FILE], {_FILE: text}))


def _text_of(answer: Answer) -> str:
    """What was written, where it is done."""
    if answer.status:
        raise fault_of(answer)
    return answer.out.decode()
