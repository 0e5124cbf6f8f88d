"""What is raised in place of a result."""

from __future__ import annotations

import re
from typing import Dict, Optional, Type

from .library import NO_MEMORY, Answer

_PLACED = re.compile(r"(?:steps )?line (?P<line>\d+) column (?P<column>\d+): (?P<what>.*)")
_PLACED_THREE = re.compile(r"[^:]+:(?P<line>\d+):(?P<column>\d+): (?P<what>.*)")
_WHOLE_THREE = re.compile(r"[^:]+: (?P<what>no main|text too long)")
_HELP = re.compile(r"^help: (?P<help>.*)$", re.MULTILINE)


class Fault(Exception):
    """A call was refused. `status` is the program's, and `text` what it wrote to its standard error."""

    def __init__(self, status: int, text: str) -> None:
        super().__init__(text or f"status {status}")
        self.status = status
        self.text = text


class SourceError(Fault):
    """A text was refused. `line` and `column` say where, if the text has it, and `what` why; `help` is what the program adds, or None."""

    def __init__(self, status: int, text: str) -> None:
        super().__init__(status, text)
        first = text.split("\n", 1)[0]
        placed = _PLACED.match(first) or _PLACED_THREE.match(first)
        whole = placed or _WHOLE_THREE.fullmatch(first)
        more = _HELP.search(text)
        self.line: Optional[int] = int(placed["line"]) if placed else None
        self.column: Optional[int] = int(placed["column"]) if placed else None
        self.what: str = whole["what"] if whole else first
        self.help: Optional[str] = more["help"] if more else None


class SyntaxFault(SourceError):
    """The text is none of the language, or too long."""


class TypeFault(SourceError):
    """A rule on names or types is broken."""


class NotLinear(SourceError):
    """A relation is not linear."""


class LimitPassed(SourceError):
    """A number or a count of the text passes its limit, or what would be written is too long."""


class InputTooLong(Fault):
    """The input is too long, as it is only in language 2."""


class NotAccepted(Fault):
    """Steps are not accepted."""


class NoSolution(Exception):
    """No outputs satisfy the relation of a choose, whose number is `choose`."""

    def __init__(self, choose: int) -> None:
        super().__init__(f"no solution at choose {choose}")
        self.choose = choose


class Overflow(ArithmeticError):
    """A number on the way passes 2^127 - 1 in absolute value."""


_KINDS: Dict[int, Type[Fault]] = {
    6: SyntaxFault,
    7: TypeFault,
    8: NotLinear,
    9: LimitPassed,
    10: LimitPassed,
    11: InputTooLong,
    13: NotAccepted,
}


def fault_of(answer: Answer) -> Exception:
    """What an answer with a status other than 0 raises."""
    if answer.status == NO_MEMORY:
        return MemoryError("no memory")
    return _KINDS.get(answer.status, Fault)(answer.status, answer.err.decode().rstrip("\n"))
