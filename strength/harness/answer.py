"""What a check says of the functions that edits changed."""

from __future__ import annotations

import re
from collections.abc import Callable, Collection, Iterable, Iterator
from dataclasses import dataclass
from enum import Enum

from .edits import Edit
from .functions import Function

VERDICT = re.compile(r"fn (\S+): (proved|no holes|depends on a hole|not proved|no proof|could not tell)(.*)")
PROVED = "proved", "no holes", "depends on a hole"
UNPROVED_GOAL = re.compile(r"note: (?:\./)?(src/\S+?):(\d+):\d+: it is not proved that (.*)")
PROOF_ERROR = re.compile(r"(?:\./)?(proofs/\S+?):\d+:\d+: error: (.*)")
TEXT_ERROR = re.compile(r"(?:\./)?((?:src|specs)/\S+?):(\d+):\d+: error(.*)")
NAMES = re.compile(r"has no field|is not in scope|has no `|was not admitted|that depend on")
WAITS = re.compile(r"it calls (`.*`), which (?:is|are) not proved")


class Outcome(Enum):
    """What a check tells of an edit; `ASIDE` is a refusal that says nothing of the contract, as for a name that is gone."""

    REFUSED = "refused"
    PROVED = "still proved"
    WAITS = "waits for another function"
    ASIDE = "refused aside from its contract"
    UNKNOWN = "nothing is told of it"


@dataclass(frozen=True)
class Told:
    """An outcome, and the words of the prover that show it."""

    outcome: Outcome
    words: str


@dataclass(frozen=True)
class Answer:
    """A check's status and lines."""

    status: int
    lines: tuple[str, ...]

    @property
    def is_judged(self) -> bool:
        """Whether the prover came to a verdict."""
        return self.status in (0, 1) and self.lines[-1].startswith(("only=", "logic=", "holes="))

    @property
    def text_errors(self) -> list[tuple[str, int, str]]:
        """The errors at sources and definitions, with their files and lines."""
        found = (TEXT_ERROR.match(line) for line in self.lines)
        return [(told[1], int(told[2]) - 1, told[0]) for told in found if told]

    def verdict(self, function: Function) -> re.Match[str] | None:
        """The line that tells whether the function is proved: that of its name below the crate, or else of the one name that ends in it."""
        found = [told for line in self.lines if (told := VERDICT.fullmatch(line))]
        exact = [told for told in found if told[1].partition("::")[2] == function.name]
        ends = exact or [told for told in found if told[1].endswith(f"::{function.name}")]
        return ends[0] if len(ends) == 1 else None


def files_of(function: Function, told: re.Match[str]) -> re.Pattern[str]:
    """The proof files of the function, or of its cycle; a function that calls itself is a cycle of its own."""
    if function.cycle:
        return re.compile(rf"proofs/(?:.*/)?\+{function.cycle}/[^/]*")
    *around, own = told[1].split("::")[1:]
    return re.compile("proofs/" + "".join(f"{re.escape(part)}/" for part in around) + rf"\+?{re.escape(own)}/[^/]*")


def own_goals(answer: Answer, is_own: Callable[[str, int], bool]) -> Iterator[str]:
    """The goals at these lines of the sources that are not proved."""
    for line in answer.lines:
        told = UNPROVED_GOAL.match(line)
        if told and is_own(told[1], int(told[2]) - 1):
            yield told[0]


def own_errors(answer: Answer, files: re.Pattern[str]) -> Iterator[str]:
    """What these proof files are refused for, but for names that are gone."""
    for line in answer.lines:
        told = PROOF_ERROR.match(line)
        if told and files.fullmatch(told[1]) and not NAMES.search(told[2]):
            yield told[0]


def waits(words: str, edited: Collection[str]) -> bool:
    """Whether a verdict names one of these functions as a callee that is not proved."""
    told = WAITS.search(words)
    called = re.findall(r"`\w+::([^`]+)`", told[1]) if told else []
    return any(name == it or name.endswith(f"::{it}") for name in called for it in edited)


def of_function(answer: Answer, function: Function, edited: Collection[str]) -> Told:
    """What a check says of a function by itself, beside other functions that are edited."""
    told = answer.verdict(function)
    if told is None:
        return Told(Outcome.UNKNOWN, "no line on it")
    if told[2] in PROVED:
        return Told(Outcome.PROVED, told[0])
    if "`search` did not prove" in told[3]:
        return Told(Outcome.REFUSED, told[0])
    for words in own_goals(answer, lambda path, number: path == function.path and number in function.lines):
        return Told(Outcome.REFUSED, words)
    for words in own_errors(answer, files_of(function, told)):
        return Told(Outcome.REFUSED, words)
    if told[2] == "could not tell":
        return Told(Outcome.UNKNOWN, told[0])
    return Told(Outcome.WAITS if waits(told[3], edited) else Outcome.ASIDE, told[0])


def of_edit(answer: Answer, edit: Edit, batch: Iterable[Edit]) -> Told:
    """What a check of a batch says of this edit: it is refused where one of its functions is."""
    edited = [function.name for other in batch if other is not edit for function in other.functions]
    each = [of_function(answer, function, edited) for function in edit.functions]
    order = Outcome.REFUSED, Outcome.UNKNOWN, Outcome.WAITS, Outcome.ASIDE, Outcome.PROVED
    return min(each, key=lambda told: order.index(told.outcome))


def of_crate(answer: Answer) -> Told:
    """What a check of a crate with one edit alone says: each refusal in it comes of this edit."""
    if answer.status == 0:
        return Told(Outcome.PROVED, answer.lines[-1])
    for words in own_goals(answer, lambda *_: True):
        return Told(Outcome.REFUSED, words)
    for words in own_errors(answer, re.compile(".*")):
        return Told(Outcome.REFUSED, words)
    if answer.text_errors:
        return Told(Outcome.ASIDE, answer.text_errors[0][2])
    unproved = next((line for line in answer.lines if "`search` did not prove" in line), None)
    return Told(Outcome.REFUSED, unproved) if unproved else Told(Outcome.ASIDE, last_words(answer))


def last_words(answer: Answer) -> str:
    verdicts = [line for line in answer.lines if (told := VERDICT.fullmatch(line)) and told[2] != "proved"]
    return (verdicts or list(answer.lines[-1:]) or ["no word"])[0]
