"""The edits of a crate, tried several at a time.

A function is checked against the contracts of those that it calls, so edits of different functions share a copy and a check, in which all other functions are
taken as proved. Each edit is judged by what the check says of its own functions.
"""

from __future__ import annotations

from collections.abc import Iterable, Iterator

from .answer import Answer, Outcome, Told, of_crate, of_edit
from .edits import Edit
from .room import Room

MOST_AT_ONCE = 24

Results = Iterator[tuple[Edit, Told]]


def batch_of(edits: Iterable[Edit]) -> list[Edit]:
    """Edits that have nothing in common that is proved at once, the first before the later."""
    batch: list[Edit] = []
    taken: set[str] = set()
    for edit in edits:
        if len(batch) < MOST_AT_ONCE and taken.isdisjoint(edit.units):
            batch.append(edit)
            taken |= edit.units
    return batch


def parts_of(batch: list[Edit], answer: Answer) -> list[list[Edit]]:
    """The parts in which a batch that came to no verdict is tried again: those with an error by themselves, or else halves."""
    errors = [(path, number) for path, number, _ in answer.text_errors]
    wrong = [edit for edit in batch if any(it.path == path and number in it.lines for it in edit.functions for path, number in errors)]
    if wrong and len(batch) > 1:
        return [part for part in ([edit for edit in batch if edit not in wrong], *([edit] for edit in wrong)) if part]
    half = len(batch) // 2
    return [batch[:half], batch[half:]]


def tried_together(room: Room, batch: list[Edit]) -> Results:
    answer = room.check_alone(batch)
    if answer.is_judged:
        yield from ((edit, of_edit(answer, edit, batch)) for edit in batch)
    elif len(batch) > 1:
        for part in parts_of(batch, answer):
            yield from tried_together(room, part)
    else:
        yield batch[0], Told(Outcome.UNKNOWN, unjudged(answer).words)


def unjudged(answer: Answer) -> Told:
    """What a check that came to no verdict says of the one edit in it."""
    if answer.text_errors:
        return Told(Outcome.ASIDE, answer.text_errors[0][2])
    return Told(Outcome.UNKNOWN, f"status {answer.status}: {answer.lines[-1]}")


def told_of(answer: Answer, edit: Edit) -> Told:
    return of_edit(answer, edit, [edit]) if answer.is_judged else unjudged(answer)


def tried_alone(room: Room, edit: Edit) -> Told:
    """What the checks of an edit by itself say: of the functions in which it stands, or else of the whole crate, where it changes more than bodies."""
    if edit.is_of_bodies:
        return told_of(room.check([edit], edit.functions), edit)
    if edit.functions:
        told = told_of(room.check_alone([edit]), edit)
        if told.outcome is Outcome.REFUSED:
            return told
    answer = room.check([edit], None)
    return of_crate(answer) if answer.is_judged else unjudged(answer)


def tried(room: Room, edits: list[Edit]) -> Results:
    """Tries the edits of a crate: those of bodies in batches, all others one by one. What waits for another function goes into the next batch."""
    left = [edit for edit in edits if edit.is_of_bodies]
    alone = [edit for edit in edits if not edit.is_of_bodies]
    while left:
        batch = batch_of(left)
        results = list(tried_together(room, batch))
        waiting = [edit for edit, told in results if told.outcome is Outcome.WAITS]
        yield from ((edit, told) for edit, told in results if told.outcome not in (Outcome.WAITS, Outcome.UNKNOWN))
        alone += [edit for edit, told in results if told.outcome is Outcome.UNKNOWN]
        if len(waiting) == len(batch):
            alone += waiting
            waiting = []
        left = waiting + [edit for edit in left if edit not in batch]
    for edit in alone:
        yield edit, tried_alone(room, edit)
