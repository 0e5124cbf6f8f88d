"""The status with which the program refuses a text, by what it says.

Of language 2 and of steps a refusal says `line L column C: WHAT`, of edition 3 `FILE:LINE:COLUMN: WHAT` and further lines; WHAT alone, or behind `FILE: `,
where there is no place.
"""

from __future__ import annotations

import re

PLACE = r"(?:(?:steps )?line \d+ column \d+: |steps |[^:]+:(?:\d+:\d+:)? )?"
STATUSES = (
    (6, r"(?:syntax|bad byte|number past limit)(?:: .*)?|text too long"),
    (13, r"choose \d+: rejected.*"),
    (8, r"not linear(?:: .*)?"),
    (9, r"choose \d+: coefficient past 128 bits"),
    (10, r"(?:Weight|Depth) \d+|choose \d+: \w+ \d+"),
    (7, r".*"),
)


def status_of(refusal: str) -> int:
    first = refusal.split("\n", 1)[0]
    return next(status for status, pattern in STATUSES if re.fullmatch(f"{PLACE}(?:{pattern})", first))
