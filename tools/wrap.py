#!/usr/bin/env python3
"""Breaks the lines of definitions, proofs and contracts that are longer than 160 characters.

tools/wrap.py FILE.., files that end in .antt or .rt. It changes them in place and prints how many lines it broke.

A line is broken where the fewest brackets are open, behind an arrow or `in` rather than elsewhere; what follows is
indented by four. Imports, comments, and lines of code that are no clause stay: the kit's formatter sees to these.
"""

import sys

MOST = 160
LEAST = 40
CLAUSES = ("requires", "ensures", "invariant", "ghost ")
BRACKETS = {"(": 1, "[": 1, "{": 1, ")": -1, "]": -1, "}": -1}
GAINS = {"in": 60, "→": 45, "=": 45, "⊎": 25, "∙": 25, "×": 12}


def indent_of(line):
    """Returns how many spaces a line begins with."""
    return len(line) - len(line.lstrip())


def places(line):
    """Returns the spaces outside texts: where each stands, how many brackets are open there, the word before."""
    found, depth, word, is_text = [], 0, "", False
    for place, letter in enumerate(line):
        if letter == '"' and not line[:place].endswith("\\"):
            is_text = not is_text
        if letter == " " and not is_text:
            found.append((place, depth, word))
            word = ""
        else:
            word += letter
        if not is_text:
            depth += BRACKETS.get(letter, 0)
    return found


def cost(place, depth, word):
    """Returns how bad it is to break a line there."""
    gain = 10 if word.endswith((",", ";")) else GAINS.get(word, 0)
    return depth * 60 - place * 0.25 - gain


def wrapped(line):
    """Returns the lines that a line becomes."""
    lines, indent = [], indent_of(line) + 4
    while len(line) > MOST:
        inner = [p for p in places(line) if indent_of(line) + LEAST <= p[0] <= MOST]
        if not inner:
            break
        place = min(inner, key=lambda p: cost(*p))[0]
        lines.append(line[:place])
        line = " " * indent + line[place:].lstrip()
    return lines + [line]


def may_break(name, line):
    """Tells whether a long line of the file is one that may be broken."""
    start = line.lstrip()
    if name.endswith(".rt"):
        return start.startswith(CLAUSES) and not start.startswith("ghost use")
    return not start.startswith(("use ", "pub use ", "--", "unfolding"))


def wrap_file(name):
    """Breaks the long lines of a file, and returns how many there were."""
    with open(name, encoding="utf-8") as file:
        lines = file.read().split("\n")
    count, done = 0, []
    for line in lines:
        parts = wrapped(line) if len(line) > MOST and may_break(name, line) else [line]
        count += len(parts) > 1
        done += parts
    if count:
        with open(name, "w", encoding="utf-8") as file:
            file.write("\n".join(done))
    return count


if __name__ == "__main__":
    print(sum(wrap_file(name) for name in sys.argv[1:]))
