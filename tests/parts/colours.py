"""The colours for editors.

The words of the grammar, of the Vim file and of the pages are those of editors/words, the pages' in one list for each edition of the language. Each example
is coloured by the grammar's own patterns as an editor does it, line by line, the first of the leftmost matches; no token is an error, but those of a source
whose refusal is `bad byte`, at its place. Where Vim is installed, it colours the same files with the same errors.
"""

from __future__ import annotations

import json
import re
import shutil
import subprocess
from collections.abc import Iterator
from functools import cache, partial
from pathlib import Path

from harness.checks import Check, equal
from harness.examples import EXAMPLES, EXPECTED, expectation, text_of
from harness.jobs import Job
from harness.program import ROOT, Room

SCOPES = {
    "keyword": "keyword.control",
    "base": "storage.type",
    "constant": "constant.language",
    "operator": "keyword.operator.word",
    "function": "support.function",
    "target": "keyword.other.target",
}
ERROR = "invalid.illegal.comfusy"
PAGES = ("docs/FORMATS.md", "docs/LANGUAGE.md")
COLOURED = (".cf", ".target", ".steps")
FILES_OF_A_JOB = 10

Place = tuple[int, int]
Rule = tuple[re.Pattern[str], str]


def read(name: str) -> str:
    return (ROOT / name).read_text(encoding="utf-8")


def words_of() -> dict[str, list[str]]:
    """The words of each class."""
    rows = [line.split() for line in read("editors/words").splitlines() if not line.startswith("#")]
    return {row[0]: row[1:] for row in rows}


@cache
def rules() -> list[Rule]:
    """The grammar's patterns in order, each with its scope."""
    return [(re.compile(rule["match"]), rule["name"]) for rule in json.loads(read("editors/comfusy.tmLanguage.json"))["patterns"]]


def listed_on(page: str) -> set[str]:
    """The words of the lists of a page that stand behind a paragraph on reserved words."""
    return {word for block in re.findall(r"reserved(?:.+\n)+\n((?: {4}.+\n)+)", read(page)) for word in block.split()}


def tokens(line: str) -> Iterator[tuple[int, str]]:
    """The column and the scope of each token of a line; what no pattern matches is in none."""
    at = 0
    while True:
        found = [(match.start(), number, match) for number, (pattern, _) in enumerate(rules()) if (match := pattern.search(line, at))]
        if not found:
            return
        _, number, match = min(found)
        yield match.start() + 1, rules()[number][1]
        at = match.end()


def errors_of(path: Path) -> list[Place]:
    """The places of the error tokens of a file."""
    lines = enumerate(path.read_text(encoding="utf-8").splitlines(), 1)
    return [(number, column) for number, line in lines for column, scope in tokens(line) if scope == ERROR]


def wanted_errors(path: Path) -> list[Place]:
    """The place that a file's refusal tells, where it is a bad byte."""
    top = EXAMPLES if path.is_relative_to(EXAMPLES) else EXPECTED
    refusal = text_of(expectation(str(path.relative_to(top).with_suffix("")), "err")).decode()
    told = re.match(r"line (\d+) column (\d+): bad byte$", refusal) or re.match(r"[^:\n]+:(\d+):(\d+): bad byte: ", refusal)
    return [(int(told[1]), int(told[2]))] if told else []


def vim_errors(path: Path) -> tuple[str, list[Place]]:
    """How Vim names the form of a file, and the places of what it colours as an error there."""
    script = (
        "for l in range(1, line('$')) | for c in range(1, len(getline(l))) | "
        "if synIDattr(synID(l, c, 1), 'name') == 'comfusyError' | call add(g:found, l . ' ' . c) | endif | endfor | endfor"
    )
    words = ["vim", "-n", "-es", "-u", "NONE", "-i", "NONE", "-N", f"+set runtimepath^={ROOT}/editors/vim", "+filetype plugin on", "+syntax on"]
    words += [f"+edit {path}", "+let g:found = [&filetype]", f"+{script}", "+call writefile(g:found, '/dev/stdout')", "+qall!"]
    said = subprocess.run(words, cwd=ROOT, stdin=subprocess.DEVNULL, stdout=subprocess.PIPE, text=True, check=False, timeout=60).stdout.split("\n")
    places = (line.split() for line in said[1:] if line)
    return said[0], [(int(line), int(column)) for line, column in places]


def try_words(_: Room) -> Iterator[Check]:
    words = words_of()
    vim = dict(re.findall(r"^syntax keyword comfusy(\w+) (.*)$", read("editors/vim/syntax/comfusy.vim"), re.M))
    for kind, listed in words.items():
        scope = f"{SCOPES[kind]}.comfusy"
        grammar = [pattern.pattern for pattern, name in rules() if name == scope]
        yield equal(f"colours: the grammar's words: {kind}", (grammar, [rf"\b(?:{'|'.join(listed)})\b"]))
        yield equal(f"colours: Vim's words: {kind}", (vim.get(kind.capitalize(), "").split(), listed))
        for word in listed:
            yield equal(f"colours: the colour of {word}", ([scope for _, scope in tokens(word)], [scope]))
    for page in PAGES:
        yield equal(f"colours: the words of {page}", (sorted(listed_on(page)), sorted(sum(words.values(), []))))
    yield equal("colours: there are examples", (len(coloured()) > 1, True))


def try_files(paths: list[Path], _: Room) -> Iterator[Check]:
    for path in paths:
        name, wanted = path.relative_to(ROOT), wanted_errors(path)
        yield equal(f"colours: errors in {name}", (errors_of(path), wanted))
        if shutil.which("vim"):
            yield equal(f"colours: Vim's errors in {name}", (vim_errors(path), ("comfusy", wanted)))


def coloured() -> list[Path]:
    """The sources, targets and steps of the examples."""
    return sorted(path for folder in (EXAMPLES, EXPECTED) for path in folder.rglob("*") if path.suffix in COLOURED)


def jobs() -> Iterator[Job]:
    yield Job("colours", try_words)
    paths = coloured()
    for first in range(0, len(paths), FILES_OF_A_JOB):
        yield Job("colours", partial(try_files, paths[first : first + FILES_OF_A_JOB]))
