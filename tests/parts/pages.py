"""The pages: what they quote is what the program writes, each example is named, and each definition and place that they name is there.

A page quotes a command behind `$ ` in a block, and below it what the command writes. `cat` on a file of an example, `./comfusy` on such a file, and the
`echo $?` behind one are done as they stand there, and what they write is compared. A command that reads lines reads those of its example. Commands that write
files, those on such files, and those with a pipe stand in docs/SCALE.md, whose part does them, and in the chapters of the guide that the part `scripts` does.
"""

from __future__ import annotations

import re
from collections.abc import Iterator
from dataclasses import dataclass
from functools import partial
from pathlib import Path

from harness import examples
from harness.checks import Check, equal
from harness.jobs import Job
from harness.program import ROOT, Ended, Room

PAGES = ("README.md", *sorted(str(path.relative_to(ROOT)) for path in ROOT.glob("docs/*.md")))
NAMING = ("docs/GUIDE.md", "docs/LANGUAGE.md")
DEFINING = ("docs/DEFINITIONS.md", "docs/DEFINITIONS-elimination.md", "docs/THEOREM.md", "docs/PROVED.md")
LINK = re.compile(r"\]\((?!https?:)([^)#\s]*)#?([^)\s]*)\)")
DEFINITION = re.compile(r"`([A-Z]\w+)\.([A-Za-z_]\w*)")
FOR_A_SHELL = re.compile(r" (>|\|) ")
ON_AN_EXAMPLE = re.compile(r"[a-z]+ (?:--[a-z]+ )*examples/")
READING = re.compile(r"(?:run|exec) (examples/[a-z-]+)\.[a-z]+ < (examples/[a-z-]+)\.in")


@dataclass(frozen=True)
class Quote:
    """A command that a page quotes, what stands below it, and the line behind that."""

    command: str
    text: str
    behind: int


def quotes(page: str) -> Iterator[Quote]:
    return quotes_of((ROOT / page).read_text(encoding="utf-8"))


def quotes_of(text: str) -> Iterator[Quote]:
    command, lines = "", []
    for number, line in enumerate(text.splitlines(), 1):
        if line.startswith(("```", "$ ")):
            if command:
                yield Quote(command, "".join(lines), number)
            command, lines = line.removeprefix("$ ") if line.startswith("$ ") else "", []
        else:
            lines.append(f"{line}\n")


def reads_its_lines(words: str) -> bool:
    """Whether a quoted command that reads lines reads those of its example."""
    if not re.match("(run|exec) examples/(?!refused/)", words):
        return True
    reading = READING.fullmatch(words)
    return bool(reading and reading[1] == reading[2])


def done(words: str, room: Room) -> Ended:
    """Runs the program as a page quotes it, where the examples are laid."""
    front, _, lines = words.partition(" < ")
    room.put("input", examples.text_of(ROOT / lines) if lines else b"")
    return room.run(front.split())


def try_page(page: str, room: Room) -> Iterator[Check]:
    examples.lay(room)
    status = None
    for quote in quotes(page):
        place = f"{page}, before line {quote.behind}"
        start, _, words = quote.command.partition(" ")
        if quote.command == "echo $?":
            if status is not None:
                yield equal(place, (quote.text, f"{status}\n"))
            continue
        status = None
        if start == "cat" and words.startswith("examples/"):
            yield equal(f"{place}: {quote.command}", (quote.text, examples.text_of(ROOT / words).decode()))
        elif start == "./comfusy" and ON_AN_EXAMPLE.match(words) and not FOR_A_SHELL.search(words):
            seen = done(words, room)
            status = seen.status
            wrote = (seen.out + seen.err).decode()
            yield equal(f"{place}: {quote.command}", (quote.text, wrote), (reads_its_lines(words) or "other lines", True))


def try_names(_: Room) -> Iterator[Check]:
    """The guide or the language's page names each example."""
    text = "".join((ROOT / page).read_text(encoding="utf-8") for page in NAMING)
    for folder in "", "refused", "steps":
        for name in examples.names(folder):
            path = f"examples/{name}.cf"
            yield equal(f"pages, {path}", (path in text or "not named", True))


def definitions() -> dict[str, set[str]]:
    """The words of each module of definitions, by its name; those of two crates are one where the name is."""
    words: dict[str, set[str]] = {}
    for path in ROOT.glob("crates/*/specs/*.antt"):
        words.setdefault(path.stem, set()).update(re.findall(r"\w+", path.read_text(encoding="utf-8")))
    return words


def try_definitions(_: Room) -> Iterator[Check]:
    """What a page names as `Module.word` stands in a module of that name."""
    words = definitions()
    for page in DEFINING:
        named = set(DEFINITION.findall((ROOT / page).read_text(encoding="utf-8")))
        gone = sorted(f"{module}.{word}" for module, word in named if word not in words.get(module, ()))
        yield equal(f"{page}, definitions", (gone, []))


def headings(path: Path) -> set[str]:
    """How links name the headings of a page."""
    titles = re.findall(r"^#+ (.*)$", path.read_text(encoding="utf-8"), re.MULTILINE)
    return {re.sub(r"[^\w -]", "", title.lower()).replace(" ", "-") for title in titles}


def leads(page: str, name: str, heading: str) -> bool:
    path = (ROOT / page).parent / name if name else ROOT / page
    return path.exists() and (not heading or heading in headings(path))


def try_links(_: Room) -> Iterator[Check]:
    """Each link within the repository leads to a file, and to a heading of it where it names one."""
    for page in PAGES:
        links = LINK.findall((ROOT / page).read_text(encoding="utf-8"))
        yield equal(f"{page}, links", ([f"{name}#{heading}" for name, heading in links if not leads(page, name, heading)], []))


def jobs() -> Iterator[Job]:
    for page in PAGES:
        yield Job(page, partial(try_page, page))
    yield Job("pages", try_names)
    yield Job("pages", try_definitions)
    yield Job("pages", try_links)
