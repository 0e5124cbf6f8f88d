"""The library, called from C and from Python: the cases and the tables, whose texts it must answer byte for byte as the program, those of `run` and `exec` also
line by line; each allocation of a call refused in turn; memory errors as valgrind sees them; calls of threads; many lines; the package; and what the page of
the library quotes.

The library is that of dist/ where it is one of these sources, or else what was built here of them. Where gcc, valgrind or pip is missing, a line says so, and
what needs it is skipped.
"""

from __future__ import annotations

import atexit
import doctest
import importlib.util
import os
import pickle
import re
import shutil
import subprocess
import sys
import tempfile
from collections.abc import Callable, Iterator, Sequence
from concurrent.futures import ThreadPoolExecutor
from functools import partial, lru_cache
from itertools import islice
from pathlib import Path

from harness import examples
from harness.checks import Check, Skipped, equal
from harness.jobs import Checks, Job
from harness.program import ROOT, Ended, Room, Streams, STREAMS, Word
from harness.rows import Row, rows_of

from . import cases, many_lines, tables

FLAGS = "-std=c11", "-Wall", "-Wextra", "-Werror", "-O1", "-g", "-pthread", f"-I{ROOT / 'include'}"
WRAPPED = "-Wl,--wrap=malloc,--wrap=realloc,--wrap=free"
LIBRARY = ROOT / "tests/library"
PYTHON = ROOT / "python"
PAGE = ROOT / "docs/LIBRARY.md"
REFUSED = ("run", "even"), ("compile", "seconds"), ("check", "even"), ("pre", "seconds"), ("prove", "even")
OPENED = ("run", "even"), ("run", "seconds"), ("exec", "even")
HELGRIND = "valgrind", "--tool=helgrind", "-q", "--error-exitcode=99"
CALLS, THREADS = 200, 8


def built(folder: Path) -> dict[str, Path]:
    """The programs and the shared library in this folder, made of the archive."""
    archive = Path(subprocess.run([ROOT / "tools/library"], stdout=subprocess.PIPE, text=True, check=True).stdout.strip())
    subprocess.run([ROOT / "tools/library", "--shared", folder / "libcomfusy.so"], check=True)
    made = {name: folder / name for name in ("drive", "lines", "refuse", "refuse_lines", "threads")}
    for name, program in made.items():
        wrapped = [WRAPPED] if name.startswith("refuse") else []
        subprocess.run(["gcc", *FLAGS, "-o", program, LIBRARY / f"{name}.c", archive, *wrapped], check=True)
    return made | {"shared": folder / "libcomfusy.so", "archive": archive}


@lru_cache(maxsize=None)
def package(shared: Path):
    """The package over this library."""
    os.environ["COMFUSY_LIBRARY"] = str(shared)
    sys.path.insert(0, str(PYTHON))
    return importlib.import_module("comfusy")


class CalledRoom(Room):
    """A room in which the library is called from Python, in this process."""

    def run(self, words: Sequence[Word], streams: Streams = STREAMS, *_: object, **__: object) -> Ended:
        named = [os.fsencode(word) for word in words]
        texts = {word: self.folder / os.fsdecode(word) for word in named[1:]}
        given = self.folder / streams.input
        answer = package(self.program).call(
            named,
            {word: path.read_bytes() for word, path in texts.items() if path.is_file()},
            given.read_bytes() if named[:1] and named[0] in (b"run", b"exec") else b"",
        )
        return Ended(answer.status, answer.out, answer.err)


class LinesRoom(Room):
    """A room in which what `run` and `exec` reply is asked for line by line, and all else by the one call."""

    def __init__(self, lines: Path, drive: Path) -> None:
        super().__init__(lines)
        self.lines = lines
        self.drive = drive

    def run(self, words: Sequence[Word], *more: object, **named: object) -> Ended:
        self.program = self.lines if is_opened([os.fsencode(word) for word in words]) else self.drive
        return super().run(words, *more, **named)


def is_opened(words: Sequence[bytes]) -> bool:
    """Whether the words ask for replies, and for nothing behind them."""
    return words[:1] in ([b"run"], [b"exec"]) and b"--stats" not in words


def renamed(how: str, checks: Checks) -> Checks:
    for check in checks:
        yield check if isinstance(check, str) else Check(f"library, {how}, {check.name}", check.faults)


def try_case(how: str, kind: Callable[[], Room], case: cases.Case, _: Room) -> Checks:
    with kind() as room:
        yield from renamed(how, cases.try_case(case, room))


def try_rows(how: str, kind: Callable[[], Room], rows: list, _: Room) -> Checks:
    with kind() as room:
        yield from renamed(how, tables.try_rows(rows, room))


def text_for(command: str, name: str) -> Path:
    """What a command reads of an example."""
    return examples.expectation(name, "target") if command == "exec" else examples.source(name)


def try_refused(refuse: Path, command: str, name: str, room: Room) -> Iterator[Check]:
    """Each allocation of a call, or of those on a program that is opened, is refused in turn."""
    words = [refuse, command, text_for(command, name), *([examples.lines(name)] if command in ("run", "exec") else [])]
    ran = subprocess.run(words, capture_output=True, text=True, cwd=room.folder, check=False)
    count = ran.stdout.strip()
    yield equal(f"library, {refuse.name}, {command} {name}", (ran.returncode, 0), (count.isdigit() and int(count) > 10 or count, True))


def try_valgrind(program: Path, command: str, name: str, room: Room) -> Iterator[Check]:
    """No call reads or writes what is not its own, and none keeps memory."""
    words = ["valgrind", "-q", "--error-exitcode=99", "--leak-check=full", "--errors-for-leak-kinds=all", program, command, text_for(command, name)]
    given = examples.text_of(examples.lines(name)) if command in ("run", "exec") else b""
    ran = subprocess.run(words, input=given, capture_output=True, cwd=room.folder, check=False)
    yield equal(f"library, valgrind, {program.name}, {command} {name}", (ran.returncode, 0), (ran.stderr, b""))


def try_many(lines: Path, _: Room) -> Checks:
    """As many lines as are tried of the program are answered one by one, in as little memory."""
    with Room(lines) as room:
        yield from renamed("line by line", many_lines.try_lines(room))


def try_threads(shared: Path, _: Room) -> Iterator[Check]:
    """Calls of many threads answer as one after the other."""
    call = package(shared).call
    source = examples.text_of(examples.source("even"))
    lines = [f"{i} {i + 1}\n".encode() for i in range(CALLS)]
    replies = [f"{(i + 1) // 2}\n".encode() for i in range(CALLS)]
    answer = partial(call, ["run", "file"], {"file": source})
    with ThreadPoolExecutor(THREADS) as pool:
        seen = [it.out for it in pool.map(lambda line: answer(line), lines)]
    yield equal("library, threads", (seen == replies, True))
    programs = [package(shared).Opened(["run", "file"], {"file": source}) for _ in range(THREADS)]
    with ThreadPoolExecutor(THREADS) as pool:
        each = pool.map(lambda program: [program.line(line.rstrip()).out for line in lines], programs)
    yield equal("library, threads, a program each", (all(seen == replies for seen in each), True))


def try_own(threads: Path, tool: Sequence[str], room: Room) -> Iterator[Check]:
    """Threads of C that have a program each, alone or under a tool that sees whether they touch what another one has."""
    ran = subprocess.run([*tool, threads, "run", examples.source("even")], capture_output=True, cwd=room.folder, check=False)
    yield equal(" ".join(["library, a program each", *tool[:2]]), (ran.returncode, 0), (ran.stderr, b""))


def raised(what, kind: type[BaseException]) -> object:
    """What is raised, or what comes where nothing is."""
    try:
        return what()
    except kind as fault:
        return fault


def try_package(shared: Path, _: Room) -> Iterator[Check]:
    """Programs of the package, their replies and their faults."""
    comfusy = package(shared)
    even = comfusy.compile(examples.text_of(examples.source("even")).decode())
    yield equal("library, package, values", (even.run("3 4"), (2,)))
    yield equal("library, package, no solution", (raised(lambda: even.run("1 1"), comfusy.NoSolution).choose, 1))
    yield equal("library, package, bad input", (str(raised(lambda: even.run("x"), ValueError)), "bad input"))
    yield equal("library, package, lines", ([str(it) for it in even.run_all(["3 4", "3 3"])], ["(2,)", "no solution at choose 1"]))
    yield equal("library, package, claims", ("\n".join(even.check()) + "\n", examples.text_of(examples.expectation("even", "check")).decode()))
    yield equal("library, package, needs", ("\n".join(even.pre()) + "\n", examples.text_of(examples.expectation("even", "pre")).decode()))
    late = comfusy.compile("def main(a: int, b: int): int = choose (x: int) where a * x == b")
    yield equal("library, package, a late program", (late.target, None), (late.run("3 12"), (4,)))
    square = comfusy.compile("def main(a: int): int = a * a")
    yield equal("library, package, overflow", (type(raised(lambda: square.run(str(2**100)), comfusy.Overflow)), comfusy.Overflow))
    fault = raised(lambda: comfusy.compile("def main(a: int): int =\n  b"), comfusy.TypeFault)
    yield equal("library, package, a fault", ((fault.status, fault.line, fault.column, fault.what), (7, 2, 3, "unknown name")))
    sets = comfusy.compile("def main(a: set): (set, bool, int) = (a union {7}, true, card(a))")
    yield equal("library, package, a set", (sets.run("{1, 3}"), (frozenset({1, 3, 7}), True, 2)))
    yield equal("library, package, words that are no text", (tuple(comfusy.call([b"\xff"])), (2, b"", b"")))
    yield equal("library, package, a line feed", (type(raised(lambda: even.run("3 4\n3 4"), ValueError)), ValueError))
    yield equal("library, package, a copy", (pickle.loads(pickle.dumps(even)).run("3 4"), (2,)))
    yield equal("library, package, no line", (even.run_all([]), []))
    yield equal("library, package, its docstring", (doctest.testmod(comfusy).failed, 0))


def try_opened(shared: Path, _: Room) -> Iterator[Check]:
    """Programs that are kept: their replies, also to threads and behind an end, and words that open none."""
    comfusy = package(shared)
    source = examples.text_of(examples.source("even"))
    with comfusy.Opened(["run", "file", "--key"], {"file": source}) as even:
        yield equal("library, opened", (tuple(even.answer), (0, b"", b"")), (even.line("a\t3 4").out, b"a\t2\n"))
        lines = [f"{i}\t{i} {i + 1}" for i in range(CALLS)]
        with ThreadPoolExecutor(THREADS) as pool:
            seen = [it.out for it in pool.map(even.line, lines)]
        yield equal("library, opened, threads", (seen == [f"{i}\t{(i + 1) // 2}\n".encode() for i in range(CALLS)], True))
        long = "b" * 60_000
        yield equal("library, opened, a long reply", (even.line(f"{long}\t3 4").out == f"{long}\t2\n".encode(), True))
        yield equal("library, opened, any bytes", (even.line(b"\x00\xff\n").out, b"bad input\n"), (even.line(b"").out, b"bad input\n"))
    yield equal("library, opened, an end", (even.line("a\t3 4").status, 2), (even.close(), None))
    for words in ["compile", "file"], ["run", "file", "--stats"], ["run"], [b"\xff"], []:
        yield equal(f"library, opened, {words}", (comfusy.Opened(words, {"file": source}).answer.status, 2))
    for words, text in (["run", "missing"], source), (["run", "file"], b"def"), (["exec", "file"], source), (["run", "file"], b"comfusy 3\ndef"):
        opened = comfusy.Opened(words, {"file": text})
        yield equal(f"library, opened, {words}, {text[:9]!r}", (opened.answer, comfusy.call(words, {"file": text})), (opened.line("3 4").status, 2))


def try_module(shared: Path, room: Room) -> Iterator[Check]:
    """`python3 -m comfusy` is the program."""
    environment = os.environ | {"COMFUSY_LIBRARY": str(shared), "PYTHONPATH": str(PYTHON)}
    words = [sys.executable, "-m", "comfusy", "run", examples.source("even")]
    for given, wanted in (b"3 4\n3 3\n", (0, b"2\nno solution at choose 1\n", b"")), (b"", (0, b"", b"")):
        ran = subprocess.run(words, input=given, capture_output=True, env=environment, cwd=room.folder, check=False)
        yield equal("library, python3 -m comfusy", ((ran.returncode, ran.stdout, ran.stderr), wanted))
    ran = subprocess.run([*words[:-1], "missing"], capture_output=True, env=environment, cwd=room.folder, check=False)
    yield equal("library, python3 -m comfusy, a missing file", ((ran.returncode, ran.stdout, ran.stderr), (3, b"", b"cannot read file\n")))


def try_pip(shared: Path, room: Room) -> Iterator[Check]:
    """pip installs the package without a network, and changes nothing in the checkout."""
    before, site = sorted(PYTHON.iterdir()), room.folder / "site"
    pip = [sys.executable, "-m", "pip", "install", "--quiet", "--no-index", "--target", site, PYTHON]
    installed = subprocess.run(pip, capture_output=True, env=os.environ | {"PYTHONDONTWRITEBYTECODE": "1"}, cwd=room.folder, check=False)
    yield equal("library, pip install", (installed.returncode, 0), (sorted(PYTHON.iterdir()), before))
    environment = os.environ | {"COMFUSY_LIBRARY": str(shared), "PYTHONPATH": str(site)}
    words = [sys.executable, "-m", "comfusy", "run", examples.source("even")]
    ran = subprocess.run(words, input=b"3 4\n", capture_output=True, env=environment, cwd=room.folder, check=False)
    yield equal("library, the installed package", ((ran.returncode, ran.stdout, ran.stderr), (0, b"2\n", b"")))


def blocks_of_page() -> dict[str, list[str]]:
    """The blocks of the library's page by their languages."""
    text = PAGE.read_text(encoding="utf-8")
    found: dict[str, list[str]] = {}
    for language, block in re.findall(r"^```(\w+)\n(.*?)^```$", text, re.DOTALL | re.MULTILINE):
        found.setdefault(language, []).append(block)
    return found


def try_page(shared: Path, archive: Path, room: Room) -> Iterator[Check]:
    """The examples of the library's page write what it says."""
    blocks = blocks_of_page()
    environment = os.environ | {"COMFUSY_LIBRARY": str(shared), "PYTHONPATH": str(PYTHON)}
    for number, block in enumerate(blocks["c"]):
        room.put("example.c", block.encode())
        subprocess.run(["gcc", *FLAGS, "-o", room.folder / f"example{number}", room.folder / "example.c", archive], check=True)
    programs = [[room.folder / f"example{number}"] for number in range(len(blocks["c"]))]
    scripts = [[sys.executable, "-c", block] for block in blocks["python"]]
    for words, wanted in zip([*programs, *scripts], blocks["text"]):
        ran = subprocess.run(words, capture_output=True, text=True, env=environment, cwd=room.folder, check=False)
        yield equal("library, docs/LIBRARY.md", (ran.stdout + ran.stderr, wanted))


def skipped(what: str, _: Room) -> Checks:
    yield Skipped("library", f"{what} is missing")


def is_called(case: cases.Case) -> bool:
    """Whether a case is one of the library: under `-` the program alone has its standard input, and the library's caller lends it what it likes."""
    return not case.has("streams") and b"-" not in case.words()


def jobs_of(how: str, kind: Callable[[], Room], some: Sequence[cases.Case], is_tried: Callable[[Row], bool]) -> Iterator[Job]:
    """The cases, and the rows of all tables that are to be tried, in rooms of a kind."""
    for case in some:
        yield Job(f"library, {how}, {case.name}", partial(try_case, how, kind, case))
    for table in tables.every():
        rows = filter(is_tried, rows_of(table))
        while part := list(islice(rows, tables.ROWS_OF_A_JOB)):
            yield Job(f"library, {how}, {part[0].name()}", partial(try_rows, how, kind, part))


def jobs() -> Iterator[Job]:
    if shutil.which("gcc") is None:
        yield Job("library", partial(skipped, "gcc"))
        return
    if subprocess.run([ROOT / "tools/library"], stdout=subprocess.DEVNULL, stderr=subprocess.DEVNULL, check=False).returncode:
        yield Job("library", partial(skipped, "libcomfusy.a of these sources"))
        return
    folder = Path(tempfile.mkdtemp(prefix="comfusy-library-"))
    atexit.register(shutil.rmtree, folder, ignore_errors=True)
    made = built(folder)
    for how, kind in ("C", partial(Room, made["drive"])), ("Python", partial(CalledRoom, made["shared"])):
        yield from jobs_of(how, kind, [case for case in cases.standing() if is_called(case)], lambda row: True)
    replying = [case for case in cases.standing() if is_called(case) and is_opened(case.words()) and case.text("status").strip() != tables.INPUT_LONG]
    yield from jobs_of("line by line", partial(LinesRoom, made["lines"], made["drive"]), replying, tables.is_of_replies)
    for command, name in REFUSED:
        yield Job(f"library, refused memory, {command}", partial(try_refused, made["refuse"], command, name))
        if shutil.which("valgrind"):
            yield Job(f"library, valgrind, {command}", partial(try_valgrind, made["drive"], command, name))
    for command, name in OPENED:
        yield Job(f"library, refused memory, lines of {command} {name}", partial(try_refused, made["refuse_lines"], command, name))
        if shutil.which("valgrind"):
            yield Job(f"library, valgrind, lines of {command} {name}", partial(try_valgrind, made["lines"], command, name))
    yield Job("library, many lines", partial(try_many, made["lines"]))
    yield Job("library, a program each", partial(try_own, made["threads"], ()))
    if shutil.which("valgrind"):
        yield Job("library, a program each, helgrind", partial(try_own, made["threads"], HELGRIND))
    else:
        yield Job("library, valgrind", partial(skipped, "valgrind"))
    for name, trial in ("threads", try_threads), ("opened", try_opened), ("package", try_package), ("module", try_module):
        yield Job(f"library, {name}", partial(trial, made["shared"]))
    if importlib.util.find_spec("pip"):
        yield Job("library, pip", partial(try_pip, made["shared"]))
    else:
        yield Job("library, pip", partial(skipped, "pip"))
    yield Job("library, page", partial(try_page, made["shared"], made["archive"]))
