"""The repository's examples as calls of the program, with what their files say that it answers."""

import re
from pathlib import Path

TEST = Path(__file__).resolve().parent
ROOT = TEST.parent.parent
SITE = ROOT / "dist/web"
KINDS = {"compile": "target", "pre": "pre", "check": "check", "prove": "steps"}


def text_of(name):
    """Returns the text of a file of examples/, or of what must be written on them; nothing where there is none."""
    paths = [ROOT / folder / name for folder in ("examples", "tests/examples")]
    return next((path.read_text(encoding="utf-8") for path in paths if path.exists()), None)


def names_in(folder):
    """Returns the names of the examples of a folder, as in `refused/typo`."""
    return sorted(str(path.relative_to(ROOT / "examples").with_suffix("")) for path in (ROOT / "examples" / folder).glob("*.cf"))


def verified_lines(steps):
    """Returns the line that `verify` writes for each block of a printed steps file."""
    return "".join(f"choose {number}: verified\n" for number in re.findall(r"^choose (\d+) .*\{$", steps, re.MULTILINE))


def answers_of(name):
    """Yields for each tab on an example what the program writes to its output, and what to its error."""
    refusal = text_of(f"{name}.err")
    yield "run", text_of(f"{name}.out"), ""
    for command, kind in KINDS.items():
        if refusal is None:
            yield command, text_of(f"{name}.{kind}"), ""
        else:
            yield command, "", refusal
    yield "verify", "" if refusal else verified_lines(text_of(f"{name}.steps")), refusal or ""


def calls_of_examples():
    """Returns the calls of the examples."""
    calls = []
    for name in names_in("."):
        source, given = text_of(f"{name}.cf").encode(), text_of(f"{name}.in").encode()
        steps = (text_of(f"{name}.steps") or "").encode()
        for command, _, _ in answers_of(name):
            files = [(b"source", source)] + ([(b"steps", steps)] if command == "verify" else [])
            calls.append(([command.encode(), *(file for file, _ in files)], files, given if command == "run" else b""))
    for name in names_in("refused"):
        calls.append(([b"run", b"source"], [(b"source", text_of(f"{name}.cf").encode())], b""))
    for name in names_in("steps"):
        files = [(b"source", text_of(f"{name}.cf").encode()), (b"steps", text_of(f"{name}.steps").encode())]
        calls.append(([b"verify", b"source", b"steps"], files, b""))
    return calls
