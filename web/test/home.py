"""What the page saves to be taken home, with the commands that it tells: each is typed where Comfusy is installed."""

import os
import re
import shutil
import subprocess
import tempfile
import time
from pathlib import Path

from reader import lines_of
from repository import ROOT, text_of

NAME = "change"
ROWS = "[...document.querySelectorAll('#files li')].map(it => [it.firstChild.textContent, it.querySelector('.command')?.textContent ?? ''])"


def press(name):
    return f"[...document.querySelectorAll('#files li > *')].find(it => it.textContent === '{name}').click()"


def saved(reader, name, folder):
    """Returns the bytes of a file that is saved by its button."""
    reader.eval(press(name))
    path, end = folder / name, time.monotonic() + 30
    while not path.exists() and time.monotonic() < end:
        time.sleep(0.05)
    return path.read_bytes() if path.exists() else b""


def installed(prefix):
    """Returns the variables of a shell that finds Comfusy below a prefix, and its package for Python."""
    subprocess.run([ROOT / "install", prefix], stdout=subprocess.DEVNULL, check=True)
    found = {"PATH": f"{prefix}/bin:{os.environ['PATH']}", "PKG_CONFIG_PATH": f"{prefix}/lib/pkgconfig", "PYTHONPATH": f"{ROOT}/python"}
    return os.environ | found | {"PYTHONDONTWRITEBYTECODE": "1"}


def written_by(command):
    """Returns what a command must write that the page tells."""
    if "verify" in command:
        return ["choose 1: verified"]
    replies = lines_of(text_of(f"{NAME}.out"))
    if not command.startswith("python3"):
        return replies
    values = [f"({', '.join(reply.split())})" for reply in replies]
    return [f"{line} -> {value}" for line, value in zip(lines_of(text_of(f"{NAME}.in")), values)]


def try_commands(judge, commands, folder, prefix):
    """Types each command in the folder of the files."""
    variables = installed(prefix)
    has_compiler = shutil.which("gcc") and shutil.which("pkg-config")
    for command in commands:
        if not has_compiler and re.match("gcc|python3", command):
            judge.skip("page, at home", f"gcc or pkg-config is not installed: {command}")
            continue
        done = subprocess.run(command, shell=True, cwd=folder, env=variables, capture_output=True, text=True, check=False)
        judge.judge(f"page, at home, {command}", [done.returncode, lines_of(done.stdout), done.stderr], [0, written_by(command), ""])


def try_files(reader, folder):
    """Saves each file; those that the repository has are compared."""
    wanted = {f"program.{kind}": text_of(f"{NAME}.{kind}").encode() for kind in ("cf", "in", "target", "steps")}
    rows = reader.eval(ROWS)
    for name, _ in rows:
        data = saved(reader, name, folder)
        reader.judge.judge(f"page, saved, {name}", data if name in wanted else len(data) > 100, wanted.get(name, True))
    one_file = (ROOT / "dist/web/single.html").read_bytes()
    reader.judge.judge("page, saved, the page in one file", (folder / "comfusy.html").read_bytes() == one_file, True)
    return [command for _, command in rows if command]


def try_home(reader):
    reader.press("home")
    reader.example(NAME)
    with tempfile.TemporaryDirectory(prefix="comfusy-home-") as path:
        folder, prefix = Path(path) / "saved", Path(path) / "prefix"
        folder.mkdir()
        reader.browser.keep_downloads(folder)
        try_commands(reader.judge, try_files(reader, folder), folder, prefix)
    reader.example("quotient")
    reader.eval(press("program.target"))
    reader.browser.wait("document.getElementById('saved').textContent.includes('cannot')")
    told = reader.eval("document.getElementById('saved').textContent")
    reader.judge.judge("page, what cannot be made", told, "program.target cannot be made: compile refuses the program.")
