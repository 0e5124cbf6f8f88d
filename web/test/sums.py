"""What stands in dist/web: its checksums, and that it is what web/assemble makes of this checkout around the modules that stand there."""

import gzip
import hashlib
import importlib.machinery
import importlib.util

from repository import ROOT, SITE

MOST_LOADED = 600_000


def assembler():
    """Returns web/assemble as a module."""
    loader = importlib.machinery.SourceFileLoader("assemble", str(ROOT / "web/assemble"))
    module = importlib.util.module_from_spec(importlib.util.spec_from_loader("assemble", loader))
    loader.exec_module(module)
    return module


def judge_sums(judge):
    listed = dict(reversed(line.split("  ")) for line in (ROOT / "dist/web.sum").read_text().splitlines())
    stand = {f"web/{path.name}" for path in SITE.iterdir()}
    judge.judge("sums, the files", sorted(stand | {"comfusy"}), sorted(listed))
    for name, wanted in listed.items():
        path = ROOT / "dist" / name
        judge.judge(f"sums, {name}", hashlib.sha256(path.read_bytes()).hexdigest() if path.exists() else "missing", wanted)


def judge_assembled(judge):
    """Judges each file but the modules: where one differs, `web/assemble` makes it anew."""
    for name, data in assembler().pages(SITE).items():
        path = SITE / name
        judge.judge(f"assembled, {name}", path.exists() and path.read_bytes() == data, True)


def judge_size(judge):
    """Judges what a visitor loads: the page, with the larger of the two modules, each compressed."""
    sizes = {path.name: len(gzip.compress(path.read_bytes(), 9)) for path in SITE.iterdir()}
    total = sizes["index.html"] + sizes["page.js"] + max(size for name, size in sizes.items() if name.endswith(".wasm"))
    print(f"web size: a visitor loads {total} bytes, compressed")
    judge.judge("size, at most", total <= MOST_LOADED, True)


def run(judge):
    judge_sums(judge)
    judge_assembled(judge)
    judge_size(judge)
