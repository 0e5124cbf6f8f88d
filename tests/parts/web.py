"""The page of dist/web, by its own tests."""

from __future__ import annotations

import subprocess
from collections.abc import Iterator

from harness.checks import Check
from harness.jobs import Checks, Job
from harness.program import ROOT, Room

LONGEST = 1200


def web_jobs() -> Iterator[Job]:
    yield Job("web", web)


def web(_room: Room) -> Checks:
    """What the tests of the page tell: each line of a failure, and what was skipped for want of a tool or a page of these sources."""
    done = subprocess.run([ROOT / "web/test/run"], capture_output=True, text=True, timeout=LONGEST, check=False)
    lines = done.stdout.splitlines()
    yield Check("web", () if done.returncode == 0 else tuple(lines[-20:] or [done.stderr]))
    yield f"web: {lines[-1] if lines else done.stderr}"
