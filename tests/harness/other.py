"""Another program, which takes the same words as comfusy."""

from __future__ import annotations

import subprocess
from collections.abc import Sequence
from dataclasses import dataclass
from pathlib import Path

from .program import Ended


@dataclass(frozen=True)
class Other:
    """The program by the words that start it, and the folder in which it runs, whose files it names as they stand there."""

    command: Sequence[str]
    folder: Path

    def run(self, *words: str | Path, given: bytes = b"") -> Ended:
        ran = subprocess.run([*self.command, *words], input=given, capture_output=True, cwd=self.folder, check=False)
        return Ended(ran.returncode, ran.stdout, ran.stderr)
