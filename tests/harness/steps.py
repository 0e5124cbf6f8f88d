"""The blocks of steps files."""

from __future__ import annotations

import re

COMMENT = re.compile(rb"#[^\n]*")
HEAD = re.compile(rb"\bchoose\s+(\d+)\s*(?:\([^()]*\)\s*)?\{")


def verified_lines(steps: bytes) -> bytes:
    """A line for each block, as `verify` writes it where it accepts them all."""
    return b"".join(b"choose %d: verified\n" % int(number) for number in HEAD.findall(COMMENT.sub(b"", steps)))
