"""Calls that were recorded, and what the native program answers to them."""

import gzip
import os
import subprocess
import tempfile
from concurrent.futures import ThreadPoolExecutor
from pathlib import Path

from packing import packed_with_answer, unpacked


def kept(path):
    """Returns the calls of a compressed file, but for those on `-`: the page has no standard input beside its files."""
    return [call for call in unpacked(gzip.decompress(path.read_bytes())) if b"-" not in call[0]]


def write_files(folder, files):
    for name, data in files:
        path = Path(folder) / name.decode()
        if data is None:
            path.mkdir(exist_ok=True)
        else:
            path.write_bytes(data)


def answer_of(program, call):
    """Returns the status, the output and the error of a native program on a call."""
    words, files, given = call
    with tempfile.TemporaryDirectory() as folder:
        write_files(folder, files)
        done = subprocess.run([program, *words], cwd=folder, input=given, capture_output=True, check=False)
    return done.returncode, done.stdout, done.stderr


def with_answers(program, found):
    """Returns the calls with their answers, packed."""
    with ThreadPoolExecutor(os.cpu_count()) as pool:
        answers = pool.map(lambda call: answer_of(program, call), found)
        return b"".join(packed_with_answer(call, *answer) for call, answer in zip(found, answers))
