"""The calls of libcomfusy.so."""

from __future__ import annotations

import ctypes
import ctypes.util
import os
import threading
import weakref
from ctypes import POINTER, Structure, byref, c_bool, c_char_p, c_size_t, c_uint32, c_void_p
from functools import lru_cache
from pathlib import Path
from typing import Mapping, NamedTuple, Sequence, Union

NAME = "libcomfusy.so"
NAMED = "COMFUSY_LIBRARY"
TOO_SMALL = 1
NO_MEMORY = 12
ROOM = 65536
LINE_ROOM = 4096

Text = Union[str, bytes]


class _Bytes(Structure):
    """Counted bytes, `comfusy_bytes` of comfusy.h."""

    _fields_ = [("at", c_char_p), ("size", c_size_t)]


class _File(Structure):
    """A file, `comfusy_file` of comfusy.h."""

    _fields_ = [("name", _Bytes), ("text", _Bytes)]


class _Program(Structure):
    """A program that the library keeps, `comfusy_program` of comfusy.h; at first a closed one."""

    _fields_ = [("at", c_void_p), ("is_open", c_bool)]


class Answer(NamedTuple):
    """How a call ended: the program's status, and what it wrote to its standard output and its standard error."""

    status: int
    out: bytes
    err: bytes


def call(words: Sequence[Text], files: Mapping[Text, Text] = {}, input: Text = b"") -> Answer:  # noqa: B006 (it is only read)
    """Does what the program does on these words, with these files by their names and this standard input."""
    library = _library()
    given = _bytes_of(input)
    out_room = err_room = ROOM
    while True:
        out, err = ctypes.create_string_buffer(out_room), ctypes.create_string_buffer(err_room)
        out_size, err_size = c_size_t(), c_size_t()
        status = library.comfusy(
            *_words_of(words),
            *_files_of(files),
            given,
            len(given),
            out,
            out_room,
            byref(out_size),
            err,
            err_room,
            byref(err_size),
        )
        if status != TOO_SMALL:
            return Answer(status, out.raw[: out_size.value], err.raw[: err_size.value])
        out_room, err_room = max(out_room, out_size.value), max(err_room, err_size.value)


class Opened:
    """A program that is read once: opened by the words of `run` or `exec` and their file, it answers lines one by one.

    `answer` says how opening ended. Threads may share one: its lines are answered one after the other. Its memory is given back by `close`, at the end of a
    `with`, or with the object.
    """

    def __init__(self, words: Sequence[Text], files: Mapping[Text, Text]) -> None:
        self._lock = threading.Lock()
        self._program = _Program()
        self._out = ctypes.create_string_buffer(LINE_ROOM)
        self.answer = self._open(words, files)
        self._end = weakref.finalize(self, _library().comfusy_close, byref(self._program))

    def _open(self, words: Sequence[Text], files: Mapping[Text, Text]) -> Answer:
        room = ROOM
        while True:
            err, size = ctypes.create_string_buffer(room), c_size_t()
            status = _library().comfusy_open(*_words_of(words), *_files_of(files), byref(self._program), err, room, byref(size))
            if status != TOO_SMALL:
                return Answer(status, b"", err.raw[: size.value])
            room = size.value

    def line(self, line: Text) -> Answer:
        """The reply to a line, which has no line feed; the reply has one. The status is 2 where the program is closed."""
        given, size = _bytes_of(line), c_size_t()
        with self._lock:
            while True:
                status = _library().comfusy_line(byref(self._program), given, len(given), self._out, len(self._out), byref(size))
                if status != TOO_SMALL:
                    return Answer(status, self._out[: size.value], b"")
                self._out = ctypes.create_string_buffer(size.value)

    def close(self) -> None:
        with self._lock:
            self._end()

    def __enter__(self) -> Opened:
        return self

    def __exit__(self, *_: object) -> None:
        self.close()


def _words_of(words: Sequence[Text]) -> Sequence[object]:
    """Words as C takes them: where they are, and how many."""
    some = [_counted(word) for word in words]
    return (_Bytes * max(len(some), 1))(*some), len(some)


def _files_of(files: Mapping[Text, Text]) -> Sequence[object]:
    named = [_File(_counted(name), _counted(text)) for name, text in files.items()]
    return (_File * max(len(named), 1))(*named), len(named)


def _bytes_of(text: Text) -> bytes:
    return text.encode() if isinstance(text, str) else bytes(text)


def _counted(text: Text) -> _Bytes:
    given = _bytes_of(text)
    return _Bytes(given, len(given))


@lru_cache(maxsize=None)
def _library() -> ctypes.CDLL:
    library = ctypes.CDLL(_path())
    library.comfusy.restype = c_uint32
    library.comfusy.argtypes = [
        POINTER(_Bytes),
        c_size_t,
        POINTER(_File),
        c_size_t,
        c_char_p,
        c_size_t,
        c_char_p,
        c_size_t,
        POINTER(c_size_t),
        c_char_p,
        c_size_t,
        POINTER(c_size_t),
    ]
    library.comfusy_open.restype = c_uint32
    library.comfusy_open.argtypes = [
        POINTER(_Bytes),
        c_size_t,
        POINTER(_File),
        c_size_t,
        POINTER(_Program),
        c_char_p,
        c_size_t,
        POINTER(c_size_t),
    ]
    library.comfusy_line.restype = c_uint32
    library.comfusy_line.argtypes = [POINTER(_Program), c_char_p, c_size_t, c_char_p, c_size_t, POINTER(c_size_t)]
    library.comfusy_close.restype = None
    library.comfusy_close.argtypes = [POINTER(_Program)]
    return library


def _path() -> str:
    """Where the library is: what COMFUSY_LIBRARY names; below the prefix of a folder of the search path that has `comfusy`; or where the system finds it."""
    named = os.environ.get(NAMED)
    if named:
        return named
    for folder in os.environ.get("PATH", os.defpath).split(os.pathsep):
        beside = Path(folder).parent / "lib" / NAME
        if (Path(folder) / "comfusy").exists() and beside.exists():
            return str(beside)
    return ctypes.util.find_library("comfusy") or NAME
