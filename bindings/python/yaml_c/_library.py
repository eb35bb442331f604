"""The shared object: where it is, its records and its calls, as `bindings/c/yaml_c.h` has them.

Nothing here is for users of the package.
"""

from __future__ import annotations

import ctypes
import os
import sys
from typing import Any

_HERE = os.path.dirname(os.path.abspath(__file__))
_NAME = "libyaml_c.so"
# How a record of an event, and one of a directive, is laid out: ten numbers, four spans and two marks; two spans.
EVENT = "=10i16Q"
DIRECTIVE = "=4Q"


# CPython's own call for a view of memory; its third argument is PyBUF_READ.
_memory_view = ctypes.pythonapi.PyMemoryView_FromMemory
_memory_view.restype, _memory_view.argtypes = ctypes.py_object, [ctypes.c_void_p, ctypes.c_ssize_t, ctypes.c_int]
_READ_ONLY = 0x100
# `string_at` takes an int of C.
_AT_ONCE = 1 << 30


def copied(at: int, size: int) -> bytes:
    """A copy of so many bytes from an address on."""
    if size <= _AT_ONCE:
        return ctypes.string_at(at, size)
    pieces = range(0, size, _AT_ONCE)
    return b"".join([ctypes.string_at(at + it, min(_AT_ONCE, size - it)) for it in pieces])


def viewed(at: int, size: int) -> memoryview:
    """The bytes from an address on, as they are there."""
    found: memoryview = _memory_view(at, size, _READ_ONLY)
    return found


def lent(data: bytearray) -> Any:
    """The first byte, where it is: the bytes can't change their number as long as it is there."""
    return ctypes.c_char.from_buffer(data) if data else NOTHING


class Bytes(ctypes.Structure):
    """Bytes at an address."""

    _fields_ = [("at", ctypes.c_void_p), ("len", ctypes.c_size_t)]

    def get(self) -> bytes:
        """A copy of them."""
        return copied(self.at, self.len)


class MarkRecord(ctypes.Structure):
    """A place."""

    _fields_ = [(name, ctypes.c_uint64) for name in ("index", "line", "column", "character")]


class SettingsRecord(ctypes.Structure):
    """How a text is written."""

    _fields_ = [
        *[(name, ctypes.c_int32) for name in ("encoding", "canonical", "indent", "width", "unicode", "line_break")],
        ("limit", ctypes.c_uint64),
    ]


class AnswerRecord(ctypes.Structure):
    """What a call answers."""

    _fields_ = [
        *[(name, ctypes.c_int32) for name in ("kind", "is_", "second", "value")],
        ("offset", ctypes.c_uint64),
        ("problem_mark", MarkRecord),
        ("context_mark", MarkRecord),
        *[(name, Bytes) for name in ("problem", "context", "text", "line")],
    ]

    def blocks(self) -> list[tuple[int, int]]:
        """Address and length of what the call handed out."""
        return [(it.at, it.len) for it in (self.text, self.line) if it.len]


class PartingRecord(ctypes.Structure):
    """Where two inputs differ."""

    _fields_ = [
        ("answer", AnswerRecord),
        ("document", ctypes.c_uint64),
        ("first_kind", ctypes.c_int32),
        ("second_kind", ctypes.c_int32),
        ("first_mark", MarkRecord),
        ("second_mark", MarkRecord),
    ]


class ParsedRecord(ctypes.Structure):
    """Events, directives, and the bytes of their texts."""

    _fields_ = [
        ("events", ctypes.c_void_p),
        ("events_len", ctypes.c_size_t),
        ("directives", ctypes.c_void_p),
        ("directives_len", ctypes.c_size_t),
        ("bytes", Bytes),
    ]

    def blocks(self) -> list[tuple[int, int]]:
        """Address and length of what the call handed out."""
        found = [(self.events, self.events_len), (self.directives, self.directives_len), (self.bytes.at, self.bytes.len)]
        return [it for it in found if it[1]]


class LevelRecord(ctypes.Structure):
    """An open collection."""

    _fields_ = [("state", ctypes.c_int32), ("indent", ctypes.c_uint64)]


class PlaceRecord(ctypes.Structure):
    """Where an emitter is, except lists."""

    _fields_ = [
        *[(name, ctypes.c_int32) for name in ("state", "encoding", "implicit", "white", "bare", "kept")],
        ("column", ctypes.c_uint64),
        ("waiting", ctypes.c_uint64),
        ("innermost", LevelRecord),
    ]


class StandRecord(ctypes.Structure):
    """Where an emitter is, with the collections and the directives there."""

    _fields_ = [
        ("place", PlaceRecord),
        ("levels", ctypes.c_void_p),
        ("levels_len", ctypes.c_size_t),
        ("directives", ctypes.c_void_p),
        ("directives_len", ctypes.c_size_t),
        ("bytes", Bytes),
    ]

    def blocks(self) -> list[tuple[int, int]]:
        """Address and length of what the call handed out."""
        found = [(self.levels, self.levels_len), (self.directives, self.directives_len), (self.bytes.at, self.bytes.len)]
        return [it for it in found if it[1]]


# What a pointer names that has a length of 0: it is never NULL.
NOTHING = ctypes.create_string_buffer(1)
_AT = ctypes.addressof(NOTHING)


def new_answer() -> AnswerRecord:
    """An answer that names nothing."""
    answer = AnswerRecord()
    for it in (answer.problem, answer.context, answer.text, answer.line):
        it.at = _AT
    return answer


def new_parting() -> PartingRecord:
    """No difference."""
    return PartingRecord(answer=new_answer())


def new_parsed() -> ParsedRecord:
    """No events."""
    return ParsedRecord(events=_AT, directives=_AT, bytes=Bytes(at=_AT))


def new_stand() -> StandRecord:
    """Before the first event."""
    return StandRecord(levels=_AT, directives=_AT, bytes=Bytes(at=_AT))


def free(record: AnswerRecord | ParsedRecord | StandRecord) -> None:
    """Frees what a call handed out."""
    for at, _ in record.blocks():
        release(at)


def _path() -> str:
    """The shared object that YAML_C_SO names; else the one in this folder; else the one that `make library` made."""
    named = os.environ.get("YAML_C_SO")
    if named:
        return named
    beside = os.path.join(_HERE, _NAME)
    made = os.path.join(_HERE, "..", "..", "..", "out", "library", _NAME)
    return beside if os.path.exists(beside) else os.path.normpath(made)


def _load() -> ctypes.CDLL:
    path = _path()
    try:
        return ctypes.CDLL(path)
    except OSError as error:
        raise ImportError(
            f"the library isn't there ({error}): name it by the variable YAML_C_SO, put {_NAME} beside the package's "
            "modules, or run make library in the repository"
        ) from None


def _call(name: str, *types: Any) -> Any:
    found = getattr(library, name)
    found.argtypes, found.restype = types, ctypes.c_int32
    return found


_SIZES = [
    (SettingsRecord, 32),
    (AnswerRecord, 152),
    (PartingRecord, 232),
    (ParsedRecord, 48),
    (StandRecord, 104),
    (MarkRecord, 32),
    (Bytes, 16),
]
if any(ctypes.sizeof(it) != size for it, size in _SIZES):
    raise ImportError("the library's records have another layout here than in its header: it needs a 64-bit machine")

library = _load()
_POINTER = ctypes.c_void_p
_INPUT = (ctypes.c_char_p, ctypes.c_size_t, ctypes.c_int32)

defaults = _call("yaml_c_defaults", _POINTER)
defaults.restype = None
reformat = _call("yaml_c_reformat", *_INPUT, _POINTER, _POINTER)
reload = _call("yaml_c_reload", *_INPUT, _POINTER, _POINTER)
normalize = _call("yaml_c_normalize", *_INPUT, _POINTER, _POINTER)
check = _call("yaml_c_check", *_INPUT, _POINTER)
same = _call("yaml_c_same", *_INPUT, *_INPUT, _POINTER)
diff = _call("yaml_c_diff", *_INPUT, *_INPUT, _POINTER)
diff_documents = _call("yaml_c_diff_documents", *_INPUT, *_INPUT, _POINTER)
events = _call("yaml_c_events", *_INPUT, _POINTER)
parse = _call("yaml_c_parse", *_INPUT, _POINTER, _POINTER)
front = _call("yaml_c_front", *_INPUT, _POINTER, _POINTER)
emit_on = _call("yaml_c_emit_on", *[_POINTER] * 5)

# The heap that the library takes its blocks from is the process's own.
release = ctypes.CDLL(None).free
release.argtypes, release.restype = [ctypes.c_void_p], None
# Linux takes back pages whose bytes nobody reads again, by its MADV_DONTNEED; elsewhere they stay until their block is freed.
_UNNEEDED, _TAKES_BACK = 4, sys.platform == "linux"
_PAGE = os.sysconf("SC_PAGESIZE") if _TAKES_BACK else 1
if _TAKES_BACK:
    _advise = ctypes.CDLL(None).madvise
    _advise.argtypes, _advise.restype = [ctypes.c_void_p, ctypes.c_size_t, ctypes.c_int], ctypes.c_int


def give_back(at: int, end: int) -> int:
    """Gives the whole pages between two addresses of a block back to the system: their bytes are 0 from now on. What is left
    begins at the answer."""
    first, last = -(-at // _PAGE) * _PAGE, end // _PAGE * _PAGE
    if _TAKES_BACK and first < last:
        _advise(first, last - first, _UNNEEDED)
    return max(at, last)
