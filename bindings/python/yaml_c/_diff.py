"""Where two texts differ."""

from __future__ import annotations

import ctypes
from collections.abc import Iterator
from dataclasses import dataclass
from typing import NamedTuple, Union

from . import _library
from ._calls import input_of, judge_kind, mark_of
from ._enums import Encoding
from ._events import KINDS, Event
from ._faults import Mark
from ._source import Text


class ItemStep(NamedTuple):
    """To an item of a sequence, from 0."""

    number: int


class KeyStep(NamedTuple):
    """To the key itself of a mapping's pair, from 0."""

    pair: int


class ValueStep(NamedTuple):
    """To the value of a mapping's pair, from 0; `key` is the text of its key where that is a scalar."""

    pair: int
    key: str | None


#: A step into a collection.
Step = Union[ItemStep, KeyStep, ValueStep]


@dataclass(frozen=True)
class Difference:
    """The first place at which two texts differ."""

    #: So many documents end before it.
    document: int
    #: From the document's root inwards. It is empty at the root, and where a document or its directives differ.
    path: tuple[Step, ...]
    #: Where the first text's event begins.
    first_mark: Mark
    #: Where the second text's event begins.
    second_mark: Mark
    #: What the first text's event is.
    first: type[Event]
    #: What the second text's event is.
    second: type[Event]


_ENDS = {b"[": b"]", b"<": b">"}


def _steps(path: bytes) -> Iterator[Step]:
    """The steps of a path as `yaml_c_diff` spells it."""
    at = 0
    while at < len(path):
        sort, begin = path[at : at + 1], at + 1
        at = begin
        while path[at : at + 1].isdigit():
            at += 1
        number = int(path[begin:at])
        if sort in _ENDS:
            at += 1
            yield ItemStep(number) if sort == b"[" else KeyStep(number)
        elif path[at : at + 1] == b":":
            end = path.index(b":", at + 1)
            size = int(path[at + 1 : end])
            at = end + 1 + size
            yield ValueStep(number, path[end + 1 : at].decode())
        else:
            yield ValueStep(number, None)


def diff(
    first: Text,
    second: Text,
    documents: bool = False,
    *,
    first_encoding: Encoding | str = Encoding.ANY,
    second_encoding: Encoding | str = Encoding.ANY,
) -> Difference | None:
    """The first place at which the contents of two texts differ, None exactly where `same` says that they are the same; with
    `documents` of the documents that they load: names of anchors don't count, what they share does.

    Raises the first text's fault, else the second's, with `second` set; with `documents` also a `ComposerFault`.

    >>> diff(b"a: [b, c]", b"{a: [b, d]}").path
    (ValueStep(pair=0, key='a'), ItemStep(number=1))
    >>> diff(b"&x a", b"&y a", documents=True)
    """
    call = _library.diff_documents if documents else _library.diff
    sources = input_of(first, first_encoding), input_of(second, second_encoding)
    found = _library.new_parting()
    try:
        kind = call(*sources[0].given(), *sources[1].given(), ctypes.byref(found))
        judge_kind(kind, found.answer, sources)
        if found.answer.is_:
            return None
        return Difference(
            found.document,
            tuple(_steps(found.answer.text.get())),
            mark_of(found.first_mark),
            mark_of(found.second_mark),
            KINDS[found.first_kind - 1],
            KINDS[found.second_kind - 1],
        )
    finally:
        _library.free(found.answer)
