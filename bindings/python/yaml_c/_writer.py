"""Texts of what a program holds: what `dump` and `safe_dump` have in common."""

from __future__ import annotations

import io
from bisect import bisect_left
from collections.abc import Iterator
from typing import Any, Protocol

from ._enums import Encoding
from ._faults import RepresenterError
from ._library import SettingsRecord
from ._packed import Layout, Packed

ALIAS, SCALAR, SEQUENCE, MAPPING = 5, 6, 7, 9
_STREAM_START, _STREAM_END, _DOCUMENT_START, _DOCUMENT_END = 1, 2, 3, 4
# So many records of scalars are kept, to be used again where a text comes again.
_KEPT = 4096
# A text of this many characters is long, and this many characters of long texts are copied
# together.
_LONG, _PIECE = 256, 1 << 18


class Writable(Protocol):
    """An open file, of text or of bytes."""

    def write(self, text: Any, /) -> Any:
        """Adds to it."""
        ...


class Writer:
    """Makes the events of documents. A class below it says how objects are written."""

    def __init__(self) -> None:
        self.packed = Packed()
        self.packed.record(_STREAM_START, encoding=Encoding.UTF8)
        # each object that may be shared, with the place of its record; holding it keeps its id
        self._met: dict[int, tuple[int, Any]] = {}
        self._names: dict[int, str] = {}
        self._kept: dict[str, bytes] = {}
        # the texts that are long, with the places of their records: they are copied where they are laid out
        self._long: list[tuple[int, str]] = []

    def scalar(self, value: Any) -> bytes | None:
        """The record of a scalar; None where the object is a collection."""
        raise NotImplementedError

    def start(self, value: Any) -> tuple[Iterator[Any], int]:
        """Adds the event that begins a collection. Answers what that holds, of a mapping keys and values in turns, and the
        kind of the event that ends it. Raises a `RepresenterError` for what is no collection either."""
        raise NotImplementedError

    def made(self, text: str, **fields: Any) -> bytes:
        """The record of a scalar of that text, which is to be added next. Raises a `UnicodeEncodeError` for a lone surrogate."""
        if len(text) < _LONG:
            return self.packed.made(SCALAR, value=text, **fields)
        if not text.isascii():
            text.encode()
        self._long.append((len(self.packed.records), text))
        return self.packed.made(SCALAR, **fields)

    def kept(self, text: str, **fields: Any) -> bytes:
        """The record of a scalar of that text, with these fields, which depend on it alone."""
        try:
            record = self.made(text, **fields)
        except UnicodeEncodeError as error:
            problem = f"a str has a lone surrogate at {error.start}, which is no character"
            raise RepresenterError(problem) from None
        if len(text) < _LONG and len(self._kept) < _KEPT:
            self._kept[text] = record
        return record

    def alias(self, value: Any) -> bool:
        """Adds an alias where the document has the object already; else remembers that its record comes next."""
        found = self._met.get(id(value))
        if found is None:
            self._met[id(value)] = len(self.packed.records), value
            return False
        name = self._names.get(id(value))
        if name is None:
            name = self._names[id(value)] = f"id{len(self._names) + 1:03}"
            self.packed.set_anchor(found[0], name)
        self.packed.record(ALIAS, anchor=name)
        return True

    def document(self, value: Any, is_implicit: bool, is_end_implicit: bool = True) -> None:
        """Adds a document. What it has more than once gets an anchor where it comes first, and is an alias then."""
        self.packed.record(_DOCUMENT_START, implicit=is_implicit)
        self._met, self._names = {}, {}
        records = self.packed.records
        # what is still to come of each collection around, and the event that ends it
        around: list[tuple[Iterator[Any], int]] = [(iter((value,)), _DOCUMENT_END)]
        while around:
            children, end = around[-1]
            for child in children:
                record = self.scalar(child)
                if record is not None:
                    records += record
                elif isinstance(child, tuple) and not child or not self.alias(child):
                    # there is one tuple without an item, wherever it is
                    around.append(self.start(child))
                    break
            else:
                around.pop()
                self.packed.record(end, implicit=1 if around else is_end_implicit)

    def text(self, settings: SettingsRecord, is_bytes: bool) -> Any:
        """The text of all documents, as bytes or as a str."""
        self.packed.record(_STREAM_END)
        return _joined(self._pieces(Layout(self.packed, settings, is_bytes)), is_bytes)

    def _pieces(self, layout: Layout) -> Iterator[Any]:
        """The text in pieces: of the long texts a few at a time are copied."""
        short, begin = len(self.packed.bytes), 0
        for end in self._ends():
            begin -= layout.waiting()
            del self.packed.bytes[short:]
            for at, text in self._long[self._number(begin) : self._number(end)]:
                self.packed.set_value(at, text)
            yield layout.piece(begin, end)
            begin = end

    def _ends(self) -> Iterator[int]:
        """Where the records of each piece end: its long texts are one, or have so many characters."""
        size = 0
        for at, text in self._long:
            if size >= _PIECE:
                yield at
                size = 0
            size += len(text)
        yield len(self.packed.records)

    def _number(self, at: int) -> int:
        """So many long texts are before a place in the records."""
        return bisect_left(self._long, (at, ""))


def _joined(pieces: Iterator[Any], is_bytes: bool) -> Any:
    """All pieces. A str that nothing else holds grows where it is."""
    if is_bytes:
        written = io.BytesIO()
        written.writelines(pieces)
        return written.getvalue()
    found = ""
    for it in pieces:
        found += it
    return found


def judge_stream(stream: Writable | None) -> None:
    """Raises a `TypeError` for what can't be written to."""
    if stream is not None and not hasattr(stream, "write"):
        raise TypeError(f"{type(stream).__name__} has no write(), so it is no stream")


def takes_bytes(stream: Writable | None, encoding: Encoding | str | None) -> bool:
    """Whether bytes are wanted: an encoding is asked for, or the stream is one of bytes."""
    is_binary = isinstance(stream, (io.RawIOBase, io.BufferedIOBase)) or "b" in str(getattr(stream, "mode", ""))
    return encoding is not None or is_binary


def give(text: Any, stream: Writable | None) -> Any:
    """Writes the text to the stream, or answers it where there is none."""
    if stream is None:
        return text
    stream.write(text)
    return None
