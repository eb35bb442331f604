"""What a call has parsed, as records: each column of them is unpacked at once."""

from __future__ import annotations

import struct
import sys
from collections.abc import Iterator
from itertools import chain, islice
from typing import Any

from . import _library
from ._faults import Mark

#: Where a record has the span of its anchor, then that of its tag, that of its value, and its two marks.
ANCHOR, TAG, VALUE, START, END = 56, 72, 88, 104, 136
_SIZE = struct.calcsize(_library.EVENT)
# This many records are copied together, and this many values decoded; the second divides the first.
_RECORDS_AT_ONCE, _VALUES_AT_ONCE = 256, 64
# So many bytes of texts are given back together.
_BYTES_AT_ONCE = 1 << 16


class Records:
    """The records that a call has filled, and the bytes of their texts, where the call has left them: they are copied in
    pieces as they are looked at, and freed with this object."""

    def __init__(self, parsed: _library.ParsedRecord) -> None:
        self._parsed = parsed
        self._events: int = parsed.events
        self._bytes: int = parsed.bytes.at
        self._is_read_once = False

    def once(self) -> Records:
        """These records, read one after another and never again: what columns and values have passed is given back."""
        self._is_read_once = True
        return self

    def __del__(self) -> None:
        _library.free(self._parsed)

    def text(self, at: int, length: int) -> str:
        """The text of a span."""
        return str(_library.viewed(self._bytes + at, length), "utf-8")

    def anchor(self, number: int) -> str:
        """The anchor of the record of that number, or the name of an alias."""
        return self._span(number, ANCHOR)

    def tag(self, number: int) -> str:
        """The tag of the record of that number, which has one."""
        return self._span(number, TAG)

    def _span(self, number: int, at: int) -> str:
        spans = struct.unpack("=2Q", _library.copied(self._events + number * _SIZE + at, 16))
        return self.text(*spans)

    def _pieces(self) -> Iterator[bytes]:
        """The bytes of the records, some records at a time. They aren't unpacked from a view: CPython crashes where its
        collector clears one that an unpacking iterator looks at."""
        count, left = self._parsed.events_len, self._events
        for number in range(0, count, _RECORDS_AT_ONCE):
            size = min(_RECORDS_AT_ONCE, count - number) * _SIZE
            if self._is_read_once:
                left = _library.give_back(left, self._events + number * _SIZE)
            yield _library.copied(self._events + number * _SIZE, size)

    def column(self, at: int, layout: str) -> Iterator[tuple[Any, ...]]:
        """What is so laid out in each record from byte `at` on."""
        after = _SIZE - at - struct.calcsize("=" + layout)
        record = struct.Struct(f"={at}x{layout}{after}x")
        return chain.from_iterable(map(record.iter_unpack, self._pieces()))

    def kind(self, number: int) -> int:
        """What the record of that number is; 0 where there is none."""
        if number >= self._parsed.events_len:
            return 0
        return int.from_bytes(_library.copied(self._events + number * _SIZE, 4), sys.byteorder)

    def kinds(self) -> list[int]:
        """What each record is."""
        return [kind for (kind,) in self.column(0, "i")]

    def values(self) -> Iterator[str]:
        """The value of each record; empty where its kind has none."""
        spans = self.column(VALUE, "2Q")
        left = read = self._bytes
        while block := list(islice(spans, _VALUES_AT_ONCE)):
            if self._is_read_once and read - left >= _BYTES_AT_ONCE:
                left = _library.give_back(left, read)
            low = min((at for at, length in block if length), default=0)
            high = max(at + length for at, length in block)
            read = max(read, self._bytes + high)
            data = _library.viewed(self._bytes + low, high - low)
            text = str(data, "utf-8", "replace")
            if text.isascii():
                # an index of the bytes is one of the characters
                for at, length in block:
                    yield text[at - low : at - low + length] if length else ""
            else:
                for at, length in block:
                    yield str(data[at - low : at - low + length], "utf-8") if length else ""

    def mark(self, number: int, at: int) -> Mark:
        """A mark of the record of that number."""
        return Mark(*struct.unpack("=3Q", _library.copied(self._events + number * _SIZE + at, 24)))

    def directives(self) -> list[tuple[str, str]]:
        """Handle and prefix of each directive."""
        size = self._parsed.directives_len * struct.calcsize(_library.DIRECTIVE)
        spans = struct.iter_unpack(_library.DIRECTIVE, _library.copied(self._parsed.directives, size))
        return [(self.text(*it[:2]), self.text(*it[2:])) for it in spans]
