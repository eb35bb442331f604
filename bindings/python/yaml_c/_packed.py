"""Records of events that a text is to be made of."""

from __future__ import annotations

import ctypes
import struct
from typing import Any

from . import _library
from ._calls import judge_kind
from ._records import ANCHOR, VALUE

_NO_SPAN = (0, 0)
# A record without its marks, which no call looks at.
_RECORD = struct.Struct("=10i8Q64x")
_SPAN, _HAS_ANCHOR, _HAS_ANCHOR_AT = struct.Struct("=2Q"), struct.Struct("=i"), 20
# The most that a call may write.
_MOST = 1 << 62


class Packed:
    """Records of events, the directives that they name, and the bytes that hold their texts."""

    def __init__(self) -> None:
        self.clear()

    def clear(self) -> None:
        """Lets all of it go."""
        self.records = bytearray()
        self.directives: list[tuple[int, ...]] = []
        self.bytes = bytearray()

    def span(self, text: str | None) -> tuple[int, int]:
        if text is None:
            return _NO_SPAN
        it = text.encode()
        at = len(self.bytes)
        self.bytes += it
        return at, len(it)

    def made(
        self,
        kind: int,
        *,
        style: int = 0,
        encoding: int = 0,
        implicit: int = 0,
        quoted: int = 0,
        has_version: int = 0,
        major: int = 0,
        minor: int = 0,
        directives: tuple[int, int] = _NO_SPAN,
        anchor: str | None = None,
        tag: str | None = None,
        value: str | None = None,
    ) -> bytes:
        """A record, which isn't added yet. Raises a `struct.error` where a number is none of its field's."""
        spans = (*directives, *self.span(anchor), *self.span(tag), *self.span(value))
        flags = (implicit, quoted, anchor is not None, tag is not None, has_version)
        return _RECORD.pack(kind, style, encoding, *flags, major, minor, *spans)

    def record(self, kind: int, **fields: Any) -> None:
        """Adds a record, with the fields of `made`."""
        self.records += self.made(kind, **fields)

    def set_anchor(self, at: int, anchor: str) -> None:
        """Gives an anchor to the record that begins at a byte of the records."""
        _HAS_ANCHOR.pack_into(self.records, at + _HAS_ANCHOR_AT, 1)
        _SPAN.pack_into(self.records, at + ANCHOR, *self.span(anchor))

    def set_value(self, at: int, value: str) -> None:
        """Gives a value to the record that begins at a byte of the records."""
        _SPAN.pack_into(self.records, at + VALUE, *self.span(value))


class Layout:
    """The text of records, laid out piece by piece: as a str, or as bytes where that is asked for."""

    def __init__(self, packed: Packed, settings: _library.SettingsRecord, is_bytes: bool) -> None:
        self._packed = packed
        self._settings = settings
        self._settings.limit = min(settings.limit, _MOST)
        self._stand = _library.new_stand()
        self._is_bytes = is_bytes

    def __del__(self) -> None:
        _library.free(self._stand)

    def waiting(self) -> int:
        """So many bytes of records, the last ones that were given, wait for later ones: the next piece begins with them."""
        size: int = self._stand.place.waiting * _RECORD.size
        return size

    def piece(self, begin: int, end: int) -> Any:
        """What the records between two places add to the text. All are let go behind the last one. Raises what the emitter
        refuses."""
        answer, behind = _library.new_answer(), _library.new_stand()
        try:
            judge_kind(self._call(begin, end, behind, answer), answer, ())
            _library.free(self._stand)
            self._stand = behind
            self._settings.limit -= answer.text.len
            if end == len(self._packed.records):
                self._packed.clear()
            text = _library.viewed(answer.text.at, answer.text.len)
            return bytes(text) if self._is_bytes else str(text, "utf-8")
        finally:
            _library.free(answer)

    def _call(self, begin: int, end: int, behind: _library.StandRecord, answer: _library.AnswerRecord) -> int:
        packed = self._packed
        directives = bytearray().join(struct.pack(_library.DIRECTIVE, *it) for it in packed.directives)
        # nothing is added to a list as long as its first byte is borrowed
        lent = [_library.lent(it) for it in (packed.records, directives, packed.bytes)]
        records, tags, texts = map(ctypes.addressof, lent)
        given = _library.ParsedRecord(
            records + begin,
            (end - begin) // _RECORD.size,
            tags,
            len(packed.directives),
            _library.Bytes(texts, len(packed.bytes)),
        )
        places = (ctypes.byref(it) for it in (given, self._settings, self._stand, behind, answer))
        kind: int = _library.emit_on(*places)
        return kind
