"""Inputs: what is read, what it is called, and places in it."""

from __future__ import annotations

import codecs
import os
import re
from typing import Any, Protocol, Union

from ._enums import Encoding
from ._faults import ArgumentRefused, FaultMark, Kind, Mark, ReaderFault


class Readable(Protocol):
    """An open file, of text or of bytes."""

    def read(self) -> str | bytes:
        """All that is left of it."""
        ...


#: What is taken as a text: the text itself, the file of a path, or an open file, which is read to its end.
Text = Union[bytes, bytearray, memoryview, str, os.PathLike[Any], Readable]

_BREAK = re.compile("\r\n|[\r\n\x85\u2028\u2029]")
# How much of a line is shown on each side of its place, in characters; and how many bytes are looked at for it.
_AROUND = 36
_NEAR = 4 * _AROUND + 4
_MARKS = (
    (b"\xef\xbb\xbf", "utf-8"),
    (b"\xff\xfe", "utf-16-le"),
    (b"\xfe\xff", "utf-16-be"),
)
_CODECS = {Encoding.UTF8: "utf-8", Encoding.UTF16LE: "utf-16-le", Encoding.UTF16BE: "utf-16-be"}
_ENCODINGS = {name: encoding for encoding, name in _CODECS.items()}


def encoding_of(name: Encoding | str) -> Encoding:
    """The encoding of a name of Python's (`utf-8`, `utf-16-le`, ..).

    Raises an `ArgumentRefused` for one that no text here can have.
    """
    if isinstance(name, str):
        try:
            return _ENCODINGS[codecs.lookup(name).name]
        except LookupError:
            raise ArgumentRefused(f"{name!r} is none of utf-8, utf-16-le and utf-16-be") from None
    return name


def _shown(text: str) -> str:
    """The text for a terminal: a tab is a space, another control character is U+FFFD."""
    return "".join(it if it.isprintable() else " " if it == "\t" else "\ufffd" for it in text)


class Source:
    """An input: its bytes, how they are encoded, and its name."""

    __slots__ = ("data", "encoding", "name")

    def __init__(self, data: bytes, encoding: int, name: str) -> None:
        self.data = data
        self.encoding = encoding
        self.name = name

    def given(self) -> tuple[bytes, int, int]:
        """As a call takes it."""
        return self.data, len(self.data), self.encoding

    def _decoded(self) -> tuple[str, int]:
        """The codec of the bytes, and how many of them are a byte order mark."""
        if self.encoding != Encoding.ANY:
            return _CODECS[Encoding(self.encoding)], 0
        for mark, codec in _MARKS:
            if self.data.startswith(mark):
                return codec, len(mark)
        return "utf-8", 0

    def _snippet(self, index: int) -> str | None:
        """The line round a byte of the decoded text, with a caret below it."""
        codec, skipped = self._decoded()
        data = self.data[skipped:]
        if codec != "utf-8":
            data = data.decode(codec, "replace").encode("utf-8", "replace")
        # a character that the window cuts is left out of what is before; what is after is longer than what is shown
        before = data[max(0, index - _NEAR) : index].decode("utf-8", "ignore")
        after = data[index : index + _NEAR].decode("utf-8", "replace")
        head, tail = _BREAK.split(before)[-1], _BREAK.split(after)[0]
        if len(head) > _AROUND:
            head = " ... " + head[5 - _AROUND :]
        if len(tail) > _AROUND:
            tail = tail[: _AROUND - 5] + " ... "
        return f"    {_shown(head)}{_shown(tail)}\n    {' ' * len(head)}^"

    def mark(self, place: Mark) -> FaultMark:
        """The place, with this input's name and its line."""
        return FaultMark(*place, self.name, self._snippet(place.index))

    def mark_of_byte(self, offset: int) -> FaultMark:
        """The place of a byte of the input, up to which it is a text in its encoding."""
        codec, skipped = self._decoded()
        text = self.data[skipped:offset].decode(codec, "replace")
        lines = _BREAK.split(text)
        return self.mark(Mark(len(text.encode("utf-8", "replace")), len(lines) - 1, len(lines[-1])))


def _encoded(text: str, name: str) -> bytes:
    """The bytes of a str in UTF-8."""
    try:
        return text.encode()
    except UnicodeEncodeError as error:
        at = error.start
    offset, value = len(text[:at].encode()), ord(text[at])
    place = Source(text.encode("utf-8", "replace"), Encoding.UTF8, name).mark_of_byte(offset)
    problem = "a lone surrogate is no character"
    message = f"reader error: {problem} (byte {offset}, value {value})"
    raise ReaderFault(
        problem, kind=Kind.READER, message=message, problem_mark=place, offset=offset, value=value
    )


def _read(text: Any) -> tuple[Any, str | None]:
    """What a path or an open file holds, with its name; a text itself as it is, without one."""
    if isinstance(text, os.PathLike):
        with open(text, "rb") as file:
            return file.read(), os.fsdecode(text)
    if isinstance(text, (str, bytes, bytearray, memoryview)):
        return text, None
    if not hasattr(text, "read"):
        raise TypeError(
            f"a text is bytes, str, a path of pathlib or an open file, and not {type(text).__name__}"
        )
    found, name = text.read(), getattr(text, "name", None)
    if not isinstance(found, (str, bytes, bytearray, memoryview)):
        raise TypeError(f"read() of an open file must return str or bytes, not {type(found).__name__}")
    return found, name if isinstance(name, str) else "<file>"


def source_of(text: Text, encoding: int) -> Source:
    """The input that a caller gives; `encoding` is looked at by the caller.

    Raises what opening or reading a file raises, a `TypeError` for what is no text, a `ReaderFault` for a str with a lone
    surrogate, and an `ArgumentRefused` for a str with another encoding than UTF-8.
    """
    found, name = _read(text)
    if isinstance(found, str):
        if encoding not in (Encoding.ANY, Encoding.UTF8):
            raise ArgumentRefused("a str is read as UTF-8, and no other encoding can be named for it")
        name = name or "<unicode string>"
        return Source(_encoded(found, name), encoding, name)
    return Source(found if isinstance(found, bytes) else bytes(found), encoding, name or "<byte string>")
