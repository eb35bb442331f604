"""What the engine answers of texts and of events."""

from __future__ import annotations

import struct
from collections.abc import Iterable
from ctypes import byref

from . import _library
from ._calls import ask, input_of, parsed
from ._convert import add, unpacked
from ._enums import Encoding, Form
from ._events import Event
from ._faults import ArgumentRefused
from ._packed import Layout, Packed
from ._settings import Settings, record_of
from ._source import Text

_USUAL = Settings()


def reformat_with_form(
    text: Text, settings: Settings = _USUAL, *, encoding: Encoding | str = Encoding.ANY
) -> tuple[bytes, Form]:
    """The text again, and in which form it is: where pretty form was asked for, it is that, except a
    first document without `---` that is a `!` alone, whose pretty text wouldn't read back: that is in canonical form.

    Raises the fault of the text, else a `WriterFault` past the limit, or an `EmitterFault` where an indentation is too deep.
    """
    found, form = ask(_library.reformat, (input_of(text, encoding),), byref(record_of(settings)))
    return found, Form(form)


def reformat(text: Text, settings: Settings = _USUAL, *, encoding: Encoding | str = Encoding.ANY) -> bytes:
    """The text again, in canonical form, or in pretty form where the settings say so: `reformat_with_form` without the form.

    >>> reformat(b"[a, 'b']")
    b'---\\n[\\n  ! "a",\\n  "b",\\n]\\n'
    """
    return reformat_with_form(text, settings, encoding=encoding)[0]


def normalize(text: Text, settings: Settings = _USUAL, *, encoding: Encoding | str = Encoding.ANY) -> bytes:
    """The text in the normal form that people read: in blocks, with styles that its content alone decides, so that under equal
    settings two texts have equal normal forms exactly if they have the same content. `canonical` isn't looked at.

    Raises the fault of the text, else a `WriterFault` past the limit, or an `EmitterFault` where an indentation is too deep.

    >>> normalize(b'{a: "b", c: [d, e]}')
    b"a: 'b'\\nc:\\n- d\\n- e\\n"
    """
    return ask(_library.normalize, (input_of(text, encoding),), byref(record_of(settings)))[0]


# `normalize` by its command's name.
norm = normalize


def reload(text: Text, settings: Settings = _USUAL, *, encoding: Encoding | str = Encoding.ANY) -> bytes:
    """The documents of the text, loaded and written again in canonical form.

    Raises as `reformat`, and a `ComposerFault` where a document can't be loaded.
    """
    return ask(_library.reload, (input_of(text, encoding),), byref(record_of(settings)))[0]


def same(
    first: Text, second: Text, *, first_encoding: Encoding | str = Encoding.ANY, second_encoding: Encoding | str = Encoding.ANY
) -> bool:
    """Whether two texts have the same content.

    Raises the first text's fault, else the second's, with `second` set.
    """
    sources = input_of(first, first_encoding), input_of(second, second_encoding)
    return bool(ask(_library.same, sources)[1])


def events(text: Text, *, encoding: Encoding | str = Encoding.ANY) -> bytes:
    """A line for each event of the text.

    >>> events(b"[a]").split()
    [b'+STR', b'+DOC', b'+SEQ', b'=VAL', b':a', b'-SEQ', b'-DOC', b'-STR']
    """
    return ask(_library.events, (input_of(text, encoding),))[0]


def parse(text: Text, *, encoding: Encoding | str = Encoding.ANY) -> list[Event]:
    """All events of the text, with their places. Raises the text's fault."""
    return unpacked(parsed(input_of(text, encoding)).once())


def emit(events: Iterable[Event], settings: Settings = _USUAL) -> bytes:
    """The text of events. Those that are no whole stream give the text of the events that could be written by then.

    Raises an `EmitterFault` for the first event that is in the wrong place, or that can't be written; a `WriterFault` past
    the limit.

    >>> from yaml_c import DocumentEnd, DocumentStart, Scalar, StreamEnd, StreamStart
    >>> emit([StreamStart(), DocumentStart(), Scalar("a"), DocumentEnd(), StreamEnd()])
    b'---\\n"a"\\n'
    """
    packed = Packed()
    for event in events:
        try:
            add(packed, event)
        except struct.error as error:
            raise ArgumentRefused(f"a number of an event: {error}") from None
    found: bytes = Layout(packed, record_of(settings), True).piece(0, len(packed.records))
    return found
