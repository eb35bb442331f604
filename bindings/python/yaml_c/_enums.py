"""The names of numbers that calls take and give."""

from __future__ import annotations

from enum import IntEnum


class Encoding(IntEnum):
    """How a text is encoded. As an input's, ANY means the one that its byte order mark shows, UTF-8 where it has none."""

    ANY = 0
    UTF8 = 1
    UTF16LE = 2
    UTF16BE = 3


class ScalarStyle(IntEnum):
    """How a scalar is written."""

    ANY = 0
    PLAIN = 1
    SINGLE_QUOTED = 2
    DOUBLE_QUOTED = 3
    LITERAL = 4
    FOLDED = 5


class Style(IntEnum):
    """How a sequence or a mapping is written."""

    ANY = 0
    BLOCK = 1
    FLOW = 2


#: The styles by their numbers.
SCALAR_STYLES, STYLES = tuple(ScalarStyle), tuple(Style)


class LineBreak(IntEnum):
    """How lines end; ANY means LF."""

    ANY = 0
    CR = 1
    LF = 2
    CRLF = 3


class Form(IntEnum):
    """In which form a text was written."""

    CANONICAL = 0
    PRETTY = 1
