"""Texts of objects of Python's types, as PyYAML's CSafeDumper writes them: `safe_dump`."""

from __future__ import annotations

import math
from collections.abc import Callable, Iterable, Iterator
from itertools import chain
from typing import Any

from ._calls import LIMIT, settings_record
from ._enums import Encoding, LineBreak, ScalarStyle, Style
from ._faults import ArgumentRefused, RepresenterError
from ._source import encoding_of
from ._types import PREFIX, TEXTS, type_of
from ._writer import MAPPING, SEQUENCE, Writable, Writer, give, judge_stream, takes_bytes

_BREAKS = {None: LineBreak.LF, "\n": LineBreak.LF, "\r": LineBreak.CR, "\r\n": LineBreak.CRLF}
# Classes whose objects are written in a word or in quotes, so that a collection of nothing else may be in one line.
_FLAT = (*TEXTS, str)


class _Objects(Writer):
    """Writes objects of the classes of YAML's types; of classes below these none, as PyYAML does."""

    def __init__(self, sort_keys: bool, default_flow_style: bool | None) -> None:
        super().__init__()
        self._sort_keys = sort_keys
        self._flow_style = default_flow_style

    def scalar(self, value: Any) -> bytes | None:
        kind = type(value)
        if kind is str:
            record = self._kept.get(value)
            return record or self.kept(value, implicit=type_of(value) == "str", quoted=1)
        if kind in TEXTS:
            return self.plain(value, TEXTS[kind])
        if kind is bytes:
            return self.binary(value)
        return self.date(value) if kind.__module__ == "datetime" else None

    def binary(self, value: bytes) -> bytes:
        """The record of bytes."""
        from base64 import encodebytes

        return self.made(encodebytes(value).decode("ascii"), style=ScalarStyle.LITERAL, tag=PREFIX + "binary")

    def date(self, value: Any) -> bytes | None:
        """The record of a date, which is an alias where it comes again, as PyYAML writes it; None where it is none."""
        from ._dates import DATES

        text_of = DATES.get(type(value))
        if text_of is None:
            return None
        return b"" if self.alias(value) else self.plain(value, text_of)

    def plain(self, value: Any, text_of: Callable[[Any], str]) -> bytes:
        """The record of a number, a bool, None or a date."""
        try:
            return self.made(text_of(value), implicit=1)
        except ValueError as error:
            raise RepresenterError(f"cannot represent an object of {type(value).__name__}: {error}") from None

    def start(self, value: Any) -> tuple[Iterator[Any], int]:
        kind = type(value)
        if kind is dict or kind is set:
            items = self.items(value if kind is dict else dict.fromkeys(value))
            style = self.style(chain.from_iterable(items))
            tag = None if kind is dict else PREFIX + "set"
            self.packed.record(MAPPING, style=style, tag=tag, implicit=kind is dict)
            return chain.from_iterable(items), MAPPING + 1
        if kind is list or kind is tuple:
            self.packed.record(SEQUENCE, style=self.style(value), implicit=1)
            return iter(value), SEQUENCE + 1
        raise RepresenterError(f"cannot represent an object of {kind.__module__}.{kind.__qualname__}")

    def items(self, value: dict[Any, Any]) -> list[tuple[Any, Any]]:
        """The pairs of a dict, sorted where that is asked for and they can be."""
        items = list(value.items())
        if self._sort_keys:
            try:
                items.sort()
            except TypeError:
                return list(value.items())
        return items

    def style(self, children: Iterable[Any]) -> Style:
        """The style of a collection."""
        is_flow = self._flow_style
        if is_flow is None:
            is_flow = all(type(it) in _FLAT or type(it).__module__ == "datetime" for it in children)
        return Style.FLOW if is_flow else Style.BLOCK


def _width_of(width: float | None) -> int:
    """The width as the library takes it: a negative one is none."""
    if width is None:
        return 80
    return -1 if math.isinf(width) else int(width)


def safe_dump_all(
    documents: Iterable[Any],
    stream: Writable | None = None,
    *,
    indent: int | None = 2,
    width: float | None = 80,
    allow_unicode: bool = False,
    sort_keys: bool = True,
    default_flow_style: bool | None = False,
    explicit_start: bool = False,
    explicit_end: bool = False,
    line_break: str | None = None,
    encoding: Encoding | str | None = None,
    limit: int = LIMIT,
) -> Any:
    """The text of documents of Python's types, which PyYAML's `safe_load_all` and this package's read as the same objects.

    Arguments: `documents` are made of None, bool, int, float, str, bytes, datetime.date, datetime.datetime, list, tuple
    (written as a list), dict and set, of these classes themselves. `stream` is an open file. `indent` is the columns of a
    level (2 to 9; any other number is 2), `width` the column after which lines are folded (`math.inf`: none). With
    `allow_unicode` characters that aren't ASCII are written as they are. `sort_keys` sorts dicts and sets where their keys
    can be compared. `default_flow_style` writes `{}` and `[]` (None: where they hold nothing but scalars). `explicit_start`
    and `explicit_end` write `---` and `...`. `line_break` is one of "\\n", "\\r", "\\r\\n". `encoding` is an `Encoding` or one
    of `utf-8`, `utf-16-le`, `utf-16-be`. `limit` is how many bytes the text may have.

    Answers: the text as a str, or as bytes where an encoding is given. With a stream it is written to that, in one piece,
    and None is answered; a stream of bytes gets UTF-8 where no encoding is given.

    Raises a `RepresenterError` for any other object, a lone surrogate, a time zone with seconds, and an int of more digits
    than `sys.get_int_max_str_digits()`; an `ArgumentRefused` for wrong arguments, a `WriterFault` past the limit, and an
    `EmitterFault` where an indentation is too deep. Nothing is written to the stream then.

    >>> safe_dump_all([{"b": 1, "a": [True, None, "1.0"]}, 2.5])
    "a:\\n- true\\n- null\\n- '1.0'\\nb: 1\\n--- 2.5\\n"
    """
    judge_stream(stream)
    if line_break not in _BREAKS:
        raise ArgumentRefused(f"a line ends with \\n, \\r or \\r\\n, and not with {line_break!r}")
    settings = settings_record(
        encoding=Encoding.UTF8 if encoding is None else encoding_of(encoding),
        canonical=False,
        indent=2 if indent is None else indent,
        width=_width_of(width),
        unicode=bool(allow_unicode),
        line_break=_BREAKS[line_break],
        limit=limit,
    )
    writer = _Objects(sort_keys, default_flow_style)
    for document in documents:
        writer.document(document, not explicit_start, not explicit_end)
    return give(writer.text(settings, takes_bytes(stream, encoding)), stream)


def safe_dump(
    data: Any,
    stream: Writable | None = None,
    *,
    indent: int | None = 2,
    width: float | None = 80,
    allow_unicode: bool = False,
    sort_keys: bool = True,
    default_flow_style: bool | None = False,
    explicit_start: bool = False,
    explicit_end: bool = False,
    line_break: str | None = None,
    encoding: Encoding | str | None = None,
    limit: int = LIMIT,
) -> Any:
    """The text of one document, as `safe_dump_all` writes it, with its arguments and errors.

    >>> import datetime
    >>> safe_dump({"name": "mill", "ports": [80, 443], "since": datetime.date(2001, 2, 3)}, sort_keys=False)
    'name: mill\\nports:\\n- 80\\n- 443\\nsince: 2001-02-03\\n'
    """
    return safe_dump_all(
        (data,),
        stream,
        indent=indent,
        width=width,
        allow_unicode=allow_unicode,
        sort_keys=sort_keys,
        default_flow_style=default_flow_style,
        explicit_start=explicit_start,
        explicit_end=explicit_end,
        line_break=line_break,
        encoding=encoding,
        limit=limit,
    )
