"""Texts of str, list, tuple, dict and None: `dump`."""

from __future__ import annotations

from collections.abc import Iterable, Iterator
from dataclasses import replace
from itertools import chain
from typing import Any

from ._enums import Encoding, ScalarStyle
from ._faults import RepresenterError
from ._settings import Settings, record_of
from ._source import encoding_of
from ._types import is_taken
from ._writer import MAPPING, SCALAR, SEQUENCE, Writable, Writer, give, judge_stream, takes_bytes

_PRETTY = Settings(canonical=False)


class _Texts(Writer):
    """Writes str, list, tuple, dict and None."""

    _NONE: dict[str, Any] = {"style": ScalarStyle.PLAIN, "implicit": 1}

    def scalar(self, value: Any) -> bytes | None:
        if isinstance(value, str):
            text = value if value.__class__ is str else str.__str__(value)
            record = self._kept.get(text)
            return record or self.kept(text, **self.fields(text))
        return self.packed.made(SCALAR, value="", **self._NONE) if value is None else None

    def fields(self, text: str) -> dict[str, Any]:
        """How a str is written: in quotes where a reader takes it for something else, as `|` if it has several lines."""
        if "\n" in text:
            return {"style": ScalarStyle.LITERAL, "implicit": 1, "quoted": 1}
        return {"implicit": not is_taken(text), "quoted": 1}

    def start(self, value: Any) -> tuple[Iterator[Any], int]:
        if isinstance(value, dict):
            self.packed.record(MAPPING, implicit=1)
            return chain.from_iterable(value.items()), MAPPING + 1
        if isinstance(value, (list, tuple)):
            self.packed.record(SEQUENCE, implicit=1)
            return iter(value), SEQUENCE + 1
        raise RepresenterError(f"can dump str, list, tuple, dict and None, not {type(value).__name__}")


def dump_all(
    documents: Iterable[Any],
    stream: Writable | None = None,
    *,
    settings: Settings = _PRETTY,
    encoding: Encoding | str | None = None,
) -> Any:
    """The text of documents that are made of str, list, tuple, dict and None, which is an empty plain scalar.

    Arguments: `settings` are those of the text, except for its encoding; it is in pretty form where they don't say
    otherwise. `stream` is an open file. `encoding` is an `Encoding`, or one of `utf-8`, `utf-16-le`, `utf-16-be`.

    Answers: the text as a str, or as bytes where an encoding is given. With a stream it is written to that, in one piece,
    and None is answered; a stream of bytes gets UTF-8 where no encoding is given.

    The text loads as the same again by `load_all`, with "" for None and a list for a tuple. A str that a reader of YAML 1.1
    or 1.2 takes for something else is quoted, and one of several lines is written as `|`. A list, tuple or dict that a
    document has more than once, within itself too, has an anchor, and is an alias then.

    Raises a `RepresenterError` for any other object and for a lone surrogate, a `WriterFault` past the limit, and an
    `EmitterFault` where an indentation is too deep; nothing is written to the stream then.

    >>> dump_all([{"a": ["b", None]}, "c"])
    'a:\\n- b\\n-\\n--- c\\n'
    """
    judge_stream(stream)
    record = record_of(replace(settings, encoding=Encoding.UTF8 if encoding is None else encoding_of(encoding)))
    writer = _Texts()
    for document in documents:
        # without its `---` a document that is an empty plain scalar would be none
        writer.document(document, document is not None)
    return give(writer.text(record, takes_bytes(stream, encoding)), stream)


def dump(
    document: Any,
    stream: Writable | None = None,
    *,
    settings: Settings = _PRETTY,
    encoding: Encoding | str | None = None,
) -> Any:
    """The text of one document, as `dump_all` writes it.

    >>> ports = ["80", "http"]
    >>> dump({"old": ports, "new": ports})
    "old: &id001\\n- '80'\\n- http\\nnew: *id001\\n"
    """
    return dump_all((document,), stream, settings=settings, encoding=encoding)
