"""Events from records, and records from events."""

from __future__ import annotations

from collections.abc import Callable
from typing import Any

from ._enums import SCALAR_STYLES, STYLES, Encoding
from ._events import (
    KINDS,
    Alias,
    DocumentEnd,
    DocumentStart,
    Event,
    MappingStart,
    Scalar,
    SequenceStart,
    StreamStart,
)
from ._packed import Packed
from ._records import Records

_NUMBER_OF: dict[type, int] = {it: number for number, it in enumerate(KINDS, 1)}

# A frozen event's own `__init__` asks at each field whether it may be set; where there are many, that is most of the time.
_new: Any = object.__new__


def _setters(kind: type, *names: str) -> list[Callable[[Any, Any], None]]:
    """What sets these fields of an event that nobody has seen yet."""
    return [getattr(kind, name).__set__ for name in names]


(_set_places,) = _setters(Scalar, "_places")
_set_value, _set_scalar_tag, _set_scalar_anchor = _setters(Scalar, "value", "tag", "anchor")
_set_scalar_style, _set_plain, _set_quoted = _setters(Scalar, "style", "implicit", "quoted_implicit")
_FIELDS_OF_START: dict[type, list[Callable[[Any, Any], None]]] = {
    kind: _setters(kind, "tag", "anchor", "style", "implicit") for kind in (SequenceStart, MappingStart)
}


def _scalar(value: str, tag: str | None, anchor: str | None, style: int, plain: int, quoted: int) -> Any:
    it = _new(Scalar)
    _set_value(it, value)
    _set_scalar_tag(it, tag)
    _set_scalar_anchor(it, anchor)
    _set_scalar_style(it, SCALAR_STYLES[style])
    _set_plain(it, plain == 1)
    _set_quoted(it, quoted == 1)
    return it


def _start(kind: type, tag: str | None, anchor: str | None, style: int, implicit: int) -> Any:
    it = _new(kind)
    set_tag, set_anchor, set_style, set_implicit = _FIELDS_OF_START[kind]
    set_tag(it, tag)
    set_anchor(it, anchor)
    set_style(it, STYLES[style])
    set_implicit(it, implicit == 1)
    return it


def _made(kind: type, **fields: Any) -> Any:
    it = _new(kind)
    for name, value in fields.items():
        object.__setattr__(it, name, value)
    return it


def unpacked(records: Records) -> list[Event]:
    """The events of the records. An event has its marks as they are in its record, until they are asked for."""
    found: list[Event] = []
    add, text, tags = found.append, records.text, records.directives()
    for numbers, value in zip(records.column(0, "10i6Q16x64s"), records.values()):
        (kind, style, encoding, implicit, quoted, has_anchor, has_tag, has_version, major, minor, first, count,
         anchor_at, anchor_len, tag_at, tag_len, places) = numbers  # fmt: skip
        anchor = text(anchor_at, anchor_len) if anchor_len else None
        tag = text(tag_at, tag_len) if has_tag == 1 else None
        it: Any
        if kind == 6:
            it = _scalar(value, tag, anchor, style, implicit, quoted)
        elif kind == 7 or kind == 9:
            it = _start(KINDS[kind - 1], tag, anchor, style, implicit)
        elif kind == 5:
            it = _made(Alias, anchor=anchor)
        elif kind == 4:
            it = _made(DocumentEnd, implicit=implicit == 1)
        elif kind == 3:
            version = (major, minor) if has_version else None
            it = _made(DocumentStart, implicit=implicit == 1, version=version, tags=tuple(tags[first : first + count]))
        elif kind == 1:
            it = _made(StreamStart, encoding=Encoding(encoding))
        else:
            it = _new(KINDS[kind - 1])
        _set_places(it, places)
        add(it)
    return found


def _add_document_start(packed: Packed, event: DocumentStart) -> None:
    first = len(packed.directives)
    for handle, prefix in event.tags:
        packed.directives.append((*packed.span(handle), *packed.span(prefix)))
    major, minor = event.version or (0, 0)
    numbers = {"has_version": event.version is not None, "major": major, "minor": minor}
    packed.record(3, implicit=event.implicit, directives=(first, len(event.tags)), **numbers)


def add(packed: Packed, event: Event) -> None:
    """Adds the record of an event."""
    number = _NUMBER_OF.get(type(event))
    if number is None:
        raise TypeError(f"expected an event ({', '.join(it.__name__ for it in KINDS)}), not {type(event).__name__}")
    if isinstance(event, Scalar):
        flags: dict[str, Any] = {"implicit": event.implicit, "quoted": event.quoted_implicit}
        packed.record(6, value=event.value, tag=event.tag, anchor=event.anchor, style=event.style, **flags)
    elif isinstance(event, (SequenceStart, MappingStart)):
        packed.record(number, tag=event.tag, anchor=event.anchor, style=event.style, implicit=event.implicit)
    elif isinstance(event, DocumentStart):
        _add_document_start(packed, event)
    elif isinstance(event, Alias):
        packed.record(5, anchor=event.anchor)
    elif isinstance(event, DocumentEnd):
        packed.record(4, implicit=event.implicit)
    else:
        packed.record(number, encoding=event.encoding if isinstance(event, StreamStart) else 0)
