"""The events of a text, as `parse` gives them and `emit` takes them."""

from __future__ import annotations

import struct
from collections.abc import Sequence
from dataclasses import dataclass, field
from typing import Any, Union, get_args

from ._enums import Encoding, ScalarStyle, Style
from ._faults import Mark

_NOWHERE = Mark(0, 0, 0)


class Placed:
    """What has, in place of its marks, the bytes of both in its record, until somebody asks for one."""

    __slots__ = ("_places",)
    _places: bytes

    def __getattr__(self, name: str) -> Mark:
        # only a field that isn't set yet comes here
        if name not in ("start", "end"):
            raise AttributeError(f"{type(self).__name__!r} object has no attribute {name!r}")
        mark = Mark(*struct.unpack_from("=3Q", self._places, 0 if name == "start" else 32))
        object.__setattr__(self, name, mark)
        return mark


@dataclass(frozen=True, slots=True)
class _Event(Placed):
    """What each event has: where its tokens are. Two events are equal also where they are at different places."""

    start: Mark = field(default=_NOWHERE, compare=False, kw_only=True, repr=False)
    end: Mark = field(default=_NOWHERE, compare=False, kw_only=True, repr=False)


@dataclass(frozen=True, slots=True)
class StreamStart(_Event):
    """The first event. `encoding` is the one that was found; `emit` writes in it where the settings name none."""

    encoding: Encoding = Encoding.UTF8


@dataclass(frozen=True, slots=True)
class StreamEnd(_Event):
    """The last event."""


@dataclass(frozen=True, slots=True)
class DocumentStart(_Event):
    """A document begins. `implicit`: no `---`. `version`: that of a %YAML directive. `tags`: handles and prefixes of %TAG."""

    implicit: bool = True
    version: tuple[int, int] | None = None
    tags: Sequence[tuple[str, str]] = ()


@dataclass(frozen=True, slots=True)
class DocumentEnd(_Event):
    """A document ends. `implicit`: no `...`."""

    implicit: bool = True


@dataclass(frozen=True, slots=True)
class Alias(_Event):
    """Stands for the node before it that has the anchor."""

    anchor: str


@dataclass(frozen=True, slots=True)
class Scalar(_Event):
    """A text. `implicit`, `quoted_implicit`: whether the tag may be left out in plain style, and in the other styles."""

    value: str
    tag: str | None = None
    anchor: str | None = None
    style: ScalarStyle = ScalarStyle.ANY
    implicit: bool = True
    quoted_implicit: bool = True


@dataclass(frozen=True, slots=True)
class SequenceStart(_Event):
    """A sequence begins. `implicit`: whether the tag may be left out."""

    tag: str | None = None
    anchor: str | None = None
    style: Style = Style.ANY
    implicit: bool = True


@dataclass(frozen=True, slots=True)
class SequenceEnd(_Event):
    """It ends."""


@dataclass(frozen=True, slots=True)
class MappingStart(_Event):
    """A mapping begins: keys and values follow by turns. `implicit`: whether the tag may be left out."""

    tag: str | None = None
    anchor: str | None = None
    style: Style = Style.ANY
    implicit: bool = True


@dataclass(frozen=True, slots=True)
class MappingEnd(_Event):
    """It ends."""


Event = Union[
    StreamStart,
    StreamEnd,
    DocumentStart,
    DocumentEnd,
    Alias,
    Scalar,
    SequenceStart,
    SequenceEnd,
    MappingStart,
    MappingEnd,
]

#: The kinds of events, in the order of their numbers: the first one's is 1.
KINDS: tuple[Any, ...] = get_args(Event)
