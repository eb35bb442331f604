"""How a text is written."""

from __future__ import annotations

from dataclasses import dataclass, fields

from . import _library
from ._calls import LIMIT, settings_record
from ._enums import Encoding, LineBreak


@dataclass(frozen=True)
class Settings:
    """How a text is written."""

    #: How it is encoded. ANY: UTF-8, and in `emit` what the stream's start names.
    encoding: Encoding = Encoding.UTF8
    #: Canonical form; else pretty form, which keeps styles.
    canonical: bool = True
    #: Columns of a level, 2 to 9; any other number means 2.
    indent: int = 2
    #: The column after which lines are folded; a negative one means 2,147,483,647, 0 to twice the indent means 80.
    width: int = 80
    #: Whether characters that aren't ASCII are written as they are.
    unicode: bool = True
    #: How lines end.
    line_break: LineBreak = LineBreak.LF
    #: How many bytes it may have.
    limit: int = LIMIT


def record_of(settings: Settings) -> _library.SettingsRecord:
    """The settings as a call takes them."""
    return settings_record(**{it.name: getattr(settings, it.name) for it in fields(settings)})
