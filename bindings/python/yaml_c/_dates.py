"""Dates, and dates with times, as YAML 1.1 writes them. Who has none of them reads no module of dates."""

from __future__ import annotations

import datetime
import re
from collections.abc import Callable
from typing import Any

_TIMESTAMP = re.compile(
    r"""([0-9]{4})-([0-9]{1,2})-([0-9]{1,2})
        (?:(?:[Tt]|[ \t]+)([0-9]{1,2}):([0-9]{2}):([0-9]{2})(?:\.([0-9]*))?
        (?:[ \t]*(Z|([-+])([0-9]{1,2})(?::([0-9]{2}))?))?)?$""",
    re.VERBOSE,
)


def timestamp(text: str) -> datetime.date:
    """What a text means. Raises a `ValueError` for one that is no date."""
    found = _TIMESTAMP.match(text)
    if found is None:
        raise ValueError("not a date, with or without a time")
    year, month, day, hour, minute, second, fraction, zone, sign, zone_hour, zone_minute = found.groups()
    if hour is None:
        return datetime.date(int(year), int(month), int(day))
    shift = datetime.timedelta(hours=int(zone_hour or 0), minutes=int(zone_minute or 0))
    zone_info = datetime.timezone(-shift if sign == "-" else shift) if zone else None
    micro = int((fraction or "")[:6].ljust(6, "0"))
    return datetime.datetime(
        int(year), int(month), int(day), int(hour), int(minute), int(second), micro, zone_info
    )


def _of_date(value: datetime.date) -> str:
    return value.isoformat()


def _of_datetime(value: datetime.datetime) -> str:
    shift = value.utcoffset()
    if shift is not None and shift % datetime.timedelta(minutes=1):
        raise ValueError("its time zone isn't a whole number of minutes from UTC, which YAML can't express")
    return value.isoformat(" ")


#: How an object of one of these classes is written.
DATES: dict[type, Callable[[Any], str]] = {datetime.date: _of_date, datetime.datetime: _of_datetime}
