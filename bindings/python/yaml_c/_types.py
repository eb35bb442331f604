"""The types of YAML 1.1 as PyYAML's SafeLoader and SafeDumper have them: of which type a plain scalar is, what a scalar of a
type means, and how an object of Python is written."""

from __future__ import annotations

import math
import re
from binascii import a2b_base64
from collections.abc import Callable
from typing import Any

#: What the tags of YAML's own types begin with; `!!int` is this and `int`.
PREFIX = "tag:yaml.org,2002:"

_PLAIN = re.compile(
    r"""(?P<bool> yes|Yes|YES|no|No|NO|true|True|TRUE|false|False|FALSE|on|On|ON|off|Off|OFF )
      | (?P<null> ~|null|Null|NULL| )
      | (?P<int> [-+]?0b[0-1_]+ | [-+]?0[0-7_]+ | [-+]?(?:0|[1-9][0-9_]*) | [-+]?0x[0-9a-fA-F_]+
               | [-+]?[1-9][0-9_]*(?::[0-5]?[0-9])+ )
      | (?P<float> [-+]?[0-9][0-9_]*\.[0-9_]*(?:[eE][-+][0-9]+)? | \.[0-9][0-9_]*(?:[eE][-+][0-9]+)?
                 | [-+]?[0-9][0-9_]*(?::[0-5]?[0-9])+\.[0-9_]* | [-+]?\.(?:inf|Inf|INF)
                 | \.(?:nan|NaN|NAN) )
      | (?P<timestamp> [0-9]{4}-[0-9]{2}-[0-9]{2}
                     | [0-9]{4}-[0-9]{1,2}-[0-9]{1,2}(?:[Tt]|[ \t]+)[0-9]{1,2}:[0-9]{2}:[0-9]{2}
                       (?:\.[0-9]*)?(?:[ \t]*(?:Z|[-+][0-9]{1,2}(?::[0-9]{2})?))? )
      | (?P<merge> << )
      | (?P<value> = )""",
    re.VERBOSE,
)
# What YAML 1.2's core schema, or a full reader of YAML 1.1, takes for a bool or a number beside all of the above.
_ELSEWHERE = re.compile(
    r"[yYnN]|[-+]?(?:\.[0-9]+|[0-9]+(?:\.[0-9]*)?)(?:[eE][-+]?[0-9]+)?|[-+]?0o[0-7_]+|[-+]?0x[0-9a-fA-F_]+"
)
_BOOLS = {"yes": True, "no": False, "true": True, "false": False, "on": True, "off": False}
_NAN = math.nan


def type_of(text: str) -> str:
    """The type of a plain scalar without a tag: `str`, `bool`, `null`, `int`, `float`, `timestamp`, `merge` or `value`."""
    found = _PLAIN.fullmatch(text)
    return "str" if found is None else found.lastgroup or "str"


def is_taken(text: str) -> bool:
    """Whether a reader of YAML 1.1 or 1.2 takes the plain text for something else than a str."""
    return _PLAIN.fullmatch(text) is not None or _ELSEWHERE.fullmatch(text) is not None


def _null(text: str) -> None:
    return None


def _bool(text: str) -> bool:
    found = _BOOLS.get(text.lower())
    if found is None:
        raise ValueError("not a boolean (yes, no, true, false, on, off)")
    return found


def _signed(text: str) -> tuple[int, str]:
    """The sign of a number, and its digits without `_`."""
    digits = text.replace("_", "")
    if digits[:1] in ("-", "+"):
        return -1 if digits[0] == "-" else 1, digits[1:]
    return 1, digits


def _int(text: str) -> int:
    sign, digits = _signed(text)
    if digits == "0":
        return 0
    if digits.startswith("0b"):
        return sign * int(digits[2:], 2)
    if digits.startswith("0x"):
        return sign * int(digits[2:], 16)
    if digits.startswith("0"):
        return sign * int(digits, 8)
    value = 0
    for part in digits.split(":"):
        value = value * 60 + int(part)
    return sign * value


def _float(text: str) -> float:
    sign, digits = _signed(text.lower())
    if digits == ".inf":
        return sign * math.inf
    if digits == ".nan":
        return _NAN
    if ":" not in digits:
        return sign * float(digits)
    value, base = 0.0, 1
    for part in reversed(digits.split(":")):
        value += float(part) * base
        base *= 60
    return sign * value


def _timestamp(text: str) -> Any:
    from ._dates import timestamp

    return timestamp(text)


def _binary(text: str) -> bytes:
    return a2b_base64(text.encode("ascii"))


#: What a scalar with one of these tags means. Each raises a `ValueError` for a text that isn't of its type.
MEANINGS: dict[str, Callable[[str], Any]] = {
    PREFIX + "null": _null,
    PREFIX + "bool": _bool,
    PREFIX + "int": _int,
    PREFIX + "float": _float,
    PREFIX + "timestamp": _timestamp,
    PREFIX + "binary": _binary,
    PREFIX + "str": str,
}


def _float_text(value: float) -> str:
    if value != value:
        return ".nan"
    if value in (math.inf, -math.inf):
        return ".inf" if value > 0 else "-.inf"
    text = repr(value)
    # without a point it would be no float
    return text if "." in text or "e" not in text else text.replace("e", ".0e", 1)


#: How an object of one of these classes is written.
TEXTS: dict[type, Callable[[Any], str]] = {
    type(None): lambda _: "null",
    bool: lambda value: "true" if value else "false",
    int: str,
    float: _float_text,
}
