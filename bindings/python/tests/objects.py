"""Objects made by chance, of the types that YAML 1.1 has, and whether two are the same."""

from __future__ import annotations

import datetime
import math
import random
import struct
from collections.abc import Callable
from typing import Any

_CHARACTERS = "ab01 \n\t\r'\"\\:-?[]{},#&*!|>%@`~.<=\u00e9\u0085\u2028\ufeff\U0001f600\0\x1b"
_WORDS = [
    "", "yes", "No", "ON", "off", "true", "null", "~", "<<", "=", "1", "-1", "+1", "0", "012", "08", "0x1F", "0b10", "1_000",
    "190:20:30", "1.", "1.5", ".5", "-.5", "1e3", "1.0e+3", ".inf", "-.INF", ".nan", "2001-01-01", "2001-1-1 1:22:33",
    "2001-12-14t21:59:43.10-05:00", "y", "n", "0o17", "- a", "a: b", "a #b", "# a", "---", "...", "!a", "&a", "*a", "a\nb\n",
    "a\n", "\n", " a", "a ", "a\n  b\n\nc", "\ta", "word", "some words", "x" * 90, "words " * 30, "\u00fc", "key", "name",
]  # fmt: skip


class Objects:
    """Makes them, the same ones for the same seed."""

    def __init__(self, seed: int) -> None:
        self.chance = random.Random(seed)
        self.shared: list[Any] = []

    def text(self) -> str:
        chance = self.chance
        if chance.random() < 0.6:
            return chance.choice(_WORDS)
        return "".join(chance.choice(_CHARACTERS) for _ in range(chance.choice([1, 2, 5, 30, 200])))

    def number(self) -> int:
        return self.chance.choice([0, 1, -1, 7, 10**18, self.chance.randrange(-(10**6), 10**6), 3**200])

    def real(self) -> float:
        chance = self.chance
        if chance.random() < 0.5:
            return chance.choice([0.0, -0.0, 1.0, 0.1, 1e17, 1e-7, 1.5e300, 5e-324, float("inf"), float("-inf"), math.nan])
        found: float = struct.unpack("d", struct.pack("Q", chance.getrandbits(64)))[0]
        return found if found == found else 2.5

    def date(self) -> datetime.date:
        return datetime.date.fromordinal(self.chance.randrange(1, datetime.date.max.toordinal()))

    def time(self) -> datetime.datetime:
        chance = self.chance
        day = datetime.datetime.fromordinal(chance.randrange(400, 3_000_000))
        found = day + datetime.timedelta(microseconds=chance.choice([0, 10**6, chance.randrange(86_400_000_000)]))
        if chance.random() < 0.5:
            return found
        return found.replace(tzinfo=datetime.timezone(datetime.timedelta(minutes=chance.randrange(-1439, 1440))))

    def data(self) -> bytes:
        return self.chance.randbytes(self.chance.choice([0, 1, 10, 100]))

    def scalar(self) -> Any:
        makers: list[Callable[[], Any]] = [
            self.text, self.text, self.number, self.real, self.date, self.time, self.data,
            lambda: None, lambda: True, lambda: False,
        ]  # fmt: skip
        return self.chance.choice(makers)()

    def value(self, depth: int) -> Any:
        """An object with at most so many levels; some are lists and dicts that stand elsewhere in it, too."""
        chance = self.chance
        if not depth or chance.random() < 0.4:
            return self.scalar()
        if self.shared and chance.random() < 0.1:
            return chance.choice(self.shared)
        kind = chance.random()
        count = chance.choice([0, 1, 2, 3, 6])
        found: Any
        if kind < 0.4:
            found = [self.value(depth - 1) for _ in range(count)]
        elif kind < 0.9:
            found = {self.scalar(): self.value(depth - 1) for _ in range(count)}
        else:
            found = {self.scalar() for _ in range(count)}
        if chance.random() < 0.2:
            self.shared.append(found)
        return found

    def document(self) -> Any:
        """One whole object."""
        self.shared = []
        return self.value(self.chance.choice([0, 1, 3, 5]))


def _scalar_of(value: Any) -> Any:
    """What two equal scalars agree in: 1, 1.0 and True aren't one, nor are 0.0 and -0.0; a NaN is one."""
    if isinstance(value, datetime.datetime):
        return type(value), value.isoformat(), value.tzinfo is None
    return type(value), repr(value)


def are_same(first: Any, second: Any) -> bool:
    """Whether two objects have the same types and values, and share the same lists, dicts and sets."""
    met: dict[int, int] = {}
    waiting = [(first, second)]
    while waiting:
        one, other = waiting.pop()
        if type(one) is not type(other):
            return False
        if not isinstance(one, (list, tuple, dict, set)):
            if _scalar_of(one) != _scalar_of(other):
                return False
            continue
        if id(one) in met:
            if met[id(one)] != id(other):
                return False
            continue
        met[id(one)] = id(other)
        if len(one) != len(other):
            return False
        if isinstance(one, dict):
            keys, others = ({repr(_scalar_of(key)): key for key in it} for it in (one, other))
            if keys.keys() != others.keys():
                return False
            waiting += [(one[key], other[others[name]]) for name, key in keys.items()]
        elif isinstance(one, set):
            if {_scalar_of(it) for it in one} != {_scalar_of(it) for it in other}:
                return False
        else:
            waiting += zip(one, other)
    return True
