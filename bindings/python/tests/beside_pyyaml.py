"""Compares `safe_load` and `safe_dump` with PyYAML's: python3 -m tests.beside_pyyaml [--objects N] [--seed N] [FOLDER..]

Inputs are the rows of the repository, the YAML files of the folders (`*.yaml`, `*.yml`, and those of PyYAML's own tests), and as
many texts and objects made by chance. Each text is loaded by `safe_load_all` and by PyYAML's SafeLoader and CSafeLoader: the objects are the same, or
both have a fault at the same place, or the difference is one of docs/DIFFERENCES.md, by its cause there. Each object is dumped
under some settings: what is written is CSafeDumper's text, and both of PyYAML's loaders and this package's read the object in it.
It ends with status 1 where something else is seen.
"""

from __future__ import annotations

import argparse
import collections
import os
import random
import sys
from collections.abc import Iterator
from typing import Any, NamedTuple

import yaml  # type: ignore[import]
import yaml_c

from .objects import Objects, are_same
from .test_rows import inputs

_MOST = 200_000
_SETTINGS: list[dict[str, Any]] = [
    {}, {"default_flow_style": True}, {"default_flow_style": None, "allow_unicode": True, "width": 20},
    {"sort_keys": False, "indent": 4, "explicit_start": True},
]  # fmt: skip


class Outcome(NamedTuple):
    """What a loader answers: objects, or the class, the place and the problem of a fault."""

    objects: list[Any] | None
    name: str = ""
    place: tuple[int, int] | None = None
    problem: str = ""


def ours(text: bytes) -> Outcome:
    try:
        return Outcome(list(yaml_c.safe_load_all(text)))
    except yaml_c.YAMLError as error:
        assert error.line and error.column and str(error).endswith("^")
        return Outcome(None, type(error).__name__, (error.line, error.column), error.problem)


def theirs(text: bytes, loader: Any) -> Outcome:
    try:
        return Outcome(list(yaml.load_all(text, Loader=loader)))
    except yaml.MarkedYAMLError as error:
        mark = error.problem_mark or error.context_mark
        return Outcome(None, type(error).__name__, mark and (mark.line + 1, mark.column + 1), str(error.problem))
    except (yaml.YAMLError, ValueError, KeyError, IndexError, AttributeError, TypeError, RecursionError) as error:
        return Outcome(None, type(error).__name__, None, str(error))


def agree(one: Outcome, other: Outcome) -> bool:
    """Whether two loaders answer the same objects, or a fault at one place; PyYAML's readers know no line."""
    if one.objects is not None and other.objects is not None:
        return are_same(one.objects, other.objects)
    if one.objects is None and other.objects is None:
        return one.place == other.place or (one.name, other.name) == ("ReaderFault", "ReaderError")
    return False


def cause(text: str, one: Outcome, other: Outcome) -> str:
    """The cause of a difference, as docs/DIFFERENCES.md names it; empty where it is none of these."""
    if other.problem == "second occurrence":
        return "anchor-again"
    if other.name == "RecursionError":
        return "depth"
    if one.name == "ConstructorError" and other.objects is None and other.place is None:
        return "plain-errors"
    if "for merging" in one.problem:
        return "merged-tags"
    if "length 1" in one.problem:
        return "entry-tags"
    if ("expected a scalar node" in one.problem or "2002:value" in one.problem) and "=" in text:
        return "value-key"
    if one.name == "ReaderFault":
        return "decoding-first"
    if "tag that is not UTF-8" in one.problem:
        return "wrong-tag"
    if "\ufeff" in text[1:]:
        return "feff"
    if one.objects is not None and other.objects is not None and "!" in text:
        return "bang"
    if one.objects is not None and "?" in text and other.name == "ParserError":
        return "node-content"
    return ""


def files(folders: list[str]) -> Iterator[bytes]:
    """The YAML files of the folders that aren't long."""
    endings = (".yaml", ".yml", ".data", ".canonical", "-error")
    found = {
        os.path.join(folder, name)
        for given in folders
        for folder, _, names in os.walk(given)
        for name in names
        if name.endswith(endings)
    }
    for path in sorted(found):
        if os.path.isfile(path) and not os.path.islink(path) and os.path.getsize(path) <= _MOST:
            with open(path, "rb") as file:
                yield file.read()


class Documents:
    """Makes texts with tags, merges, aliases and scalars of all types, right and wrong."""

    _SCALARS = "1 a b << = ~ yes 1.5 2001-01-01 08 1:30 1e3 '1' \"b\"".split()
    _ODD = (
        "!!int 3|!!int x|!!str 1|!local q|!!null z|!!binary aGk=|!!binary a|!!float 2|!!bool zz|!!timestamp x|! 3|0x_|2001-99-01"
    ).split("|")
    _TAGS = "!!map !!seq !!set !!omap !!pairs !!str !local !".split()

    def __init__(self, seed: int) -> None:
        self.chance = random.Random(seed)
        self.names: list[str] = []

    def node(self, depth: int) -> str:
        chance = self.chance
        if self.names and chance.random() < 0.12:
            return f"*{chance.choice(self.names)} "
        before = ""
        if chance.random() < 0.2:
            self.names.append(f"n{len(self.names)}")
            before = f"&{self.names[-1]} "
        if not depth or chance.random() < 0.4:
            return before + chance.choice(self._ODD if chance.random() < 0.06 else self._SCALARS)
        if chance.random() < 0.15:
            before += chance.choice(self._TAGS) + " "
        count = chance.randrange(4)
        if chance.random() < 0.4:
            return f"{before}[{', '.join(self.node(depth - 1) for _ in range(count))}]"
        return f"{before}{{{', '.join(self.pair(depth) for _ in range(count))}}}"

    def pair(self, depth: int) -> str:
        chance = self.chance
        key = chance.choice(["<<", "a", "b", "c", "d", "e", "1", ""]) or self.node(depth - 1)
        if key == "<<" and self.names and chance.random() < 0.6:
            names = [f"*{chance.choice(self.names)} " for _ in range(2)]
            return f"? << : {names[0] if chance.random() < 0.6 else f'[{names[0]}, {names[1]}]'}"
        return f"? {key} : {self.node(depth - 1)} "

    def text(self) -> bytes:
        """A text of one or two documents."""
        found = []
        for _ in range(self.chance.choice([1, 1, 1, 2])):
            self.names = []
            found.append(self.node(4))
        return "\n---\n".join(found).encode()


def decoded(text: bytes) -> str:
    """As characters, as far as it is a text."""
    return text.decode("utf-16" if text[:2] in (b"\xff\xfe", b"\xfe\xff") else "utf-8", "replace")


def compare_loads(texts: Iterator[bytes], told: collections.Counter[str]) -> None:
    """Counts what is seen of each text, and shows what has no cause."""
    for text in texts:
        found = ours(text)
        for loader in (yaml.CSafeLoader, yaml.SafeLoader):
            other = theirs(text, loader)
            if agree(found, other):
                told[f"{loader.__name__}: {'the same objects' if found.objects is not None else 'a fault at the same place'}"] += 1
                continue
            name = cause(decoded(text), found, other)
            if not name and loader is yaml.SafeLoader:
                # PyYAML's two parsers differ, and libyaml's answers as this one
                in_c = theirs(text, yaml.CSafeLoader)
                name = "own-parser" if agree(found, in_c) or cause(decoded(text), found, in_c) else ""
            told[f"{loader.__name__}: {name or 'UNKNOWN'}"] += 1
            if not name:
                print(f"{loader.__name__}: {text[:200]!r}\n    {str(found)[:200]}\n    {str(other)[:200]}")


def compare_dumps(count: int, seed: int, told: collections.Counter[str]) -> None:
    """Counts what is seen of objects, and shows those that don't come back."""
    made = Objects(seed)
    for number in range(count):
        value = made.document()
        for named in _SETTINGS[: 4 if number % 10 == 0 else 1]:
            text = yaml_c.safe_dump(value, **named)
            is_text = text == yaml.dump(value, Dumper=yaml.CSafeDumper, **named)
            name = "the same text" if is_text else "above-ffff" if text and max(text) > "\uffff" else "UNKNOWN"
            told[f"dump: {name}"] += 1
            if name == "UNKNOWN":
                print(f"{named}: {value!r:.300}\n{text[:300]}")
            for name, again in (
                ("safe_load", yaml_c.safe_load(text)), ("CSafeLoader", yaml.load(text, yaml.CSafeLoader)),
                ("SafeLoader", yaml.load(text, yaml.SafeLoader)),
            ):  # fmt: skip
                is_same = are_same(value, again)
                told[f"dump, {name}: {'comes back' if is_same else 'UNKNOWN'}"] += 1
                if not is_same:
                    print(f"{named} {name}: {value!r:.300}\n{text[:300]}")


def main() -> None:
    said = argparse.ArgumentParser()
    said.add_argument("--objects", type=int, default=20_000)
    said.add_argument("--seed", type=int, default=85)
    said.add_argument("folders", nargs="*")
    given = said.parse_args()
    told: collections.Counter[str] = collections.Counter()
    compare_loads((text for text, _ in inputs()), told)
    compare_loads(files(given.folders), told)
    made = Documents(given.seed)
    compare_loads((made.text() for _ in range(given.objects)), told)
    compare_dumps(given.objects, given.seed, told)
    for name, number in sorted(told.items()):
        print(f"{number:8} {name}")
    if any("UNKNOWN" in name for name in told):
        sys.exit("beside_pyyaml: something differs that docs/DIFFERENCES.md doesn't have")


if __name__ == "__main__":
    main()
