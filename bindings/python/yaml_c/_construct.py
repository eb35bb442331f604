"""Documents as objects of Python's types, by the tables of YAML 1.1: `safe_load`."""

from __future__ import annotations

from collections.abc import Iterator
from typing import Any

from ._calls import front, input_of, past_the_only
from ._enums import Encoding
from ._faults import YamlFault
from ._records import Records
from ._source import Source, Text
from ._types import MEANINGS, PREFIX, type_of

_DOCUMENT_START, _DOCUMENT_END, _ALIAS, _SCALAR = 3, 4, 5, 6
_SEQUENCE, _SEQUENCE_END, _MAPPING, _MAPPING_END = 7, 8, 9, 10
# How an open collection is filled at its end: not at all, from keys and values in turns, from those of an ordered map's
# entries, and not at all since its parent takes it as an entry.
_LIST, _DICT, _SET, _PAIRS, _ENTRY = range(5)
_SORTS = {
    PREFIX + "map": (_MAPPING, _DICT),
    PREFIX + "set": (_MAPPING, _SET),
    PREFIX + "seq": (_SEQUENCE, _LIST),
    PREFIX + "omap": (_SEQUENCE, _PAIRS),
    PREFIX + "pairs": (_SEQUENCE, _PAIRS),
}
_NOTHING: Any = object()


class _Trouble(Exception):
    """The document can't be constructed; `_explain` finds out why. It never leaves this module."""


class _Undefined(Exception):
    """An alias has no anchor: the number of its record. It never leaves this module."""


class _Sign:
    """What a plain `<<` or `=` is: it has a meaning as a key alone."""


_MERGE, _VALUE = _Sign(), _Sign()


class _Plain(dict[str, Any]):
    """What plain scalars mean. Each text is looked at once, except a date, which is a new object each time: a dumper writes
    an alias for one that comes again."""

    #: Whether a `<<` or a `=` was met in this document.
    has_signs = False

    def __missing__(self, text: str) -> Any:
        kind = type_of(text)
        if kind == "merge" or kind == "value":
            self.has_signs = True
            return _MERGE if kind == "merge" else _VALUE
        found = text if kind == "str" else _meaning(PREFIX + kind, text)
        if kind != "timestamp":
            self[text] = found
        return found


def _meaning(tag: str, text: str) -> Any:
    """What a scalar with that tag means."""
    if tag not in MEANINGS:
        raise _Trouble
    try:
        return MEANINGS[tag](text)
    except ValueError:
        raise _Trouble from None


class _Entry(list[Any]):
    """The key and the value of an ordered map's entry, and the dict that an alias of it means."""

    def __init__(self) -> None:
        super().__init__()
        self.made: dict[Any, Any] = {}


class _Merge:
    """A dict or a set with merge keys: its own pairs, and the values of these keys; then what is merged, the weakest first."""

    def __init__(self, made: Any, own: dict[Any, Any], merged: list[Any]) -> None:
        self.made = made
        self.own = own
        self.merged = merged
        self.is_begun = self.is_done = False

    def fill(self) -> None:
        """Fills it from what is merged, which comes first, and its own pairs, which count more."""
        found: dict[Any, Any] = {}
        for it in self.merged:
            found.update(it)
        found.update(self.own)
        self.made.clear()
        self.made.update(found)
        self.is_done = True


class _Construction:
    """The documents of records, one after another."""

    def __init__(self, records: Records, unique_keys: bool) -> None:
        self.records = records
        self.unique_keys = unique_keys
        self.plain = _Plain()
        self.anchors: dict[str, Any] = {}
        self.merges: dict[int, _Merge] = {}
        self.ordered: list[tuple[list[Any], list[Any]]] = []
        #: The records at which the document begins and ends.
        self.start = self.end = 0

    def documents(self) -> Iterator[Any]:
        """Each document of which all events are there. Raises `_Trouble` or `_Undefined`."""
        records, plain = self.records, self.plain
        # the children of the innermost open collection, what is made of them, and how
        here: list[Any] = []
        made: Any = None
        sort = _LIST
        around: list[tuple[list[Any], Any, int]] = []
        columns = zip(records.column(0, "i8xi4x2i"), records.values())
        for number, ((kind, implicit, has_anchor, has_tag), text) in enumerate(columns):
            if kind == _SCALAR:
                node = plain[text] if implicit == 1 else self.scalar(number, text) if has_tag == 1 else text
                here.append(node)
                if has_anchor:
                    self.anchors[records.anchor(number)] = node
            elif kind == _MAPPING_END or kind == _SEQUENCE_END:
                if sort != _LIST or plain.has_signs:
                    self.close(sort, made, here)
                here, made, sort = around.pop()
            elif kind == _SEQUENCE or kind == _MAPPING:
                around.append((here, made, sort))
                tag = records.tag(number) if has_tag == 1 else "!"
                node, children, sort = _opened(kind, tag, sort == _PAIRS)
                here.append(node)
                here, made = children, node.made if sort == _ENTRY else node
                if has_anchor:
                    self.anchors[records.anchor(number)] = made
            elif kind == _ALIAS:
                here.append(self.named(number))
            elif kind == _DOCUMENT_END:
                self.end = number
                yield self.ended(here[0])
            else:
                self.start, self.anchors, here = number, {}, []
                plain.has_signs = False

    def scalar(self, number: int, text: str) -> Any:
        """What a scalar with a tag means."""
        tag = self.records.tag(number)
        return self.plain[text] if tag == "!" else _meaning(tag, text)

    def named(self, number: int) -> Any:
        """What an alias means."""
        found = self.anchors.get(self.records.anchor(number), _NOTHING)
        if found is _NOTHING:
            raise _Undefined(number)
        return found

    def close(self, sort: int, made: Any, children: list[Any]) -> None:
        """Fills a collection at its end."""
        if sort == _DICT and not self.plain.has_signs:
            pairs = iter(children)
            try:
                made.update(zip(pairs, pairs))
            except TypeError:
                raise _Trouble from None
            if self.unique_keys and 2 * len(made) != len(children):
                raise _Trouble
        elif sort == _DICT or sort == _SET:
            self.fill(made, children)
        elif sort == _PAIRS:
            # an entry may be an alias of what isn't at its end yet
            self.ordered.append((made, children))
        elif any(it.__class__ is _Sign for it in children):
            raise _Trouble
        elif sort == _ENTRY:
            pairs = iter(children)
            made.update((key, value) for key, value in zip(pairs, pairs) if _is_key(key))

    def fill(self, made: Any, children: list[Any]) -> None:
        """Fills a dict or a set whose keys may be `<<` and `=`."""
        own: dict[Any, Any] = {}
        merged: list[Any] = []
        count = 0
        for key, value in zip(children[::2], children[1::2]):
            if key is _MERGE:
                merged.append(value)
                continue
            if not _is_key(key) or value.__class__ is _Sign:
                raise _Trouble
            own["=" if key is _VALUE else key] = value
            count += 1
        if self.unique_keys and len(own) != count:
            raise _Trouble
        made.update(own)
        if merged:
            self.merges[id(made)] = _Merge(made, own, merged)

    def ended(self, root: Any) -> Any:
        """The document, at its end: its ordered maps are filled, and merges made."""
        if root.__class__ is _Sign:
            raise _Trouble
        for made, children in self.ordered:
            made.extend(map(_pair, children))
        self.ordered = []
        self.merge()
        return root

    def merge(self) -> None:
        """Merges into dicts and sets, into those that are merged themselves first."""
        waiting = list(self.merges.values())
        for it in waiting:
            it.merged = [other for value in it.merged for other in _merged(value)]
        while waiting:
            it = waiting[-1]
            if not it.is_begun:
                it.is_begun = True
                found = (self.merges.get(id(other)) for other in it.merged)
                waiting.extend(other for other in found if other is not None and not other.is_begun)
            else:
                waiting.pop()
                if not it.is_done:
                    it.fill()
        self.merges = {}


def _is_key(key: Any) -> bool:
    """Whether it can be a key."""
    return key.__class__ not in (list, dict, set, _Entry)


def _opened(kind: int, tag: str, is_entry: bool) -> tuple[Any, list[Any], int]:
    """What a collection begins with: its object, its children, and how it is filled. An entry is that of an ordered map."""
    children: list[Any] = []
    if tag == "!":
        tag = PREFIX + ("map" if kind == _MAPPING else "seq")
    wanted, sort = _SORTS.get(tag, (0, 0))
    if wanted != kind or is_entry and sort == _SET:
        raise _Trouble
    if is_entry and sort == _DICT:
        children = _Entry()
        return children, children, _ENTRY
    if sort == _LIST:
        return children, children, sort
    return {} if sort == _DICT else set() if sort == _SET else [], children, sort


def _pair(entry: Any) -> tuple[Any, Any]:
    """An entry of an ordered map."""
    if entry.__class__ is _Entry and len(entry) == 2:
        return entry[0], entry[1]
    if entry.__class__ is dict and len(entry) == 1:
        ((key, value),) = entry.items()
        return key, value
    raise _Trouble


def _merged(value: Any) -> list[Any]:
    """The mappings that a merge key's value names, the weakest first."""
    found: list[Any] = value[::-1] if value.__class__ is list else [value]
    if all(it.__class__ is dict for it in found):
        return found
    raise _Trouble


def _constructed(source: Source, records: Records, fault: YamlFault | None, unique_keys: bool, only: bool) -> Iterator[Any]:
    """The documents of the records, then the text's fault; with `only` the first one alone."""
    found = _Construction(records.once(), unique_keys)
    try:
        for document in found.documents():
            if only:
                past_the_only(source, records, fault, found.start, found.end)
            yield document
    except _Trouble:
        from ._explain import explained

        error: Exception = explained(source, found.start, unique_keys, only)
    except _Undefined as missing:
        from ._explain import undefined_alias

        error = undefined_alias(source, records, missing.args[0])
    else:
        if fault is None:
            return
        error = fault
    raise error from None


def safe_load_all(stream: Text, *, unique_keys: bool = False, encoding: Encoding | str = Encoding.ANY) -> Iterator[Any]:
    """The documents of a text as objects of Python, one after another.

    Arguments: `stream` is a str, bytes, a path of pathlib, or an open file, which is read at once. With `unique_keys` a
    mapping that has a key twice is an error; else the last one's value counts. `encoding` is that of bytes; where it isn't
    given, the byte order mark tells it, and without one it is UTF-8.

    Answers: None, bool, int, float, str, bytes, datetime.date, datetime.datetime, list, dict, set, and a list of pairs for
    `!!omap` and `!!pairs`, by the tables of YAML 1.1 that PyYAML's `safe_load` has; `<<` merges. An alias is the same
    object as the node that it means.

    Raises, when it comes to that document, the text's fault, or a `ConstructorError` where a tag has no type here
    (`!!python/object`, say), a scalar isn't of its type, or a key is a list or a dict; with `unique_keys` a `DuplicateKey`.

    >>> list(safe_load_all("a: 1\\n---\\n[2001-01-01, ~, yes]"))
    [{'a': 1}, [datetime.date(2001, 1, 1), None, True]]
    """
    source = input_of(stream, encoding)
    return _constructed(source, *front(source), unique_keys, False)


def safe_load(stream: Text, *, unique_keys: bool = False, encoding: Encoding | str = Encoding.ANY) -> Any:
    """The only document of a text as an object of Python, as `safe_load_all` gives it; None where there is none.

    Raises as `safe_load_all`, and a `ManyDocuments` where there are more.

    >>> safe_load("{name: mill, ports: [80, 443], base: &b {x: 1.5}, more: {<<: *b, y: '2'}}")
    {'name': 'mill', 'ports': [80, 443], 'base': {'x': 1.5}, 'more': {'x': 1.5, 'y': '2'}}
    >>> safe_load("a: 1\\na: 2", unique_keys=True)
    Traceback (most recent call last):
    yaml_c.DuplicateKey: the key is here first
      in "<unicode string>", line 1, column 1:
        a: 1
        ^
    found duplicate key 'a'
      in "<unicode string>", line 2, column 1:
        a: 2
        ^
    """
    source = input_of(stream, encoding)
    return next(_constructed(source, *front(source), unique_keys, True), None)
