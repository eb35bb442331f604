"""Why a document can't be constructed: the error that PyYAML meets first, which goes through a document level by level.

Nothing here is used for a document that can be.
"""

from __future__ import annotations

from collections import deque
from collections.abc import Iterator
from typing import Any

from ._calls import front, past_the_only
from ._faults import ComposerFault, ConstructorError, DuplicateKey, Kind, ManyDocuments, YamlFault
from ._records import START, Records
from ._source import Source
from ._types import MEANINGS, PREFIX, type_of

_DOCUMENT_START, _DOCUMENT_END, _ALIAS, _SCALAR = 3, 4, 5, 6
_SEQUENCE, _MAPPING, _ENDS = 7, 9, (8, 10)
_NAMES = {_SCALAR: "scalar", _SEQUENCE: "sequence", _MAPPING: "mapping"}
_PLAIN_TAGS = {_SEQUENCE: PREFIX + "seq", _MAPPING: PREFIX + "map"}
#: The tags of collections that Python has types for.
COLLECTIONS = {PREFIX + name for name in ("seq", "map", "set", "omap", "pairs")}
_MAPPINGS = (PREFIX + "map", PREFIX + "set")
_IN_A_MAPPING = "while constructing a mapping"


# Of a node that has none; nothing is added to them.
_NONE: list[Any] = []
_NO_PAIRS: dict[Any, Any] = {}


class _Node:
    """A node: its record, what it is, and the nodes that it has, of a mapping keys and values in turns."""

    __slots__ = ("number", "kind", "tag", "text", "children", "pairs", "is_flat")

    def __init__(self, number: int, kind: int, tag: str, text: str) -> None:
        self.number = number
        self.kind = kind
        self.tag = tag
        self.text = text
        self.children: list[_Node] = _NONE if kind == _SCALAR else []
        #: The pairs with those that are merged, once they are.
        self.pairs: dict[tuple[int, int], tuple[_Node, _Node]] = _NO_PAIRS
        self.is_flat = False

    @property
    def name(self) -> str:
        return _NAMES[self.kind]

    def own(self) -> Iterator[tuple[_Node, _Node]]:
        """The pairs as they are written."""
        return zip(self.children[::2], self.children[1::2])


def undefined_alias(source: Source, records: Records, number: int) -> ComposerFault:
    """The fault of an alias without its anchor."""
    problem = "found undefined alias"
    place = source.mark(records.mark(number, START))
    message = f"composer error: {problem} (line {place.line + 1}, column {place.column + 1})"
    return ComposerFault(problem, kind=Kind.COMPOSER, message=message, problem_mark=place)


def _tag(records: Records, number: int, kind: int, implicit: int, has_tag: int, text: str) -> str:
    """The tag of a node, by YAML 1.1's tables where none is written."""
    written = records.tag(number) if has_tag == 1 else "!"
    if kind != _SCALAR:
        return _PLAIN_TAGS[kind] if written == "!" else written
    if implicit == 1 or has_tag == 1 and written == "!":
        return PREFIX + type_of(text)
    return PREFIX + "str" if has_tag != 1 else written


def _root(source: Source, records: Records, start: int) -> tuple[_Node, int] | None:
    """The root of the document that begins at a record, and the record that ends it; None where none does. Raises the fault
    of an alias."""
    root = around = _Node(start, _SEQUENCE, "", "")
    stack: list[_Node] = []
    anchors: dict[str, _Node] = {}
    columns = zip(records.column(0, "i8xi4x2i"), records.values())
    for number, ((kind, implicit, has_anchor, has_tag), text) in enumerate(columns):
        if number <= start:
            continue
        if kind == _DOCUMENT_END:
            return root.children[0], number
        if kind in _ENDS:
            around = stack.pop()
            continue
        if kind == _ALIAS:
            found = anchors.get(records.anchor(number))
            if found is None:
                raise undefined_alias(source, records, number)
            around.children.append(found)
            continue
        node = _Node(number, kind, _tag(records, number, kind, implicit, has_tag, text), text)
        around.children.append(node)
        if has_anchor:
            anchors[records.anchor(number)] = node
        if kind != _SCALAR:
            stack.append(around)
            around = node
    return None


class _Judge:
    """Goes through a document in PyYAML's order, and raises the first error."""

    def __init__(self, source: Source, records: Records, unique_keys: bool) -> None:
        self.source = source
        self.records = records
        self.unique_keys = unique_keys
        self.seen: set[int] = set()
        self.waiting: deque[_Node] = deque()

    def error(
        self, problem: str, node: _Node, context: str | None = None, of: _Node | None = None, kind: Any = ConstructorError
    ) -> ConstructorError:
        """An error at a node, met while another one was constructed."""
        place = None if of is None else self.source.mark(self.records.mark(of.number, START))
        found: ConstructorError = kind(
            problem,
            problem_mark=self.source.mark(self.records.mark(node.number, START)),
            context=context,
            context_mark=place,
        )
        return found

    def judge(self, root: _Node) -> None:
        """Goes through the document."""
        self.begin(root)
        while self.waiting:
            node = self.waiting.popleft()
            if node.tag in _MAPPINGS:
                self.mapping(node)
            elif node.tag == PREFIX + "seq":
                if node.kind != _SEQUENCE:
                    raise self.error(f"expected a sequence node, but found {node.name}", node)
                for child in node.children:
                    self.begin(child)
            else:
                self.entries(node)

    def begin(self, node: _Node) -> None:
        """Judges a scalar, and a collection's tag; what that holds waits."""
        if id(node) in self.seen:
            return
        self.seen.add(id(node))
        if node.tag in COLLECTIONS:
            self.waiting.append(node)
            return
        if node.tag not in MEANINGS:
            raise self.error(f"could not determine a constructor for the tag {node.tag!r}", node)
        if node.kind != _SCALAR:
            raise self.error(f"expected a scalar node, but found {node.name}", node)
        try:
            MEANINGS[node.tag](node.text)
        except ValueError as error:
            shown = node.text if len(node.text) <= 40 else node.text[:40] + ".."
            raise self.error(f"{shown!r} is no !!{node.tag[len(PREFIX):]}: {error}", node) from None

    def mapping(self, node: _Node) -> None:
        """Judges what a mapping or a set holds."""
        if node.kind != _MAPPING:
            raise self.error(f"expected a mapping node, but found {node.name}", node)
        self.flatten(node)
        for key, value in node.pairs.values():
            if key.tag != PREFIX + "value":
                self.begin(key)
            if key.tag in COLLECTIONS:
                raise self.error("found unhashable key", key, _IN_A_MAPPING, node)
            self.begin(value)

    def judge_keys(self, node: _Node) -> None:
        """Judges whether a mapping's own keys are distinct."""
        met: dict[Any, _Node] = {}
        for key, _ in node.own():
            if _is_merge(key) or key.kind != _SCALAR:
                continue
            try:
                meant = MEANINGS.get(key.tag, str)(key.text)
            except ValueError:
                continue
            if meant in met:
                shown = repr(meant) if len(key.text) <= 40 else repr(key.text[:40]) + ".."
                raise self.error(f"found duplicate key {shown}", key, "the key is here first", met[meant], DuplicateKey)
            met[meant] = key

    def targets(self, node: _Node, value: _Node) -> list[_Node]:
        """The mappings that a merge key's value names, the weakest first."""
        found = [value] if value.kind != _SEQUENCE else value.children
        wanted = "a mapping" if value.kind == _SEQUENCE else "a mapping or list of mappings"
        if value.kind == _SEQUENCE and value.tag != PREFIX + "seq":
            found = [value]
        for it in found:
            if it.kind != _MAPPING or it.tag != PREFIX + "map":
                what = it.name if it.kind == _SCALAR or it.tag in _PLAIN_TAGS.values() else it.tag
                raise self.error(f"expected {wanted} for merging, but found {what}", it, _IN_A_MAPPING, node)
        return found[::-1]

    def flatten(self, root: _Node) -> None:
        """Puts the pairs that are merged before a mapping's own."""
        stack = [root]
        while stack:
            node = stack[-1]
            if not node.is_flat:
                node.is_flat = True
                node.pairs = {(id(key), id(value)): (key, value) for key, value in node.own() if not _is_merge(key)}
                if self.unique_keys:
                    self.judge_keys(node)
            merged: dict[tuple[int, int], tuple[_Node, _Node]] = {}
            waiting = self.merge(node, merged)
            if waiting is None:
                stack.pop()
                node.pairs = merged | node.pairs
            else:
                stack.append(waiting)

    def merge(self, node: _Node, merged: dict[tuple[int, int], tuple[_Node, _Node]]) -> _Node | None:
        """Adds the pairs of what a node merges; answers the first of these that is to be flattened before."""
        for key, value in node.own():
            if not _is_merge(key):
                continue
            for it in self.targets(node, value):
                if not it.is_flat:
                    return it
                merged.update(it.pairs)
        return None

    def entries(self, node: _Node) -> None:
        """Judges what an ordered map, or a list of pairs, holds."""
        context = "while constructing an ordered map" if node.tag == PREFIX + "omap" else "while constructing pairs"
        if node.kind != _SEQUENCE:
            raise self.error(f"expected a sequence, but found {node.name}", node, context, node)
        for it in node.children:
            if it.kind != _MAPPING or it.tag != PREFIX + "map":
                what = it.name if it.kind != _MAPPING else it.tag
                raise self.error(f"expected a mapping of length 1, but found {what}", it, context, node)
            if len(it.children) != 2:
                problem = f"expected a single mapping item, but found {len(it.children) // 2} items"
                raise self.error(problem, it, context, node)
            for child in it.children:
                self.begin(child)


def _is_merge(key: _Node) -> bool:
    return key.tag == PREFIX + "merge"


def explained(source: Source, start: int, unique_keys: bool, only: bool) -> Exception:
    """The error for which the document that begins at a record can't be constructed. The text is read again for it."""
    try:
        records, fault = front(source)
        found = _root(source, records, start)
        if found is None:
            return fault or AssertionError("the document doesn't end")
        if only:
            past_the_only(source, records, fault, start, found[1])
        _Judge(source, records, unique_keys).judge(found[0])
    except (ComposerFault, ConstructorError, ManyDocuments, YamlFault) as error:
        return error
    return AssertionError("the document can be constructed after all")
