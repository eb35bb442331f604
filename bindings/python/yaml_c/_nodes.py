"""What a text's documents hold, as nodes with their places."""

from __future__ import annotations

from dataclasses import dataclass, field
from typing import Any, Union, cast

from ._calls import input_of, loadable
from ._documents import named, only
from ._enums import SCALAR_STYLES, STYLES, Encoding, ScalarStyle, Style
from ._events import Placed
from ._faults import Mark
from ._records import ANCHOR, END, Records
from ._source import Source, Text

_ALIAS, _SCALAR, _SEQUENCE, _MAPPING, _ENDS = 5, 6, 7, 9, (8, 10)
_STARTS, _MADE = (_SEQUENCE, _MAPPING), (_SCALAR, _SEQUENCE, _MAPPING)
# A node has its marks as they are in its record, until they are asked for.
_new: Any = object.__new__
_DEFAULT_TAGS = {_SCALAR: "tag:yaml.org,2002:str", _SEQUENCE: "tag:yaml.org,2002:seq", _MAPPING: "tag:yaml.org,2002:map"}


@dataclass(slots=True, eq=False)
class _Node(Placed):
    """What each node has: its tag, the one of its kind where none is written or `!` alone, where its tokens are, and whether
    it is written without a tag (`implicit`): `1` and `!!str 1` have one tag.
    """

    tag: str
    start: Mark
    end: Mark
    implicit: bool = field(default=True, kw_only=True)

    def __repr__(self) -> str:
        return f"<{type(self).__name__} {self.tag} at line {self.start.line + 1}, column {self.start.column + 1}>"


@dataclass(slots=True, eq=False, repr=False)
class ScalarNode(_Node):
    """A text."""

    value: str
    style: ScalarStyle


@dataclass(slots=True, eq=False, repr=False)
class SequenceNode(_Node):
    """A sequence: the nodes that it has."""

    value: list[Node]
    style: Style


@dataclass(slots=True, eq=False, repr=False)
class MappingNode(_Node):
    """A mapping: its pairs of a key and a value, in their order."""

    value: list[tuple[Node, Node]]
    style: Style


Node = Union[ScalarNode, SequenceNode, MappingNode]


def _composed(records: Records, source: Source) -> list[Node]:
    """The documents of the records, as nodes."""
    documents: list[Any] = []
    around: list[tuple[Any, Any]] = []
    anchors: dict[str, Any] = {}
    # the sequence or mapping that takes the next node, and in a mapping the key that waits for its value
    here: Any = None
    key: Any = None
    columns = zip(records.column(0, "2i12x2i"), records.column(ANCHOR, "4Q16x64s"), records.values())
    for number, ((kind, style, has_anchor, has_tag), (*spans, places), value) in enumerate(columns):
        if kind in _ENDS:
            here.end = records.mark(number, END)
            here, key = around.pop()
            continue
        if kind in _MADE:
            tag = records.text(*spans[2:]) if has_tag == 1 else "!"
            node = _node(kind, tag, style, value, places)
            node.implicit = has_tag == 0
        elif kind == _ALIAS:
            node = named(anchors, records.text(*spans[:2]), source)
        else:
            anchors = {}
            continue
        if has_anchor:
            anchors[records.text(*spans[:2])] = node
        if here is None:
            documents.append(node)
        elif here.__class__ is SequenceNode:
            here.value.append(node)
        elif key is None:
            key = node
        else:
            here.value.append((key, node))
            key = None
        if kind in _STARTS:
            around.append((here, key))
            here, key = node, None
    return documents


def _node(kind: int, tag: str, style: int, value: str, places: Any) -> Any:
    node: Any
    if kind == _SCALAR:
        node = _new(ScalarNode)
        node.value, node.style = value, SCALAR_STYLES[style]
    else:
        node = _new(SequenceNode if kind == _SEQUENCE else MappingNode)
        node.value, node.style = [], STYLES[style]
    node.tag = _DEFAULT_TAGS[kind] if tag == "!" else tag
    node._places = places
    return node


def compose_all(text: Text, *, encoding: Encoding | str = Encoding.ANY) -> list[Node]:
    """The text's documents as nodes with tags, styles and places; an alias is the same node again. Raises the text's fault."""
    source = input_of(text, encoding)
    return _composed(loadable(source).once(), source)


def compose(text: Text, *, encoding: Encoding | str = Encoding.ANY) -> Node | None:
    """The text's only document as a node, or None where there is none.

    Raises as `compose_all`, and a `ManyDocuments` where there are more.

    >>> compose("a: !!int 1").value[0][1]
    <ScalarNode tag:yaml.org,2002:int at line 1, column 4>
    """
    source = input_of(text, encoding)
    return cast("Node | None", only(_composed(loadable(source).once(), source), source))
