"""What a text's documents hold, as str, list and dict."""

from __future__ import annotations

from typing import Any, NoReturn, Union, cast

from ._calls import input_of, judge, loadable
from ._enums import Encoding
from ._faults import KeyRefused, ManyDocuments
from ._records import START, Records
from ._source import Source, Text

#: What `load` gives: every scalar is a str.
Loaded = Union[str, list["Loaded"], dict[str, "Loaded"]]

_ALIAS, _DOCUMENT_START, _SCALAR, _SEQUENCE, _MAPPING, _ENDS = 5, 3, 6, 7, 9, (8, 10)
_KEY_PROBLEM = "a key is a sequence or a mapping, which can't be a key of a dict"
_STARTS = (_SEQUENCE, _MAPPING)


def _refused(source: Source, error: Exception) -> NoReturn:
    """Raises the text's own fault where it has one, else the error."""
    judge(source)
    raise error


def _loaded(records: Records, source: Source) -> list[Any]:
    """The documents of the records."""
    documents: list[Any] = []
    around: list[tuple[Any, str | None]] = []
    anchors: dict[str, Any] = {}
    # the list or dict that takes the next node, and in a dict the key that waits for its value
    here: Any = documents
    key: str | None = None
    columns = zip(records.column(0, "i16xi"), records.values())
    for number, ((kind, has_anchor), value) in enumerate(columns):
        node: Any = value
        if kind in _ENDS:
            here, key = around.pop()
            continue
        if kind == _SEQUENCE:
            node = []
        elif kind == _MAPPING:
            node = {}
        elif kind == _ALIAS:
            node = named(anchors, records.anchor(number), source)
        elif kind != _SCALAR:
            anchors = {}
            continue
        if has_anchor:
            anchors[records.anchor(number)] = node
        if here.__class__ is list:
            here.append(node)
        elif key is not None:
            here[key], key = node, None
        elif node.__class__ is str:
            key = node
        else:
            place = source.mark(records.mark(number, START))
            _refused(source, KeyRefused(_KEY_PROBLEM, problem_mark=place))
        if kind in _STARTS:
            around.append((here, key))
            here, key = node, None
    return documents


def named(anchors: dict[str, Any], anchor: str, source: Source) -> Any:
    """The node that an alias means."""
    found = anchors.get(anchor)
    return _refused(source, AssertionError(f"the library loads *{anchor}")) if found is None else found


def only(documents: list[Any], source: Source) -> Any:
    """The only document, or None."""
    if len(documents) > 1:
        records = loadable(source)
        starts = [number for number, kind in enumerate(records.kinds()) if kind == _DOCUMENT_START]
        place = source.mark(records.mark(starts[1], START))
        raise ManyDocuments("there is more than one document", problem_mark=place)
    return documents[0] if documents else None


def load_all(text: Text, *, encoding: Encoding | str = Encoding.ANY) -> list[Loaded]:
    """The text's documents, as str, list and dict. Every scalar is a str: there are no numbers, and `<<` is a key.

    An alias is the same object as the node that it stands for, so a list may have itself as an item. Of equal keys the last
    one's value counts. Raises the text's fault, with a `ComposerFault` for an alias without its anchor; else a `KeyRefused`
    where a key is a list or a dict, which `compose_all` takes.

    >>> load_all("a: &x [1, 'b']\\nc: *x\\n--- d")
    [{'a': ['1', 'b'], 'c': ['1', 'b']}, 'd']
    """
    source = input_of(text, encoding)
    return _loaded(loadable(source).once(), source)


def load(text: Text, *, encoding: Encoding | str = Encoding.ANY) -> Loaded | None:
    """The text's only document, as `load_all` gives it, or None where there is none. An empty document is "".

    Raises as `load_all`, and a `ManyDocuments` where there are more.
    """
    source = input_of(text, encoding)
    return cast("Loaded | None", only(_loaded(loadable(source).once(), source), source))


def check(text: Text, *, encoding: Encoding | str = Encoding.ANY) -> None:
    """Raises the fault for which the text's documents can't be loaded, and makes nothing of them.

    Raises as `load_all`, except a `KeyRefused`.

    >>> check("- a\\n- *b")
    Traceback (most recent call last):
    yaml_c.ComposerFault: found undefined alias
      in "<unicode string>", line 2, column 3:
        - *b
          ^
    """
    judge(input_of(text, encoding))
