"""The proved YAML engine, parser and emitter, from Python.

    >>> import yaml_c
    >>> yaml_c.reformat(b"key:   [1, 'two']   # a comment", yaml_c.Settings(canonical=False))
    b"key: [1, 'two']\\n"
    >>> yaml_c.same(b"{a: b}", b"a: b")
    True
    >>> yaml_c.normalize(b"{a: [1, 'two']}")
    b"a:\\n- 1\\n- 'two'\\n"
    >>> yaml_c.load("name: mill\\nports: [80, 443]")
    {'name': 'mill', 'ports': ['80', '443']}
    >>> yaml_c.dump({"name": "mill", "ports": ["80", "443"]})
    "name: mill\\nports:\\n- '80'\\n- '443'\\n"

    >>> yaml_c.safe_load("name: mill\\nports: [80, 443]")
    {'name': 'mill', 'ports': [80, 443]}
    >>> yaml_c.safe_dump({"name": "mill", "ports": [80, 443]})
    'name: mill\\nports:\\n- 80\\n- 443\\n'

A text comes in as str, bytes, a path of pathlib, or an open file; a str says what its bytes in UTF-8 say. All that the
package raises is a `YAMLError`: a rejected text a `YamlFault`, with the place. `safe_load` and `safe_dump` have PyYAML's
types; `load`, `compose` and `dump` have none, there a scalar is its text. What the library answers is proved; what is made
of it here, objects of Python, is tested. Calls keep nothing between them and let other threads run meanwhile.
`libyaml_c.so` is looked for by the variable YAML_C_SO, beside these modules, and where `make library` leaves it.
"""

from __future__ import annotations

from importlib import import_module
from typing import TYPE_CHECKING, Any

from . import _faults, _library
from ._faults import (
    ArgumentRefused,
    ComposerFault,
    ConstructorError,
    DuplicateKey,
    EmitterFault,
    FaultMark,
    KeyRefused,
    Kind,
    LoadRefused,
    ManyDocuments,
    Mark,
    MemoryFault,
    ParserFault,
    ReaderFault,
    RepresenterError,
    ScannerFault,
    WriterFault,
    YAMLError,
    YamlFault,
)
from ._version import VERSION

if TYPE_CHECKING:
    from ._construct import safe_load, safe_load_all
    from ._diff import Difference, ItemStep, KeyStep, Step, ValueStep, diff
    from ._documents import Loaded, check, load, load_all
    from ._dump import dump, dump_all
    from ._engine import (
        emit,
        events,
        norm,
        normalize,
        parse,
        reformat,
        reformat_with_form,
        reload,
        same,
    )
    from ._enums import Encoding, Form, LineBreak, ScalarStyle, Style
    from ._events import (
        Alias,
        DocumentEnd,
        DocumentStart,
        Event,
        MappingEnd,
        MappingStart,
        Scalar,
        SequenceEnd,
        SequenceStart,
        StreamEnd,
        StreamStart,
    )
    from ._nodes import MappingNode, Node, ScalarNode, SequenceNode, compose, compose_all
    from ._represent import safe_dump, safe_dump_all
    from ._settings import Settings
    from ._source import Readable, Text
    from ._writer import Writable

__all__ = [
    "Alias", "ArgumentRefused", "ComposerFault", "ConstructorError", "Difference", "DocumentEnd", "DocumentStart",
    "DuplicateKey", "EmitterFault", "Encoding", "Event", "FaultMark", "Form", "ItemStep", "KeyRefused", "KeyStep", "Kind",
    "LineBreak", "LoadRefused", "Loaded", "ManyDocuments", "MappingEnd", "MappingNode", "MappingStart", "Mark",
    "MemoryFault", "Node", "ParserFault", "Readable", "ReaderFault", "RepresenterError", "Scalar", "ScalarNode",
    "ScalarStyle", "ScannerFault", "SequenceEnd", "SequenceNode", "SequenceStart", "Settings", "Step", "StreamEnd",
    "StreamStart", "Style", "Text", "ValueStep", "Writable", "WriterFault", "YAMLError", "YamlFault", "check", "compose",
    "compose_all", "diff", "dump", "dump_all", "emit", "events", "load", "load_all", "norm", "normalize", "parse",
    "reformat", "reformat_with_form", "reload", "safe_dump", "safe_dump_all", "safe_load", "safe_load_all", "same",
]  # fmt: skip

# The module of each name: it is read where the name is first asked for.
_MODULES = {
    "_construct": "safe_load safe_load_all",
    "_diff": "Difference ItemStep KeyStep Step ValueStep diff",
    "_documents": "Loaded check load load_all",
    "_dump": "dump dump_all",
    "_engine": "emit events norm normalize parse reformat reformat_with_form reload same",
    "_enums": "Encoding Form LineBreak ScalarStyle Style",
    "_events": (
        "Alias DocumentEnd DocumentStart Event MappingEnd MappingStart Scalar SequenceEnd SequenceStart "
        "StreamEnd StreamStart"
    ),
    "_nodes": "MappingNode Node ScalarNode SequenceNode compose compose_all",
    "_represent": "safe_dump safe_dump_all",
    "_settings": "Settings",
    "_source": "Readable Text",
    "_writer": "Writable",
}
_WHERE = {name: module for module, names in _MODULES.items() for name in names.split()}

# Errors are named, and pickled, by the package alone.
for _it in list(vars(_faults).values()):
    if isinstance(_it, type) and issubclass(_it, (_faults.YAMLError, _faults.Mark, _faults.Kind)):
        _it.__module__ = __name__

#: The version of the package, and of the repository that it is in.
__version__ = VERSION

if not TYPE_CHECKING:

    def __getattr__(name: str) -> Any:
        # only a name that nobody has asked for yet comes here
        if name not in _WHERE:
            raise AttributeError(f"module {__name__!r} has no attribute {name!r}")
        found = globals()[name] = getattr(import_module(f".{_WHERE[name]}", __name__), name)
        return found

    def __dir__() -> list[str]:
        return sorted({*globals(), *__all__})
