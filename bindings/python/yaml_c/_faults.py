"""What a call can raise: one base, and places that show their line."""

from __future__ import annotations

from enum import IntEnum
from typing import Any, NamedTuple


class Mark(NamedTuple):
    """A place in a text, counted from 0.

    `index` counts bytes of the decoded text (UTF-8), `line` the line breaks before the place, and `column` the characters
    since the last one.
    """

    index: int  # type: ignore[assignment]
    line: int
    column: int


class FaultMark(Mark):
    """A place that an error names: a `Mark` that also knows its text's name and its line. It equals the plain `Mark`."""

    #: The file's name, or `<unicode string>`, `<byte string>`, `<file>`.
    name: str
    #: The line of the text with a caret below the place; None where there is no line to show.
    snippet: str | None

    def __new__(
        cls, index: int, line: int, column: int, name: str = "<text>", snippet: str | None = None
    ) -> FaultMark:
        it = super().__new__(cls, index, line, column)
        it.name = name
        it.snippet = snippet
        return it

    def __str__(self) -> str:
        where = f'  in "{self.name}", line {self.line + 1}, column {self.column + 1}'
        return where if self.snippet is None else f"{where}:\n{self.snippet}"


class Kind(IntEnum):
    """Which part found the fault; libyaml's numbers."""

    MEMORY = 1
    READER = 2
    SCANNER = 3
    PARSER = 4
    COMPOSER = 5
    WRITER = 6
    EMITTER = 7


def _again(kind: type[YAMLError], args: tuple[Any, ...], fields: dict[str, Any]) -> YAMLError:
    """The error that was pickled or copied."""
    it: YAMLError = kind.__new__(kind, *args)
    it.__dict__.update(fields)
    return it


class YAMLError(ValueError):
    """The base of all that this package raises. It can be pickled and copied.

    `str` of it is what PyYAML writes: what was being read and what is wrong, each with its file, line and column, and the
    line itself with a caret below the place, where there is a place.
    """

    #: What is wrong.
    problem: str
    #: Where it is; None where there is no place.
    problem_mark: FaultMark | None
    #: What was being read, where that is known.
    context: str | None
    #: Where that begins.
    context_mark: FaultMark | None

    def __init__(
        self,
        problem: str,
        *,
        problem_mark: FaultMark | None = None,
        context: str | None = None,
        context_mark: FaultMark | None = None,
    ) -> None:
        super().__init__(problem)
        self.problem = problem
        self.problem_mark = problem_mark
        self.context = context
        self.context_mark = context_mark

    def __reduce__(self) -> tuple[Any, ...]:
        return _again, (type(self), self.args, self.__dict__)

    @property
    def line(self) -> int | None:
        """The problem's line, counted from 1; None where it has no place."""
        return None if self.problem_mark is None else self.problem_mark.line + 1

    @property
    def column(self) -> int | None:
        """The problem's column, counted from 1; None where it has no place."""
        return None if self.problem_mark is None else self.problem_mark.column + 1

    def __str__(self) -> str:
        lines = [self.context] if self.context else []
        if self.context_mark is not None and self.context_mark != self.problem_mark:
            lines.append(str(self.context_mark))
        lines.append(self.problem)
        if self.problem_mark is not None:
            lines.append(str(self.problem_mark))
        return "\n".join(lines)


class YamlFault(YAMLError):
    """The library rejects a text, or a list of events. Each kind has a class of its own below this one."""

    #: Which part found it.
    kind: Kind
    #: The fault in one line, places counted from 1.
    message: str
    #: The reader's: the byte of the input at which the wrong one is; else None.
    offset: int | None
    #: The reader's: the byte, unit or character that is wrong, where there is one; else None.
    value: int | None
    #: Of `same` and `diff`: whether it is the second text that is wrong; else False.
    second: bool

    def __init__(
        self,
        problem: str,
        *,
        kind: Kind,
        message: str,
        problem_mark: FaultMark | None = None,
        context: str | None = None,
        context_mark: FaultMark | None = None,
        offset: int | None = None,
        value: int | None = None,
        second: bool = False,
    ) -> None:
        super().__init__(
            problem, problem_mark=problem_mark, context=context, context_mark=context_mark
        )
        self.kind = kind
        self.message = message
        self.offset = offset
        self.value = value
        self.second = second

    def __str__(self) -> str:
        return self.message if self.problem_mark is None else super().__str__()


class MemoryFault(YamlFault, MemoryError):
    """Out of memory."""


class ReaderFault(YamlFault):
    """The input is no text in its encoding."""


class ScannerFault(YamlFault):
    """No token begins there."""


class ParserFault(YamlFault):
    """The tokens are no stream, or a directive is wrong."""


class ComposerFault(YamlFault):
    """The documents can't be loaded: an alias without its anchor, say."""


class WriterFault(YamlFault):
    """The text would have more bytes than its limit."""


class EmitterFault(YamlFault):
    """The events are no stream, or an indentation is too deep."""


class ArgumentRefused(YAMLError):
    """A number or a name among the arguments means nothing: no text was looked at."""


class LoadRefused(YAMLError):
    """The text is YAML, but can't be loaded as it was asked for."""

    @property
    def mark(self) -> FaultMark | None:
        """Where it can't be: the problem's mark."""
        return self.problem_mark


class KeyRefused(LoadRefused):
    """A key is a list or a dict, which can't be a key of a dict."""


class ManyDocuments(LoadRefused):
    """There is more than one document; the place is where the second one begins."""


class ConstructorError(LoadRefused):
    """No object of Python can be made of a node: its tag has no type here, or its text isn't one of its type."""


class DuplicateKey(ConstructorError):
    """A mapping has a key twice: `problem_mark` is the second one, `context_mark` the first one."""


class RepresenterError(YAMLError, TypeError):
    """An object can't be written as YAML."""


CLASS_OF: dict[Kind, type[YamlFault]] = {
    Kind.MEMORY: MemoryFault,
    Kind.READER: ReaderFault,
    Kind.SCANNER: ScannerFault,
    Kind.PARSER: ParserFault,
    Kind.COMPOSER: ComposerFault,
    Kind.WRITER: WriterFault,
    Kind.EMITTER: EmitterFault,
}
