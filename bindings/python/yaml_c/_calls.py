"""How the library is called: settings, inputs, answers and faults."""

from __future__ import annotations

import ctypes
from typing import Any

from . import _library
from ._enums import Encoding
from ._faults import CLASS_OF, ArgumentRefused, FaultMark, Kind, ManyDocuments, Mark, YamlFault
from ._records import START, Records
from ._source import Source, Text, encoding_of, source_of

#: How many bytes a text may have where nobody says.
LIMIT = 1 << 40
_DOCUMENT_START = 3
_LEAST = {"limit": 0}
_MOST = {"limit": (1 << 64) - 1}


def _number(name: str, value: int) -> int:
    """The value, where its field of a record can hold it: ctypes would cut it."""
    value = int(value)
    least, most = _LEAST.get(name, -(1 << 31)), _MOST.get(name, (1 << 31) - 1)
    if not least <= value <= most:
        raise ArgumentRefused(f"{name} is {value}, and must be {least} to {most}")
    return value


def settings_record(**numbers: int) -> _library.SettingsRecord:
    """The settings that nobody set, but for these. Raises an `ArgumentRefused` for a number that is none of its field's."""
    record = _library.SettingsRecord()
    _library.defaults(ctypes.byref(record))
    for name, value in numbers.items():
        setattr(record, name, _number(name, value))
    return record


def input_of(text: Text, encoding: Encoding | str) -> Source:
    """What a caller gives as a text, and says of its encoding."""
    return source_of(text, _number("encoding", encoding_of(encoding)))


def mark_of(record: _library.MarkRecord) -> Mark:
    return Mark(record.index, record.line, record.column)


def _fault(answer: _library.AnswerRecord, sources: tuple[Source, ...]) -> YamlFault:
    kind = Kind(answer.kind)
    problem, context = answer.problem.get().decode(), answer.context.get().decode()
    place: FaultMark | None = None
    context_place: FaultMark | None = None
    source = sources[answer.second] if sources else None
    if source is not None and kind is Kind.READER:
        place = source.mark_of_byte(answer.offset)
    elif source is not None and kind in (Kind.SCANNER, Kind.PARSER, Kind.COMPOSER):
        place = source.mark(mark_of(answer.problem_mark))
        context_place = source.mark(mark_of(answer.context_mark)) if context else None
    return CLASS_OF[kind](
        problem,
        kind=kind,
        message=answer.line.get().decode() or f"{kind.name.lower()} error: {problem}",
        problem_mark=place,
        context=context or None,
        context_mark=context_place,
        offset=answer.offset if kind is Kind.READER else None,
        value=answer.value if kind is Kind.READER and answer.value != -1 else None,
        second=bool(answer.second),
    )


def fault_of(kind: int, answer: _library.AnswerRecord, sources: tuple[Source, ...]) -> YamlFault | None:
    """The fault that a call reports of these inputs. Raises an `ArgumentRefused` where a number meant nothing."""
    if kind == -1:
        raise ArgumentRefused("a number among the arguments means nothing")
    return _fault(answer, sources) if kind else None


def judge_kind(kind: int, answer: _library.AnswerRecord, sources: tuple[Source, ...]) -> None:
    """Raises the fault that a call reports of these inputs."""
    fault = fault_of(kind, answer, sources)
    if fault is not None:
        raise fault


def ask(call: Any, sources: tuple[Source, ...], *arguments: Any) -> tuple[bytes, int]:
    """What a call answers of inputs: its text, and its yes or no. All that it hands out is freed."""
    answer = _library.new_answer()
    try:
        given = [it for source in sources for it in source.given()]
        judge_kind(call(*given, *arguments, ctypes.byref(answer)), answer, sources)
        return answer.text.get(), answer.is_
    finally:
        _library.free(answer)


def parsed(source: Source) -> Records:
    """The events of an input, as records."""
    record = _library.new_parsed()
    # a call that raises has handed out no records
    ask(_library.parse, (source,), ctypes.byref(record))
    return Records(record)


def front(source: Source) -> tuple[Records, YamlFault | None]:
    """The events of an input as records, all of them or those before its fault, and that fault."""
    record, answer = _library.new_parsed(), _library.new_answer()
    try:
        kind = _library.front(*source.given(), ctypes.byref(record), ctypes.byref(answer))
        return Records(record), fault_of(kind, answer, (source,))
    finally:
        _library.free(answer)


def past_the_only(
    source: Source, records: Records, fault: YamlFault | None, start: int, end: int
) -> None:
    """Raises what comes after the document that begins and ends at these records: another one, or a fault."""
    after = records.kind(end + 1)
    if after == _DOCUMENT_START:
        # what was read of the first document may be given back
        records, _ = front(source)
        raise ManyDocuments(
            "but found another document",
            problem_mark=source.mark(records.mark(end + 1, START)),
            context="expected a single document in the stream",
            context_mark=source.mark(records.mark(start + 1, START)),
        )
    if after == 0 and fault is not None:
        raise fault


def judge(source: Source) -> None:
    """Raises the fault for which an input's documents can't be loaded."""
    ask(_library.check, (source,))


def loadable(source: Source) -> Records:
    """The events of an input, as records; where it is rejected, the fault that loading its documents meets first."""
    try:
        return parsed(source)
    except YamlFault as met:
        fault = met
    judge(source)
    raise fault
