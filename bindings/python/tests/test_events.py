"""Events out of texts, and texts out of events."""

import copy
import dataclasses
import pickle
import unittest
from typing import Any

import yaml_c
from yaml_c import (
    Alias,
    DocumentEnd,
    DocumentStart,
    Encoding,
    Event,
    MappingEnd,
    MappingStart,
    Mark,
    Scalar,
    ScalarStyle,
    SequenceEnd,
    SequenceStart,
    Settings,
    StreamEnd,
    StreamStart,
    Style,
)

PRETTY = Settings(canonical=False)
PLAIN = {"style": ScalarStyle.PLAIN, "implicit": True, "quoted_implicit": False}
BLOCK: dict[str, Any] = {"style": Style.BLOCK}

TEXTS = [
    b"",
    b"a",
    b"- a\n- 'b'\n- \"c\"\n- |\n  d\n- >\n  e\n",
    b"a: &x {b: [c]}\nd: *x\n",
    b"%YAML 1.1\n%TAG !e! tag:example.org,2000:\n--- !e!a\n- !!str b\n- !<x> c\n...\n---\nd\n",
    b'"\\0\\x01\\u2028\\U0001F600"',
    "\u00e9: \U0001f600".encode(),
    b"? [a]\n: {b: }\n",
]


def document(*events: Event) -> list[Event]:
    """A stream of one document."""
    return [StreamStart(), DocumentStart(), *events, DocumentEnd(), StreamEnd()]


class Parse(unittest.TestCase):
    def test_kinds(self) -> None:
        found = yaml_c.parse(b"a: &x !t [b, *x]\n")
        wanted = document(
            MappingStart(**BLOCK),
            Scalar("a", **PLAIN),
            SequenceStart("!t", "x", style=Style.FLOW, implicit=False),
            Scalar("b", **PLAIN),
            Alias("x"),
            SequenceEnd(),
            MappingEnd(),
        )
        self.assertEqual(found, wanted)
        self.assertIs(type(found[3]), Scalar)

    def test_marks(self) -> None:
        found = yaml_c.parse("\u00e9: 'b'\n".encode())
        scalars = [it for it in found if isinstance(it, Scalar)]
        self.assertEqual([it.start for it in scalars], [Mark(0, 0, 0), Mark(4, 0, 3)])
        self.assertEqual([it.end for it in scalars], [Mark(2, 0, 1), Mark(7, 0, 6)])
        self.assertEqual((found[-1].start, found[-1].end), (Mark(8, 1, 0), Mark(8, 1, 0)))

    def test_copies(self) -> None:
        for it in yaml_c.parse(b"%TAG !e! x\n--- &a [!e!b c, *a, {d: }]\n"):
            for made in (copy.copy(it), pickle.loads(pickle.dumps(it)), dataclasses.replace(it)):
                self.assertEqual((made, hash(made), repr(made)), (it, hash(it), repr(it)))
                self.assertEqual((made.start, made.end), (it.start, it.end))
            self.assertEqual(dataclasses.replace(it, start=Mark(9, 9, 9)).start, Mark(9, 9, 9))
            with self.assertRaises(dataclasses.FrozenInstanceError):
                it.start = Mark(0, 0, 0)  # type: ignore[misc]
            with self.assertRaises(AttributeError):
                it.middle  # type: ignore[union-attr]
        self.assertEqual(Scalar("a", start=Mark(1, 2, 3)).start, Mark(1, 2, 3))
        self.assertEqual(Scalar("a").end, Mark(0, 0, 0))

    def test_directives(self) -> None:
        found = yaml_c.parse(b"%YAML 1.1\n%TAG !e! tag:x,2000:\n%TAG !f! y\n--- !e!a b\n...\n--- c\n")
        starts = [it for it in found if isinstance(it, DocumentStart)]
        self.assertEqual(starts[0], DocumentStart(False, (1, 1), (("!e!", "tag:x,2000:"), ("!f!", "y"))))
        self.assertEqual(starts[1], DocumentStart(False))
        ends = [it for it in found if isinstance(it, DocumentEnd)]
        self.assertEqual(ends, [DocumentEnd(False), DocumentEnd(True)])
        self.assertIn(Scalar("b", "tag:x,2000:a", None, ScalarStyle.PLAIN, False, False), found)

    def test_styles(self) -> None:
        found = yaml_c.parse(b"- a\n- 'b'\n- \"c\"\n- |\n  d\n- >\n  e\n")
        styles = {it.value: (it.style, it.implicit, it.quoted_implicit) for it in found if isinstance(it, Scalar)}
        wanted = {
            "a": (ScalarStyle.PLAIN, True, False),
            "b": (ScalarStyle.SINGLE_QUOTED, False, True),
            "c": (ScalarStyle.DOUBLE_QUOTED, False, True),
            "d\n": (ScalarStyle.LITERAL, False, True),
            "e\n": (ScalarStyle.FOLDED, False, True),
        }
        self.assertEqual(styles, wanted)

    def test_encoding(self) -> None:
        self.assertEqual(yaml_c.parse(b"")[0], StreamStart(Encoding.UTF8))
        self.assertEqual(yaml_c.parse(b"\xff\xfea\0")[0], StreamStart(Encoding.UTF16LE))
        self.assertEqual(yaml_c.parse(b"\0a", encoding=Encoding.UTF16BE)[2], Scalar("a", **PLAIN))

    def test_kinds_are_those_of_the_lines(self) -> None:
        words = {
            StreamStart: b"+STR", StreamEnd: b"-STR", DocumentStart: b"+DOC", DocumentEnd: b"-DOC", Alias: b"=ALI",
            Scalar: b"=VAL", SequenceStart: b"+SEQ", SequenceEnd: b"-SEQ", MappingStart: b"+MAP", MappingEnd: b"-MAP",
        }  # fmt: skip
        for text in TEXTS:
            lines = yaml_c.events(text).splitlines()
            self.assertEqual([words[type(it)] for it in yaml_c.parse(text)], [it.split()[0] for it in lines], text)

    def test_byte_zero(self) -> None:
        found = yaml_c.parse(b'"a\\0b"')
        self.assertEqual(found[2].value, "a\0b")  # type: ignore[union-attr]


class Emit(unittest.TestCase):
    def test_forms(self) -> None:
        events = document(SequenceStart(), Scalar("a"), Scalar("b", style=ScalarStyle.SINGLE_QUOTED), SequenceEnd())
        self.assertEqual(yaml_c.emit(events), b'---\n[\n  "a",\n  "b",\n]\n')
        self.assertEqual(yaml_c.emit(events, PRETTY), b"- a\n- 'b'\n")
        self.assertEqual(yaml_c.emit(iter(events), PRETTY), b"- a\n- 'b'\n")

    def test_plain_scalars(self) -> None:
        # only where the tag may not be left out in quotes, the event says that the scalar was plain
        self.assertEqual(yaml_c.emit(document(Scalar("a", **PLAIN))), b'---\n! "a"\n')
        self.assertEqual(yaml_c.emit(document(Scalar("a"))), b'---\n"a"\n')
        self.assertEqual(yaml_c.emit(document(Scalar("a", **PLAIN)), PRETTY), b"a\n")

    def test_properties(self) -> None:
        events = document(MappingStart("!m", "x", implicit=False), Scalar("k"), Alias("x"), MappingEnd())
        self.assertEqual(yaml_c.emit(events, PRETTY), b"&x !m\nk: *x\n")

    def test_directives(self) -> None:
        start = DocumentStart(False, (1, 1), [("!e!", "tag:x,2000:")])
        events = [StreamStart(), start, Scalar("b", "tag:x,2000:a", implicit=False, quoted_implicit=False), DocumentEnd(), StreamEnd()]
        self.assertEqual(yaml_c.emit(events, PRETTY), b"%YAML 1.1\n%TAG !e! tag:x,2000:\n--- !e!a b\n")

    def test_read_back(self) -> None:
        for text in TEXTS:
            found = yaml_c.parse(text)
            for settings in (Settings(), PRETTY):
                written = yaml_c.emit(found, settings)
                self.assertTrue(yaml_c.same(written, text), (text, written))
            # an empty plain scalar in brackets is written in quotes, after a `!` that keeps its content
            if b"{b: }" not in text:
                self.assertEqual(yaml_c.parse(yaml_c.emit(found, PRETTY)), found, text)

    def test_wrong_places(self) -> None:
        rows = [
            ([StreamStart(), StreamStart()], "expected DOCUMENT-START or STREAM-END"),
            (document(SequenceStart(), MappingEnd()), "expected SCALAR, SEQUENCE-START, MAPPING-START, or ALIAS"),
            (document(Scalar("a", anchor="")), "anchor value must not be empty"),
            (document(Scalar("a", tag="")), "tag value must not be empty"),
            (document(Alias("a b")), "alias value must contain alphanumerical characters only"),
        ]
        for events, problem in rows:
            with self.assertRaises(yaml_c.EmitterFault) as caught:
                yaml_c.emit(events)
            self.assertEqual(caught.exception.problem, problem)

    def test_wrong_values(self) -> None:
        with self.assertRaises(TypeError):
            yaml_c.emit(["a"])  # type: ignore[list-item]
        with self.assertRaises(UnicodeEncodeError):
            yaml_c.emit(document(Scalar("\ud800")))
        wrong: list[Event] = [
            Scalar("a", style=6),  # type: ignore[arg-type]
            Scalar("a", style=1 << 31),  # type: ignore[arg-type]
            SequenceStart(style=3),  # type: ignore[arg-type]
            DocumentStart(version=(1 << 40, 1)),
        ]
        for event in wrong:
            with self.assertRaises(yaml_c.ArgumentRefused, msg=str(event)):
                yaml_c.emit([StreamStart(), DocumentStart(), event] if not isinstance(event, DocumentStart) else [StreamStart(), event])
        with self.assertRaises(yaml_c.ArgumentRefused):
            yaml_c.emit([StreamStart(4)])  # type: ignore[arg-type]

    def test_numbers_behind_a_fault(self) -> None:
        for events in ([StreamEnd(), Scalar("a", style=6)], [StreamEnd(), StreamStart(4)]):  # type: ignore[arg-type]
            with self.assertRaises(yaml_c.ArgumentRefused):
                yaml_c.emit(events)
        for events in (document(Scalar("a")), [StreamEnd()], []):
            with self.assertRaises(yaml_c.ArgumentRefused):
                yaml_c.emit(events, Settings(line_break=4))  # type: ignore[arg-type]

    def test_limit(self) -> None:
        events = document(Scalar("a"))
        self.assertEqual(yaml_c.emit(events, Settings(limit=8)), b'---\n"a"\n')
        with self.assertRaises(yaml_c.WriterFault):
            yaml_c.emit(events, Settings(limit=7))

    def test_fronts(self) -> None:
        # the start of a document waits for one event, that of a sequence for two, that of a mapping for three
        begun: list[Event] = [StreamStart(), DocumentStart()]
        rows: list[tuple[list[Event], bytes]] = [
            (begun, b""),
            ([*begun, Scalar("a")], b'---\n"a"'),
            ([*begun, SequenceStart(), Scalar("a")], b"---\n"),
            ([*begun, SequenceStart(), Scalar("a"), Scalar("b")], b'---\n[\n  "a",\n  "b"'),
            ([*begun, MappingStart(), Scalar("a"), Scalar("b")], b"---\n"),
            ([*begun, MappingStart(), Scalar("a"), Scalar("b"), Scalar("c")], b'---\n{\n  ? "a"\n  : "b",\n  ? "c"'),
        ]
        for events, wanted in rows:
            self.assertEqual(yaml_c.emit(events), wanted, events)

    def test_encoding(self) -> None:
        events = [StreamStart(Encoding.UTF16LE), StreamEnd()]
        self.assertEqual(yaml_c.emit(events, Settings(encoding=Encoding.ANY)), b"\xff\xfe")
        self.assertEqual(yaml_c.emit(events), b"")

    def test_nothing(self) -> None:
        self.assertEqual(yaml_c.emit([]), b"")
        self.assertEqual(yaml_c.emit([StreamStart(), StreamEnd()]), b"")


if __name__ == "__main__":
    unittest.main()
