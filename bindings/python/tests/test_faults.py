"""Texts and numbers that are refused."""

import unittest
from typing import Any

import yaml_c
from yaml_c import Encoding, Kind, LineBreak, Mark, Settings, StreamEnd


class Faults(unittest.TestCase):
    def refused(self, wanted: type[Exception], call: Any, *words: Any, **named: Any) -> Any:
        with self.assertRaises(wanted) as caught:
            call(*words, **named)
        self.assertIs(type(caught.exception), wanted)
        return caught.exception

    def test_parser(self) -> None:
        fault = self.refused(yaml_c.ParserFault, yaml_c.reformat, b"key: [1, 2")
        line = "parser error: while parsing a flow sequence (line 1, column 6): did not find expected ',' or ']' (line 2, column 1)"
        self.assertEqual(fault.message, line)
        self.assertEqual((fault.kind, fault.line, fault.column), (Kind.PARSER, 2, 1))
        self.assertEqual((fault.problem, fault.context), ("did not find expected ',' or ']'", "while parsing a flow sequence"))
        self.assertEqual((fault.problem_mark, fault.context_mark), (Mark(10, 1, 0), Mark(5, 0, 5)))
        self.assertEqual((fault.offset, fault.value, fault.second), (None, None, False))
        self.assertIsInstance(fault, yaml_c.YamlFault)

    def test_scanner(self) -> None:
        fault = self.refused(yaml_c.ScannerFault, yaml_c.events, b"a: 'b\n")
        self.assertEqual(fault.kind, Kind.SCANNER)
        self.assertEqual((fault.problem, fault.context), ("found unexpected end of stream", "while scanning a quoted scalar"))
        self.assertEqual((fault.line, fault.column, fault.context_mark), (2, 1, Mark(3, 0, 3)))

    def test_reader(self) -> None:
        fault = self.refused(yaml_c.ReaderFault, yaml_c.reload, b"a\xff")
        self.assertEqual(fault.message, "reader error: invalid leading UTF-8 octet (byte 1, value 255)")
        self.assertEqual((fault.kind, fault.offset, fault.value), (Kind.READER, 1, 255))
        self.assertEqual((fault.line, fault.column, fault.problem_mark, fault.context), (1, 2, Mark(1, 0, 1), None))

    def test_composer(self) -> None:
        fault = self.refused(yaml_c.ComposerFault, yaml_c.reload, b"a: 1\nb: *c\n")
        self.assertEqual((fault.kind, fault.problem, fault.line, fault.column), (Kind.COMPOSER, "found undefined alias", 2, 4))
        self.assertIsInstance(yaml_c.reformat(b"a: 1\nb: *c\n"), bytes)

    def test_writer(self) -> None:
        fault = self.refused(yaml_c.WriterFault, yaml_c.reformat, b"foo", Settings(limit=11))
        self.assertEqual((str(fault), fault.kind, fault.line), ("writer error: write error", Kind.WRITER, None))

    def test_emitter(self) -> None:
        fault = self.refused(yaml_c.EmitterFault, yaml_c.emit, [StreamEnd()])
        self.assertEqual((str(fault), fault.kind), ("emitter error: expected STREAM-START", Kind.EMITTER))

    def test_same(self) -> None:
        first = self.refused(yaml_c.ParserFault, yaml_c.same, b"]", b"\xff")
        self.assertEqual((first.second, first.line, first.column), (False, 1, 1))
        second = self.refused(yaml_c.ReaderFault, yaml_c.same, b"a", b"\xff")
        self.assertEqual((second.second, second.offset), (True, 0))

    def test_places_are_counted_in_characters(self) -> None:
        fault = self.refused(yaml_c.ParserFault, yaml_c.events, "\u00e9: [\U0001f600 ]]")
        self.assertEqual((fault.line, fault.column), (1, 8))
        self.assertEqual(fault.problem_mark, Mark(11, 0, 7))

    def test_numbers_that_mean_nothing(self) -> None:
        for encoding in (4, -1, 1 << 31, (1 << 32) + 1):
            for call in (yaml_c.reformat, yaml_c.reload, yaml_c.events, yaml_c.parse):
                with self.assertRaises(yaml_c.ArgumentRefused):
                    call(b"a", encoding=encoding)  # type: ignore[operator]
            with self.assertRaises(yaml_c.ArgumentRefused):
                yaml_c.same(b"a", b"a", second_encoding=encoding)  # type: ignore[arg-type]
        wrong: list[dict[str, Any]] = [
            {"encoding": 4}, {"line_break": 4}, {"line_break": -1}, {"indent": 1 << 31}, {"width": -(1 << 31) - 1},
            {"limit": -1}, {"limit": 1 << 64}, {"encoding": 1 << 32},
        ]  # fmt: skip
        for named in wrong:
            for text in (b"a", b"]"):
                with self.assertRaises(yaml_c.ArgumentRefused, msg=str(named)):
                    yaml_c.reformat(text, Settings(**named))
        self.assertTrue(issubclass(yaml_c.ArgumentRefused, ValueError))
        self.assertFalse(issubclass(yaml_c.ArgumentRefused, yaml_c.YamlFault))

    def test_numbers_at_their_ends(self) -> None:
        least, most = -(1 << 31), (1 << 31) - 1
        for number in (least, -1, 0, 1, 10, most):
            wanted = yaml_c.reformat(b"a: [b]")
            self.assertEqual(yaml_c.reformat(b"a: [b]", Settings(indent=number)), wanted, number)
        for number in (least, -1, 0, most):
            self.assertTrue(yaml_c.same(yaml_c.reformat(b"a b c", Settings(width=number)), b"a b c"))
        self.assertEqual(yaml_c.reformat(b"", Settings(limit=0)), b"")
        self.assertEqual(yaml_c.reformat(b"a", Settings(limit=(1 << 64) - 1)), b'---\n! "a"\n')
        self.assertEqual(yaml_c.reformat(b"a", Settings(line_break=LineBreak.ANY, encoding=Encoding.ANY)), b'---\n! "a"\n')


if __name__ == "__main__":
    unittest.main()
