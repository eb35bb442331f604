"""What `safe_dump` writes, and that it comes back."""

import datetime
import math
import sys
import unittest
from enum import IntEnum
from typing import Any, NamedTuple
from unittest import mock

import yaml_c
from yaml_c import _writer

from .objects import Objects, are_same

DEPTH = 100_000


class Place(NamedTuple):
    a: int


class Number(IntEnum):
    ONE = 1


class Word(str):
    pass


class Made(dict[str, Any]):
    pass


class SafeDump(unittest.TestCase):
    def test_texts(self) -> None:
        rows: list[tuple[Any, str]] = [
            (None, "null\n"), (True, "true\n"), (False, "false\n"), (0, "0\n"), (-12, "-12\n"), ("", "''\n"), ("a", "a\n"),
            (1.0, "1.0\n"), (-0.0, "-0.0\n"), (1e17, "1.0e+17\n"), (1e-7, "1.0e-07\n"), (1.5e300, "1.5e+300\n"),
            (math.inf, ".inf\n"), (-math.inf, "-.inf\n"), (math.nan, ".nan\n"),
            (b"", '!!binary ""\n'), (b"hi", "!!binary |\n  aGk=\n"),
            (datetime.date(2001, 2, 3), "2001-02-03\n"), (datetime.date(1, 2, 3), "0001-02-03\n"),
            (datetime.datetime(2001, 2, 3, 4, 5, 6), "2001-02-03 04:05:06\n"),
            (datetime.datetime(2001, 2, 3, 4, 5, 6, 7, datetime.timezone.utc), "2001-02-03 04:05:06.000007+00:00\n"),
            ([], "[]\n"), ((), "[]\n"), ({}, "{}\n"), (set(), "!!set {}\n"), ([[], [[]]], "- []\n- - []\n"),
            ({"b", "a"}, "!!set\na: null\nb: null\n"), ({"a": (1, "x")}, "a:\n- 1\n- x\n"),
            ({"b": 1, "a": [True]}, "a:\n- true\nb: 1\n"), ({2: "b", 1: "a"}, "1: a\n2: b\n"),
            ({"b": 1, 2: 2}, "b: 1\n2: 2\n"), ("a\nb\n", "'a\n\n  b\n\n  '\n"), ("\u00e9", '"\\xE9"\n'),
        ]  # fmt: skip
        for value, wanted in rows:
            self.assertEqual(yaml_c.safe_dump(value), wanted, value)

    def test_what_others_take_for_something_else(self) -> None:
        for text in ("yes", "No", "null", "~", "1", "1.0", "012", "0x1F", "1:30", "2001-01-01", "<<", "=", ".inf"):
            self.assertEqual(yaml_c.safe_dump(text), f"'{text}'\n")
        for text in ("word", "1e3", "0o17", "08", "1.2.3"):
            self.assertEqual(yaml_c.safe_dump(text), f"{text}\n")

    def test_arguments(self) -> None:
        value = {"b": ["x y " * 30], "a": {"c": 1}}
        self.assertEqual(yaml_c.safe_dump({"b": 1, "a": 2}, sort_keys=False), "b: 1\na: 2\n")
        self.assertEqual(yaml_c.safe_dump({"a": [1, {}], "b": {}}, default_flow_style=True), "{a: [1, {}], b: {}}\n")
        self.assertEqual(yaml_c.safe_dump({"a": [1, 2], "b": [[3]]}, default_flow_style=None), "a: [1, 2]\nb:\n- [3]\n")
        self.assertEqual(yaml_c.safe_dump({"a": {"b": 1}}, indent=4), "a:\n    b: 1\n")
        self.assertEqual(yaml_c.safe_dump({"a": {"b": 1}}, indent=None), "a:\n  b: 1\n")
        self.assertEqual(yaml_c.safe_dump("\u00e9", allow_unicode=True), "\u00e9\n")
        self.assertEqual(yaml_c.safe_dump(["a"], explicit_start=True, explicit_end=True), "---\n- a\n...\n")
        self.assertEqual(yaml_c.safe_dump(["a", "b"], line_break="\r\n"), "- a\r\n- b\r\n")
        self.assertGreater(yaml_c.safe_dump(value, width=40).count("\n"), yaml_c.safe_dump(value).count("\n"))
        for width in (math.inf, 10**6, -1):
            self.assertEqual(yaml_c.safe_dump(value, width=width).count("\n"), 4)
        for named in ({"line_break": "x"}, {"indent": 1 << 40}, {"encoding": "latin-1"}):
            with self.assertRaises(yaml_c.ArgumentRefused):
                yaml_c.safe_dump("a", **named)  # type: ignore[arg-type]

    def test_documents(self) -> None:
        self.assertEqual(yaml_c.safe_dump_all([]), "")
        self.assertEqual(yaml_c.safe_dump_all(iter([1, ["a"], None])), "1\n---\n- a\n--- null\n")
        both = ["x"]
        self.assertEqual(yaml_c.safe_dump_all([both, both]), "- x\n---\n- x\n")

    def test_shared(self) -> None:
        one, other, day = ["x"], {"y": 1}, datetime.date(2001, 1, 1)
        # anchors are numbered as their nodes are met again
        self.assertEqual(yaml_c.safe_dump([one, other, other, one]), "- &id002\n  - x\n- &id001\n  y: 1\n- *id001\n- *id002\n")
        self.assertEqual(yaml_c.safe_dump([day, day]), "- &id001 2001-01-01\n- *id001\n")
        self.assertEqual(yaml_c.safe_dump(["ab", "ab", 10**9, 10**9, (), ()]).count("id"), 0)
        one.append(one)  # type: ignore[arg-type]
        self.assertEqual(yaml_c.safe_dump(one), "&id001\n- x\n- *id001\n")
        again = yaml_c.safe_load(yaml_c.safe_dump(one))
        self.assertIs(again[1], again)

    def test_long_texts(self) -> None:
        long, list_of = "x y\u00e9 " * 100, ["a " * 300]
        value = {long: [long, list_of, {"\u0444" * 400: b"b" * 900}, 10**400], "b": [list_of, "", long * 9, "'" * 256]}
        for named in ({}, {"default_flow_style": True}, {"allow_unicode": True}, {"encoding": "utf-16-le"}):
            wanted: Any = yaml_c.safe_dump_all([value, long, [value]], **named)  # type: ignore[arg-type]
            for many in (1, 300, 2000):
                with mock.patch.object(_writer, "_PIECE", many):
                    self.assertEqual(yaml_c.safe_dump_all([value, long, [value]], **named), wanted)  # type: ignore[arg-type]
            with mock.patch.object(_writer, "_LONG", 1 << 20):
                self.assertEqual(yaml_c.safe_dump_all([value, long, [value]], **named), wanted)  # type: ignore[arg-type]
            again = list(yaml_c.safe_load_all(wanted))
            self.assertTrue(are_same(again, [value, long, [value]]))
            for many in (1, 1 << 18):
                with mock.patch.object(_writer, "_PIECE", many):
                    size = len(wanted if isinstance(wanted, bytes) else wanted.encode())
                    yaml_c.safe_dump_all([value, long, [value]], limit=size, **named)  # type: ignore[arg-type]
                    with self.assertRaises(yaml_c.WriterFault):
                        yaml_c.safe_dump_all([value, long, [value]], limit=size - 1, **named)  # type: ignore[arg-type]
        for wrong in ("a" * 300 + "\ud800", ["a" * 300, "\ud800" * 300]):
            with self.assertRaises(yaml_c.RepresenterError):
                yaml_c.safe_dump(wrong)

    def test_what_it_refuses(self) -> None:
        odd = datetime.timezone(datetime.timedelta(hours=1, seconds=30))
        wrong: list[Any] = [
            object(), 1j, Place(1), Number.ONE, Word("a"), Made(), frozenset(), bytearray(b"a"), range(3), print,
            datetime.time(1), datetime.datetime(2001, 1, 1, tzinfo=odd), 10 ** (sys.get_int_max_str_digits() + 1),
            "\ud800", {"a": ["b", {"\udc00": 1}]},
        ]  # fmt: skip
        for value in wrong:
            with self.assertRaises(yaml_c.RepresenterError):
                yaml_c.safe_dump(value)
            with self.assertRaises(yaml_c.RepresenterError):
                yaml_c.safe_dump({"a": [value]})
        with self.assertRaises(yaml_c.WriterFault):
            yaml_c.safe_dump("abc", limit=3)

    def test_depth(self) -> None:
        pairs: Any
        items: Any = []
        for _ in range(DEPTH):
            items = [items]
        self.assertEqual(yaml_c.safe_dump(items), "- " * DEPTH + "[]\n")
        pairs, items = {}, []
        for _ in range(DEPTH // 5):
            pairs, items = {"a": pairs}, [items]
        with self.assertRaises(yaml_c.WriterFault):
            yaml_c.safe_dump(pairs, limit=1 << 20)
        with self.assertRaises(yaml_c.WriterFault):
            yaml_c.safe_dump(items, default_flow_style=True, limit=1 << 20)

    def test_any(self) -> None:
        made = Objects(85)
        settings: list[dict[str, Any]] = [
            {}, {"default_flow_style": True}, {"default_flow_style": None, "allow_unicode": True, "width": 20},
            {"sort_keys": False, "indent": 4, "explicit_start": True, "line_break": "\r\n"},
        ]  # fmt: skip
        for _ in range(1000):
            documents = [made.document() for _ in range(made.chance.randrange(1, 3))]
            for named in settings:
                text = yaml_c.safe_dump_all(documents, **named)
                again = list(yaml_c.safe_load_all(text))
                self.assertEqual(len(again), len(documents), text)
                for one, other in zip(documents, again):
                    self.assertTrue(are_same(one, other), (named, one, text))


class Dump(unittest.TestCase):
    def test_others_read_the_same(self) -> None:
        rows = [
            ("1.0", "'1.0'\n"), ("yes", "'yes'\n"), ("y", "'y'\n"), ("N", "'N'\n"), ("1e3", "'1e3'\n"), ("0o17", "'0o17'\n"),
            ("-.5", "'-.5'\n"), ("012", "'012'\n"), ("08", "'08'\n"), ("<<", "'<<'\n"), ("null", "'null'\n"), ("~", "'~'\n"),
            ("2001-01-01", "'2001-01-01'\n"), ("+0x1F", "'+0x1F'\n"), ("True", "'True'\n"), ("word", "word\n"),
            ("1.2.3", "1.2.3\n"), ("a-1", "a-1\n"), ("trueish", "trueish\n"), ("0b12", "0b12\n"),
        ]  # fmt: skip
        for text, wanted in rows:
            self.assertEqual(yaml_c.dump(text), wanted)
            self.assertEqual(yaml_c.safe_load(yaml_c.dump({text: [text]})), {text: [text]})

    def test_several_lines(self) -> None:
        rows = [
            ({"a": "b\nc\n"}, "a: |\n  b\n  c\n"), (["b\nc"], "- |-\n  b\n  c\n"), ("\n\n", "|2+\n\n\n...\n"),
            ({"a": " b\n c\n"}, "a: |2\n   b\n   c\n"), ({"a\nb": "c"}, '? |-\n  a\n  b\n: c\n'),
        ]  # fmt: skip
        for value, wanted in rows:
            self.assertEqual(yaml_c.dump(value), wanted)
            self.assertEqual(yaml_c.safe_load(yaml_c.dump(value)), value)

    def test_any(self) -> None:
        made = Objects(6)
        for _ in range(3000):
            text = made.text()
            value = {"a": [text], text + "x": text}
            self.assertEqual(yaml_c.safe_load(yaml_c.dump(value)), value)


if __name__ == "__main__":
    unittest.main()
