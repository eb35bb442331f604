"""Objects of Python's types from texts, by the tables of YAML 1.1, and what is refused where."""

import datetime
import gc
import math
import unittest
from datetime import timedelta, timezone
from typing import Any

import yaml_c
from yaml_c import Mark

from .objects import are_same

DEPTH = 100_000


def at(line: int, column: int) -> timezone:
    return timezone(timedelta(hours=line, minutes=column))


class Types(unittest.TestCase):
    def test_scalars(self) -> None:
        day, time = datetime.date, datetime.datetime
        rows: list[tuple[str, Any]] = [
            ("~", None), ("null", None), ("Null", None), ("", None), ("---", None), ("yes", True), ("ON", True),
            ("False", False), ("off", False), ("y", "y"), ("tRUE", "tRUE"), ("0", 0), ("-0", 0), ("+12", 12), ("1_000", 1000),
            ("012", 10), ("08", "08"), ("0o17", "0o17"), ("0x1F", 31), ("-0b101", -5), ("190:20:30", 685230), ("1:60", "1:60"),
            ("1.0", 1.0), ("1.", 1.0), (".5", 0.5), ("-.5", "-.5"), ("1e3", "1e3"), ("1.0e+3", 1000.0), ("1.0e3", "1.0e3"),
            ("685_230.15", 685230.15), ("190:20:30.15", 685230.15), (".inf", math.inf), ("-.INF", -math.inf), (".NaN", math.nan),
            ("1.2.3", "1.2.3"), ("2001-12-14", day(2001, 12, 14)), ("2001-1-1", "2001-1-1"),
            ("2001-1-1 1:22:33", time(2001, 1, 1, 1, 22, 33)), ("2001-12-14 21:59:43.1", time(2001, 12, 14, 21, 59, 43, 100000)),
            ("2001-12-14t21:59:43.10-05:00", time(2001, 12, 14, 21, 59, 43, 100000, at(-5, 0))),
            ("2001-12-15T02:59:43Z", time(2001, 12, 15, 2, 59, 43, 0, timezone.utc)),
            ("2001-12-15 02:59:43 +1", time(2001, 12, 15, 2, 59, 43, 0, at(1, 0))),
            ("'1'", "1"), ('"yes"', "yes"), ("|\n  1\n", "1\n"), ("a\n b", "a b"), ("! 12", 12), ("!", None),
            ("!!str 1", "1"), ("!!int '3'", 3), ("!!float 3", 3.0), ("!!bool 'no'", False), ("!!null x", None),
            ("!!binary aGk=", b"hi"), ("!!binary |\n  aG\n  k=\n", b"hi"), ("!!timestamp '2001-1-1'", day(2001, 1, 1)),
        ]  # fmt: skip
        for text, wanted in rows:
            found = yaml_c.safe_load(text)
            self.assertTrue(are_same(found, wanted), (text, found))
            # among others, and as a key
            if text[:1] not in ("", "-", "|") and "\n" not in text:
                self.assertTrue(are_same(yaml_c.safe_load(f"- {text}\n- x"), [wanted, "x"]), text)
                self.assertTrue(are_same(yaml_c.safe_load(f"? {text}\n: x"), {wanted: "x"}), text)

    def test_collections(self) -> None:
        rows: list[tuple[str, Any]] = [
            ("[]", []), ("{}", {}), ("a: [1, {b: ~}]", {"a": [1, {"b": None}]}), ("!!map {a: 1}", {"a": 1}), ("!!seq [1]", [1]),
            ("! [1]", [1]), ("!!set {a, 1, 1}", {"a", 1}), ("!!set {}", set()), ("!!omap [a: 1, 2: b]", [("a", 1), (2, "b")]),
            ("!!pairs [a: 1, a: 2]", [("a", 1), ("a", 2)]), ("!!omap [{[x]: y}]", [(["x"], "y")]), ("!!omap []", []),
            ("!!omap [a: !!omap [b: 1]]", [("a", [("b", 1)])]), ("{a: 1, a: 2, b: 3}", {"a": 2, "b": 3}),
            ("{1: a, 1.0: b, true: c}", {1: "c"}), ("{.nan: a, .NaN: b}", {math.nan: "b"}), ("? ~\n: a", {None: "a"}),
            ("{=: a}", {"=": "a"}), ("!!set {=}", {"="}), ("'<<': {a: 1}", {"<<": {"a": 1}}),
        ]  # fmt: skip
        for text, wanted in rows:
            found = yaml_c.safe_load(text)
            self.assertTrue(are_same(found, wanted), (text, found))
        self.assertEqual(list(yaml_c.safe_load("{b: 1, a: 2, b: 3}").items()), [("b", 3), ("a", 2)])

    def test_aliases(self) -> None:
        found = yaml_c.safe_load("[&a [1], *a, &b {x: *a}, *b, &c 2001-01-01, *c, &d !!set {q}, *d, &e !!omap [k: *a], *e]")
        for number in range(0, 10, 2):
            self.assertIs(found[number], found[number + 1])
        self.assertIs(found[2]["x"], found[0])
        self.assertIs(found[8][0][1], found[0])
        found = yaml_c.safe_load("&a [*a, {b: *a}]")
        self.assertIs(found[0], found)
        self.assertIs(found[1]["b"], found)
        # an anchor may come again
        self.assertEqual(yaml_c.safe_load("[&a 1, *a, &a 2, *a]"), [1, 1, 2, 2])
        # equal dates are objects of their own, so that a dumper writes no alias
        first, second = yaml_c.safe_load("[2001-01-01, 2001-01-01]")
        self.assertIsNot(first, second)
        # of an entry the dict
        self.assertEqual(yaml_c.safe_load("[!!omap [&x {a: 1}, *x], *x]"), [[("a", 1), ("a", 1)], {"a": 1}])

    def test_merges(self) -> None:
        rows = [
            ("{<<: {a: 1, b: 2}, b: 3, c: 4}", [("a", 1), ("b", 3), ("c", 4)]),
            ("{b: 3, <<: {a: 1, b: 2}}", [("a", 1), ("b", 3)]),
            ("{<<: [{a: 1, b: 2}, {b: 3, c: 4}]}", [("b", 2), ("c", 4), ("a", 1)]),
            ("{<<: {a: 1}, <<: {a: 2, b: 3}}", [("a", 2), ("b", 3)]),
            ("{<<: {<<: {a: 1}, b: 2}, c: 3}", [("a", 1), ("b", 2), ("c", 3)]),
            ("{<<: {}}", []), ("{<<: []}", []), ("{<<: !!map {a: 1}}", [("a", 1)]), ("{&m <<: {a: 1}, *m : {b: 2}}", [("a", 1), ("b", 2)]),
        ]  # fmt: skip
        for text, wanted in rows:
            self.assertEqual(list(yaml_c.safe_load(text).items()), wanted, text)
        self.assertEqual(yaml_c.safe_load("!!set {<<: {a: 1}, b}"), {"a", "b"})
        found = yaml_c.safe_load("{a: &a {x: [1]}, b: &b {<<: *a, y: 2}, c: {<<: *b, z: 3}, d: {<<: [*b, *a]}}")
        self.assertEqual(found["c"], {"x": [1], "y": 2, "z": 3})
        self.assertIs(found["c"]["x"], found["a"]["x"])
        # of what isn't at its end yet, too
        found = yaml_c.safe_load("&a {k: {<<: *a, j: 1}, l: 2}")
        self.assertEqual((found["k"]["l"], found["k"]["j"]), (2, 1))
        self.assertIs(found["k"]["k"], found["k"])
        self.assertEqual(yaml_c.safe_load("&a {<<: *a, x: 1}"), {"x": 1})

    def test_documents(self) -> None:
        self.assertIsNone(yaml_c.safe_load(""))
        self.assertEqual(list(yaml_c.safe_load_all("")), [])
        self.assertEqual(list(yaml_c.safe_load_all("1\n---\n- a\n---\n...\n")), [1, ["a"], None])
        documents = yaml_c.safe_load_all("a: 1\n---\n!!int x\n---\n]")
        self.assertEqual(next(documents), {"a": 1})
        with self.assertRaises(yaml_c.ConstructorError):
            next(documents)
        documents = yaml_c.safe_load_all("1\n---\n]")
        self.assertEqual(next(documents), 1)
        with self.assertRaises(yaml_c.ParserFault):
            next(documents)
        self.assertEqual(list(documents), [])


class Refused(unittest.TestCase):
    def refused(self, text: str, wanted: Any = yaml_c.ConstructorError, **named: Any) -> Any:
        with self.assertRaises(wanted, msg=text) as caught:
            yaml_c.safe_load(text, **named)
        self.assertIs(type(caught.exception), wanted)
        return caught.exception

    def test_tags(self) -> None:
        rows = [
            ("a: !!python/object:os.system {}", 1, 4), ("- x\n- !!python/object/apply:os.system [ls]", 2, 3),
            ("!!python/name:os.system", 1, 1), ("!local x", 1, 1), ("{a: !t {b: 1}}", 1, 5), ("[!<x> [1]]", 1, 2),
            ("!!int {a: 1}", 1, 1), ("[!!str [1]]", 1, 2), ("!!map [1]", 1, 1), ("!!seq {a: 1}", 1, 1), ("!!set [a]", 1, 1),
            ("!!seq x", 1, 1), ("- !!omap x", 1, 3), ("!!omap {a: 1}", 1, 1), ("!!omap [a]", 1, 9), ("!!pairs [{a: 1, b: 2}]", 1, 10),
            ("!!omap [{}]", 1, 9), ("!!omap [!!set {a}]", 1, 9), ("!!omap [{<<: {a: 1}}]", 1, 10), ("!!value x", 1, 1),
            ("!<map> {}", 1, 1), ("!<seq> []", 1, 1), ("!<int> 1", 1, 1), ("!<tag:yaml.org,2002:> {}", 1, 1),
        ]  # fmt: skip
        for text, line, column in rows:
            error = self.refused(text)
            self.assertEqual((error.line, error.column), (line, column), text)
        self.assertEqual(self.refused("!local x").problem, "could not determine a constructor for the tag '!local'")

    def test_scalars_that_arent_of_their_type(self) -> None:
        for text in (
            "!!int x", "!!int ''", "!!float x", "!!bool 1", "!!timestamp x", "2001-13-01", "2001-01-01 25:00:00", "0x_", "0b_",
            "!!binary a", "!!binary \u00e9", "2001-01-01 01:01:01 +24:00", "9" * 5000,
        ):  # fmt: skip
            for before in ("", "- ", "a: ", "? "):
                error = self.refused(before + text)
                self.assertEqual((error.line, error.column), (1, len(before) + 1), text)

    def test_keys(self) -> None:
        rows = [
            ("a: 1\n? [b]\n: c", Mark(7, 1, 2), Mark(0, 0, 0)), ("[{{}: c}]", Mark(2, 0, 2), Mark(1, 0, 1)),
            ("- &x []\n- {a: b, *x : c}", Mark(2, 0, 2), Mark(10, 1, 2)), ("!!set {[a]}", Mark(7, 0, 7), Mark(0, 0, 0)),
            ("{!!set {a}: 1}", Mark(1, 0, 1), Mark(0, 0, 0)), ("{<<: {[a]: 1}}", Mark(6, 0, 6), Mark(0, 0, 0)),
        ]  # fmt: skip
        for text, mark, context_mark in rows:
            error = self.refused(text)
            self.assertEqual((error.problem, error.context), ("found unhashable key", "while constructing a mapping"))
            self.assertEqual((error.problem_mark, error.context_mark), (mark, context_mark), text)

    def test_merges(self) -> None:
        rows = [
            ("{<<: 1}", 6), ("{<<: [1]}", 7), ("{<<: [{a: 1}, []]}", 15), ("- <<", 3), ("<<", 1), ("{a: <<}", 5), ("- =", 3),
            ("{<<: !!omap [a: 1]}", 6), ("{<<: !!set {a}}", 6), ("{<<: !t {a: 1}}", 6), ("!!set {a: <<}", 11), ("{<<: {a: !t x}}", 10),
        ]  # fmt: skip
        for text, column in rows:
            self.assertEqual(self.refused(text).column, column, text)
        self.refused("&a [{<<: *a}, 1]")

    def test_duplicate_keys(self) -> None:
        rows = [
            ("a: 1\nb: 2\na: 3", Mark(0, 0, 0), Mark(10, 2, 0)), ("{1: a, 1.0: b}", Mark(1, 0, 1), Mark(7, 0, 7)),
            ("[{x: 1, 'x': 2}]", Mark(2, 0, 2), Mark(8, 0, 8)), ("!!set {a, b, a}", Mark(7, 0, 7), Mark(13, 0, 13)),
            ("{<<: {a: 1}, b: 1, b: 2}", Mark(13, 0, 13), Mark(19, 0, 19)), ("{~: 1, null: 2}", Mark(1, 0, 1), Mark(7, 0, 7)),
            ("{<<: {a: 1, a: 2}}", Mark(6, 0, 6), Mark(12, 0, 12)), ("{=: 1, '=': 2}", Mark(1, 0, 1), Mark(7, 0, 7)),
            ("{a: {b: 1, b: 2}, a: 3}", Mark(1, 0, 1), Mark(18, 0, 18)), ("{&x a: 1, *x : 2}", Mark(1, 0, 1), Mark(1, 0, 1)),
        ]  # fmt: skip
        for text, first, second in rows:
            error = self.refused(text, yaml_c.DuplicateKey, unique_keys=True)
            self.assertEqual((error.context_mark, error.problem_mark), (first, second), text)
            yaml_c.safe_load(text)
        for text in ("{<<: {a: 1}, a: 2}", "{<<: {a: 1}, <<: {a: 2}}", "[{a: 1}, {a: 1}]", "!!pairs [a: 1, a: 2]", "{1: a, '1': b}"):
            yaml_c.safe_load(text, unique_keys=True)
        documents = yaml_c.safe_load_all("{a: 1}\n---\n{a: 1, a: 2}", unique_keys=True)
        next(documents)
        with self.assertRaises(yaml_c.DuplicateKey):
            next(documents)

    def test_which_comes_first(self) -> None:
        rows: list[tuple[str, Any, int]] = [
            ("[!t x, *a]", yaml_c.ComposerFault, 1), ("- !t x\n]", yaml_c.ParserFault, 2), ("*a\n---\n]", yaml_c.ComposerFault, 1),
            ("!t x\n---\n]", yaml_c.ManyDocuments, 2), ("a\n---\n]", yaml_c.ManyDocuments, 2), ("- *a\n- ]", yaml_c.ComposerFault, 1),
            ("- [[!t x]]\n- !t y", yaml_c.ConstructorError, 2),
        ]  # fmt: skip
        for text, wanted, line in rows:
            self.assertEqual(self.refused(text, wanted).line, line, text)
        error = self.refused("a: 1\n---\nb", yaml_c.ManyDocuments)
        self.assertEqual((error.context_mark, error.problem_mark, error.mark), (Mark(0, 0, 0), Mark(5, 1, 0), Mark(5, 1, 0)))


class Depth(unittest.TestCase):
    def test_brackets(self) -> None:
        found = yaml_c.safe_load("[" * DEPTH + "]" * DEPTH)
        for _ in range(DEPTH - 1):
            (found,) = found
        self.assertEqual(found, [])
        found = yaml_c.safe_load("{a: " * DEPTH + "}" * DEPTH)
        for _ in range(DEPTH):
            found = found["a"]
        self.assertIsNone(found)
        # it is freed in this place, without a crash
        del found
        gc.collect()

    def test_faults(self) -> None:
        less = DEPTH // 5
        rows: list[tuple[str, Any]] = [
            ("[" * DEPTH, yaml_c.ParserFault), ("[" * DEPTH + "!t x" + "]" * DEPTH, yaml_c.ConstructorError),
            ("{? " * less + "x" + "}" * less, yaml_c.ConstructorError), ("{<<: " * less + "x" + "}" * less, yaml_c.ConstructorError),
            ("{a: " * less + "{b, b}" + "}" * less, yaml_c.DuplicateKey), ("[" * DEPTH + "*x" + "]" * DEPTH, yaml_c.ComposerFault),
        ]  # fmt: skip
        for text, wanted in rows:
            with self.assertRaises(wanted):
                yaml_c.safe_load(text, unique_keys=True)

    def test_merges(self) -> None:
        self.assertEqual(yaml_c.safe_load("{<<: " * DEPTH + "{a: b}" + "}" * DEPTH), {"a": "b"})
        found = yaml_c.safe_load("!!omap [a: " * 1000 + "x" + "]" * 1000)
        for _ in range(1000):
            ((_, found),) = found
        self.assertEqual(found, "x")

    def test_aliases_dont_multiply(self) -> None:
        lines = ["- &a0 {k: [x, x]}"] + [f"- &a{n} {{k: [*a{n - 1}, *a{n - 1}], <<: [*a{n - 1}, *a{n - 1}]}}" for n in range(1, 60)]
        found = yaml_c.safe_load("\n".join(lines))
        self.assertIs(found[59]["k"][0], found[58])
        with self.assertRaises(yaml_c.ConstructorError):
            yaml_c.safe_load("\n".join([*lines, "- !t x"]))


if __name__ == "__main__":
    unittest.main()
