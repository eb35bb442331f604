"""What is dumped loads as the same."""

import random
import unittest
from typing import Any

import yaml_c
from yaml_c import Settings

FORMS = [Settings(), Settings(canonical=False), Settings(canonical=False, width=20, indent=4, unicode=False)]
DEPTH = 100_000
CHARACTERS = "ab01 \n\t\r'\"\\:-?[]{},#&*!|>%@`~.<=\u00e9\u0085\u2028\ufeff\U0001f600\0\x1b"


def read_back(value: Any) -> Any:
    """As it comes back: None as "", a tuple as a list."""
    if isinstance(value, dict):
        return {read_back(key): read_back(it) for key, it in value.items()}
    return [read_back(it) for it in value] if isinstance(value, (list, tuple)) else value or ""


class Dump(unittest.TestCase):
    def test_texts(self) -> None:
        rows: list[tuple[Any, str]] = [
            ("a", "a\n"),
            ("", "''\n"),
            (None, "---\n"),
            ([], "[]\n"),
            ((), "[]\n"),
            ({}, "{}\n"),
            (["a", ("b", "c")], "- a\n- - b\n  - c\n"),
            ({"a": None, "b": {"c": ""}}, "a:\nb:\n  c: ''\n"),
            ({("a", "b"): "c"}, "? - a\n  - b\n: c\n"),
            ({None: "a"}, "! '': a\n"),
            ("a: ", "'a: '\n"),
            ("\0", '"\\0"\n'),
        ]
        for value, wanted in rows:
            self.assertEqual(yaml_c.dump(value), wanted, value)
        self.assertEqual(yaml_c.dump(["a", None], settings=Settings()), '---\n[\n  "a",\n  ! "",\n]\n')

    def test_documents(self) -> None:
        self.assertEqual(yaml_c.dump_all([]), "")
        self.assertEqual(yaml_c.dump_all(iter(["a", ["b"]])), "a\n---\n- b\n")
        for documents in ([None], [None, None], [None, "a"], ["a", None], ["", [], None, {}]):
            for settings in FORMS:
                self.assertEqual(yaml_c.load_all(yaml_c.dump_all(documents, settings=settings)), read_back(documents))

    def test_shared(self) -> None:
        both = ["b"]
        self.assertEqual(yaml_c.dump({"a": both, "c": both}), "a: &id001\n- b\nc: *id001\n")
        pair = ("b", "c")
        self.assertEqual(yaml_c.dump([pair, {pair: pair}]), "- &id001\n  - b\n  - c\n- *id001 : *id001\n")
        # not what is equal alone, no text, and nothing of another document
        self.assertEqual(yaml_c.dump([["a"], ["a"], "ab" * 2, "abab", (), ()]), "- - a\n- - a\n- abab\n- abab\n- []\n- []\n")
        self.assertEqual(yaml_c.dump_all([both, both]), "- b\n---\n- b\n")
        found: Any = yaml_c.load(yaml_c.dump([both, both]))
        self.assertIs(found[0], found[1])

    def test_cycles(self) -> None:
        first: list[Any] = ["a"]
        second: dict[str, Any] = {"k": first}
        first.append(second)
        self.assertEqual(yaml_c.dump(second), "&id001\nk:\n- a\n- *id001\n")
        for settings in FORMS:
            found: Any = yaml_c.load(yaml_c.dump(second, settings=settings))
            self.assertIs(found["k"][1], found)

    def test_depth(self) -> None:
        value: Any = []
        for _ in range(DEPTH):
            value = [value]
        self.assertEqual(yaml_c.dump(value), "- " * DEPTH + "[]\n")

    def test_refused(self) -> None:
        wrong: list[Any] = [1, True, 1.5, b"a", {"a"}, ["a", 1], {"a": 1}, {1: "a"}, object()]
        for value in wrong:
            with self.assertRaises(TypeError, msg=repr(value)):
                yaml_c.dump(value)
            with self.assertRaises(yaml_c.RepresenterError):
                yaml_c.dump(value)
        with self.assertRaises(yaml_c.RepresenterError):
            yaml_c.dump("\ud800")
        with self.assertRaises(yaml_c.WriterFault):
            yaml_c.dump("abc", settings=Settings(canonical=False, limit=3))
        self.assertEqual(yaml_c.dump("abc", settings=Settings(canonical=False, limit=4)), "abc\n")

    def test_classes_below(self) -> None:
        class Word(str):
            pass

        class Made(dict[str, Any]):
            def items(self) -> Any:
                return [("a", [str(it)]) for it in range(2)]

        self.assertEqual(yaml_c.dump([Word("a"), Made()]), "- a\n- a:\n  - '0'\n  a:\n  - '1'\n")

    def test_any(self) -> None:
        number = random.Random(45)

        def text() -> str:
            return "".join(number.choice(CHARACTERS) for _ in range(number.choice([0, 1, 2, 5, 30, 200])))

        def value(depth: int) -> Any:
            kind = number.randrange(6 if depth else 3)
            if kind < 3:
                return text() if kind else None
            items = [value(depth - 1) for _ in range(number.randrange(4))]
            return items if kind == 3 else tuple(items) if kind == 4 else {text(): it for it in items}

        for _ in range(1500):
            documents = [value(3) for _ in range(number.randrange(3))]
            for settings in FORMS:
                written = yaml_c.dump_all(documents, settings=settings)
                self.assertEqual(yaml_c.load_all(written), read_back(documents), (documents, written))


if __name__ == "__main__":
    unittest.main()
