"""Every exception: its base, its place and line, and that it can be pickled and copied."""

import concurrent.futures
import copy
import multiprocessing
import pathlib
import pickle
import tempfile
import unittest
from collections.abc import Callable
from typing import Any

import yaml_c
from yaml_c import Encoding, FaultMark, Mark, Settings

#: What raises each of them.
RAISED: list[tuple[type[yaml_c.YAMLError], Callable[[], Any]]] = [
    (yaml_c.ReaderFault, lambda: yaml_c.parse(b"a: \xff")),
    (yaml_c.ReaderFault, lambda: yaml_c.load("a: \ud800")),
    (yaml_c.ScannerFault, lambda: yaml_c.load("a: b: c")),
    (yaml_c.ParserFault, lambda: yaml_c.safe_load("a: [1, 2")),
    (yaml_c.ComposerFault, lambda: yaml_c.load("a: *b")),
    (yaml_c.ComposerFault, lambda: yaml_c.safe_load("a: *b")),
    (yaml_c.WriterFault, lambda: yaml_c.reformat("a", Settings(limit=0))),
    (yaml_c.EmitterFault, lambda: yaml_c.emit([yaml_c.StreamEnd()])),
    (yaml_c.ArgumentRefused, lambda: yaml_c.parse(b"a", encoding=4)),  # type: ignore[arg-type]
    (yaml_c.KeyRefused, lambda: yaml_c.load("? [a]\n: b")),
    (yaml_c.ManyDocuments, lambda: yaml_c.load("a\n---\nb")),
    (yaml_c.ManyDocuments, lambda: yaml_c.safe_load("a\n---\nb")),
    (yaml_c.ConstructorError, lambda: yaml_c.safe_load("a: !!int b")),
    (yaml_c.DuplicateKey, lambda: yaml_c.safe_load("a: 1\na: 2", unique_keys=True)),
    (yaml_c.RepresenterError, lambda: yaml_c.safe_dump(object())),
    (yaml_c.RepresenterError, lambda: yaml_c.dump(1)),
]


def raised(call: Callable[[], Any]) -> yaml_c.YAMLError:
    try:
        call()
    except yaml_c.YAMLError as error:
        return error
    raise AssertionError("nothing is raised")


def loaded(text: str) -> Any:
    """For a process of its own."""
    return yaml_c.safe_load(text)


class Errors(unittest.TestCase):
    def test_base(self) -> None:
        classes = {it for it in vars(yaml_c).values() if isinstance(it, type) and issubclass(it, BaseException)}
        self.assertGreater(len(classes), 15)
        for it in classes:
            self.assertTrue(issubclass(it, yaml_c.YAMLError), it)
            self.assertTrue(issubclass(it, ValueError), it)
            self.assertEqual(it.__module__, "yaml_c")
            self.assertIs(getattr(yaml_c, it.__name__), it)
        self.assertTrue(issubclass(yaml_c.ManyDocuments, yaml_c.LoadRefused))
        self.assertTrue(issubclass(yaml_c.DuplicateKey, yaml_c.ConstructorError))
        self.assertTrue(issubclass(yaml_c.RepresenterError, TypeError))
        self.assertTrue(issubclass(yaml_c.MemoryFault, MemoryError))

    def test_each_is_raised_as_itself(self) -> None:
        for wanted, call in RAISED:
            self.assertIs(type(raised(call)), wanted)

    def test_pickles_and_copies(self) -> None:
        memory = yaml_c.MemoryFault("out of memory", kind=yaml_c.Kind.MEMORY, message="memory error: out of memory")
        for error in [memory, *(raised(call) for _, call in RAISED)]:
            made = [pickle.loads(pickle.dumps(error, number)) for number in range(pickle.HIGHEST_PROTOCOL + 1)]
            for other in [*made, copy.copy(error), copy.deepcopy(error)]:
                self.assertIs(type(other), type(error))
                self.assertEqual(vars(other), vars(error))
                self.assertEqual((str(other), other.args, repr(other)), (str(error), error.args, repr(error)))
                if error.problem_mark is not None:
                    self.assertEqual(vars(other.problem_mark), vars(error.problem_mark))

    def test_a_class_below(self) -> None:
        class Mine(yaml_c.ParserFault):
            pass

        self.assertNotEqual(Mine.__module__, "yaml_c")

    def test_from_another_process(self) -> None:
        context = multiprocessing.get_context("spawn")
        with concurrent.futures.ProcessPoolExecutor(1, mp_context=context) as pool:
            with self.assertRaises(yaml_c.ParserFault) as caught:
                pool.submit(loaded, "a: [1, 2").result()
            self.assertIn("line 1, column 4", str(caught.exception))
            # the pool goes on
            self.assertEqual(pool.submit(loaded, "a: 1").result(), {"a": 1})

    def test_text(self) -> None:
        error = raised(lambda: yaml_c.safe_load("key: [1, 2\nb: c\n"))
        wanted = (
            "while parsing a flow sequence\n"
            '  in "<unicode string>", line 1, column 6:\n'
            "    key: [1, 2\n"
            "         ^\n"
            "did not find expected ',' or ']'\n"
            '  in "<unicode string>", line 2, column 2:\n'
            "    b: c\n"
            "     ^"
        )
        self.assertEqual(str(error), wanted)
        self.assertEqual(repr(error), "ParserFault(\"did not find expected ',' or ']'\")")
        # one place alone is shown once
        error = raised(lambda: yaml_c.safe_load("- a\n- !x b\n"))
        self.assertEqual(str(error).count("^"), 1)

    def test_every_place_has_its_file_and_line(self) -> None:
        with tempfile.TemporaryDirectory() as folder:
            path = pathlib.Path(folder, "a b.yaml")
            for text in (b"a: [1, 2", b"a: b: c", b"- x\n- *y", b"a\xff", b"!!int a", b"? [a]\n: b", b"a\n---\nb"):
                path.write_bytes(text)
                with open(path, "rb") as file:
                    error, other = raised(lambda: yaml_c.safe_load(path)), raised(lambda: yaml_c.safe_load(file))
                mark: Any = error.problem_mark
                self.assertIsInstance(mark, FaultMark)
                self.assertEqual((mark.name, str(error)), (str(path), str(other)))
                self.assertIn(f'in "{path}", line {error.line}, column {error.column}:\n    ', str(error))
                self.assertTrue(str(error).endswith("^"))

    def test_names(self) -> None:
        for text, name in (("[", "<unicode string>"), (b"[", "<byte string>"), (bytearray(b"["), "<byte string>")):
            self.assertEqual(raised(lambda: yaml_c.load(text)).problem_mark.name, name)  # type: ignore[union-attr]

    def caret(self, text: Any, **named: Any) -> tuple[str, str]:
        """The line that is shown, and what the caret is below."""
        mark: Any = raised(lambda: yaml_c.parse(text, **named)).problem_mark
        line, caret = mark.snippet.split("\n")
        return line, line[len(caret) - 1 :][:1]

    def test_carets(self) -> None:
        rows: list[tuple[Any, str, str]] = [
            ("\u00e9: [\U0001f600 ]]", "    \u00e9: [\U0001f600 ]]", "]"),
            ("a: 1\r\nb: ]\r\nc", "    b: ]", "]"),
            ("a:\n\t- b", "     - b", " "),
            ("- x\x85- y\u2028- ]", "    - ]", "]"),
            ("\ufeffa: ]", "    a: ]", "]"),
            (b"\xef\xbb\xbfa: ]", "    a: ]", "]"),
            ("\u00e9: ]".encode("utf-16"), "    \u00e9: ]", "]"),
            (b"a: \x00b", "    a: \ufffdb", "\ufffd"),
            (b"\xc3\xa9\xff", "    \u00e9\ufffd", "\ufffd"),
            ("a: '\ud800'", "    a: '?'", "?"),
            ("k: " + "x" * 100 + ": ]", "     ... " + "x" * 31 + ": ]", ":"),
            ("]" + "x" * 100, "    ]" + "x" * 30 + " ... ", "]"),
        ]
        for text, line, below in rows:
            self.assertEqual(self.caret(text), (line, below), text)
        self.assertEqual(self.caret("\u00e9: ]".encode("utf-16-be"), encoding=Encoding.UTF16BE)[1], "]")

    def test_places_of_readers(self) -> None:
        rows: list[tuple[Any, Mark]] = [
            (b"a\nb\xff", Mark(3, 1, 1)),
            (b"\xc3\xa9\r\n\xc3\xa9\x00", Mark(6, 1, 1)),
            (b"\xef\xbb\xbfa\x00", Mark(1, 0, 1)),
            (b"\xff\xfe\xe9\x00\x00\x00", Mark(2, 0, 1)),
            ("\u00e9\n\udc80", Mark(3, 1, 0)),
        ]
        for text, mark in rows:
            error: Any = raised(lambda: yaml_c.safe_load(text))
            self.assertIs(type(error), yaml_c.ReaderFault)
            self.assertEqual(error.problem_mark, mark, text)

    def test_of_two_texts(self) -> None:
        for call in (yaml_c.same, yaml_c.diff):
            error: Any = raised(lambda: call("a", b"b: ["))  # type: ignore[operator]
            self.assertEqual((error.second, error.problem_mark.name), (True, "<byte string>"))
            error = raised(lambda: call("b: ]", b"]"))  # type: ignore[operator]
            self.assertEqual((error.second, error.problem_mark.name), (False, "<unicode string>"))


if __name__ == "__main__":
    unittest.main()
