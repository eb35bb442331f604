"""Documents as str, list and dict, and as nodes."""

import os
import pathlib
import pickle
import tempfile
import unittest
from typing import Any

import yaml_c
from yaml_c import Encoding, MappingNode, Mark, ScalarNode, ScalarStyle, SequenceNode, Style

from .test_rows import ROWS, inputs

DEPTH = 100_000


class Load(unittest.TestCase):
    def test_values(self) -> None:
        rows: list[tuple[Any, Any]] = [
            (b"", None),
            (b"# nothing\n", None),
            (b"---\n", ""),
            (b"a", "a"),
            (b"[1, 'b', \"c\\n\", ~, !!int 3, ]", ["1", "b", "c\n", "~", "3"]),
            (b"a: {b: c}\n? d\n:\n- e\n", {"a": {"b": "c"}, "d": ["e"]}),
            (b"{}", {}),
            (b"<<: {a: b}\n", {"<<": {"a": "b"}}),
            (b"k: &x v\n*x : w\n", {"k": "v", "v": "w"}),
            ("\u00e9: [\U0001f600, a]", {"\u00e9": ["\U0001f600", "a"]}),
            (b"? \n: a\n", {"": "a"}),
        ]
        for text, wanted in rows:
            self.assertEqual(yaml_c.load(text), wanted, text)
            self.assertEqual(yaml_c.load_all(text), [] if wanted is None else [wanted], text)

    def test_documents(self) -> None:
        self.assertEqual(yaml_c.load_all(b"a\n---\n[b]\n---\n...\n"), ["a", ["b"], ""])
        with self.assertRaises(yaml_c.ManyDocuments) as caught:
            yaml_c.load(b"a\n--- b\n--- c\n")
        self.assertEqual(caught.exception.mark, Mark(2, 1, 0))
        self.assertEqual((caught.exception.line, caught.exception.problem), (2, "there is more than one document"))
        with self.assertRaises(yaml_c.ManyDocuments):
            yaml_c.compose(b"---\n---\n")

    def test_equal_keys(self) -> None:
        found = yaml_c.load(b"a: 1\nb: 2\na: 3\n")
        self.assertEqual(found, {"a": "3", "b": "2"})
        self.assertEqual(list(found), ["a", "b"])  # type: ignore[arg-type]

    def test_aliases(self) -> None:
        found: Any = yaml_c.load(b"- &x [a]\n- *x\n- &x {b: c}\n- *x\n")
        self.assertEqual(found, [["a"], ["a"], {"b": "c"}, {"b": "c"}])
        self.assertIs(found[0], found[1])
        self.assertIs(found[2], found[3])

    def test_cycles(self) -> None:
        found: Any = yaml_c.load(b"&x [a, {b: *x}]")
        self.assertIs(found[1]["b"], found)
        node: Any = yaml_c.compose(b"&x [a, {b: *x}]")
        self.assertIs(node.value[1].value[0][1], node)

    def test_keys(self) -> None:
        rows = [
            (b"a: 1\n? [b]\n: c\n", Mark(7, 1, 2)),
            (b"{a: b}: c", Mark(0, 0, 0)),
            (b"- &x []\n- {a: b, *x : c}\n", Mark(17, 1, 9)),
        ]
        for text, mark in rows:
            for call in (yaml_c.load, yaml_c.load_all):
                with self.assertRaises(yaml_c.KeyRefused) as caught:
                    call(text)
                self.assertEqual(caught.exception.mark, mark, text)
        self.assertTrue(issubclass(yaml_c.KeyRefused, ValueError))
        node: Any = yaml_c.compose(b"? [b]\n: c\n")
        self.assertEqual([it.value for it in node.value[0][0].value], ["b"])

    def test_the_texts_fault_comes_first(self) -> None:
        for call in (yaml_c.load, yaml_c.load_all):
            with self.assertRaises(yaml_c.ComposerFault) as caught:
                call(b"{[a]: b}\n---\n- *c\n")
            self.assertEqual((caught.exception.line, caught.exception.column), (3, 3))
        with self.assertRaises(yaml_c.ComposerFault):
            yaml_c.load(b"- a\n---\n- *c\n")
        with self.assertRaises(yaml_c.ComposerFault):
            yaml_c.compose_all(b"- &a b\n---\n- *a\n")
        with self.assertRaises(yaml_c.ComposerFault):
            yaml_c.load_all(b"- &a b\n---\n- *a\n")
        # the loader meets the alias before it comes to the fault of the parser
        with self.assertRaises(yaml_c.ComposerFault):
            yaml_c.load(b"*a : b\n---\n]")
        with self.assertRaises(yaml_c.ParserFault):
            yaml_c.load(b"a: b\n---\n]")

    def test_byte_order_marks(self) -> None:
        for text in ("\ufeffa: 1", "\ufeff--- a", "\ufeff", "a: \ufeff", "\ufeff\ufeffa"):
            for call in (yaml_c.load_all, yaml_c.parse, yaml_c.events, yaml_c.reformat):
                try:
                    wanted: Any = call(text.encode())  # type: ignore[operator]
                except yaml_c.YamlFault as fault:
                    with self.assertRaises(type(fault)):
                        call(text)  # type: ignore[operator]
                else:
                    self.assertEqual(call(text), wanted, text)  # type: ignore[operator]
        self.assertEqual(yaml_c.load("\ufeffa: 1"), {"a": "1"})

    def test_encodings(self) -> None:
        self.assertEqual(yaml_c.load("[\u00e9]".encode("utf-16-be"), encoding=Encoding.UTF16BE), ["\u00e9"])
        self.assertEqual(yaml_c.load("\ufeff[\u00e9]".encode("utf-16-le")), ["\u00e9"])
        with self.assertRaises(yaml_c.ArgumentRefused):
            yaml_c.load("a", encoding=Encoding.UTF16LE)
        with self.assertRaises(TypeError):
            yaml_c.load(None)  # type: ignore[arg-type]

    def test_depth(self) -> None:
        found: Any = yaml_c.load(b"[" * DEPTH + b"]" * DEPTH)
        node: Any = yaml_c.compose(b"[" * DEPTH + b"]" * DEPTH)
        for _ in range(DEPTH - 1):
            (found,), (node,) = found, node.value
        self.assertEqual((found, node.value), ([], []))
        self.assertEqual((node.start, node.end), (Mark(DEPTH - 1, 0, DEPTH - 1), Mark(DEPTH + 1, 0, DEPTH + 1)))


class Compose(unittest.TestCase):
    def test_nodes(self) -> None:
        node = yaml_c.compose(b"a: !t [b, 'c']\n'd': ! e\n")
        assert isinstance(node, MappingNode)
        self.assertEqual((node.tag, node.style), ("tag:yaml.org,2002:map", Style.BLOCK))
        self.assertEqual((node.start, node.end), (Mark(0, 0, 0), Mark(24, 2, 0)))
        (a, items), (d, e) = node.value
        assert isinstance(a, ScalarNode) and isinstance(items, SequenceNode) and isinstance(d, ScalarNode) and isinstance(e, ScalarNode)
        self.assertEqual((a.value, a.tag, a.style), ("a", "tag:yaml.org,2002:str", ScalarStyle.PLAIN))
        self.assertEqual((a.start, a.end), (Mark(0, 0, 0), Mark(1, 0, 1)))
        self.assertEqual((items.tag, items.style, len(items.value)), ("!t", Style.FLOW, 2))
        self.assertEqual((items.start, items.end), (Mark(3, 0, 3), Mark(14, 0, 14)))
        self.assertEqual((d.style, e.tag, e.value), (ScalarStyle.SINGLE_QUOTED, "tag:yaml.org,2002:str", "e"))
        self.assertEqual(repr(items), "<SequenceNode !t at line 1, column 4>")

    def test_whether_a_tag_is_written(self) -> None:
        rows = [
            ("1", True), ("!!str 1", False), ("'1'", True), ("! 1", False), ("!", False), ("[]", True), ("!!seq []", False),
            ("! {}", False), ("&x {}", True), ("&x !t {}", False), ("---\n", True),
        ]  # fmt: skip
        for text, implicit in rows:
            node: Any = yaml_c.compose(text)
            self.assertIs(node.implicit, implicit, text)
            self.assertIs(pickle.loads(pickle.dumps(node)).implicit, implicit, text)
        mark = Mark(0, 0, 0)
        self.assertIs(ScalarNode("!t", mark, mark, "a", ScalarStyle.PLAIN).implicit, True)
        self.assertIs(SequenceNode("!t", mark, mark, [], Style.FLOW, implicit=False).implicit, False)

    def test_copies(self) -> None:
        node: Any = yaml_c.compose(b"&x {a: [b, *x]}")
        made: Any = pickle.loads(pickle.dumps(node))
        self.assertIs(made.value[0][1].value[1], made)
        for one, other in ((made, node), (made.value[0][0], node.value[0][0]), (made.value[0][1], node.value[0][1])):
            self.assertEqual((one.tag, one.style, one.start, one.end), (other.tag, other.style, other.start, other.end))
        self.assertEqual((node.start, node.end), (Mark(0, 0, 0), Mark(15, 0, 15)))
        node.start = Mark(1, 2, 3)
        self.assertEqual(node.start, Mark(1, 2, 3))
        self.assertEqual(ScalarNode("!t", node.end, node.end, "a", ScalarStyle.PLAIN).end, node.end)

    def test_aliases(self) -> None:
        first, second = yaml_c.compose_all(b"- &x {a: b}\n- *x\n- &x c\n- *x\n---\nd\n")
        assert isinstance(first, SequenceNode)
        self.assertIs(first.value[0], first.value[1])
        self.assertIs(first.value[2], first.value[3])
        self.assertEqual(second.value, "d")
        self.assertIsNone(yaml_c.compose(b""))


class Check(unittest.TestCase):
    def test_texts(self) -> None:
        for text in (b"", "a: [b]", b"&x [*x]", b"[" * DEPTH + b"]" * DEPTH, b"{[a]: b}\n---\nc\n"):
            self.assertIsNone(yaml_c.check(text))  # type: ignore[func-returns-value]
        rows: list[tuple[Any, type[Exception]]] = [
            (b"[", yaml_c.ParserFault),
            (b"'", yaml_c.ScannerFault),
            (b"\xff", yaml_c.ReaderFault),
            (b"a\n---\n*b", yaml_c.ComposerFault),
            (b"[" * DEPTH, yaml_c.ParserFault),
            (3, TypeError),
        ]
        for text, wanted in rows:
            with self.assertRaises(wanted):
                yaml_c.check(text)

    def test_files(self) -> None:
        with tempfile.TemporaryDirectory() as folder:
            path = pathlib.Path(folder, "a.yaml")
            path.write_bytes(b"a: b\n")
            yaml_c.check(path)
            path.write_bytes(b"\0a")
            yaml_c.check(path, encoding=Encoding.UTF16BE)
            path.write_bytes(b"a: b: c\n")
            with self.assertRaises(yaml_c.ScannerFault) as caught:
                yaml_c.check(path)
            self.assertEqual((caught.exception.line, caught.exception.column), (1, 5))
            with self.assertRaises(FileNotFoundError):
                yaml_c.check(pathlib.Path(folder, "none"))
            with self.assertRaises(IsADirectoryError):
                yaml_c.check(pathlib.Path(folder))
            # a str is a text, also where a file has that name
            self.assertIsNone(yaml_c.check(os.fspath(path)))  # type: ignore[func-returns-value]


def told(node: Any) -> Any:
    """What `load` would give for a node; what is a key there is a str."""
    if isinstance(node, ScalarNode):
        return node.value
    if isinstance(node, SequenceNode):
        return [told(it) for it in node.value]
    return {told(key): told(value) for key, value in node.value}


@unittest.skipUnless(os.path.exists(ROWS), "the rows aren't here")
class Rows(unittest.TestCase):
    def test_refused_as_reloaded(self) -> None:
        refused = accepted = keys = 0
        for text, encoding in inputs():
            try:
                yaml_c.reload(text, encoding=encoding)
            except yaml_c.YamlFault as fault:
                refused += 1
                for call in (yaml_c.load, yaml_c.load_all, yaml_c.compose, yaml_c.compose_all, yaml_c.check):
                    with self.assertRaises(type(fault), msg=str(text)) as caught:
                        call(text, encoding=encoding)  # type: ignore[operator]
                    self.assertEqual(vars(caught.exception), vars(fault), text)
                continue
            accepted += 1
            yaml_c.check(text, encoding=encoding)
            nodes = yaml_c.compose_all(text, encoding=encoding)
            try:
                found = yaml_c.load_all(text, encoding=encoding)
            except yaml_c.KeyRefused:
                keys += 1
                continue
            if b"*" not in text:
                self.assertEqual([told(it) for it in nodes], found, text)
        self.assertGreater(min(refused, accepted), 300)
        self.assertGreater(keys, 5)


if __name__ == "__main__":
    unittest.main()
