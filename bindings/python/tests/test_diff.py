"""Where two texts part."""

import unittest

import yaml_c
from yaml_c import (
    Alias,
    DocumentStart,
    Encoding,
    ItemStep,
    KeyStep,
    MappingStart,
    Mark,
    Scalar,
    SequenceEnd,
    StreamEnd,
    ValueStep,
)


class Contents(unittest.TestCase):
    def test_equal(self) -> None:
        for first, second in [(b"a: [b]", b"{a: [b]}"), ("", b"# c"), (b"! a", "! a\n")]:
            self.assertIsNone(yaml_c.diff(first, second))

    def test_place(self) -> None:
        found = yaml_c.diff(b"a: 1\nservice:\n  ports: [80, 443]\n", b"{a: 1, service: {ports: [80, 444]}}")
        assert found is not None
        self.assertEqual(found.document, 0)
        self.assertEqual(found.path, (ValueStep(1, "service"), ValueStep(0, "ports"), ItemStep(1)))
        self.assertEqual((found.first_mark, found.second_mark), (Mark(28, 2, 14), Mark(29, 0, 29)))
        self.assertEqual((found.first, found.second), (Scalar, Scalar))

    def test_steps(self) -> None:
        rows = [
            (b"a: b", b"c: b", (KeyStep(0),)),
            (b"? [a]\n: b", b"? [a]\n: c", (ValueStep(0, None),)),
            (b"? [a]\n: b", b"? [c]\n: b", (KeyStep(0), ItemStep(0))),
            ('"1:2:]": [a]', '"1:2:]": [b]', (ValueStep(0, "1:2:]"), ItemStep(0))),
            ('"": {\u00e9: a}', '"": {\u00e9: b}', (ValueStep(0, ""), ValueStep(0, "\u00e9"))),
            ("[" + "a, " * 12 + "b]", "[" + "a, " * 12 + "c]", (ItemStep(12),)),
            (b"a", b"b", ()),
        ]
        for first, second, path in rows:
            found = yaml_c.diff(first, second)
            self.assertEqual(found and found.path, path, first)

    def test_kinds(self) -> None:
        rows = [
            (b"[a]", b"[a, b]", SequenceEnd, Scalar),
            (b"[&x a, *x]", b"[&x a, {}]", Alias, MappingStart),
            (b"a", b"a\n--- b", StreamEnd, DocumentStart),
        ]
        for first, second, one, other in rows:
            found = yaml_c.diff(first, second)
            self.assertEqual(found and (found.first, found.second), (one, other), first)
            turned = yaml_c.diff(second, first)
            self.assertEqual(turned and (turned.first, turned.second), (other, one), first)

    def test_encodings(self) -> None:
        both = {"first_encoding": Encoding.UTF16LE, "second_encoding": Encoding.UTF16BE}
        self.assertIsNone(yaml_c.diff(b"a\0", b"\0a", **both))
        with self.assertRaises(yaml_c.ArgumentRefused):
            yaml_c.diff(b"a", b"a", second_encoding=4)  # type: ignore[arg-type]

    def test_faults(self) -> None:
        for first, second, is_second in [(b"[", b"]", False), (b"a", b"]", True)]:
            with self.assertRaises(yaml_c.ParserFault) as met:
                yaml_c.diff(first, second)
            self.assertEqual(met.exception.second, is_second)


class Documents(unittest.TestCase):
    def test_equal(self) -> None:
        rows = [(b"[&x a, *x]", b"[&y a, *y]"), (b"&r [*r]", b"&s [*s]"), (b"a: 1", b'a: "1"'), (b"&x a", b"a")]
        for first, second in rows:
            self.assertIsNone(yaml_c.diff(first, second, documents=True))

    def test_sharing(self) -> None:
        found = yaml_c.diff(b"- [b]\n- &x a\n- *x", b"[[b], a, a]", documents=True)
        assert found is not None
        self.assertEqual((found.document, found.path), (0, (ItemStep(1),)))
        self.assertEqual((found.first_mark, found.second_mark), (Mark(8, 1, 2), Mark(6, 0, 6)))

    def test_documents(self) -> None:
        found = yaml_c.diff(b"a\n--- b", b"a\n--- c", True)
        self.assertEqual(found and (found.document, found.path), (1, ()))

    def test_faults(self) -> None:
        for first, second, is_second in [(b"*x", b"]", False), (b"a", b"*x", True)]:
            with self.assertRaises(yaml_c.ComposerFault) as met:
                yaml_c.diff(first, second, documents=True)
            self.assertEqual(met.exception.second, is_second)


if __name__ == "__main__":
    unittest.main()
