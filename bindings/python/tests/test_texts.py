"""Texts in, texts out."""

import doctest
import unittest

import yaml_c
from yaml_c import Encoding, Form, LineBreak, Settings, _construct, _diff, _documents, _dump, _engine, _nodes, _represent

PRETTY = Settings(canonical=False)
MANY = b"".join(b"- {name: alpha %d, tags: [a, 'b'], text: \"c\\td\"}\n" % i for i in range(5000))


class Reformat(unittest.TestCase):
    def test_forms(self) -> None:
        self.assertEqual(yaml_c.reformat(b'["a", "b"]'), b'---\n[\n  "a",\n  "b",\n]\n')
        self.assertEqual(yaml_c.reformat(b"foo"), b'---\n! "foo"\n')
        self.assertEqual(yaml_c.reformat(b"k:\n  - x\n", PRETTY), b"k:\n- x\n")
        self.assertEqual(yaml_c.reformat(b""), b"")

    def test_form_is_told(self) -> None:
        self.assertEqual(yaml_c.reformat_with_form(b"a", PRETTY), (b"a\n", Form.PRETTY))
        self.assertEqual(yaml_c.reformat_with_form(b"a"), (b'---\n! "a"\n', Form.CANONICAL))
        # in pretty form it wouldn't read back
        self.assertEqual(yaml_c.reformat_with_form(b"!", PRETTY), (b'---\n! ""\n', Form.CANONICAL))

    def test_settings(self) -> None:
        rows = [
            (b'"aaaa bbbb cccc dddd"', Settings(width=10), b'---\n"aaaa bbbb cccc\n  dddd"\n'),
            (b'["a"]', Settings(indent=4), b'---\n[\n    "a",\n]\n'),
            (b"foo", Settings(line_break=LineBreak.CR), b'---\r! "foo"\r'),
            (b"foo", Settings(line_break=LineBreak.CRLF), b'---\r\n! "foo"\r\n'),
            (b"foo", Settings(line_break=LineBreak.ANY), b'---\n! "foo"\n'),
            (b"\xc3\xa9", Settings(unicode=False), b'---\n! "\\xE9"\n'),
            (b"\xc3\xa9", Settings(), b'---\n! "\xc3\xa9"\n'),
            (b"[]", Settings(encoding=Encoding.UTF16LE), b"\xff\xfe-\0-\0-\0\n\0[\0]\0\n\0"),
            (b"[]", Settings(encoding=Encoding.UTF16BE), b"\xfe\xff\0-\0-\0-\0\n\0[\0]\0\n"),
            (b"foo", Settings(limit=12), b'---\n! "foo"\n'),
        ]
        for text, settings, wanted in rows:
            self.assertEqual(yaml_c.reformat(text, settings), wanted, settings)

    def test_input_encodings(self) -> None:
        self.assertEqual(yaml_c.reformat(b"a\0", encoding=Encoding.UTF16LE), b'---\n! "a"\n')
        self.assertEqual(yaml_c.reformat(b"\0a", encoding=Encoding.UTF16BE), b'---\n! "a"\n')
        self.assertEqual(yaml_c.reformat(b"\xff\xfea\0"), b'---\n! "a"\n')
        self.assertEqual(yaml_c.reformat(b"\xef\xbb\xbf--- a", encoding=Encoding.UTF8), b'---\n! "--- a"\n')

    def test_kinds_of_texts(self) -> None:
        for text in (b"a: \xc3\xa9", bytearray(b"a: \xc3\xa9"), memoryview(b"a: \xc3\xa9"), "a: \u00e9"):
            self.assertEqual(yaml_c.reformat(text, PRETTY), b"a: \xc3\xa9\n", type(text))
        # the last byte of a longer block
        self.assertEqual(yaml_c.reformat(memoryview(b"xxab")[2:], PRETTY), b"ab\n")
        for wrong in (None, 3, ["a"]):
            with self.assertRaises(TypeError):
                yaml_c.reformat(wrong)  # type: ignore[arg-type]
        with self.assertRaises(yaml_c.ReaderFault):
            yaml_c.reformat("\ud800")
        with self.assertRaises(yaml_c.ArgumentRefused):
            yaml_c.reformat("a", encoding=Encoding.UTF16LE)

    def test_byte_zero(self) -> None:
        self.assertEqual(yaml_c.reformat(b'"a\\0b"'), b'---\n"a\\0b"\n')
        self.assertEqual(yaml_c.events(b'"a\\0b"'), b'+STR\n+DOC\n=VAL "a\\0b\n-DOC\n-STR\n')

    def test_long_texts(self) -> None:
        canonical = yaml_c.reformat(MANY)
        self.assertEqual(canonical.count(b'? ! "name"'), 5000)
        self.assertEqual(yaml_c.reformat(canonical), canonical)
        self.assertTrue(yaml_c.same(MANY, canonical))
        self.assertTrue(yaml_c.same(MANY, yaml_c.reformat(MANY, PRETTY)))


class Normalize(unittest.TestCase):
    def test_one_text_for_a_content(self) -> None:
        wanted = b"a:\n- 1\n- 'two'\nb: |\n  x\n  y\nc: ''\n"
        for text in (b"{a: [1, 'two'], b: \"x\\ny\\n\", c: ''}", b"a:\n  - 1\n  - \"two\" # why\nb: |\n    x\n    y\nc: \"\"", wanted):
            self.assertEqual(yaml_c.normalize(text), wanted)
        self.assertNotEqual(yaml_c.normalize(b"a: 1"), yaml_c.normalize(b"a: '1'"))
        self.assertEqual(yaml_c.normalize(""), b"")
        self.assertIs(yaml_c.norm, yaml_c.normalize)
        # its plain text would be nothing at all
        self.assertTrue(yaml_c.same(yaml_c.normalize("!"), "!"))

    def test_settings(self) -> None:
        self.assertEqual(yaml_c.normalize("{a: {b: c}}", Settings(indent=4, canonical=True)), b"a:\n    b: c\n")
        self.assertEqual(yaml_c.normalize("{a: {b: c}}", Settings(indent=4, canonical=False)), b"a:\n    b: c\n")
        self.assertEqual(yaml_c.normalize("\u00e9", Settings(unicode=False)), b'! "\\xE9"\n')
        self.assertEqual(yaml_c.normalize("a: b", Settings(line_break=LineBreak.CRLF)), b"a: b\r\n")
        self.assertEqual(yaml_c.normalize(b"a\0", Settings(encoding=Encoding.UTF16BE), encoding=Encoding.UTF16LE), b"\xfe\xff\0a\0\n")
        self.assertEqual(yaml_c.normalize("foo", Settings(limit=4)), b"foo\n")

    def test_faults(self) -> None:
        for text, kind in ((b"a: \xff", yaml_c.ReaderFault), (b"a: 'b", yaml_c.ScannerFault), (b"a: [b", yaml_c.ParserFault)):
            with self.assertRaises(kind):
                yaml_c.normalize(text, Settings(limit=0))
        with self.assertRaises(yaml_c.WriterFault):
            yaml_c.normalize("foo", Settings(limit=3))
        with self.assertRaises(yaml_c.ArgumentRefused):
            yaml_c.normalize("a", encoding=Encoding.UTF16LE)

    def test_many(self) -> None:
        normal = yaml_c.normalize(MANY)
        self.assertTrue(yaml_c.same(MANY, normal))
        self.assertEqual(yaml_c.normalize(normal), normal)
        self.assertEqual(yaml_c.normalize(yaml_c.reformat(MANY)), normal)


class Others(unittest.TestCase):
    def test_reload(self) -> None:
        wanted = b'---\n!!seq [\n  &id001 !!str "b",\n  *id001,\n]\n'
        self.assertEqual(yaml_c.reload(b"- &x b\n- *x\n"), wanted)
        self.assertEqual(yaml_c.reload(b"[a]", Settings(indent=3, line_break=LineBreak.CR)), b'---\r!!seq [\r   !!str "a",\r]\r')
        self.assertEqual(yaml_c.reload(b"a\0", encoding=Encoding.UTF16LE), b'---\n!!str "a"\n')

    def test_events(self) -> None:
        self.assertEqual(yaml_c.events(b""), b"+STR\n-STR\n")
        wanted = b"+STR\n+DOC\n+SEQ &a\n=VAL :b\n=VAL 'c\n=ALI *a\n-SEQ\n-DOC\n-STR\n"
        self.assertEqual(yaml_c.events(b"&a [b, 'c', *a]"), wanted)
        self.assertEqual(yaml_c.events(b"\0#", encoding=Encoding.UTF16BE), b"+STR\n-STR\n")

    def test_same(self) -> None:
        self.assertIs(yaml_c.same(b"{a: b}", b"a: b"), True)
        self.assertIs(yaml_c.same(b"foo", b"'foo'"), False)
        self.assertIs(yaml_c.same(b"", b"# nothing\n"), True)
        self.assertIs(yaml_c.same(b"a\0", "a", first_encoding=Encoding.UTF16LE), True)
        self.assertIs(yaml_c.same("a", b"\0a", second_encoding=Encoding.UTF16BE), True)

    def test_documented_examples(self) -> None:
        finder = doctest.DocTestFinder(exclude_empty=True)
        modules = (yaml_c, _construct, _diff, _documents, _dump, _engine, _nodes, _represent)
        tests = [it for module in modules for it in finder.find(module) if it.examples]
        self.assertGreater(len(tests), 12)
        runner = doctest.DocTestRunner()
        for it in tests:
            self.assertEqual(runner.run(it).failed, 0, it.name)


if __name__ == "__main__":
    unittest.main()
