"""Texts as str, bytes, paths and open files; streams that texts are written to."""

import io
import os
import pathlib
import tempfile
import unittest
from collections.abc import Callable
from typing import Any

import yaml_c
from yaml_c import Encoding

TEXT = "a: \u00e9\nb: [1, x]\n"
CALLS: list[Callable[[Any], Any]] = [
    yaml_c.load, yaml_c.parse, yaml_c.normalize, yaml_c.reformat, yaml_c.events, yaml_c.reload, yaml_c.check,
    yaml_c.safe_load, yaml_c.load_all, lambda text: list(yaml_c.safe_load_all(text)),
    lambda text: repr(yaml_c.compose(text)), lambda text: repr(yaml_c.compose_all(text)),
    lambda text: yaml_c.same(text, TEXT), lambda text: yaml_c.diff(TEXT, text),
]  # fmt: skip


class Broken:
    """A stream whose `read` raises, or whose `write` does."""

    def read(self) -> str:
        raise OSError("the disk is gone")

    def write(self, text: Any) -> None:
        raise OSError("the disk is full")


class Inputs(unittest.TestCase):
    def test_all_kinds(self) -> None:
        data = TEXT.encode()
        with tempfile.TemporaryDirectory() as folder:
            path = pathlib.Path(folder, "some.yaml")
            path.write_bytes(data)
            for call in CALLS:
                wanted = call(TEXT)
                for given in (data, bytearray(data), memoryview(data), path, io.StringIO(TEXT), io.BytesIO(data)):
                    self.assertEqual(call(given), wanted, type(given))
                with open(path, encoding="utf-8") as text, open(path, "rb") as binary, open(path, "rb", 0) as raw:
                    self.assertEqual([call(text), call(binary), call(raw)], [wanted] * 3)

    def test_files_are_read_from_where_they_are(self) -> None:
        stream = io.StringIO("skipped\na: 1\n")
        stream.readline()
        self.assertEqual(yaml_c.safe_load(stream), {"a": 1})
        self.assertEqual(stream.read(), "")
        self.assertIsNone(yaml_c.safe_load(stream))

    def test_what_is_no_text(self) -> None:
        class Odd:
            def read(self) -> int:
                return 3

        for call in CALLS:
            for wrong in (None, 3, ["a"], Odd()):
                with self.assertRaises(TypeError):
                    call(wrong)

    def test_a_stream_that_raises(self) -> None:
        for call in CALLS:
            with self.assertRaisesRegex(OSError, "the disk is gone"):
                call(Broken())
        with self.assertRaises(FileNotFoundError):
            yaml_c.safe_load(pathlib.Path("there", "is", "none"))
        with self.assertRaises(IsADirectoryError):
            yaml_c.load(pathlib.Path(os.curdir))

    def test_a_stream_is_read_at_once(self) -> None:
        stream = io.StringIO("a\n---\nb\n")
        documents = yaml_c.safe_load_all(stream)
        stream.close()
        self.assertEqual(list(documents), ["a", "b"])

    def test_encodings(self) -> None:
        for codec in ("utf-16", "utf-16-le", "utf-16-be", "utf-8-sig"):
            data = "a: \u00e9".encode(codec)
            encodings = {"utf-16-le": Encoding.UTF16LE, "utf-16-be": Encoding.UTF16BE}
            encoding = encodings.get(codec, Encoding.ANY)
            self.assertEqual(yaml_c.safe_load(io.BytesIO(data), encoding=encoding), {"a": "\u00e9"}, codec)
        for data in ("a: b".encode("utf-16-le"), "a: b".encode("utf-16-be")):
            # without a mark it is UTF-8, in which a byte 0 can't be
            with self.assertRaises(yaml_c.ReaderFault):
                yaml_c.safe_load(data)
        with self.assertRaises(yaml_c.ReaderFault):
            yaml_c.safe_load(b"\xff\xfea\x00\x00\xd8")
        self.assertEqual(yaml_c.load("[a]".encode("utf-16-le"), encoding="UTF-16LE"), ["a"])
        for encoding in (Encoding.UTF16LE, "utf-16-be"):
            with self.assertRaises(yaml_c.ArgumentRefused):
                yaml_c.safe_load(io.StringIO("a"), encoding=encoding)
        for wrong in ("latin-1", "utf-16", "none"):
            with self.assertRaises(yaml_c.ArgumentRefused):
                yaml_c.load(b"a", encoding=wrong)

    def test_characters_that_are_none(self) -> None:
        for text in ("a: \ud800", "'\udfff'", "a: \0", "\x01"):
            for call in CALLS:
                with self.assertRaises(yaml_c.ReaderFault):
                    call(text)


class Outputs(unittest.TestCase):
    def calls(self) -> list[Callable[..., Any]]:
        return [yaml_c.dump, yaml_c.safe_dump]

    def test_streams(self) -> None:
        value = {"a": "\u00e9", "b": ["x"]}
        for call in self.calls():
            wanted = call(value)
            self.assertIsInstance(wanted, str)
            text, data = io.StringIO(), io.BytesIO()
            self.assertIsNone(call(value, text))
            self.assertIsNone(call(value, data))
            self.assertEqual((text.getvalue(), data.getvalue()), (wanted, wanted.encode()))
            with tempfile.TemporaryDirectory() as folder:
                path = pathlib.Path(folder, "a.yaml")
                with open(path, "w", encoding="utf-8") as file:
                    call(value, stream=file)
                self.assertEqual(path.read_text("utf-8"), wanted)
                with tempfile.NamedTemporaryFile(dir=folder) as named:
                    call(value, named)
                    named.seek(0)
                    self.assertEqual(named.read(), wanted.encode())
        for call in (yaml_c.dump_all, yaml_c.safe_dump_all):
            text = io.StringIO()
            self.assertIsNone(call(["a", "b"], text))
            self.assertEqual(text.getvalue(), call(["a", "b"]))

    def test_encodings(self) -> None:
        for call in self.calls():
            wanted = call(["x", "\u00e9"])
            for encoding, codec in (
                ("utf-8", "utf-8"), ("UTF8", "utf-8"), (Encoding.UTF8, "utf-8"), (Encoding.UTF16BE, "utf-16-be"),
                ("utf-16-le", "utf-16-le"), ("utf-16-be", "utf-16-be"),
            ):  # fmt: skip
                found = call(["x", "\u00e9"], encoding=encoding)
                mark = b"" if codec == "utf-8" else "\ufeff".encode(codec)
                self.assertEqual(found, mark + wanted.encode(codec), encoding)
                data = io.BytesIO()
                self.assertIsNone(call(["x", "\u00e9"], data, encoding=encoding))
                self.assertEqual(data.getvalue(), found)
            for wrong in ("latin-1", "none", "utf-32", "utf-16"):
                with self.assertRaises(yaml_c.ArgumentRefused):
                    call("a", encoding=wrong)

    def test_nothing_is_written(self) -> None:
        for call in self.calls():
            for wrong in (object(), ["a" * 100_000, object()], {"a": [{"b": {1j}}]}, "\ud800", ["x", "a\udc80"]):
                text = io.StringIO()
                with self.assertRaises(yaml_c.RepresenterError):
                    call(wrong, text)
                self.assertEqual(text.getvalue(), "")
            with self.assertRaisesRegex(OSError, "the disk is full"):
                call(["a"], Broken())
            with self.assertRaises(TypeError):
                call("a", yaml_c.Settings())


if __name__ == "__main__":
    unittest.main()
