"""The inputs of the rows that the program replays, by parse and emit."""

import json
import os
import unittest
from collections.abc import Iterator

import yaml_c
from yaml_c import Encoding, Settings

ROWS = os.path.join(os.path.dirname(os.path.abspath(__file__)), "..", "..", "..", "crates", "yaml_cli_vectors", "stdin")
ENCODINGS = {"any": Encoding.ANY, "utf8": Encoding.UTF8, "utf16le": Encoding.UTF16LE, "utf16be": Encoding.UTF16BE}


def inputs() -> Iterator[tuple[bytes, Encoding]]:
    """Each input once, and how it is read."""
    found = set()
    with open(ROWS, encoding="utf-8") as rows:
        for line in rows:
            row = json.loads(line)
            if isinstance(row.get("input"), str):
                found.add((bytes.fromhex(row["input"]), ENCODINGS[row.get("from", "any")]))
    yield from sorted(found)


@unittest.skipUnless(os.path.exists(ROWS), "the rows aren't here")
class Rows(unittest.TestCase):
    def test_emitted_again(self) -> None:
        number = 0
        for text, encoding in inputs():
            try:
                found = yaml_c.parse(text, encoding=encoding)
            except yaml_c.YamlFault:
                continue
            number += 1
            for settings in (Settings(), Settings(canonical=False)):
                written = yaml_c.emit(found, settings)
                self.assertTrue(yaml_c.same(written, text, second_encoding=encoding), (text, written))
        self.assertGreater(number, 500)

    def test_refused_as_the_lines_are(self) -> None:
        number = 0
        for text, encoding in inputs():
            try:
                yaml_c.parse(text, encoding=encoding)
            except yaml_c.YamlFault as fault:
                number += 1
                with self.assertRaises(type(fault)) as caught:
                    yaml_c.events(text, encoding=encoding)
                self.assertEqual(vars(caught.exception), vars(fault), text)
            else:
                yaml_c.events(text, encoding=encoding)
        self.assertGreater(number, 300)


if __name__ == "__main__":
    unittest.main()
