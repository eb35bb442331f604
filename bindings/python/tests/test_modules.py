"""Which modules are read, and when."""

import os
import subprocess
import sys
import unittest

import yaml_c

TOLD = """
import sys
before = set(sys.modules)
import yaml_c
{call}
print(*sorted({{"dataclasses", "datetime", "inspect", "base64", "yaml_c._events", "yaml_c._explain"}} & set(sys.modules) - before))
"""


class Modules(unittest.TestCase):
    def read_by(self, call: str) -> list[str]:
        """Which of the modules that few need are read by a call."""
        told = subprocess.run([sys.executable, "-c", TOLD.format(call=call)], capture_output=True, check=True, cwd=os.getcwd(), text=True)
        return told.stdout.split()

    def test_what_few_need_is_read_by_them(self) -> None:
        for call in ("", "yaml_c.load('a: [b]')", "yaml_c.safe_load('a: 1')", "yaml_c.safe_dump({'a': 1})"):
            self.assertEqual(self.read_by(call), [], call)
        self.assertEqual(self.read_by("yaml_c.safe_load('2001-01-01')"), ["datetime"])
        self.assertEqual(self.read_by("yaml_c.safe_dump(b'a')"), ["base64"])

    def test_each_name_is_there(self) -> None:
        for name in yaml_c.__all__:
            self.assertIs(getattr(yaml_c, name), vars(yaml_c)[name])
        self.assertLessEqual(set(yaml_c.__all__), set(dir(yaml_c)))
        with self.assertRaises(AttributeError):
            getattr(yaml_c, "nothing")


if __name__ == "__main__":
    unittest.main()
