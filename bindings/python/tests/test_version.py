"""The version, the names of the package, and their types."""

import inspect
import os
import re
import typing
import unittest

import yaml_c

HERE = os.path.dirname(os.path.abspath(__file__))
TOP = os.path.join(HERE, "..", "..", "..")


class Version(unittest.TestCase):
    @unittest.skipUnless(os.path.exists(os.path.join(TOP, "CHANGELOG.md")), "the repository isn't here")
    def test_it_is_the_repositorys(self) -> None:
        with open(os.path.join(TOP, "crates", "yaml_cli_program", "src", "version.rt"), encoding="utf-8") as file:
            stated = re.search(r'"([0-9.]+) ', file.read())
        with open(os.path.join(TOP, "CHANGELOG.md"), encoding="utf-8") as file:
            newest = re.search(r"^## (\S+)", file.read(), re.MULTILINE)
        assert stated and newest
        self.assertEqual((yaml_c.__version__, newest[1]), (stated[1], stated[1]))


class Names(unittest.TestCase):
    def test_all_are_there_and_typed(self) -> None:
        self.assertTrue(os.path.exists(os.path.join(os.path.dirname(yaml_c.__file__), "py.typed")))
        calls = [getattr(yaml_c, it) for it in yaml_c.__all__ if inspect.isfunction(getattr(yaml_c, it))]
        self.assertEqual(len(calls), 21)
        for call in calls:
            typed = typing.get_type_hints(call)
            self.assertEqual(set(typed), {*inspect.signature(call).parameters, "return"}, call.__name__)
            self.assertTrue(call.__doc__, call.__name__)


if __name__ == "__main__":
    unittest.main()
