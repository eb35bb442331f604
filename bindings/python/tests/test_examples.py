"""Examples that documents of YAML 1.1's types and of PyYAML give, by `safe_load` and `safe_dump`, and beside PyYAML where that is
installed."""

import datetime
import importlib
import math
import unittest
from datetime import timedelta, timezone
from typing import Any

import yaml_c

from .objects import are_same

NAMED = ["a"]
DAY, TIME = datetime.date, datetime.datetime
UTC, FIVE_BEHIND = timezone.utc, timezone(timedelta(hours=-5))
IMAGE = (
    b"GIF89a\x0c\x00\x0c\x00\x84\x00\x00\xff\xff\xf7\xf5\xf5\xee\xe9\xe9\xe5fff\x00\x00\x00\xe7\xe7\xe7^^^\xf3\xf3\xed\x8e\x8e\x8e"
    b"\xe0\xe0\xe0\x9f\x9f\x9f\x93\x93\x93\xa7\xa7\xa7\x9e\x9e\x9eiiiccc\xa3\xa3\xa3\x84\x84\x84\xff\xfe\xf9\xff\xfe\xf9"
)
ENCODED = (
    "R0lGODlhDAAMAIQAAP//9/X17unp5WZmZgAAAOfn515eXvPz7Y6OjuDg4J+fn5",
    "OTk6enp56enmlpaWNjY6Ojo4SEhP/++f/++Q==",
)
# A text, and its documents.
LOADS: list[tuple[str, list[Any]]] = [
    ("\n- Hesperiidae\n- Papilionidae\n- Apatelodidae\n- Epiplemidae\n", [["Hesperiidae", "Papilionidae", "Apatelodidae", "Epiplemidae"]]),
    ("hello: \u041f\u0440\u0438\u0432\u0435\u0442!", [{"hello": "\u041f\u0440\u0438\u0432\u0435\u0442!"}]),
    ("---\nname: The Set of Gauntlets 'Pauraegen'\ndescription: >\n    A set of handgear with sparks that crackle\n    across its knuckleguards.\n"
     "---\nname: The Set of Gauntlets 'Paurnen'\ndescription: >\n  A set of gauntlets that gives off a foul,\n  acrid odour yet remains untarnished.\n",
     [{"name": "The Set of Gauntlets 'Pauraegen'", "description": "A set of handgear with sparks that crackle across its knuckleguards.\n"},
      {"name": "The Set of Gauntlets 'Paurnen'", "description": "A set of gauntlets that gives off a foul, acrid odour yet remains untarnished.\n"}]),
    ("none: [~, null]\nbool: [true, false, on, off]\nint: 42\nfloat: 3.14159\nlist: [LITE, RES_ACID, SUS_DEXT]\ndict: {hp: 13, sp: 5}\n",
     [{"none": [None, None], "bool": [True, False, True, False], "int": 42, "float": 3.14159,
       "list": ["LITE", "RES_ACID", "SUS_DEXT"], "dict": {"hp": 13, "sp": 5}}]),
    ("# an implicit document\n- Ada\n- APL\n", [["Ada", "APL"]]), ("---\n- Ada\n...\n# nothing\n", [["Ada"]]),
    ("- Ada\n---\n- C\n...\n---\n- Forth\n", [["Ada"], ["C"], ["Forth"]]), ("--- a\n--- b\n---\n", ["a", "b", None]), ("# nothing\n", []),
    ("- - HTML\n  - LaTeX\n-\n  - C\n  - C++\n", [[["HTML", "LaTeX"], ["C", "C++"]]]),
    ("- 1.1\n- - 2.1\n  - 2.2\n- - - 3.1\n    - 3.2\n    - 3.3\n", [[1.1, [2.1, 2.2], [[3.1, 3.2, 3.3]]]]),
    ("left hand:\n- Ring of Teleportation\n- Ring of Speed\nright hand:\n  - Ring of Resist Fire\n",
     [{"left hand": ["Ring of Teleportation", "Ring of Speed"], "right hand": ["Ring of Resist Fire"]}]),
    ("base damage: [4,4]\nplus to-hit: 12\nplus to-ac: 0\n", [{"base damage": [4, 4], "plus to-hit": 12, "plus to-ac": 0}]),
    ("- hero:\n    hp: 34\n    level: 4\n- orc:\n    hp: 12\n", [[{"hero": {"hp": 34, "level": 4}}, {"orc": {"hp": 12}}]]),
    ("? a\n: 1\n? !!str b\n? |\n  c\n: [2]\n", [{"a": 1, "b": None, "c\n": [2]}]),
    ("{ str: 15, con: 16, wis, 'x':y, \"z\": , }", [{"str": 15, "con": 16, "wis": None, "x": "y", "z": None}]),
    ("[a: 1, [b], {c: d}, ? e : f]", [[{"a": 1}, ["b"], {"c": "d"}, {"e": "f"}]]),
    ("plain: Scroll of Remove Curse\nsingle-quoted: 'EASY_''KNOW'\ndouble-quoted: \"\\u003f\\t\\x41\\\n  B\"\nliteral: |  # kept\n  by hjw\n     __\n  .\n"
     "folded: >\n  It removes\n  all curses.\n\n  Heavy\n   ones\n  not.\n",
     [{"plain": "Scroll of Remove Curse", "single-quoted": "EASY_'KNOW", "double-quoted": "?\tAB", "literal": "by hjw\n   __\n.\n",
       "folded": "It removes all curses.\nHeavy\n ones\nnot.\n"}]),
    ("clip: |\n  a\n\nstrip: |-\n  a\n\nkeep: |+\n  a\n\nindent: |1\n  a\nfold: >-\n  a\n  b\n\n",
     [{"clip": "a\n", "strip": "a", "keep": "a\n\n", "indent": " a\n", "fold": "a b"}]),
    ("a plain\n  scalar # of\n", ["a plain scalar"]), ("'two\n  lines\n\n  more'", ["two lines\nmore"]),
    ("left hand: &A\n  name: The Bastard Sword of Eowyn\n  weight: 30\nright hand: *A\n",
     [dict.fromkeys(("left hand", "right hand"), {"name": "The Bastard Sword of Eowyn", "weight": 30})]),
    ("- &a a\n- &b [*a]\n- {*a : *b}\n", [["a", NAMED, {"a": NAMED}]]),
    ("boolean: !!bool \"true\"\ninteger: !!int \"3\"\nfloat: !!float \"3.14\"\n", [{"boolean": True, "integer": 3, "float": 3.14}]),
    ("%YAML 1.1\n%TAG !t! tag:yaml.org,2002:\n--- !t!str 1\n--- !<tag:yaml.org,2002:int> '1'\n", ["1", 1]),
    ("canonical: yes\nanswer: NO\nlogical: True\noption: on\nbut:\n    y: is a string\n    n: is a string\n",
     [{"canonical": True, "answer": False, "logical": True, "option": True, "but": {"y": "is a string", "n": "is a string"}}]),
    ("canonical: 685230\ndecimal: +685_230\noctal: 02472256\nhexadecimal: 0x_0A_74_AE\nbinary: 0b1010_0111_0100_1010_1110\nsexagesimal: 190:20:30\n",
     [dict.fromkeys(("canonical", "decimal", "octal", "hexadecimal", "binary", "sexagesimal"), 685230)]),
    ("canonical: 6.8523015e+5\nexponential: 685.230_15e+03\nfixed: 685_230.15\nsexagesimal: 190:20:30.15\nnegative infinity: -.inf\nnot a number: .NaN\n",
     [{"canonical": 685230.15, "exponential": 685230.15, "fixed": 685230.15, "sexagesimal": 685230.15, "negative infinity": -math.inf,
       "not a number": math.nan}]),
    ("empty:\ncanonical: ~\nenglish: null\n~: null key\nsparse:\n  - ~\n  - 2nd entry\n  -\n  - Null\n",
     [{"empty": None, "canonical": None, "english": None, None: "null key", "sparse": [None, "2nd entry", None, None]}]),
    ("canonical: 2001-12-15T02:59:43.1Z\nvalid iso8601: 2001-12-14t21:59:43.10-05:00\nspace separated: 2001-12-14 21:59:43.10 -5\n"
     "no time zone (Z): 2001-12-15 2:59:43.10\ndate (00:00:00Z): 2002-12-14\n",
     [{"canonical": TIME(2001, 12, 15, 2, 59, 43, 100000, UTC), "valid iso8601": TIME(2001, 12, 14, 21, 59, 43, 100000, FIVE_BEHIND),
       "space separated": TIME(2001, 12, 14, 21, 59, 43, 100000, FIVE_BEHIND), "no time zone (Z)": TIME(2001, 12, 15, 2, 59, 43, 100000),
       "date (00:00:00Z)": DAY(2002, 12, 14)}]),
    ("Bestiary: !!omap\n  - aardvark: African pig-like ant eater. Ugly.\n  - anteater: South-American ant eater. Two species.\n"
     "Numbers: !!omap [ one: 1, two: 2, three : 3 ]\n",
     [{"Bestiary": [("aardvark", "African pig-like ant eater. Ugly."), ("anteater", "South-American ant eater. Two species.")],
       "Numbers": [("one", 1), ("two", 2), ("three", 3)]}]),
    ("Block tasks: !!pairs\n  - meeting: with team.\n  - meeting: with boss.\nFlow tasks: !!pairs [ meeting: with team, meeting: with boss ]\n",
     [{"Block tasks": [("meeting", "with team."), ("meeting", "with boss.")], "Flow tasks": [("meeting", "with team"), ("meeting", "with boss")]}]),
    ("baseball players: !!set\n  ? Mark McGwire\n  ? Sammy Sosa\nbaseball teams: !!set { Boston Red Sox, Detroit Tigers }\n",
     [{"baseball players": {"Mark McGwire", "Sammy Sosa"}, "baseball teams": {"Boston Red Sox", "Detroit Tigers"}}]),
    ("Block style: !!map\n  Clark : Evans\nFlow style: !!map { Clark: Evans }\n", [dict.fromkeys(("Block style", "Flow style"), {"Clark": "Evans"})]),
    ("Block style: !!seq\n- Mercury   # Rotates - no light/dark sides.\n- Venus\nFlow style: !!seq [ Mercury, Venus ]\n",
     [dict.fromkeys(("Block style", "Flow style"), ["Mercury", "Venus"])]),
    ("string: abcd\nnumber: !!str 2002-04-28\nescaped: !!str \"\\\"1\\\"\"\n", [{"string": "abcd", "number": "2002-04-28", "escaped": '"1"'}]),
    ("- &CENTER { x: 1, 'y': 2 }\n- &LEFT { x: 0, 'y': 2 }\n- &BIG { r: 10 }\n- &SMALL { r: 1 }\n- x: 1\n  'y': 2\n  r: 10\n  label: center/big\n"
     "- << : *CENTER\n  r: 10\n  label: center/big\n- << : [ *CENTER, *BIG ]\n  label: center/big\n- << : [ *BIG, *LEFT, *SMALL ]\n  x: 1\n  label: center/big\n",
     [[{"x": 1, "y": 2}, {"x": 0, "y": 2}, {"r": 10}, {"r": 1}] + [{"x": 1, "y": 2, "r": 10, "label": "center/big"}] * 4]),
    (f"canonical: !!binary \"\\\n  {ENCODED[0]}\\\n  {ENCODED[1]}\"\ngeneric: !!binary |\n  {ENCODED[0]}\n  {ENCODED[1]}\n",
     [dict.fromkeys(("canonical", "generic"), IMAGE)]),
    ("!!python/tuple [1]", []), ("a: !monster {name: Cave spider}", []), ("!!binary \"\u00e9\"", []), ("? [a]\n: b", []), ("<<: 1", []),
]  # fmt: skip
# An object, arguments of a dump, and its text.
DUMPS: list[tuple[Any, dict[str, Any], str]] = [
    ({"name": "Silenthand Olleander", "race": "Human", "traits": ["ONE_HAND", "ONE_EYE"]}, {},
     "name: Silenthand Olleander\nrace: Human\ntraits:\n- ONE_HAND\n- ONE_EYE\n"),
    (list(range(12)), {"width": 20, "indent": 4, "default_flow_style": True}, "[0, 1, 2, 3, 4, 5, 6,\n    7, 8, 9, 10, 11]\n"),
    (list(range(5)), {"default_flow_style": True}, "[0, 1, 2, 3, 4]\n"), (list(range(3)), {"default_flow_style": False}, "- 0\n- 1\n- 2\n"),
    ({"b": {"c": 3, "a": 1}}, {"default_flow_style": None}, "b: {a: 1, c: 3}\n"), ({"b": 1, "a": 2}, {"sort_keys": False}, "b: 1\na: 2\n"),
    ("\u041f\u0440\u0438\u0432\u0435\u0442", {"allow_unicode": True}, "\u041f\u0440\u0438\u0432\u0435\u0442\n"), ([1, 2], {"explicit_start": True, "explicit_end": True}, "---\n- 1\n- 2\n...\n"),
    ({"when": DAY(2002, 12, 14), "at": TIME(2001, 12, 14, 21, 59, 43, 100000, FIVE_BEHIND)}, {},
     "at: 2001-12-14 21:59:43.100000-05:00\nwhen: 2002-12-14\n"),
    ([None, True, 685230, 6.8523015e5, math.inf, "yes", "1", "~", ""], {}, "- null\n- true\n- 685230\n- 685230.15\n- .inf\n- 'yes'\n- '1'\n- '~'\n- ''\n"),
    ({"b", "a"}, {}, "!!set\na: null\nb: null\n"), (b"GIF89a", {}, "!!binary |\n  R0lGODlh\n"),
]  # fmt: skip


def installed() -> Any:
    """PyYAML with libyaml, where it is installed."""
    try:
        yaml = importlib.import_module("yaml")
    except ImportError:
        return None
    return yaml if yaml.__with_libyaml__ else None


class Examples(unittest.TestCase):
    def test_loads(self) -> None:
        for text, wanted in LOADS:
            if wanted or text.startswith("#"):
                found = list(yaml_c.safe_load_all(text))
                with self.subTest(text):
                    self.assertTrue(are_same(found, wanted), (text, found))
            else:
                with self.assertRaises(yaml_c.ConstructorError, msg=text):
                    list(yaml_c.safe_load_all(text))

    def test_dumps(self) -> None:
        for value, named, wanted in DUMPS:
            self.assertEqual(yaml_c.safe_dump(value, **named), wanted)
        self.assertEqual(yaml_c.safe_dump_all([1, 2, 3], explicit_start=True), "--- 1\n--- 2\n--- 3\n")

    def test_beside_the_installed(self) -> None:
        yaml = installed()
        if yaml is None:
            self.skipTest("PyYAML with libyaml isn't here")
        for text, wanted in LOADS:
            for loader in (yaml.SafeLoader, yaml.CSafeLoader):
                try:
                    found = list(yaml.load_all(text, Loader=loader))
                except yaml.constructor.ConstructorError as error:
                    with self.assertRaises(yaml_c.ConstructorError, msg=text) as caught:
                        list(yaml_c.safe_load_all(text))
                    mark = error.problem_mark or error.context_mark
                    place = (caught.exception.line, caught.exception.column)
                    self.assertEqual(place, (mark.line + 1, mark.column + 1), text)
                else:
                    self.assertTrue(are_same(list(yaml_c.safe_load_all(text)), found), (text, found))
        for value, named, wanted in DUMPS:
            self.assertEqual(yaml.dump(value, Dumper=yaml.CSafeDumper, **named), wanted)
            self.assertTrue(are_same(yaml.load(wanted, Loader=yaml.CSafeLoader), yaml_c.safe_load(wanted)), wanted)


if __name__ == "__main__":
    unittest.main()
