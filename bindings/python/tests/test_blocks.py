"""The records, as the header has them, and the blocks that calls hand out."""

import ctypes
import os
import re
import struct
import threading
import unittest
from typing import Any
from unittest import mock

import yaml_c
from yaml_c import _calls, _library, _records

HERE = os.path.dirname(os.path.abspath(__file__))
HEADER = os.path.join(HERE, "..", "..", "c", "yaml_c.h")
CRATES = os.path.join(HERE, "..", "..", "..", "crates")
PROVED = [
    os.path.join(CRATES, crate, "specs", name)
    for crate, name in (
        ("yaml_round_answers", "EventOffsets.antt"),
        ("yaml_round_answers", "TokenOffsets.antt"),
        ("yaml_round_answers", "Offsets.antt"),
    )
]
RECORDS: dict[str, Any] = {
    "bytes": _library.Bytes,
    "mark": _library.MarkRecord,
    "settings": _library.SettingsRecord,
    "answer": _library.AnswerRecord,
    "parsed": _library.ParsedRecord,
    "level": _library.LevelRecord,
    "place": _library.PlaceRecord,
    "stand": _library.StandRecord,
}
CALLS = [
    lambda: yaml_c.reformat(b"a: [b, 'c']"),
    lambda: yaml_c.reload(b"&x a"),
    lambda: yaml_c.events(b"a"),
    lambda: yaml_c.same(b"a", b"b"),
    lambda: yaml_c.emit([yaml_c.StreamStart(), yaml_c.DocumentStart(), yaml_c.Scalar("a"), yaml_c.DocumentEnd(), yaml_c.StreamEnd()]),
    lambda: yaml_c.parse(b"%TAG !e! x\n--- !e!a b"),
    lambda: yaml_c.parse(b""),
    lambda: yaml_c.emit(yaml_c.parse(b"[a]")),
    lambda: yaml_c.load(b"{a: &x [b], c: *x}"),
    lambda: yaml_c.compose(b"&x [a, *x]"),
    lambda: yaml_c.check(b"a"),
    lambda: yaml_c.dump({"a": ["b"]}),
    lambda: yaml_c.safe_load(b"{a: &x [1], c: *x}"),
    lambda: list(yaml_c.safe_load_all("a\n---\n!!set {b}")),
    lambda: yaml_c.safe_dump({"a": [1, b"b"]}),
    lambda: yaml_c.safe_dump(["a" * 200_000] * 3),
]
REFUSED = [
    lambda: yaml_c.reformat(b"]"),
    lambda: yaml_c.reload(b"*a"),
    lambda: yaml_c.events(b"\xff"),
    lambda: yaml_c.same(b"a", b"["),
    lambda: yaml_c.emit([yaml_c.StreamEnd()]),
    lambda: yaml_c.parse(b"["),
    lambda: yaml_c.check(b"*a"),
    lambda: yaml_c.dump("a", settings=yaml_c.Settings(limit=0)),
    lambda: yaml_c.safe_dump(1, limit=0),
]
# What ends without an answer, though the library has given one; each returns events, texts or both.
ENDED = [
    lambda: yaml_c.safe_load(b"a: !!python/object:x {}"),
    lambda: yaml_c.safe_load(b"[a, b"),
    lambda: yaml_c.safe_load(b"a\n---\nb"),
    lambda: yaml_c.safe_load(b"- *x"),
    lambda: yaml_c.safe_load(b"{a: 1, a: 2}", unique_keys=True),
    lambda: next(yaml_c.safe_load_all(b"{[a]: b}")),
    lambda: yaml_c.load(b"{[a]: b}"),
]


class Layout(unittest.TestCase):
    def test_records_are_the_headers(self) -> None:
        with open(HEADER, encoding="utf-8") as file:
            header = file.read()
        sizes = {name: int(size) for name, size in re.findall(r"sizeof\(yaml_c_(\w+)\) == (\d+)", header)}
        places = re.findall(r"offsetof\(yaml_c_(\w+), (\w+)\) == (\d+)", header)
        self.assertGreater(len(places), 30)
        for name, record in RECORDS.items():
            self.assertEqual(ctypes.sizeof(record), sizes[name], name)
        for name, field, place in places:
            if name in RECORDS:
                found = getattr(RECORDS[name], "is_" if field == "is" else field)
                self.assertEqual(found.offset, int(place), (name, field))

    def test_the_headers_places_are_proved(self) -> None:
        with open(HEADER, encoding="utf-8") as file:
            stated = re.findall(r"offsetof\(yaml_c_(\w+), (\w+)\) == (\d+)", file.read())
        places = {(record, field): int(place) for record, field, place in stated}
        proved: dict[tuple[str, str], int] = {}
        for name in PROVED:
            with open(name, encoding="utf-8") as file:
                rows = re.findall(r"LiesAt (\w+)\.the_type \d+ \(λ d\. d\.(\w+)\) (\d+)", file.read())
            proved |= {(record, field): int(place) for record, field, place in rows}
        self.assertGreater(len(proved), 50)
        self.assertEqual({it: at for it, at in places.items() if it in proved}, {it: at for it, at in proved.items() if at})
        # the length of a list lies after its pointer
        lengths = {it: at for it, at in places.items() if it not in proved}
        self.assertEqual(lengths.pop(("bytes", "len")), 8)
        behind = {(record, field): proved[record, field.removesuffix("_len")] + 8 for record, field in lengths}
        self.assertEqual(lengths, behind)

    def test_events_are_the_headers(self) -> None:
        with open(HEADER, encoding="utf-8") as file:
            places = re.findall(r"offsetof\(yaml_c_event, (\w+)\) == (\d+)", file.read())
        numbers = ["style", "encoding", "implicit", "quoted_implicit", "has_anchor", "has_tag", "has_version", "major", "minor"]
        wanted = {name: 4 * at for at, name in enumerate(numbers, 1)}
        wanted |= {name: 40 + 16 * at for at, name in enumerate(["directives", "anchor", "tag", "value"])}
        wanted |= {"start": _records.START, "end": _records.END}
        self.assertEqual((_records.ANCHOR, _records.VALUE), (wanted["anchor"], wanted["value"]))
        self.assertEqual({name: int(place) for name, place in places}, wanted)
        self.assertEqual((struct.calcsize(_library.EVENT), struct.calcsize(_library.DIRECTIVE)), (168, 32))


class Blocks(unittest.TestCase):
    def freed_by(self, call: Any) -> tuple[list[int], list[int]]:
        """The blocks that the calls of the library hand out, and those that are freed."""
        handed: list[int] = []
        freed: list[int] = []
        release, free = _library.release, _library.free

        def seen(record: Any) -> None:
            handed.extend(at for at, _ in record.blocks())
            free(record)

        def counted(at: int) -> None:
            freed.append(at)
            release(at)

        with mock.patch.object(_library, "free", seen), mock.patch.object(_library, "release", counted):
            call()
        return handed, freed

    def test_each_is_freed_once(self) -> None:
        for number, call in enumerate(CALLS):
            handed, freed = self.freed_by(call)
            self.assertEqual(handed, freed, number)
        self.assertEqual(len(self.freed_by(CALLS[0])[1]), 1)
        # events, directives and their texts
        self.assertEqual(len(self.freed_by(CALLS[5])[1]), 3)

    def test_each_of_a_refused_call_is_freed_once(self) -> None:
        for call in REFUSED:
            with self.assertRaises(yaml_c.YamlFault):
                call()

            def caught() -> None:
                try:
                    call()
                except yaml_c.YamlFault:
                    pass

            handed, freed = self.freed_by(caught)
            self.assertEqual(handed, freed)
            self.assertEqual(len(handed), 1)

    def test_each_of_a_call_that_ends_later_is_freed_once(self) -> None:
        for number, call in enumerate(ENDED):

            def caught() -> None:
                with self.assertRaises(yaml_c.YAMLError):
                    call()

            handed, freed = self.freed_by(caught)
            self.assertEqual(sorted(handed), sorted(freed), number)
            self.assertGreater(len(handed), 1, number)

    def test_documents_that_nobody_asks_for(self) -> None:
        def begun() -> None:
            documents = yaml_c.safe_load_all(b"a\n---\nb\n---\nc")
            self.assertEqual(next(documents), "a")

        handed, freed = self.freed_by(begun)
        self.assertEqual(handed, freed)
        self.assertEqual(len(handed), 2)

    def test_events_of_a_refused_text(self) -> None:
        for text, encoding, wanted in [(b"a: [b", 0, 4), (b"- a\n- 'b", 0, 3), (b"a\xff", 1, 2), (b"a", 4, -1), (b"a", -1, -1)]:
            parsed, answer = _library.new_parsed(), _library.new_answer()
            self.assertEqual(_library.parse(text, len(text), encoding, ctypes.byref(parsed), ctypes.byref(answer)), wanted)
            self.assertEqual((parsed.blocks(), len(answer.blocks())), ([], int(wanted > 0)), text)
            _library.free(answer)

    def test_nothing_is_kept(self) -> None:
        if "asan" in os.environ.get("LD_PRELOAD", ""):
            self.skipTest("the heap's own numbers aren't there under AddressSanitizer")
        heap = ctypes.CDLL(None)
        if not hasattr(heap, "mallinfo2"):
            self.skipTest("this C library doesn't tell how much of the heap is in use")
        heap.mallinfo2.restype = type("Heap", (ctypes.Structure,), {"_fields_": [(f"it{i}", ctypes.c_size_t) for i in range(10)]})

        def used() -> int:
            return heap.mallinfo2().it7

        def many(times: int) -> None:
            for _ in range(times):
                for call in CALLS:
                    call()
                for call in REFUSED:
                    with self.assertRaises(yaml_c.YamlFault):
                        call()
                for call in ENDED:
                    with self.assertRaises(yaml_c.YAMLError):
                        call()

        many(20)
        before = used()
        many(400)
        self.assertLess(used() - before, 16_000)

    def test_long_blocks_are_copied_in_parts(self) -> None:
        text = b"%TAG !e! x\n--- [!e!a, 'b', \"c\"]\n"
        wanted, written = yaml_c.parse(text), yaml_c.reformat(text)
        for size in (1, 7, 152, 1 << 20):
            with mock.patch.object(_library, "_AT_ONCE", size):
                self.assertEqual((yaml_c.parse(text), yaml_c.reformat(text)), (wanted, written), size)

    def test_want_of_memory(self) -> None:
        def refuses(answer: Any) -> int:
            found = ctypes.cast(answer, ctypes.POINTER(_library.AnswerRecord)).contents
            found.kind = 1
            problem = ctypes.create_string_buffer(b"out of memory", 13)
            found.problem.at, found.problem.len = ctypes.addressof(problem), 13
            self.kept = problem
            return 1

        with self.assertRaises(yaml_c.MemoryFault) as caught:
            _calls.ask(refuses, ())
        self.assertEqual(str(caught.exception), "memory error: out of memory")
        self.assertIsInstance(caught.exception, MemoryError)
        self.assertEqual((caught.exception.line, caught.exception.context), (None, None))


class Threads(unittest.TestCase):
    def test_calls_side_by_side(self) -> None:
        text = b"".join(b"- {name: alpha %d, tags: [a, 'b']}\n" % i for i in range(300))
        wanted, lines = yaml_c.reformat(text), yaml_c.events(text)
        wrong: list[str] = []

        def work() -> None:
            for _ in range(20):
                if yaml_c.reformat(text) != wanted or yaml_c.events(text) != lines:
                    wrong.append("another answer")

        threads = [threading.Thread(target=work) for _ in range(8)]
        for it in threads:
            it.start()
        for it in threads:
            it.join()
        self.assertEqual(wrong, [])


if __name__ == "__main__":
    unittest.main()
