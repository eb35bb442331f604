#!/usr/bin/env python3
"""Feeds the program texts that are changed at random, and judges what it answers: `make fuzz SECONDS=..`.

    tools/fuzz.py [--seconds N] [--seed S] [--number N]

The texts are the inputs of crates/yaml_cli_vectors/stdin and the benchmark's pieces, cut, joined and changed; none has more
than some 2,000 bytes. A text depends on the seed and its number alone: with --number that one is tried again. PROGRAM names a
program that is built already; else `make program` proves and builds it. JOBS: texts at a time (1).

Judged of each text:

    every command   ends by itself, with status 0 and no fault, or 1, one line that tells the fault, and nothing written
    events, fmt     accept the same texts, and tell the same fault
    fmt             its answer is `same` as the text, and rewriting it changes no byte, under settings that change too
    fmt --pretty    its answer is `same` as the text
    norm            its answer is `same` as the text, and is that of its canonical text and its own, under settings that change
    diff            of the text and its first half: nothing exactly where they are `same`, a path exactly where they aren't; with
                    --documents: where `docs` writes one text for both; with --all: a list with its count
    docs            rewriting its answer changes no byte; it accepts only what events accepts
    events, docs    the lines of the events, or the fault's line, are those of libyaml's parser, and the fault's line of docs
                    is its loader's, where a C compiler and libyaml's header are there

Where libyaml answers otherwise as docs/DIFFERENCES.md says, or only refusing is compared, the last lines count it by its reason. A text that is judged wrong is kept in out/fuzz/, told at once, and the script
fails at the end.
"""
import argparse
import collections
import hashlib
import json
import os
import random
import re
import shlex
import subprocess
import sys
import tempfile
import time
from concurrent.futures import FIRST_COMPLETED, ThreadPoolExecutor, wait

TOOLS = os.path.dirname(os.path.abspath(__file__))
TOP = os.path.dirname(TOOLS)
KEPT = f"{TOP}/out/fuzz"
LONGEST = 2000
LIMIT = 60
# How often a wrong text is tried with something taken out.
TRIES = 300
sys.path.insert(0, f"{TOP}/bench")

# What is put into texts, beside bytes.
WORDS = (
    "- |? |: |, |[|]|{|}|#|&a |*a |!|!!str |!<x> |!e!a |'|\"|''|\\|\\x41|\\u0041|\\U0001F600|\\\n|%|%41|%C3%A9|%YAML 1.1\n|"
    "%TAG !e! tag:x\n|---|--- |...|\n|\n\n|\r|\r\n|\t|  |    |||>|>-|>2|>+|-1|a|key: |: \n|\x85|\u2028|\u2029|\ufeff|"
    "\u00e9|\u4e2d|\U0001f600|\x7f|\x00|\x01|~|<<|=|0"
).split("|") + ["|", "|-", "|+", "|1"]

SETTINGS = {
    "indent": ["1", "2", "3", "9", "10"],
    "width": ["5", "7", "19", "40", "2147483647"],
    "break": ["lf", "cr", "crlf"],
    "encoding": ["utf8", "utf16le", "utf16be"],
}

FAULT = re.compile(rb"yaml_cli: (?:(?:first|second) input: )?((?:reader|scanner|parser|composer|writer|emitter) error[^\n]*)\n")

Ran = collections.namedtuple("Ran", "status output errors")


def corpus():
    """The inputs of the vectors, and pieces of the benchmark's."""
    import inputs

    found = {it(3).encode() for it in (*inputs.PIECES.values(), inputs.json)}
    with open(f"{TOP}/crates/yaml_cli_vectors/stdin", encoding="utf-8") as file:
        for line in file:
            row = json.loads(line)
            for name in ("input", "input2"):
                if isinstance(row.get(name), str) and len(row[name]) <= 2 * LONGEST:
                    found.add(bytes.fromhex(row[name]))
    return sorted(it[:LONGEST] for it in found)


def place(rng, text):
    return rng.randrange(len(text) + 1)


def accepted_first(judge, others):
    """The texts, those that the program accepts ten times: most changed texts are rejected, and show less."""
    found = []
    for number, text in enumerate(others):
        is_accepted = judge.ours("events", judge.file(number, "yaml", text)).status == 0
        judge.forget(number)
        found += [text] * (10 if is_accepted else 1)
    return found


def cut(rng, text):
    """Two places of a text, mostly near each other."""
    at = place(rng, text)
    length = rng.choice([1, 1, 2, 4, 16, 64, len(text)])
    return at, min(len(text), at + rng.randrange(length + 1))


def changed_once(rng, text, others):
    at, end = cut(rng, text)
    way = rng.randrange(10)
    if way == 0:
        return text[:at] + text[end:]
    if way == 1:
        return text[:end] + text[at:]
    if way == 2:
        where = place(rng, text)
        return text[:where] + text[at:end] + text[where:]
    if way == 3 and text:
        where = rng.randrange(len(text))
        return text[:where] + bytes([rng.randrange(256)]) + text[where + 1 :]
    if way == 4:
        other = rng.choice(others)
        start, stop = cut(rng, other)
        return text[:at] + other[start:stop] + text[end:]
    if way == 5:
        return text[:at] + rng.choice(others)
    if way == 6:
        lines = text.split(b"\n")
        where = rng.randrange(len(lines))
        lines[where] = b" " * rng.randrange(5) + lines[where].lstrip(b" ")
        return b"\n".join(lines)
    return text[:at] + rng.choice(WORDS).encode() + text[at if way < 9 else end :]


def text_of(seed, number, others):
    """The text of a number."""
    rng = random.Random(f"{seed} {number}")
    text = rng.choice(others)
    for _ in range(rng.choice([1, 1, 1, 1, 2, 2, 3, 5, 8, 20])):
        text = changed_once(rng, text, others)[:LONGEST]
    if rng.randrange(20) == 0:
        order, mark = rng.choice([("utf-16le", b"\xff\xfe"), ("utf-16be", b"\xfe\xff")])
        text = mark + text.decode("utf-8", "replace").encode(order)
    return text[:LONGEST]


def settings_of(seed, number):
    """The words that set how the text of a number is written: none for every other one."""
    rng, words = random.Random(f"{seed} {number} settings"), []
    if rng.randrange(2):
        return words
    indent = 2
    for name, values in SETTINGS.items():
        # A width is greater than two indents, or it is refused.
        fitting = [it for it in values if name != "width" or int(it) > 2 * indent]
        if rng.randrange(2):
            words += [f"--{name}={rng.choice(fitting)}"]
            indent = int(words[-1].split("=")[1]) if name == "indent" else indent
    return words + ["--ascii"] * rng.randrange(2)


class Wrong(Exception):
    """What is wrong with an answer."""


def run(*words):
    try:
        ran = subprocess.run(words, stdin=subprocess.DEVNULL, capture_output=True, timeout=LIMIT)
    except subprocess.TimeoutExpired:
        raise Wrong(f"{' '.join(words[1:-1])}: no end within {LIMIT} seconds") from None
    return Ran(ran.returncode, ran.stdout, ran.stderr)


def fault_of(what, ran):
    """The words of a refusal, or None of an answer; anything else is wrong."""
    if ran.status == 0 and ran.errors in (b"", b"yaml_cli: canonical form was written\n"):
        return None
    found = FAULT.fullmatch(ran.errors)
    if ran.status != 1 or not found or ran.output:
        raise Wrong(f"{what}: status {ran.status}, errors {ran.errors[:300]!r}, {len(ran.output)} bytes written")
    return found[1]


def wrong_unless(is_right, text):
    if not is_right:
        raise Wrong(text)


# Where libyaml answers otherwise on purpose (docs/DIFFERENCES.md): of the decoded text, our fault and libyaml's.
EMPTY_KEY = re.compile(r"\?(?:[ \t\r\n\x85\u2028\u2029]|#[^\r\n\x85\u2028\u2029]*)*[:,\]]")


BREAKS = re.compile("[\r\n\x85\u2028\u2029]")


ESCAPES = re.compile(r"(?:%[0-9A-Fa-f]{2})+")


def spells_none(escapes):
    """Whether escaped bytes aren't UTF-8, or have a byte 0."""
    spelt = bytes.fromhex(escapes.replace("%", ""))
    try:
        return "\0" in spelt.decode()
    except UnicodeDecodeError:
        return True


def decoded(text):
    for mark, order in [(b"\xff\xfe", "utf-16le"), (b"\xfe\xff", "utf-16be"), (b"\xef\xbb\xbf", "utf-8")]:
        if text.startswith(mark):
            return text[len(mark) :].decode(order, "replace")
    return text.decode("utf-8", "replace")


def why_otherwise(text):
    """Why libyaml may answer the text otherwise, or an empty text."""
    characters = decoded(text)
    if re.search(f"{BREAKS.pattern}\ufeff", characters):
        return "U+FEFF at the front of a line"
    if "[" in characters and EMPTY_KEY.search(characters):
        return "the token behind an empty key of a flow pair"
    if any(1024 < len(line.encode()) and not line.isascii() for line in BREAKS.split(characters)):
        return "a simple key has 1,024 bytes at most, and for libyaml 1,024 characters"
    if "!" in characters and any(map(spells_none, ESCAPES.findall(characters))):
        return "escapes in a tag that spell no character, or a byte 0"
    return ""


# A scalar that has a value, or quotes, and the tag `!`.
LONE_TAG = re.compile(rb"^(=VAL(?: &\S+)?) <!>( (?:['\"|>]|:.))", re.M)


def as_ours(theirs):
    """libyaml's lines as we would write them, and which difference that met."""
    untagged = LONE_TAG.sub(rb"\1\2", theirs)
    return untagged, "a scalar with a value and the tag `!`" if untagged != theirs else ""


def compared_by_refusal(ours):
    """Why only libyaml's refusing is compared with our fault, or an empty text."""
    if ours.startswith(b"reader error"):
        return "refused alike: the text is decoded whole, first"
    if b"did not find expected node content" in ours:
        return "refused alike: one table for all lists of tokens"
    return ""


class Judge:
    """The program, libyaml's events where it is there, and a folder."""

    def __init__(self, folder, program):
        self.folder, self.program, self.peer = folder, os.path.abspath(program), f"{folder}/events"
        compiler = shlex.split(os.environ.get("CC", "cc"))
        words = [*compiler, "-O2", "-o", self.peer, f"{TOOLS}/events.c", "-lyaml"]
        try:
            ran = subprocess.run(words, capture_output=True)
            is_there = ran.returncode == 0
        except OSError:
            is_there = False
        if not is_there:
            print("no C compiler with libyaml's header: nothing is compared with libyaml", file=sys.stderr, flush=True)
            self.peer = ""

    def file(self, number, name, text):
        path = f"{self.folder}/{number}.{name}"
        with open(path, "wb") as file:
            file.write(text)
        return path

    def ours(self, *words):
        return run(self.program, *words)

    def is_same(self, what, one, other):
        ran = self.ours("same", one, other)
        wrong_unless(ran == Ran(0, b"equal\n", b""), f"{what} isn't `same` as its input: {ran}")

    def with_libyaml(self, text, path, events, fault, docs):
        """In which way libyaml's answer is like ours, or why it isn't."""
        if not self.peer:
            return ""
        try:
            return self.alike(path, events, fault, docs)
        except Wrong:
            why = why_otherwise(text)
            if not why:
                raise
            return f"otherwise: {why}"

    def alike(self, path, events, fault, docs):
        """In which way libyaml's answer is like ours."""
        theirs = run(self.peer, path)
        wrong_unless(theirs.status in (0, 1), f"libyaml's events end with status {theirs.status}")
        wrong_unless(theirs.status == events.status, f"libyaml says {theirs.errors or 'yes'!r}, and we {fault or 'yes'!r}")
        if fault is None:
            found, why = as_ours(theirs.output)
            wrong_unless(found == events.output, f"libyaml's events are {theirs.output!r}, ours {events.output!r}")
            why = why or self.loader_alike(path, docs)
            return f"events alike but for {why}" if why else "events alike"
        if theirs.errors == fault + b"\n":
            return "refused alike"
        why = compared_by_refusal(fault)
        wrong_unless(why, f"libyaml says {theirs.errors!r}, and we {fault!r}")
        return why

    def loader_alike(self, path, docs):
        """The documents load as libyaml's do, or are refused with its fault. Answers which difference that met."""
        theirs, ours = run(self.peer, "-d", path), fault_of("docs", docs)
        if b"found duplicate anchor" in theirs.errors:
            return "an anchor that occurs again, which libyaml's loader refuses"
        wanted = (0, b"") if ours is None else (1, ours + b"\n")
        wrong_unless((theirs.status, theirs.errors) == wanted, f"libyaml's loader says {theirs.errors!r}, and docs {ours!r}")
        return ""

    def formatted(self, number, path, settings):
        """The two forms of an input that is accepted."""
        canonical, pretty = self.ours("fmt", *settings, path), self.ours("fmt", "--pretty", *settings, path)
        for what, ran in [("fmt", canonical), ("fmt --pretty", pretty)]:
            wrong_unless(fault_of(what, ran) is None, f"{what} refuses what events accepts: {ran.errors!r}")
        again, styled = (self.file(number, name, ran.output) for name, ran in [("fmt", canonical), ("pretty", pretty)])
        self.is_same("the canonical text", path, again)
        self.is_same("the pretty text", path, styled)
        repeated = self.ours("fmt", *settings, again)
        wrong_unless(repeated == Ran(0, canonical.output, b""), "rewriting the canonical text changes it")
        self.normalized(number, path, again, settings)

    def normalized(self, number, path, canonical, settings):
        """The normal form of an input that is accepted; an indent that fmt takes as 2 is none of norm's."""
        settings = [it for it in settings if it not in ("--indent=1", "--indent=10")]
        ran = self.ours("norm", *settings, path)
        wrong_unless((ran.status, ran.errors) == (0, b""), f"norm refuses what events accepts: {ran.errors!r}")
        normal = self.file(number, "norm", ran.output)
        self.is_same("the normal form", path, normal)
        for what, it in [("the normal form", normal), ("the canonical text", canonical)]:
            wrong_unless(self.ours("norm", *settings, it) == ran, f"the normal form of {what} is another one")

    def parted(self, number, text, path):
        """Where a text and its first half part is told where they aren't the same."""
        half = self.file(number, "half", text[: len(text) // 2])
        same, ran = self.ours("same", path, half), self.ours("diff", path, half)
        wanted = {b"equal\n": 0, b"different\n": 1}.get(same.output, 2)
        told = (ran.status, bool(ran.output), bool(ran.errors))
        wrong_unless(told == (wanted, wanted == 1, wanted == 2), f"same says {same}, and diff {ran}")
        docs, ran = [self.ours("docs", it) for it in (path, half)], self.ours("diff", "--documents", path, half)
        wanted = 2 if any(it.status for it in docs) else int(docs[0].output != docs[1].output)
        told = (ran.status, bool(ran.output), bool(ran.errors))
        wrong_unless(told == (wanted, wanted == 1, wanted == 2), f"docs says {docs}, and diff --documents {ran}")
        self.listed(path, half, same, docs)

    def listed(self, path, half, same, docs):
        """All places where they differ are listed, and counted, where they aren't the same; documents have to load then."""
        ran = self.ours("diff", "--all", path, half)
        wanted = {b"equal\n": 0, b"different\n": 1}.get(same.output, 2)
        wanted = 2 if wanted and any(it.status for it in docs) else wanted
        told = (ran.status, bool(ran.output), bool(ran.errors))
        wrong_unless(told == (wanted, wanted == 1, wanted == 2), f"same says {same}, docs {docs}, and diff --all {ran}")
        *lines, last = ran.output.split(b"\n")[:-1] or [b""]
        count = sum(not it.startswith((b"  - ", b"  + ")) for it in lines)
        wrong_unless(last == (b"" if wanted != 1 else b"1 difference" if count == 1 else b"%d differences" % count), f"diff --all tells {ran}")

    def loaded(self, number, docs, settings):
        """The loaded documents' text."""
        if fault_of("docs", docs) is not None:
            is_composer = docs.errors.startswith(b"yaml_cli: composer error")
            wrong_unless(is_composer, f"docs refuses what events accepts: {docs.errors!r}")
            return "not loaded"
        again = self.ours("docs", *settings, self.file(number, "docs", docs.output))
        wrong_unless(again == Ran(0, docs.output, b""), "rewriting the loaded documents changes them")
        return "loaded"

    def refused(self, path, fault):
        """Every command refuses what events refuses; docs may meet a fault of its own before."""
        for words in (["fmt"], ["fmt", "--pretty"], ["docs"]):
            told = fault_of(words[0], self.ours(*words, path))
            is_loader = words == ["docs"] and told is not None and told.startswith(b"composer error")
            wrong_unless(told == fault or is_loader, f"{' '.join(words)} says {told!r}, and events {fault!r}")
        ran = self.ours("norm", path)
        wrong_unless((ran.status, ran.output) == (1, b"") and ran.errors, f"norm says {ran}, and events {fault!r}")

    def judge(self, number, text, settings):
        """What was found of a text."""
        path = self.file(number, "yaml", text)
        events = self.ours("events", path)
        fault = fault_of("events", events)
        self.parted(number, text, path)
        if fault is not None:
            self.refused(path, fault)
            found = ["refused", self.with_libyaml(text, path, events, fault, None)]
        else:
            self.formatted(number, path, settings)
            docs = self.ours("docs", *settings, path)
            found = ["accepted", self.loaded(number, docs, settings)]
            found.append(self.with_libyaml(text, path, events, fault, docs))
        return [it for it in found if it]

    def forget(self, number):
        for name in ("yaml", "fmt", "pretty", "docs", "norm", "half"):
            if os.path.exists(f"{self.folder}/{number}.{name}"):
                os.remove(f"{self.folder}/{number}.{name}")


def judged(judge, number, text, settings):
    """What was found of a text, and what is wrong with it."""
    try:
        return judge.judge(number, text, settings), ""
    except Wrong as wrong:
        return [], f"{' '.join(settings) or 'usual settings'}: {wrong}"
    finally:
        judge.forget(number)


def shrunk(judge, number, text, settings):
    """A text that is wrong too, shorter where one is found soon: pieces are taken out, ever smaller ones."""
    size, tries = len(text) // 2, TRIES
    while size and tries:
        at = 0
        while at < len(text) and tries:
            shorter, tries = text[:at] + text[at + size :], tries - 1
            if judged(judge, number, shorter, settings)[1]:
                text = shorter
            else:
                at += size
        size //= 2
    return text


def one(judge, seed, number, others):
    """What was found of the text with that number, and what is wrong with it; a wrong text is made short."""
    text, settings = text_of(seed, number, others), settings_of(seed, number)
    found, wrong = judged(judge, number, text, settings)
    if wrong:
        text = shrunk(judge, number, text, settings)
        wrong = judged(judge, number, text, settings)[1] or wrong
    return text, found, wrong


def keep(number, seed, text, wrong):
    os.makedirs(KEPT, exist_ok=True)
    path = f"{KEPT}/{hashlib.sha256(text).hexdigest()[:12]}.yaml"
    with open(path, "wb") as file:
        file.write(text)
    print(f"fuzz: WRONG: seed {seed}, number {number}, {len(text)} bytes, kept as {os.path.relpath(path)}: {wrong}", flush=True)


def compiled_program():
    if "PROGRAM" in os.environ:
        return os.environ["PROGRAM"]
    if subprocess.run([f"{TOOLS}/program.py"]).returncode:
        raise SystemExit(2)
    return f"{TOP}/crates/yaml_cli/out/yaml_cli"


def rounds(judge, said, others, jobs):
    """Texts until the time is over; what was found of each."""
    end, number = time.monotonic() + said.seconds, 0
    with ThreadPoolExecutor(jobs) as pool:
        running = {}
        while running or time.monotonic() < end:
            while len(running) < 2 * jobs and time.monotonic() < end:
                running[pool.submit(one, judge, said.seed, number, others)] = number
                number += 1
            for future in wait(running, return_when=FIRST_COMPLETED).done:
                yield running.pop(future), *future.result()


def main():
    said = argparse.ArgumentParser()
    said.add_argument("--seconds", type=float, default=60)
    said.add_argument("--seed", default=str(random.SystemRandom().randrange(10**9)))
    said.add_argument("--number", type=int)
    said = said.parse_args()
    program, others = compiled_program(), corpus()
    print(f"fuzz: seed {said.seed}, {len(others)} texts to begin with", flush=True)
    counts, wrong_ones = collections.Counter(), 0
    with tempfile.TemporaryDirectory(prefix="fuzz-") as folder:
        judge = Judge(folder, program)
        others = accepted_first(judge, others)
        if said.number is not None:
            every = [(said.number, *one(judge, said.seed, said.number, others))]
        else:
            every = rounds(judge, said, others, int(os.environ.get("JOBS", "1")))
        for number, text, found, wrong in every:
            counts.update(["texts", *found])
            if wrong:
                wrong_ones += 1
                keep(number, said.seed, text, wrong)
    for words, number in sorted(counts.items()):
        print(f"{number:8} {words}")
    print(f"fuzz: seed {said.seed}: {counts['texts']} texts, {wrong_ones} wrong")
    return bool(wrong_ones) or not counts["texts"]


if __name__ == "__main__":
    sys.exit(main())
