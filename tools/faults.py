#!/usr/bin/env python3
"""Runs the program where memory, reads, writes and opens go wrong, and judges each run: `make faults`.

    tools/faults.py [WORD..]      the cases whose names have one of the words; none: all

PROGRAM names a program that is built already; else `make program` proves and builds it. JOBS: runs at a time (1). It needs
Linux with glibc, a C compiler (CC) and python3; `tools/faults.c` is put before the C library.

Each case is a command line with its input. It is run as it is first, which tells its answer and how many allocations, reads,
writes and opens it makes. Then each of these goes wrong in turn:

    each allocation refused, alone, and with all that follow
    each read    failing, moving one byte, moving one byte before the next one fails, interrupted once, interrupted 999 times
                 (the last that is tried again) and 1,000 times; and all of them moving one byte
    each write   in the same ways, and taking no byte
    each open    failing, interrupted

and some runs meet what goes wrong by itself: a full device or a pipe that nobody reads as the output, a folder as the input.

What is promised, and judged for each run (docs/PROFILE.md, 'The program'):

    an answer       the same status, output and lines as without anything wrong
    told            status 1, the one line that names what went wrong, and nothing on standard output; of the commands that
                    judge many files, and of diff, status 2, and the other files are judged all the same
    written so far  a failed write of the answer: status 1, `write failed after N bytes`, and the answer's first N bytes; of the
                    commands that tell a reason, and of help, that reason, and a front of the answer
    whose           of two inputs, a short one beside a long one: out of memory is reported of the short one in no more runs
                    than there are allocations where it stands on both sides
    untold          that memory ran out, where the line itself can't be made, as where all further allocations are refused:
                    status 1, or 2 for the words of the command line, before an input is opened or read, and nothing written
                    at all; where a line can't be written: the status that it would have had, and a front of it

Whatever else happens (a signal, another status, a line cut short, a front of an answer behind another line) is printed, and
the script fails. Out of memory in each call by itself is tried by tools/faults_calls.py.
"""
import collections
import os
import re
import shlex
import subprocess
import sys
import tempfile
from concurrent.futures import ThreadPoolExecutor

TOOLS = os.path.dirname(os.path.abspath(__file__))
SECONDS = 60
# How many times in all a call that is interrupted is made.
TRIES = 1000

TAGGED = b"%YAML 1.1\n%TAG !e! tag:example.org,2000:\n--- !e!top\n- &x {k: v, \"long\": 'text'}\n- *x\n- |\n  block\n...\n---\nb\n"
MAPPING = b"".join(b"- name: alpha %d\n  tags: [a, 'b', \"c\\t\"]\n  text: >-\n    one\n    two\n" % i for i in range(150))
# Texts whose room is too large to be kept for the next one: each asks for its own.
LARGE = b"".join(b"- %s\n" % (b"x" * 300) for _ in range(80))
UTF16 = b"\xff\xfe" + "a: [\u00e9, \U0001f600]\n".encode("utf-16le")

# A name, the words, what comes on standard input, the files that lie where the program runs, and which of two is short.
Case = collections.namedtuple("Case", "name words input files short", defaults=[b"", {}, ""])

CASES = [
    Case("fmt flow", ["fmt"], b'["a", b, {c: }]'),
    Case("fmt tagged", ["fmt", "in.yaml"], files={"in.yaml": TAGGED}),
    Case("fmt pretty", ["fmt", "--pretty", "--indent", "4"], TAGGED),
    Case("fmt pretty that falls back", ["fmt", "--pretty"], b"!"),
    Case("fmt long", ["fmt", "in.yaml"], files={"in.yaml": MAPPING}),
    Case("fmt pretty long", ["fmt", "--pretty"], MAPPING),
    Case("fmt UTF-16", ["fmt", "--encoding", "utf16be", "--break", "crlf"], UTF16),
    Case("fmt empty", ["fmt"]),
    Case("fmt past its limit", ["fmt", "--limit", "11"], b"foo"),
    Case("fmt scanner fault", ["fmt"], b"a: 'b\n"),
    Case("fmt reader fault", ["fmt", "in.yaml"], files={"in.yaml": b"a: \xff\n"}),
    Case("docs tagged", ["docs", "in.yaml"], files={"in.yaml": TAGGED}),
    Case("docs long", ["docs"], MAPPING),
    Case("docs composer fault", ["docs", "in.yaml"], files={"in.yaml": b"- &a b\n- *c\n"}),
    Case("events tagged", ["events", "--from", "utf8"], TAGGED),
    Case("events long", ["events", "in.yaml"], files={"in.yaml": MAPPING}),
    Case("events parser fault", ["events"], b"a: [b\n"),
    Case("same equal", ["same", "a", "b"], files={"a": TAGGED, "b": TAGGED}),
    Case("same different", ["same", "a", "b"], files={"a": MAPPING, "b": UTF16}),
    Case("same short and long", ["same", "a", "b"], files={"a": b"a", "b": LARGE}, short="first"),
    Case("same long and short", ["same", "a", "b"], files={"a": LARGE, "b": b"a"}, short="second"),
    Case("same first refused", ["same", "a", "b"], files={"a": b"]", "b": b"a"}),
    Case("same second refused", ["same", "a", "b"], files={"a": b"a", "b": b"*a"}),
    Case("check loads", ["check", "in.yaml"], files={"in.yaml": TAGGED}),
    Case("check long", ["check", "-"], MAPPING),
    Case("check parser fault", ["check", "in.yaml"], files={"in.yaml": b"a: [b\nc: d\n"}),
    Case("check reader fault", ["check"], b"a: b\nc: \xff\n"),
    Case("check composer fault, UTF-16", ["check", "in.yaml"], files={"in.yaml": b"\xff\xfe" + "\u00e4: *b".encode("utf-16le")}),
    Case("check many", ["check", "a", "none", "b", "c"], files={"a": b"a", "b": b"*a", "c": MAPPING}),
    Case("check quiet", ["check", "--quiet", "a", "b"], files={"a": b"a", "b": b"*a"}),
    Case("check a list", ["check", "--files0-from", "list"], files={"list": b"a\0b\0", "a": b"a", "b": b"*a"}),
    Case("check a folder", ["check", "."], files={"a.yaml": b"a", "b.yml": b"*a"}),
    Case("check distinct keys", ["check", "--unique-keys", "in.yaml"], files={"in.yaml": MAPPING}),
    Case("check a key twice", ["check", "--unique-keys", "a", "b"], files={"a": b"a: 1\na: 2\n", "b": b"? [a]\n: 1\n? [a]\n: 2\n"}),
    Case("check an empty list", ["check", "--files0-from", "-"]),
    Case("fmt --check", ["fmt", "--check", "a", "b"], files={"a": b"--- a", "b": b'---\n! "a"\n'}),
    Case("fmt --check pretty", ["fmt", "--check", "--pretty"], b"a: b\n"),
    Case("fmt --check refused", ["fmt", "--check", "a", "b"], files={"a": b"[", "b": b"--- a"}),
    Case("norm tagged", ["norm", "in.yaml"], files={"in.yaml": TAGGED}),
    Case("norm long", ["norm", "--indent", "4"], MAPPING),
    Case("norm UTF-16", ["norm", "--encoding", "utf16be", "--break", "crlf"], UTF16),
    Case("norm past its limit", ["norm", "--limit", "3", "in.yaml"], files={"in.yaml": b"foo"}),
    Case("norm parser fault", ["norm", "in.yaml"], files={"in.yaml": b"a: [b\nc: d\n"}),
    Case("norm --check", ["norm", "--check", "a", "none", "b", "c"], files={"a": b"a: b\n", "b": b"[", "c": b"{a: b}"}),
    Case("diff equal", ["diff", "a", "b"], files={"a": TAGGED, "b": TAGGED}),
    Case("diff long", ["diff", "a", "b"], files={"a": MAPPING + b"- a", "b": MAPPING + b"- b"}),
    Case("diff short", ["diff", "-", "a"], b"a: {b c: [d]}", {"a": b"a:\n  b c:\n  - d\n  - e\n"}),
    Case("diff refused", ["diff", "a", "b"], files={"a": b"a", "b": b"a: [b\nc: d\n"}),
    Case("diff documents equal", ["diff", "--documents", "a", "b"], files={"a": TAGGED, "b": TAGGED}),
    Case("diff documents long", ["diff", "--documents", "a", "b"], files={"a": MAPPING + b"- a", "b": MAPPING + b"- b"}),
    Case("diff documents short", ["diff", "--documents", "-", "a"], b"[&x a, *x]", {"a": b"- a\n- a\n"}),
    Case("diff all equal", ["diff", "--all", "a", "b"], files={"a": TAGGED, "b": TAGGED}),
    Case("diff all short", ["diff", "--all", "-", "a"], b"a: {b c: [d], f: g}", {"a": b"h: i\na:\n  b c:\n  - e\n  - e\n"}),
    Case("diff all quotes", ["diff", "--all", "a", "b"], files={"a": b"- a: {b: [c]}\n", "b": b"- a: {b: ['c']}\n"}),
    Case("diff all documents", ["diff", "--all", "--documents", "-", "a"], b"[&x a, *x]\n--- b\n", {"a": b"- a\n- c\n"}),
    Case("diff all refused", ["diff", "--all", "a", "b"], files={"a": b"a", "b": b"- *x\n"}),
    Case("diff documents refused", ["diff", "--documents", "a", "b"], files={"a": b"a", "b": b"- *x\n"}),
    Case("dash", ["same", "-", "a"], b"a: b", {"a": b"{a: b}"}),
    Case("dash twice", ["same", "-", "-"], b"a: b"),
    Case("one file too many", ["fmt", "a", "b"]),
    Case("version", ["--version"]),
    Case("help", ["--help"]),
    Case("help of fmt", ["fmt", "--help"]),
    Case("unknown option", ["fmt", "--ident", "2"]),
    Case("unknown word", ["fmt", "--break", "x"]),
    Case("missing file", ["events", "none"]),
]

# What a run gave; `counts` are the calls for memory, reads, writes and opens, `hits` those that went wrong, `hit` the descriptor.
Run = collections.namedtuple("Run", "status output errors counts hits hit")
# What goes wrong: which calls, how, from which one on, and how many (0: all that follow).
Wrong = collections.namedtuple("Wrong", "kind way first count")
KINDS = ["memory", "read", "write", "open"]


class Bench:
    """A folder in which the cases run, with the object that makes calls go wrong."""

    def __init__(self, folder, program):
        self.folder, self.program = folder, os.path.abspath(program)
        self.shim = f"{folder}/faults.so"
        compiler = shlex.split(os.environ.get("CC", "cc"))
        subprocess.run([*compiler, "-O2", "-shared", "-fPIC", "-o", self.shim, f"{TOOLS}/faults.c"], check=True)

    def place(self, number, case):
        """The folder of a case, with its files."""
        folder = f"{self.folder}/{number}"
        os.makedirs(folder)
        for name, text in [*case.files.items(), ("stdin", case.input)]:
            with open(f"{folder}/{name}", "wb") as file:
                file.write(text)
        return folder

    def run(self, folder, case, wrong=None):
        reading, writing = os.pipe()
        env = {"LD_PRELOAD": self.shim, "FAULTS_FD": str(writing)}
        if wrong:
            env["FAULTS"] = " ".join(map(str, wrong))
        try:
            with open(f"{folder}/stdin", "rb") as stdin:
                how = {"cwd": folder, "env": env, "stdin": stdin, "capture_output": True, "timeout": SECONDS}
                ran = subprocess.run([self.program, *case.words], pass_fds=[writing], **how)
            os.close(writing)
            writing = -1
            told = [int(it) for it in os.read(reading, 4096).split()]
        finally:
            os.close(reading)
            if writing >= 0:
                os.close(writing)
        if ran.returncode >= 0 and len(told) != 6:
            raise SystemExit("faults: the program doesn't load the object: is it linked to glibc dynamically?")
        counts, hits, hit = (told[:4], *told[4:]) if told else ([0] * 4, 0, -1)
        return Run(ran.returncode, ran.stdout, ran.stderr, counts, hits, hit)


def is_answer(run, usual):
    return (run.status, run.output, run.errors) == (usual.status, usual.output, usual.errors)


def is_told(run, line):
    return (run.status, run.output, run.errors) == (1, b"", b"yaml_cli: " + line + b"\n")


def judge_memory(wrong, run, usual):
    if is_answer(run, usual):
        return "answered"
    if is_told(run, b"memory error"):
        return "told"
    for side in ["first", "second"]:
        if is_told(run, side.encode() + b" input: memory error"):
            return f"told of the {side}"
    if run.output or run.errors:
        return None
    _, reads, _, opens = run.counts
    if run.status == 2 and not reads and not opens:
        return "untold, of the command line's words"
    # where one alone is refused, only a line that was to be written anyway can lack memory
    return "untold" if run.status == 1 and (wrong.count == 0 or usual.errors) else None


def judge_read(wrong, run, usual):
    if wrong.way in ("fail", "cut") or wrong.count >= TRIES:
        # after the last byte no read may come that a cut one could fail at
        if wrong.way == "cut" and run.hits == 1 and is_answer(run, usual):
            return "answered"
        return "told" if is_told(run, b"cannot read the input") else None
    return "answered" if is_answer(run, usual) else None


def judge_write(wrong, run, usual):
    if wrong.way == "short" or (wrong.way == "again" and wrong.count < TRIES):
        return "answered" if is_answer(run, usual) else None
    if wrong.way == "cut" and run.hits == 1:
        # the one byte was all that there was to write
        return "answered" if is_answer(run, usual) else None
    is_help = b"\nUsage: " in usual.output or usual.output.startswith(b"yaml_cli ")
    if wrong.way == "again" and (is_help or run.hit == 2) and is_answer(run, usual):
        # lines and help are tried again for longer
        return "answered"
    if run.hit == 2:
        # a line was to be written: a front of it is there
        is_front = usual.errors.startswith(run.errors)
        return "untold" if is_front and (run.status, run.output) == (usual.status, usual.output) else None
    is_front = usual.output.startswith(run.output) and run.output != usual.output
    if is_help:
        has_reason = re.fullmatch(rb"yaml_cli: standard output: \S.*\n", run.errors)
        return "told" if is_front and run.status == 2 and has_reason else None
    line = b"yaml_cli: write failed after %d bytes\n" % len(run.output)
    return "written so far" if is_front and (run.status, run.errors) == (1, line) else None


def judge_open(wrong, run, usual):
    if wrong.way == "fail":
        return "told" if is_told(run, b"cannot read the input") else None
    return "answered" if is_answer(run, usual) else None


def judge_reasons(wrong, run, usual, failed):
    """Of the commands that name the file and the reason, one beside others: what goes wrong is reported of it alone, by that status."""
    if is_answer(run, usual):
        return "answered"
    if wrong.kind == "write" and run.hit == 2:
        # of several lines in one write a front is there, and what is written on its own comes after it
        return "untold" if (run.status, run.output) == (usual.status, usual.output) and len(run.errors) < len(usual.errors) else None
    if wrong.kind == "memory" and run.status == 2 and not (run.output or run.errors or run.counts[1] or run.counts[3]):
        return "untold, of the command line's words"
    usual_lines = usual.errors.splitlines()
    own = [it for it in run.errors.splitlines() if it not in usual_lines]
    is_front = usual.output.startswith(run.output)
    if not own:
        is_quiet = wrong.kind != "write" or run.hit != 1
        return "untold" if is_quiet and is_front and run.status >= max(usual.status, 1) else None
    line = rb"yaml_cli: [^ ]+: \S.*|yaml_cli: standard output: \S.*|[^ ]+: memory error"
    is_own = all(re.fullmatch(line, it) for it in own) and (len(own) == 1 or wrong.count != 1)
    return "told" if is_own and is_front and run.status == failed else None


JUDGES = {"memory": judge_memory, "read": judge_read, "write": judge_write, "open": judge_open}


def wrongs_of(counts):
    """All that is to go wrong in a case with that many calls."""
    memory, reads, writes, opens = counts
    for at in range(1, memory + 1):
        yield Wrong("memory", "fail", at, 1)
        yield Wrong("memory", "fail", at, 0)
    ways = [("fail", 1), ("short", 1), ("cut", 0), ("again", 1), ("again", TRIES - 1), ("again", TRIES)]
    for kind, number, more in [("read", reads, []), ("write", writes, [("none", 1)])]:
        for at in range(1, number + 1):
            for way, count in ways + more:
                yield Wrong(kind, way, at, count)
        if number:
            yield Wrong(kind, "short", 1, 0)
    for at in range(1, opens + 1):
        yield Wrong("open", "fail", at, 1)
        yield Wrong("open", "again", at, 1)


def shown(text):
    return repr(text if len(text) < 300 else text[:140] + b" .. " + text[-140:])


def judged(bench, folder, case, usual, wrong):
    """What a run came to, and what is to be said of it where that isn't as promised."""
    try:
        run = bench.run(folder, case, wrong)
    except subprocess.TimeoutExpired:
        return None, f"{case.name}: {' '.join(map(str, wrong))}: no end within {SECONDS} seconds"
    if case.words[0] in ("check", "diff") or "--check" in case.words:
        found = judge_reasons(wrong, run, usual, 2)
    elif case.words[0] == "norm":
        found = judge_reasons(wrong, run, usual, 1)
    else:
        found = JUDGES[wrong.kind](wrong, run, usual)
    if run.status < 0 or not run.hits:
        found = None
    if found:
        return found, ""
    why = "nothing went wrong" if run.status >= 0 and not run.hits else f"status {run.status}"
    said = f"output {shown(run.output)}, errors {shown(run.errors)}, descriptor {run.hit}"
    return None, f"{case.name}: {' '.join(map(str, wrong))}: {why}, {said}"


def usual_of(bench, folder, case):
    """The run of a case with nothing wrong; twice, so that what isn't always the same is seen."""
    usual, again = bench.run(folder, case), bench.run(folder, case)
    if usual != again or usual.status not in (0, 1, 2):
        raise SystemExit(f"faults: {case.name}: without any fault: {usual} and then {again}")
    return usual


def sided(bench, number, case, found):
    """What isn't as promised of whose memory ran out, where one of two inputs is short."""
    if not case.short:
        return ""
    text = case.files["a" if case.short == "first" else "b"]
    alone = Case("short alone", ["same", "a", "a"], files={"a": text})
    most = usual_of(bench, bench.place(f"{number}-short", alone), alone).counts[0]
    told = [found[f"memory, told of the {side}"] for side in ["first", "second"]]
    few, many = told if case.short == "first" else told[::-1]
    if few <= most and few < many:
        return ""
    return f"{case.name}: of the short input told {few} times, of the long one {many}, where the short one alone takes {most}"


def unread_pipe():
    """The writing end of a pipe that nobody reads."""
    reading, writing = os.pipe()
    os.close(reading)
    return open(writing, "wb")


def real_runs(bench):
    """What no call of ours lets go wrong: a full device or a pipe that nobody reads as the output, a folder as the input. What isn't
    as promised."""
    folder = bench.place("real", Case("real", [], b"a: b", {"in.yaml": b"a: b", "other.yaml": b"- a\n" * 100000}))
    full, none, pipe = "/dev/full", "/dev/null", "a pipe"
    no_space = b"standard output: No space left on device (os error 28)"
    for words, output, status, line in [
        (["fmt", "in.yaml"], full, 1, b"write failed after 0 bytes"),
        (["same", "in.yaml", "in.yaml"], full, 1, b"write failed after 0 bytes"),
        (["events", "."], none, 1, b"cannot read the input"),
        (["same", "in.yaml", "."], none, 1, b"cannot read the input"),
        (["--version"], full, 2, no_space),
        (["--help"], full, 2, no_space),
        (["fmt", "--help"], pipe, 1, b""),
        (["fmt", "--check", "in.yaml"], full, 2, no_space),
        (["fmt", "--check", "in.yaml"], pipe, 1, b""),
        (["check", "in.yaml", "."], full, 0, b""),
        (["check", "--format", "line", "in.yaml", "gone"], full, 2, no_space),
        (["check", "in.yaml", b"\xff"], none, 2, b"\\xff: the name isn't UTF-8"),
        (["norm", "in.yaml"], full, 1, no_space),
        (["norm", "other.yaml"], pipe, 1, b""),
        (["norm", "."], none, 1, b".: Is a directory (os error 21)"),
        (["norm", "--check", "."], full, 2, no_space),
        (["diff", "in.yaml", "other.yaml"], full, 2, no_space),
        (["diff", "in.yaml", "other.yaml"], pipe, 1, b""),
        (["diff", "in.yaml", "in.yaml"], full, 0, b""),
        (["diff", "--all", "in.yaml", "other.yaml"], full, 2, no_space),
        (["diff", "--all", "in.yaml", "other.yaml"], pipe, 1, b""),
        (["diff", "in.yaml", "."], none, 2, b".: Is a directory (os error 21)"),
        (["diff", "--documents", "in.yaml", "other.yaml"], full, 2, no_space),
    ]:
        with unread_pipe() if output == pipe else open(output, "wb") as stdout:
            how = {"cwd": folder, "stdout": stdout, "stderr": subprocess.PIPE, "timeout": SECONDS}
            ran = subprocess.run([bench.program, *words], stdin=subprocess.DEVNULL, **how)
        is_well = (ran.returncode, ran.stderr) == (status, b"yaml_cli: " + line + b"\n" if line else b"")
        yield "" if is_well else f"{words} > {output}: status {ran.returncode}, errors {ran.stderr!r}"


def compiled_program():
    if "PROGRAM" in os.environ:
        return os.environ["PROGRAM"]
    if subprocess.run([f"{TOOLS}/program.py"]).returncode:
        raise SystemExit(2)
    return f"{os.path.dirname(TOOLS)}/crates/yaml_cli/out/yaml_cli"


def main():
    cases = [it for it in CASES if len(sys.argv) == 1 or any(word in it.name for word in sys.argv[1:])]
    total, wrong_ones = collections.Counter(), []
    program = compiled_program()
    with tempfile.TemporaryDirectory(prefix="faults-") as folder, ThreadPoolExecutor(int(os.environ.get("JOBS", "1"))) as pool:
        bench = Bench(folder, program)
        for number, case in enumerate(cases):
            place = bench.place(number, case)
            usual = usual_of(bench, place, case)
            found = collections.Counter()
            wrongs = list(wrongs_of(usual.counts))
            for wrong, (end, text) in zip(wrongs, pool.map(lambda it: judged(bench, place, case, usual, it), wrongs)):
                found[f"{wrong.kind}, {end or 'NOT AS PROMISED'}"] += 1
                if text:
                    wrong_ones.append(text)
                    print(text, flush=True)
            total += found
            text = sided(bench, number, case, found)
            if text:
                wrong_ones.append(text)
                print(text, flush=True)
            calls = ", ".join(f"{n} {word}" for n, word in zip(usual.counts, ["allocations", "reads", "writes", "opens"]))
            print(f"{case.name}: {calls}: {sum(found.values())} runs", flush=True)
        for text in real_runs(bench):
            total["a full device, an unread pipe or a folder, " + ("NOT AS PROMISED" if text else "told")] += 1
            if text:
                wrong_ones.append(text)
                print(text, flush=True)
    for words, number in sorted(total.items()):
        print(f"{number:8} {words}")
    print(f"faults: {len(cases)} cases, {sum(total.values())} runs, {len(wrong_ones)} not as promised")
    return bool(wrong_ones) or not total


if __name__ == "__main__":
    sys.exit(main())
