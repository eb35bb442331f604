#!/usr/bin/env python3
"""Tells which functions a run's instructions go to, inlined ones too, as a tree of their calls.

    tools/profile.py [--least N] [--under FUNCTION] [--crate CRATE] WORDS..     (50000, all, yaml_cli)

    tools/profile.py events INPUT

It builds a program as `tools/near.py` does, with a place for each instruction, which changes none, and runs it with these words
under callgrind; `llvm-symbolizer` tells in which function of the sources each instruction stands, and through which calls it
came there. Each line has the instructions below a call, those of its own, and the function's name. Nothing of it is proved.
"""
import argparse
import collections
import json
import os
import re
import subprocess
import sys
import tempfile

sys.path.insert(0, os.path.dirname(os.path.abspath(__file__)))
import near
import unproved

# What is said once of a module whose instructions have places.
SAID = [
    "!llvm.dbg.cu = !{!10}",
    "!llvm.module.flags = !{!13, !14}",
    '!10 = distinct !DICompileUnit(language: DW_LANG_C99, file: !11, isOptimized: true, runtimeVersion: 0, emissionKind: FullDebug)',
    '!11 = !DIFile(filename: "near.ll", directory: "/")',
    "!12 = !DISubroutineType(types: !15)",
    '!13 = !{i32 7, !"Dwarf Version", i32 4}',
    '!14 = !{i32 2, !"Debug Info Version", i32 3}',
    "!15 = !{null}",
]
# The numbers of places come after these.
FIRST = 100


def placed(lines):
    """The module's lines with a place for each instruction: its function, and the line where it is."""
    found, function, choosing = [], 0, False
    for number, line in enumerate(lines, 1):
        if line.startswith("define "):
            name = near.NAME.search(line)[1].strip('"')
            named = f'name: "{name}", linkageName: "{name}", scope: !11, file: !11, line: {number}, type: !12, unit: !10'
            found.append(f"distinct !DISubprogram({named}, spFlags: DISPFlagDefinition | DISPFlagOptimized)")
            function = FIRST + len(found)
            line = re.sub(r" \{$", f" !dbg !{function} {{", line)
        elif line == "}":
            function = 0
        elif choosing:
            choosing = line.strip() != "]"
        elif function and line.startswith("  "):
            choosing = line.rstrip().endswith("[")
            if not choosing:
                found.append(f"!DILocation(line: {number}, column: 1, scope: !{function})")
                line += f", !dbg !{FIRST + len(found)}"
        yield line
    yield from SAID
    yield from (f"!{number} = {it}" for number, it in enumerate(found, FIRST + 1))


def counted(path, program):
    """How often the program's instructions were run, by their addresses, from what callgrind wrote."""
    counts, at, files, own, called = collections.Counter(), 0, {}, False, False
    with open(path, encoding="utf-8") as file:
        for line in file:
            named = re.match(r"(c?)ob=\((\d+)\)(?: (.*))?", line)
            if named:
                files[named[2]] = named[3] or files[named[2]]
                own = own if named[1] else files[named[2]] == program
            elif line.startswith("calls="):
                called = True
            elif re.match(r"0x|[+*-]", line):
                word, *_, count = line.split()
                at = at if word == "*" else int(word, 16) if word[0] == "0" else at + int(word, 0)
                counts[at] += int(count) if own and not called else 0
                called = False
    return counts


def chains(program, addresses):
    """The functions in which each of these addresses is, the outermost first."""
    words = ["llvm-symbolizer", f"--obj={program}", "--inlines", "--functions=linkage", "--no-demangle", "--output-style=JSON"]
    asked = "\n".join(map(hex, addresses))
    told = subprocess.run(words, input=asked, capture_output=True, text=True, check=True).stdout.splitlines()
    return [tuple(it["FunctionName"] or "?" for it in reversed(json.loads(line)["Symbol"])) for line in told]


def tree(counts, program, under):
    """What each chain of calls takes with all that it calls, and by itself."""
    whole, own = collections.Counter(), collections.Counter()
    for chain, count in zip(chains(program, counts), counts.values()):
        if under and under in chain:
            chain = chain[chain.index(under) :]
        elif under:
            continue
        own[chain] += count
        for number in range(1, len(chain) + 1):
            whole[chain[:number]] += count
    return whole, own


def told(whole, own, least):
    """The tree's lines, the dearest first, in the order of a walk."""
    below = collections.defaultdict(list)
    for chain in whole:
        below[chain[:-1]].append(chain)
    waiting = [*below[()]]
    waiting.sort(key=whole.get)
    while waiting:
        chain = waiting.pop()
        if whole[chain] >= least:
            yield f"{whole[chain]:11,} {own[chain]:11,} {'  ' * len(chain)}{chain[-1]}"
            waiting += sorted(below[chain], key=whole.get)


def main():
    said = argparse.ArgumentParser(usage=__doc__, add_help=False)
    said.add_argument("--least", type=int, default=50_000)
    said.add_argument("--under")
    said.add_argument("--crate", default="yaml_cli")
    said.add_argument("words", nargs=argparse.REMAINDER)
    said = said.parse_args()
    rtlib = unproved.kit_library()
    crate = unproved.crate_of(rtlib, said.crate)
    with tempfile.TemporaryDirectory(prefix="yaml-profile-") as folder:
        program, wrote = f"{folder}/program", f"{folder}/counts"
        lines = near.near_lines(rtlib, folder, [f"{crate.folder}/src/main.rt", *unproved.libraries(rtlib, crate)])
        if lines is None:
            return 1
        near.linked(rtlib, near.compiled(rtlib, folder, placed(lines), near.CLANG), program)
        words = ["valgrind", "--tool=callgrind", "--dump-instr=yes", f"--callgrind-out-file={wrote}", program, *said.words]
        subprocess.run(words, stdout=subprocess.DEVNULL, stderr=subprocess.DEVNULL, check=False)
        print("\n".join(told(*tree(counted(wrote, program), program, said.under), said.least)))
    return 0


if __name__ == "__main__":
    sys.exit(main())
