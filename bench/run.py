"""Measures the program beside C's libyaml on the same inputs: python3 run.py PROGRAM [--instructions] [--sizes BYTES,..] [--kinds KIND,..]

Both run in turns on each input, and the table has the medians: seconds of processor time, their ratio, peak memory, and how the
time grows from 1 MB to 10 MB. With --instructions it counts instructions by callgrind in place of that, once each: these don't
depend on what else the machine does.
"""

import argparse
import os
import re
import shlex
import statistics
import subprocess
import sys
import tempfile

HERE = os.path.dirname(os.path.abspath(__file__))
# Those that a bound is set for at 100 KB, and those that nobody tuned to.
KINDS = ["mapping", "flow", "scalars", "literals", "anchors", "json"]
OTHERS = ["prose", "wide", "logs", "workflow", "manifests", "openapi", "deepjson"]
MODES = {"events": ["events"], "canonical": ["fmt"], "pretty": ["fmt", "--pretty"], "docs": ["docs"]}
# What loads the documents, which alone is counted too.
LOADS = {"ours": "yaml_round_engine::reload::documents_of", "peer": "yaml_parser_load"}
ROUNDS = {10_000: 25, 1_000_000: 25, 10_000_000: 7}


def compile_c(folder, name, *libraries):
    to = f"{folder}/{name}"
    compiler = shlex.split(os.environ.get("CC", "cc"))
    subprocess.run([*compiler, "-O2", f"{HERE}/{name}.c", *libraries, "-o", to], check=True)
    return to


def words_of(sides, side, mode, file):
    program = sides[side]
    return [program, *MODES[mode], file] if side == "ours" else [program, mode, file]


def answer(words):
    return subprocess.run(words, check=True, stdout=subprocess.PIPE).stdout


def differs(sides, mode, file):
    """Whether the two texts differ: lists of events may, since each has lines of its own, and documents, since anchors are named anew."""
    return mode not in ("events", "docs") and answer(words_of(sides, "ours", mode, file)) != answer(words_of(sides, "peer", mode, file))


def measured(measure, words):
    ran = subprocess.run([measure, *words], check=True, stdout=subprocess.PIPE, text=True)
    seconds, memory = ran.stdout.split()
    return float(seconds), int(memory)


def medians(measure, sides, mode, file, rounds):
    taken = {side: [] for side in sides}
    for _ in range(rounds):
        for side in sides:
            taken[side].append(measured(measure, words_of(sides, side, mode, file)))
    return {side: tuple(statistics.median(column) for column in zip(*rows)) for side, rows in taken.items()}


def instructions(words, folder, inside=None):
    """How many are carried out, by all of a program or inside of a function that is named."""
    tool = ["valgrind", "--tool=callgrind", f"--callgrind-out-file={folder}/counts"]
    if inside:
        tool.append(f"--toggle-collect={inside}")
    ran = subprocess.run([*tool, *words], check=True, stdout=subprocess.DEVNULL, stderr=subprocess.PIPE, text=True)
    return int(re.search(r"Collected : (\d+)", ran.stderr).group(1))


def input_of(folder, kind, size):
    subprocess.run([sys.executable, f"{HERE}/inputs.py", folder, kind, str(size)], check=True)
    return f"{folder}/{kind}-{size}.yaml"


def count_table(sides, kinds, sizes, folder):
    print("| input | bytes | command | ours, million instructions | libyaml | ratio |\n|---|---|---|---|---|---|")
    for kind in kinds:
        for size in sizes:
            file = input_of(folder, kind, size)
            for mode in [*MODES, "load"]:
                ran = "docs" if mode == "load" else mode
                inside = LOADS if mode == "load" else {}
                ours, peer = (instructions(words_of(sides, side, ran, file), folder, inside.get(side)) for side in ("ours", "peer"))
                print(f"| {kind} | {size:,} | {mode} | {ours / 1e6:.1f} | {peer / 1e6:.1f} | {ours / peer:.2f} |", flush=True)


def time_table(sides, kinds, sizes, folder, measure):
    print("| input | bytes | command | ours, s | libyaml, s | ratio | ours, MB | libyaml, MB | growth, ours | growth, libyaml |")
    print("|---|---|---|---|---|---|---|---|---|---|")
    for kind in kinds:
        before = {}
        for size in sizes:
            file = input_of(folder, kind, size)
            for mode in MODES:
                both = medians(measure, sides, mode, file, ROUNDS.get(size, 3))
                (ours, memory), (peer, memory_peer) = both["ours"], both["peer"]
                last = before.get(mode)
                growth = f"{ours / last[0]:.1f} | {peer / last[1]:.1f}" if last and size == 10_000_000 and min(last) else " | "
                before[mode] = (ours, peer)
                ratio = f"{ours / peer:.2f}" if peer else ""
                note = " (texts differ)" if size <= 1_000_000 and differs(sides, mode, file) else ""
                print(f"| {kind} | {size:,} | {mode}{note} | {ours:.4f} | {peer:.4f} | {ratio} | {memory / 1024:.1f} | {memory_peer / 1024:.1f} | {growth} |", flush=True)


def main():
    said = argparse.ArgumentParser()
    said.add_argument("program")
    said.add_argument("--instructions", action="store_true")
    said.add_argument("--sizes", default="")
    said.add_argument("--kinds", default=",".join(KINDS + OTHERS))
    said = said.parse_args()
    standard = "100000" if said.instructions else "10000,1000000,10000000"
    sizes = [int(it) for it in (said.sizes or standard).split(",")]
    kinds = said.kinds.split(",")
    with tempfile.TemporaryDirectory(prefix="bench-") as folder:
        sides = {"ours": os.path.abspath(said.program), "peer": compile_c(folder, "peer", "-lyaml")}
        if said.instructions:
            count_table(sides, kinds, sizes, folder)
        else:
            time_table(sides, kinds, sizes, folder, compile_c(folder, "measure"))


if __name__ == "__main__":
    main()
