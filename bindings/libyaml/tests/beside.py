#!/usr/bin/env python3
"""Runs a client over two libyamls, and compares what it writes, file by file.

    beside.py EXPECTED OURS THEIRS FOLDER NAME CLIENT..     OURS, THEIRS: folders for LD_LIBRARY_PATH; THEIRS may be empty

The client is called with the files of FOLDER behind CLIENT, many at a time, and writes a line `@@ FILE` before what it
writes of each; where it fails it is called with each of these files alone. EXPECTED has lines for the differences that are
meant: `NAME CAUSE FILE..`. A difference that isn't there is wrong, and so is a line without a difference. With LIST=1 in the
environment the differences are printed instead: `NAME FILE`, and what differs first.
"""
import concurrent.futures
import os
import subprocess
import sys

# How many files a client is called with.
PIECE = 40


def expected(path, name, files):
    """The files of the client's lines, of those that are there."""
    with open(path, encoding="utf-8") as file:
        rows = [line.split() for line in file if line.strip() and not line.startswith("#")]
    return {it for row in rows if row[0] == name for it in row[2:] if it in files}


def run(client, paths, library):
    """The status and the output of the client; a run that takes too long has none."""
    env = dict(os.environ)
    if library:
        env["LD_LIBRARY_PATH"] = library
    try:
        done = subprocess.run([*client, *paths], env=env, stdin=subprocess.DEVNULL, stdout=subprocess.PIPE, stderr=subprocess.STDOUT,
                              timeout=120, check=False)
        return done.returncode, done.stdout
    except subprocess.TimeoutExpired:
        return None, b""


def answers(client, paths, library):
    """What the client answers for each of the files."""
    status, output = run(client, paths, library)
    parts = output.split(b"\n@@ ")[1:]
    if status == 0 and len(parts) == len(paths):
        return [(0, part) for part in parts]
    alone = (run(client, [path], library) for path in paths)
    return [(status, output.split(b"\n@@ ", 1)[-1]) for status, output in alone]


def first_difference(ours, theirs):
    if ours[0] != theirs[0]:
        return f"status {ours[0]}, not {theirs[0]}"
    for one, other in zip(ours[1].splitlines(), theirs[1].splitlines()):
        if one != other:
            return f"{one[:90]!r}, not {other[:90]!r}"
    return f"{len(ours[1])} bytes, not {len(theirs[1])}"


def main(words):
    listed, ours, theirs, folder, name, *client = words
    files = sorted(os.listdir(folder))
    meant = expected(listed, name, set(files))

    def compare(some):
        paths = [f"{folder}/{file}" for file in some]
        pairs = zip(answers(client, paths, ours), answers(client, paths, theirs))
        return [None if one == other else first_difference(one, other) for one, other in pairs]

    pieces = [files[at:at + PIECE] for at in range(0, len(files), PIECE)]
    with concurrent.futures.ThreadPoolExecutor(int(os.environ.get("JOBS", "2"))) as pool:
        found = dict(zip(files, [it for some in pool.map(compare, pieces) for it in some]))
    differ = {file: it for file, it in found.items() if it}
    if os.environ.get("LIST"):
        for file, it in differ.items():
            print(name, file, it)
        return 0
    wrong = 0
    for file, it in differ.items():
        if file not in meant:
            wrong += 1
            print(f"{name}: {file} differs: {it}")
    for file in sorted(meant - set(differ)):
        wrong += 1
        print(f"{name}: {file} is the same, and the list has it as different")
    print(f"{name}: {len(files)} files, {len(differ)} differ, {len(meant)} of them as listed" if wrong == 0
          else f"{name}: {wrong} of {len(files)} files aren't as listed")
    return 1 if wrong else 0


if __name__ == "__main__":
    sys.exit(main(sys.argv[1:]))
