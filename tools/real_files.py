#!/usr/bin/env python3
"""Compares the program with libyaml on real files, and its answers with their inputs. It isn't part of the gate.

    tools/real_files.py FOLDER|FILE..

It takes every *.yml and *.yaml below the folders that are named, and enters no other: neither links nor other file systems.
Each text is judged as `tools/fuzz.py` judges one; where docs/DIFFERENCES.md says that libyaml answers otherwise, that is no
difference, and the last lines count such files by their reason. How far it is stands on standard error. Each difference is a
line with the file's name; where there is any, the status is 1. PROGRAM names a program that is built already; else `make
program` proves and builds it. JOBS: files at a time (2). It needs python3, a C compiler and libyaml's header (Debian:
libyaml-dev), and no network where they are there.
"""
import collections
import os
import sys
import tempfile
import time
from concurrent.futures import ThreadPoolExecutor

sys.path.insert(0, os.path.dirname(os.path.abspath(__file__)))
import fuzz

# How many seconds pass between two lines that say how far it is.
TELLING = 5


def files_below(folder):
    """The YAML files of a folder, or the file that is named."""
    if os.path.isfile(folder):
        yield folder
    device = os.stat(folder).st_dev
    for at, folders, names in os.walk(folder):
        folders[:] = sorted(it for it in folders if os.lstat(f"{at}/{it}").st_dev == device)
        for path in (f"{at}/{name}" for name in sorted(names) if name.endswith((".yml", ".yaml"))):
            if os.path.isfile(path) and not os.path.islink(path) and os.access(path, os.R_OK):
                yield path


def judged(judge, number, path):
    """What was found of a file, and what differs."""
    with open(path, "rb") as file:
        return path, *fuzz.judged(judge, number, file.read(), [])


def main(folders):
    lacking = [it for it in folders if not os.path.exists(it)]
    if not folders or lacking:
        print(f"real files: {lacking[0]} isn't there" if lacking else __doc__.split("\n\n")[1].strip(), file=sys.stderr)
        return 2
    files = [path for folder in folders for path in files_below(folder)]
    say = lambda text: print(f"real files: {text}", file=sys.stderr, flush=True)
    counts, differences, told = collections.Counter(), 0, time.monotonic()
    with tempfile.TemporaryDirectory(prefix="real-files-") as room, ThreadPoolExecutor(int(os.environ.get("JOBS", "2"))) as pool:
        judge = fuzz.Judge(room, fuzz.compiled_program())
        if not judge.peer:
            return 2
        say(f"{len(files)} files")
        for done, (path, found, wrong) in enumerate(pool.map(lambda it: judged(judge, *it), enumerate(files)), 1):
            counts.update(["files", *found])
            if wrong:
                differences += 1
                print(f"{path}: {wrong}", flush=True)
            if time.monotonic() > told + TELLING:
                told = time.monotonic()
                say(f"{done} of {len(files)} files, {differences} differences")
    for words, number in sorted(counts.items()):
        print(f"{number:8} {words}")
    print(f"{differences} differences")
    return bool(differences)


if __name__ == "__main__":
    sys.exit(main(sys.argv[1:]))
