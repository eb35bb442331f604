#!/usr/bin/env python3
"""Writes docs/PROVED.md, an index of the README.md of each crate: by member, in the order of crates.txt.

    tools/proved.py             writes the page
    tools/proved.py --check     writes nothing, and fails where the page differs

Both fail where a crate lacks its README.md, where one has more than 15 lines, where an item that a table of it names isn't in the
crate's src/, specs/ or proofs/, and where that of a crate of laws doesn't name one of its public laws.

A README.md is the crate's name, a line on what it holds, and what a reader of its code wants to know: its calls, or what no contract says.
"""
import glob
import os
import re
import sys

import repository as repo

PAGE = "docs/PROVED.md"
MOST_LINES = 15
TABLE = ["| item | what its contract says |", "|---|---|"]
HEAD = """# What is proved, crate by crate

Written by `tools/proved.py` from `crates/CRATE/README.md`; not by hand. Each crate's page lists its calls and laws, what their contracts say, and what no clause says. [WHAT-IS-PROVED](WHAT-IS-PROVED.md) has the same in short, [MEANING](MEANING.md) the definitions that the contracts rest on.

Proved with `rattle-kit-13f`, logic `dac8208d650f15bf` (`rt version`). 'Proved' means what the contracts say, and no more. Every function of every crate is proved safe (no index out of range, no overflow, no use after free) and to end, for all inputs. The crates are in the order of `crates.txt`, by member, the lowest first.
"""


def members():
    """By crates.txt, in its order: the line on each member, and its crates."""
    found = []
    for line in repo.read("crates.txt").split("\n"):
        if line.startswith("# "):
            name, _, text = line[2:].partition(": ")
            found.append((name, text, []))
        elif line.strip():
            found[-1][2].append(re.match(r"\w+", line)[0])
    return found


def known(crate):
    """What a row may name: functions, also as methods, types, traits, constants, what the crate exports, and files of laws."""
    found = {*repo.handed_out(crate), *repo.declared_in(crate)}
    found.update(os.path.basename(it)[: -len(".antt")] for it in glob.glob(f"{repo.TOP}/crates/{crate}/[sp]*s/*.antt"))
    for path in repo.sources(crate):
        found.update(re.findall(r"^pub (?:trait|const) (\w+)", repo.read(path), re.M))
        found.update(re.findall(r"^impl(?:<.*?>)? (\w+)(?:<.*?>)? for", repo.read(path), re.M))
        for it in (law for of in repo.functions(path) for law in repo.laws_of(of)):
            found.update((it.name, it.label))
    return found


def rows(lines):
    return [it for it in lines if it.startswith("| ") and it not in TABLE]


def items(lines):
    """The items of a table."""
    return [name for row in rows(lines) for name in re.findall(r"`([^`]+)`", row.split(" | ")[0])]


def unknown(crate, lines):
    """The items of a table that aren't in the crate."""
    names = known(crate)
    return [it for it in items(lines) if it not in names]


def is_formed(crate, lines):
    """The name and, after an empty line, what the crate holds."""
    return lines[:2] == [f"# `{crate}`", ""] and len(lines) > 2 and bool(lines[2])


def faults(crate):
    """What is wrong with a crate's README.md."""
    path = f"crates/{crate}/README.md"
    if not os.path.isfile(f"{repo.TOP}/{path}"):
        return [f"{path} isn't there"]
    lines = repo.read(path).rstrip("\n").split("\n")
    found = [f"{path}: no item of this name is in the crate: {it}" for it in unknown(crate, lines)]
    if len(lines) > MOST_LINES:
        found.append(f"{path}: {len(lines)} lines, of {MOST_LINES} at most")
    if not is_formed(crate, lines):
        found.append(f"{path}: the crate's name and a line on what it holds are missing")
    return found


def held(crate):
    """What a crate holds: the first sentence of its page."""
    line = repo.read(f"crates/{crate}/README.md").split("\n")[2]
    return re.match(r".*?[.:](?= |$)|.*", line)[0].rstrip(":.")


def page():
    text = HEAD
    for name, about, crates in members():
        text += f"\n## `{name}`: {about}\n\n| crate | what it holds |\n|---|---|\n"
        text += "".join(f"| [`{crate}`](../crates/{crate}/README.md) | {held(crate)} |\n" for crate in crates)
    return text


def main():
    wrong = [it for crate in repo.crates() for it in faults(crate)]
    if wrong:
        sys.exit("proved: " + "\nproved: ".join(wrong))
    made = page()
    if "--check" in sys.argv[1:]:
        if made != repo.read(PAGE):
            sys.exit(f"proved: {PAGE} differs: run tools/proved.py")
        return
    with open(f"{repo.TOP}/{PAGE}", "w", encoding="utf-8") as file:
        file.write(made)


if __name__ == "__main__":
    main()
