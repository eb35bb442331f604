#!/usr/bin/env python3
"""Looks for `use` lines of specs/, proofs/ and clauses that lead nowhere: before a check, and after definitions were moved.

    tools/uses.py

A path begins with a crate that stands in the crate's line of crates.txt, and goes through the modules that a `Lib.antt` hands
on; it ends in a file there, and the names behind it are those of its public definitions, or in a type that the crate's code
declares or hands out. What std and the kit hold isn't looked at. A `Lib.antt` may hand on a module under one name alone, and all
of a crate's under the crate's own, without `yaml_`. Nothing is proved here: it takes seconds.
"""
import functools
import glob
import os
import re
import sys

import repository as repo

USE = re.compile(r"^[ \t]*(?:pub |unfoldable |ghost )*use (Rattle\.yaml_[\w.']+?)\.?(?:\{([^}]*)\})?(?: as \S+)?;?[ \t]*$", re.M)
INSIDE = ("TheVariants", "TheInside", "TheConstants")


@functools.lru_cache(maxsize=None)
def handed_on(crate, tree):
    """The modules that a crate's `Lib.antt` holds and those that it shows, and what it hands on under which name."""
    path = f"crates/{crate}/{tree}/Lib.antt"
    if not os.path.isfile(f"{repo.TOP}/{path}"):
        return set(), set(), {}
    text = "\n".join(repo.bare(it) for it in repo.read(path).split("\n"))
    names = {}
    for whole, _, name in re.findall(r"^pub use (Rattle\S+)( as (\S+))?", text, re.M):
        names[name or whole.rpartition(".")[2]] = whole.split(".")
    shown = set(re.findall(r"^pub mod (\S+)", text, re.M))
    return shown | set(re.findall(r"^mod (\S+)", text, re.M)), shown, names


def walked(words, crate):
    """Where a path of that crate leads: its crate, its tree and what is left of it; None where it leads nowhere."""
    if len(words) < 3 or words[1] not in [crate, *repo.crates().get(crate, [])]:
        return None
    at, tree, left = words[1], words[2], words[3:]
    while left and left[0] != "declared":
        held, shown, names = handed_on(at, tree)
        if left[0] in names:
            whole = walked([*names[left[0]], *left[1:]], at)
            return whole
        if os.path.isdir(f"{repo.TOP}/crates/{at}/{tree}/{left[0]}") or left[0] in (held if at == crate else shown):
            return at, tree, left
        return None
    return at, tree, left


@functools.lru_cache(maxsize=None)
def defined(path):
    """The public names of a file, and the constructors of its types."""
    text = "\n".join(repo.bare(it) for it in repo.read(path).split("\n"))
    found = set(re.findall(r"^[ \t]*(?:(?:abbrev|unfoldable|opaque) )*pub (?:(?:record|data) )?([^\s:({]+)\s", text, re.M))
    for names in re.findall(r"^(?:unfoldable )?pub use Rattle[^\n{]*\{([^}]*)\}", text, re.M):
        found.update(it.split(" as ")[-1].strip() for it in names.split(","))
    for block in re.findall(r"^ *(?:\w+ )*data \S+.*\n((?: +.*\n?|\s*\n)*)", text, re.M):
        found.update(re.findall(rf"^\s+(?:pub )?({repo.NAME}) :", block, re.M))
    return found


def is_declared(crate, words):
    """Whether a path below `declared` names a type of the crate's code, or one that it hands out."""
    inside = [at for at, it in enumerate(words) if it in INSIDE]
    for name in reversed(words[: inside[0]] if inside else words):
        if name in repo.declared_in(crate) or name in repo.handed_out(crate):
            return True
    return "TheConstants" in words


def wrong(crate, words, names):
    """What is wrong with a `use` line, if anything."""
    met = walked(words, crate)
    if met is None:
        return "leads nowhere"
    at, tree, left = met
    if left[:1] == ["declared"]:
        return None if is_declared(at, left[1:]) else "no such type"
    path = f"crates/{at}/{tree}/{left[0]}.antt" if left else ""
    if len(left) > 2 or not os.path.isfile(f"{repo.TOP}/{path}"):
        return None
    wanted = [it.split(" as ")[0].strip() for it in names.replace("\n", " ").split(",") if it.strip()] + left[1:]
    missing = [it for it in wanted if it not in defined(path)]
    return f"{path} has no {', '.join(missing)}" if missing else None


def twice(crate, tree):
    """The names under which a crate hands on what it hands on under another name too."""
    met, found = set(), []
    for name, path in handed_on(crate, tree)[2].items():
        at = repr(walked(path, crate))
        if at in met:
            found.append(name)
        met.add(at)
    return found


def misnamed(crate, tree):
    """The names of crates, whose modules a crate hands on, that aren't theirs."""
    for name, path in handed_on(crate, tree)[2].items():
        at, _, left = walked(path, crate) or ("", "", ["?"])
        if not left and at != f"yaml_{name}":
            yield f"{name}: isn't the name of {at}"


def main():
    found = 0
    for crate in repo.crates():
        for tree in ("specs", "proofs"):
            for said in misnamed(crate, tree):
                found += 1
                print(f"crates/{crate}/{tree}/Lib.antt: {said}")
            for name in twice(crate, tree):
                found += 1
                print(f"crates/{crate}/{tree}/Lib.antt: {name}: is handed on under another name too")
        folder = f"{repo.TOP}/crates/{crate}"
        paths = [it for part in ("src", "specs", "proofs") for it in glob.glob(f"{folder}/{part}/**/*", recursive=True)]
        for path in sorted(os.path.relpath(it, repo.TOP) for it in paths if it.endswith((".rt", ".antt"))):
            if path.endswith("/Lib.antt"):
                continue
            for whole, names in USE.findall(repo.read(path)):
                said = wrong(crate, whole.split("."), names) if "Goals" not in whole and "contracts" not in whole else None
                if said:
                    found += 1
                    print(f"{path}: {whole}: {said}")
    print(f"uses: {found} lead nowhere" if found else "uses: all are there")
    return 1 if found else 0


if __name__ == "__main__":
    sys.exit(main())
