#!/usr/bin/env python3
"""Lists the functions that sources mark `#[inline(always)]` and that are in a program nevertheless, with their bytes.

    tools/hints.py [PROGRAM]        crates/yaml_cli/out/yaml_cli, the proved one, where none is named

The kit drops that hint, with no message, from a function that would grow very large. A near build (tools/near.py) drops it there
too, and tells what the function would grow to: `tools/hints.py out/near/yaml_cli` lists before a proof what will stand. A function
that is listed is called, each time; it needs binutils.
"""
import re
import subprocess
import sys

import repository as repo

PROGRAM = "crates/yaml_cli/out/yaml_cli"
HINT = "#[inline(always)]"
FUNCTION = re.compile(r"\s*(?:pub(?:\([a-z]+\))? )?(?:const )?(?:unsafe )?fn (\w+)")
# size and name of a function of ours in what `nm -S` prints
SYMBOL = re.compile(r"\w+ (\w+) \w (yaml_\w+)::(.+)")


def hinted(crate):
    """The functions of a crate that are to be inlined always: the front of their path, and their name."""
    for path in repo.sources(crate):
        is_hinted, module = False, re.sub(r".*/src/((lib|main)(?=\.rt$))?|\.rt$", "", path).replace("/", "::")
        for line in repo.read(path).split("\n"):
            is_hinted = is_hinted or line.strip() == HINT
            function = FUNCTION.match(line)
            if function and is_hinted:
                yield module and f"{module}::", function[1]
            is_hinted = is_hinted and not function


def standing(program):
    """The functions of ours that are in the program: bytes, crate, path."""
    listed = subprocess.run(["nm", "-S", program], check=True, capture_output=True, text=True).stdout
    for line in listed.split("\n"):
        symbol = SYMBOL.match(line)
        if symbol:
            yield int(symbol[1], 16), symbol[2], re.sub(r"::<.*", "", symbol[3])


def is_of(path, functions):
    """Whether a path is that of one of these functions, maybe after a type."""
    *modules, name = path.split("::")
    return any(it == name and "::".join([*modules, ""]).startswith(module) for module, it in functions)


def main():
    program = sys.argv[1] if sys.argv[1:] else f"{repo.TOP}/{PROGRAM}"
    names = {crate: set(hinted(crate)) for crate in repo.crates()}
    found = sorted(it for it in standing(program) if is_of(it[2], names.get(it[1], ())))
    for size, crate, path in reversed(found):
        print(f"hints: {crate}::{path} stands, {size} bytes")
    if not found:
        print("hints: all are followed")


if __name__ == "__main__":
    main()
