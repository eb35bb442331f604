#!/usr/bin/env python3
"""Keeps what the gate proved in this checkout, for `make program`, `make library` and `tools/check.py`.

    tools/keep.py

The gate of rattle-kit-13b keeps no proofs, but leaves each crate's library in the form that these load. They are put into the
store that checkouts share (tools/store.py, PROVED). Run it in a clone in which nothing but the gate has run: other commands of
the kit leave libraries in another form. A library that is older than a file of its crate, or of one below it, is left out.
"""
import os
import sys

sys.path.insert(0, os.path.dirname(os.path.abspath(__file__)))
import lanes
import program
import store


def made(crate):
    """When a crate's files were last written."""
    return max((os.stat(file).st_mtime for _, file in store.files_of(crate)), default=0)


def is_current(crate):
    """Whether the crate's library is there, and is newer than all that it is made from."""
    if not crate.makes_rlib() or not os.path.isdir(crate.rlib):
        return False
    return os.stat(crate.rlib).st_mtime > max(made(it) for it in [crate, *crate.below()])


def main():
    rt = lanes.kit("keep")
    program.set_up(rt)
    crates = sorted(lanes.crates_of(rt, program.TOP), key=lambda it: len(it.below()))
    kept = lanes.kept_by(rt, crates, program.SEARCHES)
    found = [it for it in crates if is_current(it)]
    for crate in found:
        kept.keep(crate, False, kept.key(crate))
    lanes.say("keep", f"{len(found)} of {len(crates)} crates' libraries are kept")
    return 0


if __name__ == "__main__":
    sys.exit(main())
