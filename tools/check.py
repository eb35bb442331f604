#!/usr/bin/env python3
"""Checks a crate over libraries of statements, as the gate and `make program` load them.

    tools/check.py CRATE [WORDS..]

WORDS are those of `rt check`: `--only F`, `--generated DIR --start F`, .. The libraries below are taken from what the gate and
`make program` keep, or proved now and kept there; what the check itself proves is kept in the crate's out/incremental. `rt check`
loads libraries with their proofs, which takes up to twice as long above the engine. In one checkout use one of the two: each
replaces the other's libraries. As `make program` it looks for contracts that no call can meet with SEARCH=1 alone, and PROVED
names a store that checkouts share.
"""
import os
import sys

sys.path.insert(0, os.path.dirname(os.path.abspath(__file__)))
import lanes
import program


def below(rt, crate, logs):
    """Has the libraries below in their place, each after those that it uses; returns the first that isn't proved."""
    crates = sorted(crate.below(), key=lambda it: len(it.below()))
    kept = lanes.kept_by(rt, [*crates, crate], program.SEARCHES)
    return next((it for it in crates if program.built(rt, kept, logs, it, lanes.processors())), None)


def main(words):
    rt = lanes.kit("check")
    crate = next((it for it in lanes.crates_of(rt, program.TOP) if words and it.name == words[0]), None)
    if not crate:
        print(__doc__, file=sys.stderr)
        return 2
    program.set_up(rt)
    if not program.SEARCHES:
        program.leave_out_search(rt)
    logs = f"{crate.folder}/out/check"
    os.makedirs(logs, exist_ok=True)
    failed = below(rt, crate, logs)
    if failed:
        lanes.say("check", f"{failed.name} isn't proved, by {os.path.relpath(logs)}/{failed.name}.log")
        return 1
    crate.out = sys.stdout
    return crate.call(rt.rtlib.RATTLE, "check", *crate.words(words[1:]), *rt.rtlib.KEPT)


if __name__ == "__main__":
    sys.exit(main(sys.argv[1:]))
