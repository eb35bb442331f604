#!/usr/bin/env python3
"""Proves the libraries that checks use, side by side.

    tools/base.py [CRATE..]

All libraries, or those crates and the ones below them, are built in the form that `rt check` loads (the gate's and
`make program`'s is another one), as `rt lib` does it one after another: over what earlier checks kept, and other checkouts
on this machine take them from here. It locks nothing: run no other command of the kit in this checkout meanwhile.
"""
import os
import sys

sys.path.insert(0, os.path.dirname(os.path.abspath(__file__)))
import lanes

TOP = os.path.dirname(os.path.dirname(os.path.abspath(__file__)))


def built(crate, jobs):
    os.makedirs(f"{crate.folder}/out", exist_ok=True)
    with open(f"{crate.folder}/out/base.log", "w", encoding="utf-8") as crate.out:
        return crate.build_rlib(["--jobs", str(jobs)], anew=False)


def main(names):
    rt = lanes.kit("base")
    # its first call sets a signal's handler, which only the main thread may
    rt.rtlib.guarded()
    if hasattr(rt, "share_work"):
        rt.share_work(False)
    every = [it for it in lanes.crates_of(rt, TOP) if it.makes_rlib()]
    wanted = {it for top in every if not names or top.name in names for it in [top, *top.below()]}
    return 0 if lanes.Lanes("base", [it for it in every if it in wanted], built).run() else 1


if __name__ == "__main__":
    sys.exit(main(sys.argv[1:]))
