#!/usr/bin/env python3
"""Lists wrong bodies that a crate's contracts let through: the kit's `rt plant`, over libraries of statements.

    tools/plant.py CRATE [--beside CRATE].. [--proved] [WORDS..]

WORDS are those of `rt plant`: `--only WORD` takes the functions whose file or name contains it, private ones too (`--only src`
takes all), `--minutes N`, `--max N`, `--all`. `--beside` adds a crate to the line in crates.txt for this run: with
`yaml_scan_model` there, bodies compile that build a mark or a fault. `--proved` spares the crate's own check where it is known
to be proved; methods of traits aren't judged then. It works on a copy. The libraries below are taken from what is kept, or
proved now and kept there, as by `tools/check.py`; `rt plant` builds each with its proofs, which takes up to twice as long.
"""
import argparse
import importlib.machinery
import importlib.util
import os
import pathlib
import re
import sys
import tempfile

sys.path.insert(0, os.path.dirname(os.path.abspath(__file__)))
import check
import lanes
import program


def copied(rt, copy, name, beside):
    """Copies what a proof reads, with further crates on the line of one, and answers that one."""
    program.copy_crates(rt, copy)
    os.mkdir(f"{copy}/.git")
    longer = lambda it: " ".join([it[0], *(other for other in beside if other not in it[0].split())])
    listed = pathlib.Path(f"{copy}/crates.txt")
    listed.write_text(re.sub(rf"(?m)^{name}(?: staticlib)?:.*$", longer, listed.read_text()))
    return next((it for it in lanes.crates_of(rt, copy) if it.name == name), None)


def planter(rt, crate, is_proved):
    """The kit's `rt plant` as a module, with one check over libraries of statements in place of its own, or none."""
    loader = importlib.machinery.SourceFileLoader("planter", f"{rt.KIT}/bin/rt-plant")
    made = importlib.util.module_from_spec(importlib.util.spec_from_loader("planter", loader))
    loader.exec_module(made)

    def checked(verb, *words):
        crate.out = sys.stdout
        if is_proved:
            print(f"\ncrate {crate.name}: taken for proved")
            return 0
        return crate.call(rt.rtlib.RATTLE, verb, *crate.words(list(words)), *rt.rtlib.KEPT)

    made.rt, rt.rtlib.main = rt.rtlib, checked
    return made


def main():
    reader = argparse.ArgumentParser(usage=__doc__, add_help=False)
    reader.add_argument("crate")
    reader.add_argument("--beside", action="append", default=[])
    reader.add_argument("--proved", action="store_true")
    asked, words = reader.parse_known_args()
    rt = lanes.kit("plant")
    with tempfile.TemporaryDirectory(prefix="plant-") as room:
        crate = copied(rt, f"{room}/repo", asked.crate, asked.beside)
        if not crate:
            reader.error(f"there is no crate {asked.crate}")
        program.set_up(rt)
        program.leave_out_search(rt)
        logs = f"{program.TOP}/crates/{crate.name}/out/plant"
        os.makedirs(logs, exist_ok=True)
        if check.below(rt, crate, logs):
            lanes.say("plant", f"a crate below isn't proved: its log stands in {os.path.relpath(logs)}")
            return 1
        os.makedirs(f"{crate.folder}/out", exist_ok=True)
        os.chdir(crate.folder)
        return planter(rt, crate, asked.proved).main("--jobs", "1", *words)


if __name__ == "__main__":
    sys.exit(main())
