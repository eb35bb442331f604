#!/usr/bin/env python3
"""Proves and builds the program, another one of crates.txt, or the archive of the library for C, and says how far it is: `make
program`.

    tools/program.py [CRATE]        yaml_cli, where none is named

The crates that it stands on are proved as the gate proves them, from nothing and side by side, those with the longest chain
of others behind them first; a crate that nothing can run beside gets the processors that are idle (PROCESSORS sets how many
there are to use). Neither must-fail edits are tried nor tests run, and one compiler builds what was proved, LLVM. The program is
then crates/CRATE/out/CRATE, the archive crates/yaml_round_c/out/libyaml_round_c.a.

Each function is proved. That each contract can be met by some call is looked for by the gate, and here with SEARCH=1 alone, since
it loads once more all that a crate stands on. What was proved is kept in the user's cache (tools/store.py), and what the
gate keeps is taken; with SEARCH=1 it is kept where the gate keeps it, so that gate and checks of other checkouts take it from there.

It works on a copy, as `rt ci NAME` does, and by the functions that `rt ci` is made of, since the libraries of other commands
are loaded with their proofs: above the engine that costs as much again as to prove. Where a kit has other functions, `rt run`
or `rt lib` proves one crate after another.
"""
import contextlib
import os
import shutil
import subprocess
import sys
import tempfile
import time

sys.path.insert(0, os.path.dirname(os.path.abspath(__file__)))
import lanes

TOP = os.path.dirname(os.path.dirname(os.path.abspath(__file__)))
SEARCHES = bool(os.environ.get("SEARCH"))


class Goal:
    """What is to be built."""

    def __init__(self, what, crate, made, *rt_words):
        self.what, self.crate, self.made, self.rt_words = what, crate, made, ["rt", *rt_words]
        self.folder = f"{TOP}/crates/{crate}"
        self.file = f"{self.folder}/out/{made}"
        self.logs = f"{self.folder}/out/program"


def goal_of(crate):
    """The goal of a crate's name."""
    if crate == "yaml_round_c":
        return Goal("make library", crate, "libyaml_round_c.a", "lib")
    if crate == "yaml_cli":
        return Goal("make program", crate, crate, "run", "--", "fmt")
    return Goal(f"program {crate}", crate, crate, "run")


def compiled(rt, crate, jobs):
    """Proves a program, or an archive, and compiles what was proved."""
    words = crate.words(["--jobs", str(jobs)], keeps=False)
    words = ["build", *words, "--toolchain", f"{rt.KIT}/toolchain", "--backend", "llvm"]
    made = f"out/lib{crate.name}.a" if crate.is_static else f"out/{crate.name}.o"
    return crate.prove([*words, "-o", made]) or (0 if crate.is_static else crate.link(made, f"out/{crate.name}"))


def proved(rt, kept, crate, jobs):
    """Proves a library, or takes what an earlier run made of the same."""
    # where the library's files are there already, the kit's store can't link its own, takes them for damaged and drops them
    shutil.rmtree(os.path.dirname(crate.rlib), ignore_errors=True)
    key = kept.key(crate)
    with kept.in_turn(crate, False, key) if hasattr(kept, "in_turn") else contextlib.nullcontext():
        is_given = kept.give(crate, False, key)
        status = 0 if is_given else proved_anew(crate, jobs)
        if not status:
            kept.is_built(crate)
        if not status and not is_given:
            kept.keep(crate, False, key)
    return status


def proved_anew(crate, jobs):
    """Proves a library. One that was taken from what is kept has its files there too, so it isn't written over."""
    shutil.rmtree(crate.rlib, ignore_errors=True)
    return crate.ci(["--jobs", str(jobs)], False)


def built(rt, kept, logs, crate, jobs):
    """Makes a crate's library, or compiles it."""
    with open(f"{logs}/{crate.name}.log", "w", encoding="utf-8") as crate.out:
        os.makedirs(f"{crate.folder}/out", exist_ok=True)
        return proved(rt, kept, crate, jobs) if crate.makes_rlib() else compiled(rt, crate, jobs)


def keep_sums(rt):
    """Has a crate's sum be taken once. The kit takes it before and after each proof, down every path of edges, to mark a library
    as built, which it doesn't do with one of statements alone."""
    found, sum_of = {}, rt.Crate.stamp

    def stamp(crate):
        if crate.folder not in found:
            found[crate.folder] = sum_of(crate)
        return found[crate.folder]

    rt.Crate.stamp = stamp


def set_up(rt):
    """Has the kit's functions work as they do under `rt ci`."""
    rt.Crate.cuts_libraries = True
    keep_sums(rt)
    for it in (rt.rtlib.ALLOW_C, rt.rtlib.BACKEND, "RT_SECONDS"):
        os.environ.pop(it, None)
    # its first call sets a signal's handler, which only the main thread may
    rt.rtlib.guarded()
    rt.Crate.allowed = rt.handles_of(TOP)


def leave_out_search(rt):
    """Has no crate searched for contracts that no call can meet, which loads once more all that a crate uses."""
    told = rt.rtlib.help_of
    rt.rtlib.help_of = lambda verb: told(verb).replace("--empty-contracts", "")


def copy_crates(rt, to):
    """Copies what a proof reads."""
    if hasattr(rt, "copy_crates"):
        rt.copy_crates(TOP, to)
        return
    for name in ("crates.txt", "HANDLES"):
        os.makedirs(to, exist_ok=True)
        shutil.copy2(f"{TOP}/{name}", f"{to}/{name}")
    shutil.copytree(f"{TOP}/crates", f"{to}/crates", ignore=shutil.ignore_patterns("out"))


def prove(rt, goal):
    """Proves and builds it in a copy, and puts what was built where it belongs."""
    with tempfile.TemporaryDirectory(prefix=f"rt-copy-{os.getpid()}-") as room:
        copy = f"{room}/repo"
        copy_crates(rt, copy)
        # it is the top of a repository
        os.mkdir(f"{copy}/.git")
        top = next(it for it in lanes.crates_of(rt, copy) if it.name == goal.crate)
        crates = [*sorted(top.below(), key=lambda it: len(it.below())), top]
        kept = lanes.kept_by(rt, crates, SEARCHES)
        held = lanes.held_by(kept, crates)
        build = lambda it, jobs: built(rt, kept, goal.logs, it, jobs)
        run = lanes.Lanes(goal.what, crates, build, held)
        lanes.say(goal.what, f"proving {len(crates)} crates, {len(held)} of them kept, jobs {run.lanes}: some {run.time()}")
        with lanes.work_in_memory():
            is_well = run.run()
        if not is_well:
            return False
        kept.shrink()
        shutil.copy2(f"{top.folder}/out/{goal.made}", f"{goal.file}.new")
        os.replace(f"{goal.file}.new", goal.file)
    return True


def one_after_another(goal):
    """By the kit's own command. `rt run` also runs the program once, here on a text of one byte."""
    with open(f"{goal.logs}/rt.log", "w", encoding="utf-8") as log:
        how = {"stdout": log, "stderr": subprocess.STDOUT, "input": b"a"}
        return subprocess.run(goal.rt_words, cwd=goal.folder, **how).returncode == 0


def main(words):
    goal = goal_of(words[0] if words else "yaml_cli")
    say = lambda text: lanes.say(goal.what, text)
    if not os.path.isfile(f"{goal.folder}/src/main.rt") and not words == ["yaml_round_c"]:
        say(f"crates/{goal.crate} is no program: it has no src/main.rt")
        return 2
    if subprocess.run([f"{TOP}/tools/is_built.sh", goal.file]).returncode == 0:
        say(f"{os.path.relpath(goal.file)} is newer than all sources")
        return 0
    since = time.time()
    os.makedirs(goal.logs, exist_ok=True)
    try:
        rt = lanes.kit(goal.what)
        set_up(rt)
        if not SEARCHES:
            leave_out_search(rt)
        is_well = prove(rt, goal)
    except (ImportError, AttributeError, TypeError, KeyError) as error:
        say(f"this kit is another one ({error}): {' '.join(goal.rt_words[:2])} proves one crate after another, which takes longer")
        is_well = one_after_another(goal)
    if not is_well:
        say(f"not built; what was said stands in {os.path.relpath(goal.logs)}")
        return 1
    # a source that was edited meanwhile is newer than what was built
    os.utime(goal.file, (since, since))
    say(f"built {os.path.relpath(goal.file)}")
    return 0


if __name__ == "__main__":
    sys.exit(main(sys.argv[1:]))
