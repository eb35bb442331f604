"""Proves crates side by side, those with the longest chain of others after them first; used by `program.py` and `base.py`.

    python3 tools/lanes.py     prints how many checks this machine holds side by side, as `make test` asks
"""
import contextlib
import hashlib
import importlib.machinery
import importlib.util
import json
import os
import re
import shutil
import signal
import subprocess
import sys
import tempfile
import time
from concurrent.futures import FIRST_COMPLETED, ThreadPoolExecutor, wait

import store

# What a check with one job is to find free, in bytes; each further job takes less.
MEMORY = 3_000_000_000
# A check's work, thousands of small files that it removes at its end, is kept in memory where so much more is free for each, in bytes.
WORK = 1_000_000_000
IN_MEMORY = "/dev/shm"
# More jobs than these don't make the check of one crate shorter.
MOST_JOBS = 4
# A crate is on a long chain where that has this many in 100 of the longest one's work.
LONG_PART = 70
# What only the last crates name is left for the end, when processors are idle anyway: until its
# chain has this many in 100 of the longest one's work.
LATE_PART = 40
# The part of the work, in 100, after which the remaining time is reported.
TELLING_PART = 5
# A crate that took fewer seconds was taken from what an earlier run kept, and says nothing of how fast crates are proved.
PROVED_SECONDS = 5
# After this many seconds without a line one says what is under way.
QUIET_SECONDS = 30
BEGAN = time.monotonic()


def say(what, text):
    spent = int(time.monotonic() - BEGAN)
    print(f"{what}: {spent // 60}:{spent % 60:02} {text}", file=sys.stderr, flush=True)


def processors():
    """How many processors there are to use, as far as memory holds."""
    asked = os.environ.get("PROCESSORS", "")
    if asked.isdigit() and int(asked):
        return int(asked)
    return max(1, min(len(os.sched_getaffinity(0)), free_memory() // MEMORY))


def free_memory():
    """How many bytes of memory are free."""
    with open("/proc/meminfo", encoding="utf-8") as file:
        return 1024 * int(re.search(r"MemAvailable:\s+(\d+)", file.read())[1])


@contextlib.contextmanager
def work_in_memory():
    """Has checks keep their work in memory, where there is room and no other folder is named, and hand no memory back before they end:
    both spare most of what the system takes, 3 to 4 in 100 of the whole."""
    os.environ.setdefault("MIMALLOC_PURGE_DELAY", "-1")
    # what this process keeps itself stays where it was
    tempfile.gettempdir()
    lanes = processors()
    has_room = free_memory() >= lanes * (MEMORY + WORK) and os.access(IN_MEMORY, os.W_OK)
    if "TMPDIR" in os.environ or not has_room or shutil.disk_usage(IN_MEMORY).free < lanes * WORK:
        yield
        return
    with tempfile.TemporaryDirectory(prefix="rt-work-", dir=IN_MEMORY) as folder:
        # so that the folder goes, too, where the run is ended; its checks end with it
        signal.signal(signal.SIGTERM, lambda *_: (shutil.rmtree(folder, ignore_errors=True), os._exit(1)))
        os.environ["TMPDIR"] = folder
        yield
    del os.environ["TMPDIR"]


def kit(what):
    """The kit's `rt` as a module. Where it isn't there, a line says so and nothing goes on."""
    if subprocess.run([f"{os.path.dirname(os.path.abspath(__file__))}/kit.sh", what]).returncode:
        sys.exit(1)
    loader = importlib.machinery.SourceFileLoader("rt", os.path.realpath(shutil.which("rt")))
    made = importlib.util.module_from_spec(importlib.util.spec_from_loader("rt", loader))
    sys.modules["rt"] = made
    loader.exec_module(made)
    return made


def crates_of(rt, top):
    """The crates of a checkout, lowest first."""
    if hasattr(rt, "Kept"):
        return rt.crates_of(top)
    rt.rtlib.Crate = rt.Crate
    return sorted(rt.rtlib.crates_below(top), key=lambda it: len(it.below()))


class Unsearched:
    """What is kept of crates in which nothing looked for contracts that no call can meet: it takes what the gate keeps, in which
    that was done, and keeps apart what the gate is not to take."""

    def __init__(self, gates, own):
        self.gates, self.own = gates, own

    def key(self, crate):
        return self.gates.key(crate), self.own.key(crate)

    def give(self, crate, tests, key):
        return self.gates.give(crate, tests, key[0]) or self.own.give(crate, tests, key[1])

    def has(self, crate):
        return self.own.has(crate)

    def is_built(self, crate):
        self.gates.is_built(crate)

    def keep(self, crate, tests, key):
        self.own.keep(crate, tests, key[1])

    def shrink(self):
        self.own.shrink()


def kept_by(rt, crates, searches=True):
    """What earlier runs proved: what the kit's gate keeps, or the store of `store.py` where it keeps nothing; or both, where
    nothing looks for contracts that no call can meet."""
    if searches and hasattr(rt, "Kept"):
        return rt.Kept(crates)
    with open(f"{rt.KIT}/KIT-ID", encoding="utf-8") as line:
        own = store.Kept(store.folder(), line.read())
    return Unsearched(rt.Kept(crates), own) if hasattr(rt, "Kept") else own


def is_kept(gates, crate):
    """Whether the kit's gate keeps the crate's library. It names what it keeps by the libraries below, as they were built: so these
    are asked first."""
    if not crate.makes_rlib() or any(it.name not in gates.rlibs for it in crate.below()):
        return False
    try:
        with open(f"{gates.place(crate, False, gates.key(crate))}/made.json", encoding="utf-8") as text:
            files = [tuple(it) for it in json.load(text)["files"]]
    except (OSError, ValueError, KeyError, TypeError):
        return False
    gates.rlibs[crate.name] = hashlib.sha256(repr(files).encode()).hexdigest()
    return True


def held_by(kept, crates):
    """The crates, lowest first, whose libraries earlier runs proved."""
    gates = getattr(kept, "gates", kept)
    by_gates = lambda it: hasattr(gates, "rlibs") and is_kept(gates, it)
    return {it for it in crates if by_gates(it) or (hasattr(kept, "has") and kept.has(it))}


def only_at_the_end(crates):
    """The crates that are named by those alone beside which nothing can run, since all others are below them or above."""
    below = {it: set(it.below()) for it in crates}
    reached = {it: len(below[it]) + sum(it in found for found in below.values()) for it in crates}
    lone = {it for it in crates if reached[it] == len(crates) - 1}
    named_by = {it: {user for user in crates if it in user.deps} for it in crates}
    return {it for it in crates if it not in lone and named_by[it] and named_by[it] <= lone}


# What a line of code weighs, of which each function is proved step by step, beside one of a definition or a proof; what
# loading costs each crate; and what linking and compiling cost, which go over all code below.
CODE_WEIGHS = 35
LOADING_WEIGHS = 4000
COMPILING_WEIGHS = 45_000
# How many seconds of one processor a thousand weights take on a quick machine, and how many times as long on a slow one.
SECONDS_A_THOUSAND = 1.7
SLOW = 1.75


def work_of(crate):
    """A measure of a crate's work."""
    found = LOADING_WEIGHS + (0 if crate.makes_rlib() else COMPILING_WEIGHS)
    for part, weighs in (("src", CODE_WEIGHS), ("specs", 1), ("proofs", 1)):
        for folder, _, names in os.walk(f"{crate.folder}/{part}"):
            for name in names:
                with open(f"{folder}/{name}", "rb") as file:
                    found += weighs * file.read().count(b"\n")
    return found


def longest_behind(crates, work):
    """For each crate its work and that of the longest chain of crates above it."""
    behind = dict(work)
    for crate in reversed(crates):
        for it in crate.deps:
            behind[it] = max(behind[it], work[it] + behind[crate])
    return behind


def minutes(seconds):
    return 1 + int(seconds) // 60


class Lanes:
    """The crates that are still to be built, and those that are under way. `build` makes one of them with so many jobs, and answers
    its status; those that are `held` were proved by an earlier run, and are no work."""

    def __init__(self, what, crates, build, held=()):
        self.work = {it: 0 if it in held else work_of(it) for it in crates}
        self.behind = longest_behind(crates, self.work)
        self.left = sorted(crates, key=lambda it: -self.behind[it])
        self.late = only_at_the_end(crates)
        self.what, self.lanes, self.build, self.held = what, processors(), build, held
        self.total, self.done, self.running, self.failed = len(crates), set(), {}, []
        self.proved_work, self.proved_seconds = 0, 0

    def begin(self, pool):
        """Begins what can begin, each with its share of the idle processors; what doesn't fit goes to the longest chains."""
        longest = max(self.behind[it] for it in [*self.left, *self.running_crates()]) if self.left else 0
        ready = self.ready(longest)
        for at, it in enumerate(ready):
            idle = self.lanes - sum(jobs for _, jobs, _ in self.running.values())
            if idle < 1:
                return
            is_long = LONG_PART * longest <= 100 * self.behind[it]
            share = -(-idle // (len(ready) - at)) if is_long else idle // (len(ready) - at)
            jobs = max(1, min(MOST_JOBS, share))
            self.left.remove(it)
            self.running[pool.submit(self.timed, it, jobs)] = it, jobs, time.monotonic()

    def ready(self, longest):
        """The crates that can begin, except those that the end has room for, as long as others are under way."""
        found = [it for it in self.left if all(dep in self.done for dep in it.below())]
        soon = [it for it in found if it not in self.late or LATE_PART * longest <= 100 * self.behind[it]]
        return soon if soon or self.running else found

    def running_crates(self):
        return [it for it, _, _ in self.running.values()]

    def timed(self, crate, jobs):
        began = time.monotonic()
        return self.build(crate, jobs), time.monotonic() - began

    def seconds_left(self):
        """How long the rest takes, one chain of crates after another and all of it by all processors: as fast as what was proved
        so far or, as long as that is little, as on a quick machine."""
        is_told = 100 * self.proved_work >= TELLING_PART * sum(self.work.values()) > 0
        rate = self.proved_seconds / self.proved_work if is_told else SECONDS_A_THOUSAND / 1000
        # what was done of those that are under way, nine tenths of each at most
        now, done = time.monotonic(), dict.fromkeys(self.done, 0)
        for it, jobs, began in self.running.values():
            done[it] = min(0.9 * self.work[it], jobs * (now - began) / rate)
        rest = [it for it in self.work if it not in self.done]
        longest = max((self.behind[it] - done.get(it, 0) for it in rest), default=0)
        return rate * max(longest, sum(self.work[it] - done.get(it, 0) for it in rest) / self.lanes)

    def time_left(self):
        return f"; some {minutes(self.seconds_left())} min left" if len(self.done) < self.total else ""

    def time(self):
        """How long the whole takes, before anything was proved."""
        least, most = minutes(self.seconds_left()), minutes(SLOW * self.seconds_left())
        return f"{least} to {most} min" if least < most else f"{least} min"

    def end(self):
        """Waits until one has ended, and reports it; that one was taken from what is kept needs no line."""
        ended = wait(self.running, timeout=QUIET_SECONDS, return_when=FIRST_COMPLETED).done
        if not ended:
            say(self.what, ", ".join(it.name for it in self.running_crates()) + " under way" + self.time_left())
        for future in ended:
            crate, jobs, _ = self.running.pop(future)
            status, spent = future.result()
            self.done.add(crate)
            if spent > PROVED_SECONDS:
                self.proved_work += self.work[crate]
                self.proved_seconds += spent * jobs
            if status:
                self.failed.append(crate.name)
            elif crate in self.held:
                continue
            part = 100 * sum(self.work[it] for it in self.done) // max(1, sum(self.work.values()))
            word = f"NOT PROVED, by its log {crate.name}.log" if status else "proved"
            line = f"{len(self.done)} of {self.total}, {part} in 100: {crate.name} {word}, {spent:.0f} s, jobs {jobs}"
            say(self.what, line + self.time_left())

    def run(self):
        with ThreadPoolExecutor(self.lanes) as pool:
            while self.running or (self.left and not self.failed):
                if not self.failed:
                    self.begin(pool)
                self.end()
        return not self.failed


if __name__ == "__main__":
    print(processors())
