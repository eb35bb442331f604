"""Measures the package for Python beside PyYAML over C's libyaml, on the same inputs: python3 python.py [--kinds KIND,..]
[--sizes BYTES,..] [--calls CALL,..] [--rounds N] [--no-memory]

Both run in turns in this process, and the table has the least of the processor's seconds of each and their ratio, beside the
bound that some calls have: `parse` beside the list of CParser's events, `load` beside CBaseLoader's, `safe_load` and
`compose` beside CSafeLoader's, `dump` and `safe_dump` beside CSafeDumper's. Where no calls are named they are those that have a
bound. `check` has no peer, and the input of anchors none in the calls that refuse its tags. The last columns are the peaks of a
process that makes the call alone, with modules that are compiled already, in MB. A ratio above its bound, and then a peak above PyYAML's, ends with status 1.
"""

import argparse
import os
import pickle
import subprocess
import sys
import tempfile
import time

HERE = os.path.dirname(os.path.abspath(__file__))
sys.path[:0] = [HERE, os.path.join(HERE, "..", "bindings", "python")]

BOUNDS = {"load": 0.3, "safe_load": 0.6, "safe_dump": 0.8}
# Each call as it is made here and there: `text` is the input, `held` what is dumped.
CALLS = {
    "parse": ("yaml_c.parse(text)", "list(yaml.parse(text, Loader=yaml.CLoader))"),
    "load": ("yaml_c.load(text)", "yaml.load(text, Loader=yaml.CBaseLoader)"),
    "safe_load": ("yaml_c.safe_load(text)", "yaml.load(text, Loader=yaml.CSafeLoader)"),
    "compose": ("yaml_c.compose(text)", "yaml.compose(text, Loader=yaml.CSafeLoader)"),
    "dump": ("yaml_c.dump(held)", "yaml.dump(held, Dumper=yaml.CSafeDumper)"),
    "safe_dump": ("yaml_c.safe_dump(held)", "yaml.dump(held, Dumper=yaml.CSafeDumper)"),
    "check": ("yaml_c.check(text)", None),
}


def seconds(call, given):
    call = compile(call, "call", "eval")
    start = time.process_time()
    found = eval(call, given)
    taken = time.process_time() - start
    del found
    return taken


def peak(call, given):
    """The least peak of some processes that make the call, in MB. Each reads modules as they are installed, compiled, but for the
    first one, which compiles them."""
    with tempfile.TemporaryDirectory() as folder:
        path = os.path.join(folder, "given")
        with open(path, "wb") as file:
            pickle.dump(given, file)
        around = os.environ | {"PYTHONPYCACHEPREFIX": folder}
        around.pop("PYTHONDONTWRITEBYTECODE", None)
        command = [sys.executable, __file__, "--peak", path, call]
        found = [subprocess.run(command, env=around, capture_output=True, check=True).stdout for _ in range(2)]
    return min(map(int, found)) / 1024


def peak_of_this(path, call):
    with open(path, "rb") as file:
        given = pickle.load(file)
    name = "yaml_c" if "yaml_c" in call else "yaml"
    given[name] = __import__(name)
    found = eval(call, given)
    with open("/proc/self/status", encoding="ascii") as status:
        print(next(line.split()[1] for line in status if line.startswith("VmHWM")))
    del found


def row(said, kind, name, given, modules):
    """One row of the table; whether it is within its bounds."""
    ours, peer = CALLS[name]
    if kind == "anchors" and name in ("load", "safe_load", "compose"):
        peer = None
    taken = [
        (seconds(ours, given | modules), seconds(peer, given | modules) if peer else 0)
        for _ in range(said.rounds)
    ]
    mine, other = (min(it) for it in zip(*taken))
    peaks = [peak(it, given) if it and said.memory else 0 for it in (ours, peer)]
    bound = BOUNDS.get(name, "")
    beside = f"{other:.3f} | {mine / other:.2f}" if peer else " | "
    memory = " | ".join(f"{it:.0f}" if it else "" for it in peaks)
    print(f"| {kind} | {len(given['text']):,} | {name} | {mine:.3f} | {beside} | {bound} | {memory} |", flush=True)
    return not bound or not peer or mine <= bound * other and peaks[0] <= peaks[1]


def modules():
    """PyYAML and the package."""
    try:
        import yaml

        if not yaml.__with_libyaml__:
            raise ImportError("it is built without libyaml")
    except ImportError as error:
        sys.exit(f"bench-python: PyYAML with libyaml isn't here: {error}")
    try:
        import yaml_c
    except ImportError as error:
        sys.exit(f"bench-python: {error}")
    return {"yaml": yaml, "yaml_c": yaml_c}


def main():
    said = argparse.ArgumentParser()
    said.add_argument("--kinds", default="mapping,json,scalars")
    said.add_argument("--sizes", default="1000000,10000000")
    said.add_argument("--calls", default=",".join(BOUNDS))
    said.add_argument("--rounds", type=int, default=5)
    said.add_argument("--no-memory", dest="memory", action="store_false")
    said.add_argument("--peak", nargs=2, help=argparse.SUPPRESS)
    said = said.parse_args()
    if said.peak:
        peak_of_this(*said.peak)
        return
    import inputs

    found, is_within = modules(), True
    print("| input | bytes | call | ours, s | PyYAML, s | ratio | bound | ours, MB | PyYAML, MB |")
    print("|---|---|---|---|---|---|---|---|---|")
    for kind in said.kinds.split(","):
        for size in said.sizes.split(","):
            text = inputs.text(kind, int(size)).encode()
            for name in said.calls.split(","):
                # what `dump` takes is str, list and dict, and what `safe_dump` takes has its types
                held = None
                if "dump" in name:
                    held = found["yaml_c"].load(text) if name == "dump" else found["yaml_c"].safe_load(text)
                is_within &= row(said, kind, name, {"text": text, "held": held}, found)
    if not is_within:
        sys.exit("bench-python: above a bound, or above PyYAML's memory")


if __name__ == "__main__":
    main()
