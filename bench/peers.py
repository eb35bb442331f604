#!/usr/bin/env python3
"""Measures the program beside other readers and writers of YAML: `make bench-peers`, which writes bench/peers.csv and docs/speed.svg.

    python3 bench/peers.py PROGRAM [BYTES]

A peer that isn't here is left out, and a line says so; Debian has them as libyaml-dev, libfyaml-utils, libyaml-cpp-dev,
golang-gopkg-yaml.v3-dev, python3-yaml and node-yaml. Each reads a file of about BYTES bytes (1 MB) of each kind of bench/inputs.py: to its
events, to a text again, to documents. The table has the least of several runs' seconds of processor time, start of the program
included, and an empty cell where a peer doesn't read the file.
"""

import csv
import os
import shutil
import subprocess
import sys
import tempfile

import run

HERE = os.path.dirname(os.path.abspath(__file__))
TOP = os.path.dirname(HERE)
ROUNDS = 5
# As documents a file is read by `check`, which takes what a load takes where there are aliases; libyaml's own loader makes documents.
COMMANDS = ["events", "format", "load"]
OURS = {"events": ["events"], "format": ["fmt", "--pretty"], "load": ["docs"]}
LIBYAML = {"events": "events", "format": "pretty", "load": "docs"}


def built(folder, words, needs):
    """Whether a peer could be built; where not, a line says so."""
    if shutil.which(needs) and not subprocess.run(words, cwd=folder, stdout=subprocess.DEVNULL, stderr=subprocess.DEVNULL, check=False).returncode:
        return True
    print(f"bench-peers: left out, since it can't be built: {words[-1]}", file=sys.stderr)
    return False


def peers(program, folder):
    """The peers that are here: a name, and the words that run a command on a file, or none."""
    found = {"yaml_cli": lambda command, file: [program, *OURS[command], file]}
    libyaml = run.compile_c(folder, "peer", "-lyaml")
    found["libyaml"] = lambda command, file: [libyaml, LIBYAML[command], file]
    if shutil.which("fy-tool"):
        words = {"events": ["--testsuite"], "format": ["--dump"]}
        found["libfyaml"] = lambda command, file: [shutil.which("fy-tool"), *words[command], file] if command in words else None
    if built(folder, ["c++", "-O2", "-o", "yaml_cpp", f"{HERE}/peers/yaml_cpp.cpp", "-lyaml-cpp"], "c++"):
        found["yaml-cpp"] = lambda command, file: [f"{folder}/yaml_cpp", command, file]
    os.environ |= {"GO111MODULE": "off", "GOPATH": "/usr/share/gocode", "GOCACHE": f"{folder}/go", "GOFLAGS": ""}
    if built(folder, ["go", "build", "-o", "go_yaml", f"{HERE}/peers/go_yaml.go"], "go"):
        found["go-yaml"] = lambda command, file: [f"{folder}/go_yaml", command, file] if command != "events" else None
    if not subprocess.run([sys.executable, "-c", "import yaml; yaml.CSafeLoader"], stderr=subprocess.DEVNULL, check=False).returncode:
        found["PyYAML (C)"] = lambda command, file: [sys.executable, f"{HERE}/peers/pyyaml.py", command, file]
    os.environ.setdefault("NODE_YAML", "/usr/share/nodejs/yaml")
    if shutil.which("node") and os.path.isdir(os.environ["NODE_YAML"]):
        found["node yaml"] = lambda command, file: [shutil.which("node"), f"{HERE}/peers/node_yaml.js", command, file] if command != "events" else None
    return found


def seconds(measure, words):
    """The least seconds of processor time, or none where the program doesn't read the file."""
    if words is None:
        return None
    try:
        return min(run.measured(measure, words)[0] for _ in range(ROUNDS))
    except (subprocess.CalledProcessError, ValueError):
        return None


def main(program, size=1_000_000):
    with tempfile.TemporaryDirectory(prefix="peers-") as folder, open(f"{HERE}/peers.csv", "w", newline="", encoding="utf-8") as out:
        measure = run.compile_c(folder, "measure")
        found = peers(os.path.abspath(program), folder)
        rows = csv.writer(out, lineterminator="\n")
        rows.writerow(["command", "kind", *found])
        for command in COMMANDS:
            for kind in [*run.KINDS, *run.OTHERS]:
                file = run.input_of(folder, kind, size)
                taken = [seconds(measure, words(command, file)) for words in found.values()]
                rows.writerow([command, kind, *("" if it is None else f"{it:.4f}" for it in taken)])
                print(command, kind, dict(zip(found, taken)), flush=True)


if __name__ == "__main__":
    main(sys.argv[1], *(int(it) for it in sys.argv[2:]))
