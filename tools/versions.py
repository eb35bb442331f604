#!/usr/bin/env python3
"""The version, wherever it is, and which C library a file needs.

    tools/versions.py             fails where a file states another version than crates/yaml_cli_program/src/version.rt
    tools/versions.py FILE..      which glibc each file needs, read from the symbols that it takes

The version stands in that file; CHANGELOG.md's first heading, the man page and the package for Python state it again, and the C
library's name and its file for pkg-config are made of it (tools/library.sh).
"""
import os
import re
import subprocess
import sys

TOP = os.path.dirname(os.path.dirname(os.path.abspath(__file__)))
SOURCE = "crates/yaml_cli_program/src/version.rt"
# Each place that states the version again, and how.
STATED = [
    ("CHANGELOG.md", r"^## (\d+\.\d+\.\d+)\b"),
    ("docs/man/yaml_cli.1", r'^\.TH YAML_CLI 1 "" "yaml_cli (\d+\.\d+\.\d+)"'),
    ("bindings/python/yaml_c/_version.py", r'^VERSION = "(\d+\.\d+\.\d+)"'),
    ("bindings/c/yaml_c.h", r'^#define YAML_C_VERSION "(\d+\.\d+\.\d+)"'),
]


def stated(path, pattern):
    with open(f"{TOP}/{path}", encoding="utf-8") as file:
        found = re.search(pattern, file.read(), re.MULTILINE)
    return found[1] if found else None


def version():
    return stated(SOURCE, r'"(\d+\.\d+\.\d+) ')


def wrong():
    """A line for each place that states another version, or none."""
    is_version = version()
    for path, pattern in STATED:
        other = stated(path, pattern)
        if other != is_version:
            yield f"{path}: the version is {is_version}, and {other or 'none'} stands here"


def number(name):
    return [int(it) for it in name.split(".")]


def glibc_of(path):
    """The newest version of glibc that a program or a shared object asks for."""
    told = subprocess.run(["objdump", "-T", path], check=True, capture_output=True, text=True).stdout
    return max(re.findall(r"\*UND\*.*GLIBC_(\d+(?:\.\d+)+)", told), key=number, default="2.2.5")


def main(paths):
    for path in paths:
        print(f"{path}: glibc {glibc_of(path)}")
    rows = [] if paths else list(wrong())
    for row in rows:
        print(row)
    return 1 if rows else 0


if __name__ == "__main__":
    sys.exit(main(sys.argv[1:]))
