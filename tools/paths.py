#!/usr/bin/env python3
"""Lists the files of crates/ that the documents name and that aren't there: tools/paths.py. It fails where there are any.
The documents are those of the top and of docs/, and the README.md of each crate.

docs/MEASURED.md is left out: what was measured may be gone since.
"""
import glob
import os
import re
import sys

import repository as repo

PATH = re.compile(r"\b(?:crates/)?((yaml_\w+)/(?:src|specs|proofs|must-fail)/[\w/.-]*\w)")


def lacking(page):
    for number, line in enumerate(repo.read(page).split("\n"), 1):
        for path, crate in PATH.findall(line):
            if not os.path.exists(f"{repo.TOP}/crates/{path}"):
                yield f"{page}:{number}: {path}"
        for crate in re.findall(r"`(yaml_(?:scan|parse|emit|round|cli)(?:_\w+)?)`", line):
            if crate not in repo.crates() and crate not in known_names():
                yield f"{page}:{number}: {crate}"


def known_names():
    """Names of code: a word of a document that is neither a crate nor one of these is an old name."""
    if not KNOWN:
        for crate in repo.crates():
            for path in repo.sources(crate):
                KNOWN.update(re.findall(r"\byaml_\w+", repo.read(path)))
    return KNOWN


KNOWN = set()


def pages():
    found = [it for pattern in ("docs/*.md", "crates/*/README.md") for it in glob.glob(f"{repo.TOP}/{pattern}")]
    return ["README.md", "CONTRIBUTING.md", *sorted({os.path.relpath(it, repo.TOP) for it in found} - {"docs/MEASURED.md"})]


def main():
    found = [it for page in pages() for it in lacking(page)]
    print("\n".join(found) if found else "paths: all are there")
    return bool(found)


if __name__ == "__main__":
    sys.exit(main())
