#!/usr/bin/env python3
"""Keeps the definitions that docs/MEANING.md and the pages of docs/meaning quote in step with specs/.

    tools/meaning.py             writes each quoted block again
    tools/meaning.py --check     writes nothing, and fails where a block differs

A block follows a line `<!-- CRATE/FILE: NAME NAME.. -->`, which says what it quotes: the named definitions of
crates/CRATE/specs/FILE.antt with the comments above them.
"""
import glob
import os
import re
import sys
import textwrap

import repository as repo

PAGES = ["docs/MEANING.md", *sorted(os.path.relpath(it, repo.TOP) for it in glob.glob(f"{repo.TOP}/docs/meaning/*.md"))]
BLOCK = re.compile(r"^<!-- (\w+)/(\w+): ([^\n]*?) -->\n```antt\n(.*?)```\n", re.M | re.S)


def quoted(crate, file, names):
    """The text of the definitions, with the file's name above them."""
    path = f"crates/{crate}/specs/{file}.antt"
    known = repo.module(path).definitions
    lacking = [it for it in names if it not in known]
    if lacking:
        sys.exit(f"meaning: {path} has no definition {', '.join(lacking)}")
    texts = [textwrap.dedent(known[it].text).strip("\n") for it in names]
    return f"-- {path}\n\n" + "\n\n".join(texts) + "\n"


def renewed(page, text, differing):
    def block(match):
        crate, file, names, old = match.groups()
        new = quoted(crate, file, names.split())
        if new != old:
            differing.append(f"{page} differs at {crate}/{file}: {names}")
        return f"<!-- {crate}/{file}: {names} -->\n```antt\n{new}```\n"

    return BLOCK.sub(block, text)


def main():
    written, differing = {}, []
    for page in PAGES:
        old = repo.read(page)
        if old.count("<!-- ") != len(BLOCK.findall(old)):
            sys.exit(f"meaning: {page} has {old.count('<!-- ')} marks and {len(BLOCK.findall(old))} blocks")
        written[page] = renewed(page, old, differing)
    if "--check" in sys.argv[1:]:
        for it in differing:
            print(f"meaning: {it}: run tools/meaning.py", file=sys.stderr)
        return bool(differing)
    for page, text in written.items():
        with open(f"{repo.TOP}/{page}", "w", encoding="utf-8") as file:
            file.write(text)
    print(f"meaning: {len(PAGES)} pages, {len(differing)} blocks written anew")
    return 0


if __name__ == "__main__":
    sys.exit(main())
