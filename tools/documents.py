#!/usr/bin/env python3
"""Lists what breaks the rules for documents: length, language, diary, names and links that don't exist. It fails where there is any.

    tools/documents.py

Documents are the pages of the top, of docs/ and of docs/meaning, and the README.md of each crate. In comments of code, definitions, proofs
and scripts it looks for lines that say how the work went, and for words of the same table.
"""
import functools
import glob
import os
import re
import subprocess
import sys

import repository as repo

# The most words of a page, what it had when this was set and a tenth more; of a crate's README.md, and of all pages written by hand.
WORDS = {
    "README.md": 1500, "CONTRIBUTING.md": 1900, "SECURITY.md": 500, "CHANGELOG.md": 1600,
    "docs/ARCHITECTURE.md": 3500, "docs/BENCHMARK.md": 1100, "docs/CALLING.md": 2500, "docs/DECISIONS.md": 5900,
    "docs/DIFFERENCES.md": 2800, "docs/GLOSSARY.md": 1900, "docs/LIBYAML.md": 1500, "docs/MEASURED.md": 1800,
    "docs/PROFILE.md": 6000, "docs/PROVING.md": 4000, "docs/TOUR.md": 1400, "docs/WHAT-IS-PROVED.md": 1800,
}
OF_A_CRATE = 120
BY_HAND = 32000
# Words that say plainly what another word says better: docs/GLOSSARY.md has none of them. At most twenty.
PLAINER = {
    r"\bbut for\b": "except", r"\bbehind (?:it|them|that|this|the|a|an|each|one)\b": "after", r"\bin front of\b": "before",
    r"\bsome \d[\d,.]*": "about", r"\bwant of memory\b": "out of memory", r"\bwrong words\b": "wrong arguments",
    r"\b(?:is|are|was|were) lent\b": "is borrowed", r"\bsays? the same\b": "has the same content", r"\bit is asked whether\b": "checks whether",
    r"\bso many\b": "n", r"\b(?:parting|partings)\b": "difference", r"\bhaven't this form\b": "aren't in this form",
}
# So in comments of code, where `said` and `told` are names, and a clause or an edit refuses.
IN_COMMENTS = PLAINER | {
    r"\b(?:told|tells?|telling)\b": "reported, says, returns, gives", r"\b(?:behind|in front)\b": "after, before",
    r"\b(?:stands?|stood)\b(?! for)": "is", r"\b(?:lends?|lent)\b": "borrows, by reference", r"\bwants? of\b": "out of, needs",
    r"\blets? \w+ go\b": "drops", r"\bhands (?:out|on)\b": "returns, passes on",
}
# What begins a line that is a comment whole, and words of its own in it: names, what code is called by, and 'a stand-in'.
COMMENT = re.compile(r"\s*(?://[/!]?|--|#:?|/\*|\*) (.*)")
NO_WORDS = re.compile(r"`[^`]*`|'[^']*'|\"[^\"]*\"|\bstand-ins?\b|\b[Aa]n alias stands$|\b(?:call|scanner|iterator) hands out\b")
# Where a word above is a name, or what it names.
EXCEPT = {"docs/meaning/", "docs/MEANING.md"}
# Lines that say how the work went.
DIARY = re.compile(
    r"\b(?:helper sessions?|sub-?agents?|(?:this|last|next|that) session|session (?:before|behind|of \d)|quick hour|busy hour|slow hour|the row above|the next row's|"
    r"in the (?:morning|evening)|half an hour later|machine was busy)\b", re.IGNORECASE)
NAME = re.compile(r"`([A-Za-z_][A-Za-z0-9_]*(?:_[A-Za-z0-9_]+|[a-z][A-Z][A-Za-z0-9]*))(?:\([^`]*\))?`")
# Names of others' code.
OTHERS = {"c_int", "yaml_check_utf8", "ComposerError", "ScannerError", "default_style", "safe_load", "safe_dump"}
LINK = re.compile(r"\]\(([^)#\s]+)(?:#[^)]*)?\)")


def pages():
    found = [it for of in ("*.md", "docs/*.md", "docs/meaning/*.md", "crates/*/README.md", "bindings/*/README.md") for it in glob.glob(f"{repo.TOP}/{of}")]
    return sorted(os.path.relpath(it, repo.TOP) for it in found)


def is_generated(page):
    return page.startswith(("docs/meaning/", "docs/MEANING")) or page in ("docs/PROVED.md", "docs/EDITS.md")


@functools.lru_cache(maxsize=None)
def known_words():
    """Every word of code, definitions, proofs, scripts and C: a name of a document is one of them."""
    told = subprocess.run(["git", "-C", repo.TOP, "ls-files", "-z", "--", ":!*.md"], check=True, capture_output=True).stdout.decode()
    found = set()
    for path in told.split("\0"):
        if path and os.path.isfile(f"{repo.TOP}/{path}"):
            found.update(re.findall(r"[A-Za-z_][A-Za-z0-9_]*", path))
            with open(f"{repo.TOP}/{path}", encoding="utf-8", errors="replace") as file:
                found.update(re.findall(r"[A-Za-z_][A-Za-z0-9_]*", file.read()))
    return found


def prose(text):
    """The lines without quoted code."""
    inside = False
    for number, line in enumerate(text.split("\n"), 1):
        if line.startswith("```"):
            inside = not inside
        elif not inside and not line.startswith("    "):
            yield number, line


def lengths():
    by_hand = 0
    for page in pages():
        count = len(repo.read(page).split())
        most = WORDS.get(page, OF_A_CRATE if page.startswith("crates/") else None)
        if most and count > most:
            yield f"{page}: {count} words, of {most} at most"
        by_hand += count if page.startswith("docs/") and not is_generated(page) else 0
    if by_hand > BY_HAND:
        yield f"docs/: {by_hand} words are written by hand, of {BY_HAND} at most"


def wording(page):
    for number, line in prose(repo.read(page)):
        plain = re.sub(r"`[^`]*`", "``", line)
        for pattern, better in PLAINER.items():
            found = re.search(pattern, plain)
            if found and not page.startswith(tuple(EXCEPT)):
                yield f"{page}:{number}: '{found[0]}', better '{better}'"
        if DIARY.search(plain):
            yield f"{page}:{number}: says how the work went: '{DIARY.search(plain)[0]}'"


def names(page):
    for number, line in prose(repo.read(page)):
        for name in NAME.findall(line):
            if name not in known_words() and name not in OTHERS:
                yield f"{page}:{number}: no such name: {name}"
        for link in LINK.findall(line):
            if not link.startswith(("http", "mailto")) and not os.path.exists(os.path.join(repo.TOP, os.path.dirname(page), link)):
                yield f"{page}:{number}: no such file: {link}"


def code():
    """The files of code, definitions, proofs and scripts, this one aside, with their lines."""
    for folder in ("crates", "tools", "bindings", "bench"):
        for path in sorted(glob.glob(f"{repo.TOP}/{folder}/**/*.*", recursive=True)):
            if path.endswith((".rt", ".antt", ".py", ".sh", ".c", ".h")) and "/out/" not in path and not path.endswith("tools/documents.py"):
                with open(path, encoding="utf-8", errors="replace") as file:
                    yield os.path.relpath(path, repo.TOP), file.read().split("\n")


def comments():
    for path, lines in code():
        for number, line in enumerate(lines, 1):
            if DIARY.search(line):
                yield f"{path}:{number}: says how the work went: '{DIARY.search(line)[0]}'"
            comment = COMMENT.match(line)
            plain = NO_WORDS.sub("", comment[1]) if comment else ""
            for pattern, better in IN_COMMENTS.items():
                if re.search(pattern, plain):
                    yield f"{path}:{number}: '{re.search(pattern, plain)[0]}' in a comment, better '{better}'"


def main():
    wrong = [*lengths(), *comments()]
    for page in pages():
        wrong += [*(wording(page) if not is_generated(page) else []), *names(page)]
    print("\n".join(wrong) if wrong else "documents: in order")
    return bool(wrong)


if __name__ == "__main__":
    sys.exit(main())
