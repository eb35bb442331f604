#!/usr/bin/env python3
"""Lists what breaks the rules of the house in CONTRIBUTING.md, by reading text. It fails where there is any.

    tools/house.py             files of more than 600 lines; in src/ and specs/ clauses, code and definitions over 100
                               columns (`use` lines, comments, texts and `#[tactic(..)]` aside), and in proofs/ lemmas'
                               statements; bodies of more than 40 lines
                               without `long` in the comment above; functions of more than 6 arguments, without `arguments`
                               there; laws that code calls; hints of inlining and reads that nothing uses, without a reason;
                               in specs/ and clauses of src/ decimal codes of characters that yaml_scan_types/specs/Ascii.antt
                               names, beside `==`, `≡`, `≢`, `∷` or as arguments of `char`, `indicator`, `word`, without
                               `number` in the comment above;
                               public items without a doc comment; lemmas that another crate brings in without a line of
                               comment, unless the statement is laws' names alone, which are commented where they stand;
                               a README.md of more than 150 lines, or that doesn't tell in its first 40 that comments are
                               dropped; a crate without one, or with one of more than 15; more than 4,000 words in
                               docs/PROVING.md; dates, numbers of issues and a machine's paths in documents, except dates in
                               docs/MEASURED.md and CHANGELOG.md; comments that say `The same.` alone; what --names lists; and
                               versions that differ (tools/versions.py)
    tools/house.py --names     records and data types of specs/ of which more than one crate has one of the name, except
                               the nouns that docs/GLOSSARY.md says layer by layer; and functions (no methods, the vectors'
                               crates aside) of which more than one crate of a member has one of the name, except those that
                               have one meaning there (the glossary's last table); and types that are named by a bare word
                               for a position, except those that the glossary's table of positions has
    tools/house.py --copies    lemmas and records of proofs/ that are written again, letter by letter except their own name, in
                               a crate that stands on the first one's or in the first one's, the longest first: a place to
                               look, since a name in them may mean another thing in each file
"""
import collections
import functools
import glob
import os
import re
import sys

import repository as repo
import versions

USE = re.compile(r"\s*(?:(?:pub|unfoldable|ghost) )*use\b")
# Where a lemma's statement begins in a file of proofs.
STATEMENT = re.compile(r"(?:(?:pub|abbrev|opaque|unfoldable) )*[^\s:({=]+(?: [({][^=]*)? : ")
# What is brought in of another crate's lemmas, and a statement that is the names of laws.
CITES = re.compile(rf"use Rattle\.(\w+)\.proofs\.(\w+)\.(?:\{{([^}}]*)\}}|({repo.NAME}))")
LAWS = re.compile(r"(?:[A-Z]\w* → )*[A-Z]\w*")
# A lemma or a record of proofs, with what is said before its name.
LEMMA = re.compile(r"^((?:(?:pub|abbrev|opaque|unfoldable|record) )*)([^\s:({=]+)(?= )(?: [({][^=\n]*)? :(?:.|\n)*?(?=\n\n|\Z)", re.M)
# A function that is no method.
FUNCTION = re.compile(r"^(?:pub(?:\([a-z]+\))? )?(?:const )?fn (\w+)", re.M)
# What a document doesn't name: a day, an issue, a machine's folder.
ELSEWHERE = re.compile(r"(?<!`)\b20\d\d-[01]\d-[0-3]\d\b|\b[Ii]ssue \d+|(?<![\w.~])/(?:work|opt|home|root)/")
DATED = ("docs/MEASURED.md", "CHANGELOG.md")
# Words that say of a position nothing but that it is one.
BARE = "Location|Place|Position|Seat|Site|Spot|Stage|Stand|Standing|Where"
TYPE = re.compile(rf"^ *(?:(?:pub(?:\([a-z]+\))?|abbrev|opaque|unfoldable) )*(?:struct|enum|record|data) ({BARE})\b", re.M)
ITEM = re.compile(r"\s*pub (?:fn|struct|enum|trait|const|extern|type)\b")
# Where a clause of the code begins, and a name that a character's code has.
CLAUSE = re.compile(r"\b(?:requires|ensures|ghost \w+)\b[^{};\n]*\{")
CODE = re.compile(r"^(\w+) = (\d+)$", re.M)
NAMED = "crates/yaml_scan_types/specs/Ascii.antt"


def files():
    found = [it for part in ("src", "specs", "proofs") for it in glob.glob(f"{repo.TOP}/crates/*/{part}/**/*.*t", recursive=True)]
    return sorted(os.path.relpath(it, repo.TOP) for it in found)


def comment_above(lines, at):
    """The lines of comments and attributes above a line."""
    found = []
    while at > 0 and lines[at - 1].lstrip().startswith(("//", "#[", "--")):
        at -= 1
        found.append(lines[at].strip())
    return found


def wide_lines(path, lines):
    in_use = False
    for number, line in enumerate(lines, 1):
        in_use = in_use or bool(USE.match(line))
        plain = re.sub(r'b?"(?:\\.|[^"\\])*"', '""', line)
        if not in_use and len(plain) > 100 and not line.lstrip().startswith(("//", "--", "#[tactic")):
            yield f"{path}:{number}: {len(plain)} columns"
        in_use = in_use and ";" not in line and not (path.endswith(".antt") and "}" in line)


def wide_statements(path, lines):
    for number, line in enumerate(lines, 1):
        if len(line) > 100 and STATEMENT.match(line):
            yield f"{path}:{number}: a statement of {len(line)} columns"


def unexplained(path, lines):
    for at, line in enumerate(lines):
        above = comment_above(lines, at)
        said = [it for it in above if it.startswith("//") and not it.startswith("///")]
        if "#[inline" in line and not said:
            yield f"{path}:{at + 1}: a hint of inlining without a reason"
        if re.match(r"\s*let _\w+ = ", line) and not said:
            yield f"{path}:{at + 1}: a read that nothing uses, without a reason"
        if ITEM.match(line) and not any(it.startswith("///") for it in above):
            yield f"{path}:{at + 1}: public, without a doc comment"


def clauses_alone(text):
    """The text of a file of code with all that is no clause as spaces."""
    plain, found, at = repo.blanked(text), "", 0
    for match in CLAUSE.finditer(plain):
        if match.end() > at:
            end = repo.closed(plain, match.end() - 1)
            found += re.sub(r"[^\n]", " ", plain[at : match.end()]) + plain[match.end() : end]
            at = end
    return found + re.sub(r"[^\n]", " ", plain[at:])


def is_code(before, behind):
    """Whether a number is a character, by what is before it and after it: compared or joined alone, or laid out."""
    is_summed = re.search(r"[-+*/%^] $", before) or re.match(r" [-+*/%^]", behind)
    return not is_summed and (re.search(r"(?:==|[≡≢∷]|\b(?:char|indicator|word)) $", before) or re.match(r" (?:==|[≡≢∷])", behind))


def bare_codes(path, lines):
    names = {code: name for name, code in reversed(CODE.findall(repo.read(NAMED))) if 9 <= int(code) <= 127}
    text = clauses_alone("\n".join(lines)).split("\n") if path.endswith(".rt") else lines
    for at, line in enumerate(text if path != NAMED else []):
        plain = re.sub(r'"[^"]*"', '""', repo.bare(line))
        for it in re.finditer(r"(?<![\w.'])\d+(?![\w.'])", plain):
            if it[0] in names and is_code(plain[: it.start()], plain[it.end() :]) and "number" not in " ".join(comment_above(lines, at)):
                yield f"{path}:{at + 1}: {it[0]}, which is ascii.{names[it[0]]}"


def copies():
    """Lemmas and records of proofs that are there twice, by their length: where the one is, and the one that could be cited."""
    found = collections.defaultdict(list)
    for path in files():
        if "/proofs/" in path and not path.endswith(("/Answers.antt", "/Invariants.antt")):
            for it in LEMMA.finditer(repo.read(path)):
                said = re.sub(r"\b(?:pub|abbrev|unfoldable) |^ *--.*$", "", it[0], flags=re.M)
                same = re.sub(rf"(?<![\w'-]){re.escape(it[2])}(?![\w'-])", "@", said)
                found[" ".join(same.split())].append((path, it[2]))
    for text, them in sorted(found.items(), key=lambda it: -len(it[0])):
        for path, name in them if len(text) > 80 else []:
            under = {path.split("/")[1], *repo.below(path.split("/")[1])}
            first = min((it for it in them if it[0].split("/")[1] in under), key=lambda it: len(repo.below(it[0].split("/")[1])))
            if first != (path, name):
                yield f"{path}: {name} is {first[1]} of {first[0]}, {len(text)} characters"


def documents():
    """What is wrong with the pages: too long, silent on what a reader has to know first, or bound to a day or a machine."""
    readme = repo.read("README.md").split("\n")
    if len(readme) > 151:
        yield f"README.md: {len(readme) - 1} lines"
    if not re.search(r"[Cc]omments [^.]*dropped", " ".join(readme[:40])):
        yield "README.md: its first 40 lines don't tell that comments are dropped"
    words = len(repo.read("docs/PROVING.md").split())
    if words > 4000:
        yield f"docs/PROVING.md: {words} words"
    for folder in sorted(glob.glob(f"{repo.TOP}/crates/yaml_*/")):
        page = os.path.relpath(folder, repo.TOP) + "/README.md"
        lines = repo.read(page).count("\n") if os.path.exists(f"{repo.TOP}/{page}") else 0
        if not 0 < lines <= 15:
            yield f"{page}: {lines} lines"
    for path in sorted(glob.glob(f"{repo.TOP}/*.md") + glob.glob(f"{repo.TOP}/docs/*.md") + glob.glob(f"{repo.TOP}/crates/*/README.md")):
        page = os.path.relpath(path, repo.TOP)
        for number, line in enumerate(repo.read(page).split("\n"), 1):
            found = ELSEWHERE.search(line)
            if found and page not in DATED:
                yield f"{page}:{number}: names {found[0]}"


def silent_comments(path, lines):
    for number, line in enumerate(lines, 1):
        if re.fullmatch(r"\s*(?://+|--) The same\.?", line):
            yield f"{path}:{number}: a comment that doesn't say what it is the same as"


def arguments(it):
    """How many arguments a function has."""
    head, depth, count = repo.blanked(it.head), 0, 0
    at = re.search(rf"fn {it.name}", head).end()
    at = at if head[at] == "(" else closed_angle(head, at)
    inner = ""
    for sign in head[at + 1 :].replace("->", "  ").replace("=>", "  "):
        depth += (sign in "([{<") - (sign in ")]}>")
        if depth < 0:
            break
        count += sign == "," and depth == 0
        inner = "" if sign == "," and depth == 0 else inner + sign
    return count + bool(inner.strip())


def closed_angle(head, at):
    """The place of the bracket after a function's type arguments."""
    depth = 0
    for place in range(at, len(head)):
        depth += (head[place] == "<") - (head[place] == ">" and head[place - 1] != "-")
        if depth == 0:
            return head.index("(", place)
    return at


def wrong_functions():
    every = repo.all_functions()
    laws = {it.name: it.crate for it in every if repo.is_law(it)}
    for it in every:
        text = repo.read(it.path)
        above = " ".join(comment_above(text.split("\n"), it.line - 1))
        body = text[it.body : it.end] if it.body is not None else ""
        where = f"{it.path}:{it.line}: {it.label}"
        if body.count("\n") >= 40 and "long" not in above:
            yield f"{where} has a body of {body.count(chr(10)) + 1} lines"
        if arguments(it) > 6 and "arguments" not in above:
            yield f"{where} has {arguments(it)} arguments"
        for name in re.findall(r"(?<![\w.:])(\w+)\(", repo.blanked(body)):
            is_called = laws.get(name) == it.crate and not repo.is_law(it)
            if name == "document_is_sound" or (is_called and name not in {of.name for of in repo.functions(it.path)}):
                yield f"{where} calls the law {name}"


def cited():
    """What crates bring in of each other's files of lemmas: crate, file and name."""
    for path in files():
        for crate, module, names, name in CITES.findall(repo.read(path)):
            if crate != path.split("/")[1]:
                for it in re.split(r"[,\s]+", names) if names else [name]:
                    yield f"crates/{crate}/proofs/{module}.antt", it.split(" as ")[0]


def uncommented_lemmas():
    for path, name in sorted(set(cited())):
        if not os.path.exists(f"{repo.TOP}/{path}"):
            continue
        lines = repo.read(path).split("\n")
        start = re.compile(rf"pub (?:(?:abbrev|opaque|unfoldable) )*{re.escape(name)}(?: [({{].*)? : (.*)")
        for at, line in enumerate(lines):
            said = start.match(line)
            if said and not comment_above(lines, at) and not LAWS.fullmatch(said[1]):
                yield f"{path}:{at + 1}: {name} is cited by another crate, without a comment"


def glossary_names(heading):
    """The names of the glossary's table below that heading: nouns that each layer may have, or functions of one meaning."""
    table = repo.read("docs/GLOSSARY.md").partition(f"## {heading}")[2].partition("\n## ")[0]
    return re.findall(r"^\| `(\w+)` \|", table, re.M)


def twice_named():
    """Records and data types of specs/ of which more than one crate has one of the name."""
    found = collections.defaultdict(list)
    for path in files():
        if "/specs/" in path:
            for name, it in repo.module(path).definitions.items():
                if re.search(rf"^ *{repo.MODS}(?:record|data)\s", it.text, re.M):
                    found[name].append(it)
    for name, them in sorted(found.items()):
        if len({it.crate for it in them}) > 1 and name not in glossary_names("One name in several layers"):
            yield f"{name}: {', '.join(str(it) for it in them)}"


def bare_positions():
    """Types that are named by a bare word for a position, once the glossary has the table that says which one names which."""
    kinds = glossary_names("Positions")
    for path in files() if kinds else []:
        for name in TYPE.findall(repo.read(path)):
            if name not in kinds and "/proofs/" not in path:
                yield f"{name}: {path}"


def functions_twice_named():
    """Functions of src/ of which more than one crate of a member has one of the name."""
    found = collections.defaultdict(set)
    for path in files():
        crate = path.split("/")[1]
        if "/src/" in path and not crate.startswith("yaml_cli_vector"):
            for name in FUNCTION.findall(repo.read(path)):
                found["_".join(crate.split("_")[:2]), name].add(path)
    for (_, name), them in sorted(found.items()):
        if len({path.split("/")[1] for path in them}) > 1 and name not in glossary_names("One function's name in a member"):
            yield f"fn {name}: {', '.join(sorted(them))}"


def main():
    if "--names" in sys.argv[1:]:
        print("\n".join([*twice_named(), *bare_positions(), *functions_twice_named()]))
        return 0
    if "--copies" in sys.argv[1:]:
        print("\n".join(copies()))
        return 0
    wrong = []
    for path in files():
        lines = repo.read(path).split("\n")
        wrong += [f"{path}: {len(lines) - 1} lines"] if len(lines) > 601 else []
        wrong += wide_statements(path, lines) if "/proofs/" in path else wide_lines(path, lines)
        wrong += unexplained(path, lines) if path.endswith(".rt") else []
        wrong += [] if "/proofs/" in path else bare_codes(path, lines)
        wrong += silent_comments(path, lines)
    wrong += [*documents(), *wrong_functions(), *uncommented_lemmas(), *twice_named(), *bare_positions()]
    wrong += [*functions_twice_named(), *versions.wrong()]
    print("\n".join(wrong) if wrong else "house: in order")
    return bool(wrong)


if __name__ == "__main__":
    sys.exit(main())
