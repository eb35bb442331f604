#!/usr/bin/env python3
"""Prints which definitions a public contract rests on.

    tools/closure.py yaml_reformat          the definitions below one call, grouped by crate, with file and line
    tools/closure.py --clauses yaml_same    its clauses before them
    tools/closure.py --tree yaml_same       each definition under the one that brings it in
    tools/closure.py --all                  for each call that a member hands out, and each law, how many there are
    tools/closure.py --spec READING         below a definition of specs/ in place of a call (CRATE.NAME where two have the name)

A call's clauses name definitions of specs/, and these name others. A type of the code with a model counts by what its
model names. What std says isn't followed. The script reads text: a name is looked up as the prover does, through `use`
lines, modules that are handed on and models, and a variable that shadows a definition is taken for a variable.
"""
import argparse
import glob
import os
import signal
import sys

import repository as repo


def roots_of(call):
    """The definitions that a call's contract names, and those of the models of the types in its head."""
    scope, found = repo.scope_at(call), {}
    for clause in call.contract():
        inner = clause.partition("{")[2].rpartition("}")[0]
        found.update((str(it), it) for it in repo.met_in(inner, scope))
    words = repo.PATH.findall(repo.blanked(call.head)) + ([call.owner.type] if call.owner else [])
    for name in dict.fromkeys(words):
        found.update((str(it), it) for it in repo.met_in_model(call.crate, name or ""))
    return list(found.values())


def below(definition):
    """The definitions that one names; a type of the code with a model names its model's."""
    if definition.path.endswith(".antt"):
        return repo.used_by(str(definition), definition.path)
    return []


def closure(roots):
    """All definitions below the roots, each with the one that first brought it in."""
    found, todo = {str(it): (it, None) for it in roots}, list(roots)
    while todo:
        at = todo.pop(0)
        for it in below(at):
            if str(it) not in found:
                found[str(it)] = (it, at)
                todo.append(it)
    return found


def print_groups(found):
    by_crate = {}
    for it, _ in found.values():
        by_crate.setdefault(it.crate, []).append(it)
    for crate in repo.crates():
        if crate not in by_crate:
            continue
        print(f"{crate}: {len(by_crate[crate])}")
        for it in sorted(by_crate[crate], key=lambda it: (it.path, it.line)):
            kind = "" if it.path.endswith(".antt") else "  (a type of the code)"
            print(f"  {it.name:<28} {it}{kind}")


def print_tree(found, at=None, depth=0):
    for it, above in found.values():
        if above is at:
            print(f"{'  ' * depth}{it.name}  {it}")
            print_tree(found, it, depth + 1)


def named(name):
    """The public calls or laws of a name; `Type::name` names a method."""
    public = [law for it in repo.all_functions() if repo.is_public(it) or repo.is_law(it) for law in repo.laws_of(it)]
    return [it for it in public if name in (it.name, it.label)]


def spec_named(name):
    """The definitions of a name in specs/."""
    crate, _, last = name.rpartition(".")
    files = glob.glob(f"{repo.TOP}/crates/{crate or '*'}/specs/*.antt")
    modules = [repo.module(os.path.relpath(it, repo.TOP)) for it in sorted(files)]
    return [it.definitions[last] for it in modules if last in it.definitions]


def print_all():
    print(f"{'call or law':<48} {'definitions':>11}  crates  where")
    for it in (law for of in repo.all_functions() if repo.is_public(of) or repo.is_law(of) for law in repo.laws_of(of)):
        found = closure(roots_of(it))
        crates = {of.crate for of, _ in found.values()}
        print(f"{it.label:<48} {len(found):>11}  {len(crates):>6}  {it.path}:{it.line}")


def main():
    parser = argparse.ArgumentParser(description=__doc__, formatter_class=argparse.RawDescriptionHelpFormatter)
    parser.add_argument("call", nargs="?")
    for flag in ("--all", "--clauses", "--tree", "--spec"):
        parser.add_argument(flag, action="store_true")
    said = parser.parse_args()
    if said.all:
        print_all()
        return 0
    met = (spec_named if said.spec else named)(said.call or "")
    if not met:
        print(f"closure: no public call, and no law, is named {said.call}", file=sys.stderr)
        return 1
    for it in met:
        print(f"{it.name if said.spec else it.label}  {it.path}:{it.line}")
        if said.clauses and not said.spec:
            print("\n".join(f"    {' '.join(clause.split())}" for clause in it.contract()))
        found = closure([it] if said.spec else roots_of(it))
        (print_tree if said.tree else print_groups)(found)
        print(f"{len(found)} definitions")
    return 0


if __name__ == "__main__":
    signal.signal(signal.SIGPIPE, signal.SIG_DFL)
    sys.exit(main())
