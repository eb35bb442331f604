#!/usr/bin/env python3
"""Compares `yaml_cli diff --all` with a comparison of trees of its own, on generated pairs of texts.

    PROGRAM=.. [SEED=1] [PAIRS=5000] tools/differences.py

Both texts are composed by PyYAML. Of each pair, in both directions: the places that the program tells are those that the trees
give, with causes, lines and columns (of an order of keys the cause alone); what it tells, applied to the first tree, gives the
second one; and without `--documents` it tells the same, or, where documents are equal, one place exactly where `diff` does.
"""
import collections
import os
import random
import re
import subprocess
import sys
import tempfile

import yaml

PROGRAM = os.path.abspath(os.environ.get("PROGRAM", "crates/yaml_cli/out/yaml_cli"))
STR, SEQ, MAP = (f"tag:yaml.org,2002:{it}" for it in ("str", "seq", "map"))
WORDS = ["a", "b", "c", "name", "port", "x-y", "a b", "é", "1", "true", "", 'say "so"']


# ---- pairs of texts


def scalar(of):
    return yaml.ScalarNode(of.choice([STR] * 6 + ["!t"]), of.choice(WORDS), style=of.choice([None, None, "'", '"']))


def made(of, depth, shared):
    """A node: mostly a new one, sometimes one that stands elsewhere too."""
    if shared and of.random() < 0.1:
        return of.choice(shared)
    kind, is_flow = of.randrange(7) if depth else 0, of.random() < 0.4
    if kind < 3:
        node = scalar(of)
    elif kind < 5:
        node = yaml.SequenceNode(of.choice([SEQ] * 6 + ["!s"]), [made(of, depth - 1, shared) for _ in range(of.randrange(4))], flow_style=is_flow)
    else:
        node = yaml.MappingNode(of.choice([MAP] * 6 + ["!m"]), [pair(of, depth - 1, shared) for _ in range(of.randrange(5))], flow_style=is_flow)
    shared.append(node)
    return node


def pair(of, depth, shared):
    key = scalar(of) if of.random() < 0.85 else made(of, min(depth, 1), shared)
    return key, made(of, depth, shared)


def edited(of, node, depth, copies):
    """A copy of a node, here and there another one."""
    if id(node) in copies and of.random() < 0.9:
        return copies[id(node)]
    if of.random() < 0.06:
        return made(of, depth, [])
    held = list(node.value) if node.id != "scalar" else node.value
    tag = of.choice(["!t", "!u"]) if of.random() < 0.03 else node.tag
    if node.id == "sequence":
        held = [edited(of, it, depth - 1, copies) for it in held if of.random() > 0.08]
    elif node.id == "mapping":
        held = [(key if of.random() < 0.5 else edited(of, key, 0, {}), edited(of, value, depth - 1, copies)) for key, value in held if of.random() > 0.08]
    if node.id != "scalar" and of.random() < 0.12:
        held.insert(of.randrange(len(held) + 1), made(of, 1, []) if node.id == "sequence" else pair(of, 1, []))
    if node.id == "mapping" and of.random() < 0.08:
        of.shuffle(held)
    copies[id(node)] = type(node)(tag, held, **({"style": node.style} if node.id == "scalar" else {"flow_style": node.flow_style}))
    return copies[id(node)]


def texts(of):
    first = [made(of, 4, []) for _ in range(of.choice([1, 1, 1, 2]))]
    second = [edited(of, it, 4, {}) for it in first if of.random() > 0.03] + ([made(of, 2, [])] if of.random() < 0.05 else [])
    return [yaml.serialize_all(it, Dumper=yaml.CDumper, allow_unicode=True, width=10000, explicit_start=True) for it in (first, second)]


# ---- trees


def form(node):
    """What makes nodes the same."""
    if node.id == "scalar":
        return node.id, node.tag, node.value
    return node.id, node.tag, tuple(tuple(map(form, it)) if node.id == "mapping" else form(it) for it in node.value)


def step(key, number):
    if key.id != "scalar":
        return f".<value {number}>"
    if re.fullmatch(r"[\w-]+", key.value):
        return f".{key.value}"
    return '["' + re.sub(r'(["\\])', r"\\\1", key.value) + '"]'


def numbered(pairs):
    """The keys, each with how often it is before it."""
    counts = collections.Counter()
    for key, _ in pairs:
        yield form(key), counts[form(key)]
        counts[form(key)] += 1


def held(node):
    """What a node holds: a name by which it is matched, the step to it, what stands first of it, and the value."""
    if node.id == "scalar":
        return []
    if node.id == "sequence":
        return [(at, f"[{at}]", it, it) for at, it in enumerate(node.value)]
    return [(name, step(key, at), key, value) for at, (name, (key, value)) in enumerate(zip(numbered(node.value), node.value))]


def place(node):
    return node.start_mark.line + 1, node.start_mark.column + 1


class Comparison:
    """The places where two trees differ, each pair of nodes compared once; the way to each pair is the first one."""

    def __init__(self, first, second, start):
        self.ways, self.told, waiting = {}, [], collections.deque([(first, second, start)])
        while waiting:
            a, b, way = waiting.popleft()
            if (id(a), id(b)) not in self.ways and form(a) != form(b):
                self.ways[id(a), id(b)] = way
                waiting += self.compared(a, b, way)

    def compared(self, a, b, way):
        causes = [("kind", a.id != b.id), ("value", a.id == b.id == "scalar" and a.value != b.value), ("tag", a.tag != b.tag)]
        cause = next((it for it, holds in causes if holds), None)
        self.told += [(way, cause, place(a), place(b))] if cause else []
        if a.id != b.id:
            return
        own, others = held(a), {it[0]: (at, it) for at, it in enumerate(held(b))}
        places = [others[name][0] for name, *_ in own if name in others]
        if places != sorted(places):
            self.told.append((way, "order of keys", None, None))
        self.told += [(way + at, "only in A", place(it), None) for name, at, it, _ in own if name not in others]
        names = {name for name, *_ in own}
        self.told += [(way + at, "only in B", None, place(it)) for name, (_, (_, at, it, _)) in others.items() if name not in names]
        for name, at, _, value in own:
            if name in others:
                yield value, others[name][1][3], way + at

    def applied(self, a, b, told):
        """The first node's form, with what is told."""
        way = self.ways.get((id(a), id(b)))
        if way is None:
            return form(a)
        causes = {it[1] for it in told if (it[0], *it[2:]) == (way, place(a), place(b))}
        if causes & {"kind", "value"}:
            return form(b)
        causes |= {it[1] for it in told if it == (way, "order of keys", None, None)}
        tag = b.tag if "tag" in causes else a.tag
        if a.id == "scalar":
            return a.id, tag, a.value
        own, others = {it[0]: it for it in held(a)}, held(b)
        left = [it for it in own.values() if (way + it[1], "only in A", place(it[2]), None) not in told]
        made_of = []
        for name, at, front, value in others:
            if name not in own:
                made_of += [(front, form(value))] if (way + at, "only in B", None, place(front)) in told else []
            elif left:
                it = own[name] if "order of keys" in causes else left[0]
                left = [other for other in left if other is not it]
                made_of.append((it[2], self.applied(it[3], value, told)))
        made_of += [(front, form(value)) for _, _, front, value in left]
        return a.id, tag, tuple((form(front), it) if a.id == "mapping" else it for front, it in made_of)


# ---- the program


def run(*words):
    done = subprocess.run([PROGRAM, "diff", *words], capture_output=True, text=True, check=False)
    return done.returncode, done.stdout


def read(text):
    """What was told, as a comparison tells it; the last line says how many."""
    told = []
    for line in text.splitlines():
        shown = re.match(r"  ([-+]) .*:(\d+):(\d+)$", line)
        if shown:
            told[-1]["-+".index(shown[1]) + 2] = int(shown[2]), int(shown[3])
        elif re.fullmatch(r"\d+ differences?", line):
            assert line == f"{len(told)} difference{'s' * (len(told) != 1)}", line
        elif line:
            told.append([*line.rsplit(": ", 1), None, None])
    return [tuple(it if it[1] != "order of keys" else [*it[:2], None, None]) for it in told]


def wrong(first, second, own, others):
    """What is wrong about the places that the program tells of these files."""
    status, text = run("--all", "--documents", first, second)
    told, expected = read(text), []
    for number in range(max(len(own), len(others))):
        if number < min(len(own), len(others)):
            comparison = Comparison(own[number], others[number], f"[{number}]")
            expected += comparison.told
            if comparison.applied(own[number], others[number], set(told)) != form(others[number]):
                yield f"what is told doesn't make document {number} of {first} that of {second}"
        else:
            expected.append((f"[{number}]", "only in A" if number < len(own) else "only in B", None, None))
    alone = {f"[{number}]" for number in range(min(len(own), len(others)), max(len(own), len(others)))}
    told = [(*it[:2], None, None) if it[0] in alone else it for it in told]
    if sorted(map(repr, told)) != sorted(map(repr, expected)):
        yield f"told: {sorted(set(told) - set(expected), key=repr)}, and not: {sorted(set(expected) - set(told), key=repr)}"
    if status != (1 if expected else 0):
        yield f"status {status}, {len(expected)} differences"
    contents, shown = run("--all", first, second)
    if expected and (contents, shown) != (status, text):
        yield "contents don't give what documents do"
    if not expected and (contents, shown.splitlines()[:-1]) != (run(first, second)[0], run(first, second)[1].splitlines()):
        yield "contents aren't told as diff tells them"


def main():
    counts = collections.Counter()
    with tempfile.TemporaryDirectory() as folder:
        os.chdir(folder)
        for number in range(int(os.environ.get("PAIRS", "5000"))):
            of = random.Random(f"{os.environ.get('SEED', 1)} {number}")
            trees = []
            for name, text in zip(("a.yaml", "b.yaml"), texts(of)):
                with open(name, "w", encoding="utf-8") as file:
                    file.write(text)
                trees.append(list(yaml.compose_all(text, Loader=yaml.CBaseLoader)))
            found = [*wrong("a.yaml", "b.yaml", *trees), *wrong("b.yaml", "a.yaml", *reversed(trees))]
            counts.update(pairs=1, differ=[*map(form, trees[0])] != [*map(form, trees[1])], wrong=bool(found))
            for it in found:
                print(f"pair {number}: {it}")
    print(*(f"{count} {what}" for what, count in counts.items()))
    return counts["wrong"] > 0


if __name__ == "__main__":
    sys.exit(main())
