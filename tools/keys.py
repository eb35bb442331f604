#!/usr/bin/env python3
"""`check --unique-keys` beside PyYAML's composer, on 5,000 generated files and on those of folders: PROGRAM=.. [SEED=1] tools/keys.py [FOLDER..]"""
import glob, json, os, random, subprocess, sys, tempfile, yaml  # noqa: E401
WORDS = ["a", "b", '"a"', "'b'", "!t a", "!!str b", "<<", "'<<'", "1", "!!int 1", '""', "!u ''", "é"]
def made(of, depth, names):  # a node in flow style
    if (kind := of.randrange(9 if depth else 5)) < 5: return "*" + of.choice(names) if names and kind == 4 else of.choice(WORDS)
    front = f"&{names[-1]} " if of.random() < 0.3 and not names.append(f"n{len(names)}") else of.choice(["", "", "!t "])
    parts = [made(of, depth - 1, names) for _ in range(of.choice([0, 2, 6, 10]))]
    return front + ("{" + ", ".join(f"? {a} : {b}" for a, b in zip(parts[::2], parts[1::2])) + "}" if kind > 6 else "[" + ", ".join(parts) + "]")
def held(node): return [] if node.id == "scalar" else [it for part in node.value for it in (part if node.id == "mapping" else [part])]
def form(node, above=()):  # what makes keys the same: of a node that holds itself which one it is
    return id(above[0]) if node in above else (node.id, node.tag, node.value if node.id == "scalar" else [form(it, (*above, node)) for it in held(node)])
def told(node, seen):  # of each key that is told its place, and the first one's
    firsts, _ = {}, seen.add(node)
    for key in held(node)[::2] if node.id == "mapping" else []:
        keys, is_merge = firsts.setdefault(repr(form(key)), [key]), (key.value, getattr(key, "style", 1) or "") == ("<<", "")
        if keys.append(key) or len(keys) > 2 and not is_merge: yield [it + 1 for at in (key, keys[0]) for it in (at.start_mark.line, at.start_mark.column)]
    for it in held(node): yield from told(it, seen) if it not in seen else ()
found, count, folders = {}, [0, 0, 0], [tempfile.mkdtemp(), *sys.argv[1:]]
for k, of in ((k, random.Random(f"{os.environ.get('SEED', 1)} {k}")) for k in range(5000)):
    open(f"{folders[0]}/{k}.yaml", "w").write("".join(f"--- {made(of, 4, [])}\n" for _ in range(of.choice([1, 1, 2]))))
words = [os.environ.get("PROGRAM", "crates/yaml_cli/out/yaml_cli"), "check", "--unique-keys", "--format", "json", *folders]
for it in map(json.loads, subprocess.run(words, stdout=subprocess.PIPE).stdout.splitlines()):
    found.setdefault(it["file"], []).append([it[n] for n in ("line", "column", "context_line", "context_column")] if "key" in it["kind"] else "refused")
for path in [it for top in folders for end in ("yaml", "yml") for it in glob.glob(f"{top}/**/*.{end}", recursive=True)]:
    try: theirs = [it for root in yaml.compose_all(open(path, "rb"), Loader=yaml.CBaseLoader) if root for it in told(root, set())]
    except yaml.YAMLError as fault: theirs = found.get(path, []) if "duplicate anchor" in str(fault) else ["refused"]  # PyYAML alone refuses these
    count = [count[0] + 1, count[1] + ([] != found.get(path, []) != ["refused"]), count[2] + (theirs != found.get(path, []))]
    if theirs != found.get(path, []): print("DIFFERS", path, found.get(path), theirs)
sys.exit(print(*count, "files, with keys that stand twice, that differ") or count[2] > 0)
