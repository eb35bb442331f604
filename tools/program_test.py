#!/usr/bin/env python3
"""Runs the program as a process on what no stored line can hold: links, odd names, modes, and file systems that fail.

    PROGRAM=.. tools/program_test.py

PROGRAM names the program; else it is crates/yaml_cli/out/yaml_cli. It needs a C compiler for the failing file system, and tries the
hooks of pre-commit where that is installed. All is done in a folder of its own.
"""
import json
import os
import re
import shutil
import subprocess
import sys
import tempfile

TOP = os.path.dirname(os.path.dirname(os.path.abspath(__file__)))
PROGRAM = os.path.abspath(os.environ.get("PROGRAM", f"{TOP}/crates/yaml_cli/out/yaml_cli"))
# The calls by which a file is put in the place of another one. The n-th fails, or the process ends before it.
CALLS = r"""
#define _GNU_SOURCE
#include <dlfcn.h>
#include <errno.h>
#include <stdarg.h>
#include <stdlib.h>
#include <sys/types.h>
#include <unistd.h>
static int count;
static int wrong(void) {
    const char *at = getenv("AT");
    if (!at || ++count != atoi(at)) return 0;
    if (getenv("STOPS")) _exit(77);
    errno = ENOSPC;
    return 1;
}
#define NEXT(name) ((__typeof__(&name))dlsym(RTLD_NEXT, #name))
ssize_t write(int fd, const void *from, size_t size) { return fd > 2 && wrong() ? -1 : NEXT(write)(fd, from, size); }
int fsync(int fd) { return wrong() ? -1 : NEXT(fsync)(fd); }
int fchmod(int fd, mode_t mode) { return wrong() ? -1 : NEXT(fchmod)(fd, mode); }
int close(int fd) { if (wrong()) { NEXT(close)(fd); return -1; } return NEXT(close)(fd); }
int renameat(int a, const char *from, int b, const char *to) { return wrong() ? -1 : NEXT(renameat)(a, from, b, to); }
int rename(const char *from, const char *to) { return wrong() ? -1 : NEXT(rename)(from, to); }
int openat(int at, const char *path, int how, ...) {
    va_list more;
    va_start(more, how);
    mode_t mode = va_arg(more, mode_t);
    va_end(more);
    return wrong() ? -1 : NEXT(openat)(at, path, how, mode);
}
int open(const char *path, int how, ...) {
    va_list more;
    va_start(more, how);
    mode_t mode = va_arg(more, mode_t);
    va_end(more);
    return wrong() ? -1 : NEXT(open)(path, how, mode);
}
"""
OLD, NEW = b"{a: b}\n", b"a: b\n"
wrong_ones = []


def run(*words, **env):
    how = {"stdin": subprocess.DEVNULL, "capture_output": True, "env": {**os.environ, **env}, "timeout": 60}
    return subprocess.run([PROGRAM, *words], check=False, **how)


def judge(what, is_well, *told):
    if not is_well:
        wrong_ones.append(what)
        print(f"program_test: WRONG: {what}", *told)


def put(path, text=b"a: b\n"):
    os.makedirs(os.path.dirname(path) or ".", exist_ok=True)
    with open(path, "wb") as file:
        file.write(text)


def content(path):
    with open(path, "rb") as file:
        return file.read()


def judge_run(what, words, status, output=b"", errors=b""):
    ran = run(*words)
    judge(what, (ran.returncode, ran.stdout, ran.stderr) == (status, output, errors), ran)


def folders():
    """What is read below a folder."""
    for name in ("d/a.yaml", "d/a-b.yml", "d/b/c.yaml", "d/.git/no.yaml", "d/c.txt"):
        put(name, b"{a: b}")
    os.symlink("../d", "d/b/round")
    os.symlink("a.yaml", "d/link.yaml")
    os.symlink("nowhere", "d/gone.yaml")
    os.mkfifo("d/pipe.yaml")
    files = b"d/a-b.yml\nd/a.yaml\nd/b/c.yaml\nd/link.yaml\n"
    gone = b"yaml_cli: d/gone.yaml: No such file or directory (os error 2)\n"
    judge_run("files, links and pipes of a folder", ["norm", "--check", "d"], 2, files, gone)
    os.remove("d/gone.yaml")
    put(b"d/x\xff.yaml")
    odd = b"yaml_cli: d/x\\xff.yaml: the name isn't UTF-8\n"
    judge_run("a name that isn't UTF-8, in a folder", ["check", "d"], 2, b"", odd)
    judge_run("one that is left out", ["check", "--exclude", "*\\\\xff*", "d"], 0)
    odd = b"yaml_cli: d/x\\xff.yaml: the name isn't UTF-8\n"
    judge_run("among the arguments", ["norm", "--check", b"d/x\xff.yaml", "d/a.yaml"], 2, b"d/a.yaml\n", odd)
    put("d2/a\x1b\n.yaml", b"]")
    ran = run("check", "d2")
    judge("a name with a line feed", ran.stderr.startswith(b"d2/a<U+001B><U+000A>.yaml:1:1: "), ran)


def findings():
    """What programs read: lines that Python's json loads, commands that are unescaped back."""
    name = "f/" + "".join(map(chr, range(1, 128))).replace("/", "") + "é"
    put(name, b"a: [\n")
    lines = run("check", "--format", "json", name, "none").stdout.decode().splitlines()
    found = [json.loads(it) for it in lines]
    keys = ["file", "line", "column", "kind", "problem", "context", "context_line", "context_column"]
    judge("the members of JSON's objects", all(list(it) == keys for it in found), found)
    judge("JSON's values", [it["file"] for it in found] == [name, "none"] and found[0]["line"] == 2, found)
    judge("a kind of what isn't read", found[1]["kind"] == "io" and found[1]["line"] is None, found)
    told = run("check", "--format", "github", name).stdout.decode()
    match = re.fullmatch(r"::error file=([^:,\n\r]*),line=2,col=1,title=yaml_cli \(parser\)::([^\n\r]*)\n", told)
    back = match and re.sub("%(0A|0D|25|2C|3A)", lambda it: chr(int(it[1], 16)), match[1])
    judge("a command's name, unescaped", back == name, told)


# A file with a key twice, and what check --unique-keys reports of it, in each format.
DUPLICATE = b"dup.yaml:2:1: duplicate key: a\na: 2\n^\ndup.yaml:1:1: the key stands here first\na: 1\n^\n"
KEYS = {
    "line": b"dup.yaml:2:1: error: duplicate key: a [duplicate key]\n",
    "github": b"::error file=dup.yaml,line=2,col=1,title=yaml_cli (duplicate key)::duplicate key: a\n",
    "json": b'{"file":"dup.yaml","line":2,"column":1,"kind":"duplicate key","problem":"duplicate key: a",'
    b'"context":"the key stands here first","context_line":1,"context_column":1}\n',
}
# Texts whose mappings have distinct keys, and the keys that others have twice, by their places.
UNIQUE = (b"<<: {}\n<<: {}\n", b"a: 1\n!t a: 2\n", b"? [a]\n: 1\n? [b]\n: 2\n? {a: b}\n: 3\n", b"a: {a: 1}\nb: {a: 1}\n", b"- a: 1\n- a: 1\n", b"")
TWICE = (
    (b'a: 1\n"a": 2\n!!str a: 3\n', [(2, 1, 1, 1, '"a"'), (3, 1, 1, 1, "!!str a")]),
    (b"? {a: [b, c]}\n: 1\n? {a: [b, \"c\"]}\n: 2\n", [(3, 3, 1, 3, '{a: [b, "c"]}')]),
    (b"- &x a\n- {a: 1, *x : 2}\n", [(1, 3, 2, 4, "&x a")]),
    (b'<<: {}\n"<<": {}\n', [(2, 1, 1, 1, '"<<"')]),
    (b"a: {b: 1, b: 2}\n?\n: 1\n?\n: 2\n--- {c: 1, c: 2}\n", [(4, 2, 2, 2, "(empty)"), (1, 11, 1, 5, "b"), (6, 12, 6, 6, "c")]),
    ("é: 1\né: 2\n".encode("utf-16"), [(2, 1, 1, 1, "é")]),
)


def unique_keys():
    """Keys that a mapping has twice."""
    put("dup.yaml", b"a: 1\na: 2\n")
    words = ["check", "--unique-keys"]
    judge_run("a key twice", [*words, "dup.yaml"], 1, b"", DUPLICATE)
    judge_run("a key twice, unasked", ["check", "dup.yaml"], 0)
    judge_run("quiet", [*words, "-q", "dup.yaml"], 1)
    for name, told in KEYS.items():
        judge_run(f"a key twice, by {name}", [*words, "--format", name, "dup.yaml"], 1, told)
    put("k/a.yaml", b"{a: 1}")
    put("k/b.yml", b"{a: 1, b: 2, a: 3}")
    told = b'k/b.yml:1:14: duplicate key: a\n{a: 1, b: 2, a: 3}\n             ^\nk/b.yml:1:2: the key stands here first\n{a: 1, b: 2, a: 3}\n ^\n'
    judge_run("a folder", [*words, "-v", "k"], 1, b"", told + b"2 files, 1 refused\n")
    put("k/b.yml", b"{a: 1, a: *b}")
    told = b"k/b.yml:1:11: composer error: found undefined alias: *b\n{a: 1, a: *b}\n          ^\n"
    judge_run("a fault comes first", [*words, "k"], 1, b"", told)
    for text in UNIQUE:
        put("u.yaml", text)
        judge_run(f"distinct keys: {text}", [*words, "u.yaml"], 0)
    for text, wanted in TWICE:
        put("u.yaml", text)
        found = [json.loads(it) for it in run(*words, "--format", "json", "u.yaml").stdout.splitlines()]
        told = [(it["line"], it["column"], it["context_line"], it["context_column"], it["problem"][15:]) for it in found]
        judge(f"keys of {text}", told == wanted, told)


def places():
    """Files that are written in place, where all is well."""
    put("w/a.yaml", OLD)
    os.chmod("w/a.yaml", 0o640)
    os.symlink("a.yaml", "w/link.yaml")
    judge_run("through a link", ["norm", "-w", "w/link.yaml"], 0, b"w/link.yaml\n")
    is_kept = os.path.islink("w/link.yaml") and os.stat("w/a.yaml").st_mode & 0o7777 == 0o640
    judge("the link and the mode", is_kept and content("w/a.yaml") == NEW)
    judge_run("one that has the form", ["norm", "-w", "w/link.yaml"], 0)
    put("w/h.yaml", OLD)
    os.link("w/h.yaml", "w/i.yaml")
    links = b"yaml_cli: w/h.yaml: has 2 names, which would no longer name the same file\n"
    judge_run("two names", ["norm", "-w", "w/h.yaml"], 1, b"", links)
    judge("both are as they were", content("w/h.yaml") == content("w/i.yaml") == OLD)
    judge("nothing else is left", sorted(os.listdir("w")) == ["a.yaml", "h.yaml", "i.yaml", "link.yaml"], os.listdir("w"))
    for text in (b"a: b # c", b"# c\n{a: b}", b"a: |  # c\n b\nc: {d: e}", b"{a: b}\n#", b"a: >-\n b\n # c\n#d\n"):
        put("w/c.yaml", text)
        ran = run("norm", "-w", "w/c.yaml")
        judge(f"the comment of {text}", ran.returncode == 1 and b": has a comment, " in ran.stderr, ran)
        judge("it is as it was", content("w/c.yaml") == text)
        ran = run("norm", "-w", "--drop-comments", "w/c.yaml")
        judge("it is dropped", ran.returncode == 0 and run("norm", "--check", "w/c.yaml").returncode == 0, ran)
    for text in (b'{a: "# b"}', b"{a: b#c}", b"{a: '#'}", b"- |\n  # b\n- {c: d}", b"- {a: 'b\n  # c'}"):
        put("w/c.yaml", text)
        ran = run("norm", "-w", "w/c.yaml")
        judge(f"no comment is in {text}", ran.returncode == 0, ran)


# What diff shows of two texts: what is shown of each, where it is shown.
DIFFERENCES = [
    (b"a: {b: 2}", b"a: {b: 3}", "[0].a.b: value", "2 1:8", "3 1:8"),
    (b"- 1", b"- '1'", "[0][0]: quotes", "1 1:3", "'1' 1:3"),
    (b"!a b", b"!c b", "[0]: tag", "!a b 1:1", "!c b 1:1"),
    (b"- &a []", b"- &b []", "[0][0]: anchor", "&a [ 1:3", "&b [ 1:3"),
    (b"- *a", b"- *b", "[0][0]: anchor", "*a 1:3", "*b 1:3"),
    (b"a: []", b"a: {}", "[0].a: kind", "a sequence 1:4", "a mapping 1:4"),
    (b"[a, b]", b"[a]", "[0][1]: only in A", "b 1:5", None),
    (b"[a]", b"[a, b]", "[0][1]: only in B", None, "b 1:5"),
    (b"a", b"a\n--- b", "[1]: only in B", None, "a document 2:1"),
    (b"%YAML 1.1\n--- a", b"--- a", "[0]: directives", "%YAML 1.1 1:1", "--- 1:1"),
    (b"a:", b"a: b", "[0].a: value", "an empty scalar 1:3", "b 1:4"),
    (b"- |\n  a\n  b\n", b"- |\n  a\n  c\n", "[0][0]: value", "b 3:3", "c 3:3"),
    (b"- |\n  a\n", b"- |\n  a\n  c\n", "[0][0]: value", "the end of a scalar 3:1", "c 3:3"),
    (b"x" * 70 + b"a", b"x" * 70 + b"b", "[0]: value", f"...{'x' * 20}a 1:1", f"...{'x' * 20}b 1:1"),
    (b"a" + b"x" * 70, b"b" + b"x" * 70, "[0]: value", f"a{'x' * 59}... 1:1", f"b{'x' * 59}... 1:1"),
]


# What diff --all writes of two texts, by its words.
ALL = [
    (
        b"spec:\n  replicas: 2\n  image: a\nold: [1]\n",
        b"spec:\n  image: a\n  replicas: 3\n  new: x\n",
        """[0].spec: order of keys
  - replicas: 2        x.yaml:2:3
  + image: a           y.yaml:2:3
[0].spec.replicas: value
  - 2        x.yaml:2:13
  + 3        y.yaml:3:13
[0].spec.new: only in B
  + new: x        y.yaml:4:3
[0].old: only in A
  - old: [1]        x.yaml:4:1
4 differences
""",
    ),
    (
        b"#\n" * 12 + b"spec:\n  replicas: 2\n",
        b"#\n" * 12 + b"spec:\n  replicas: 3\n",
        """[0].spec.replicas: value
  - 2        x.yaml:14:13
  + 3        y.yaml:14:13
1 difference
""",
    ),
    (
        b"a\n---\nb\n",
        b"a\n---\nc\n---\nd\n",
        """[1]: value
  - b        x.yaml:3:1
  + c        y.yaml:3:1
[2]: only in B
  + a document        y.yaml:4:1
2 differences
""",
    ),
    (
        b"{a: 1, a: 2}",
        b"{a: 1, b: 2, a: 3}",
        """[0].a: value
  - 2        x.yaml:1:11
  + 3        y.yaml:1:17
[0].b: only in B
  + b: 2        y.yaml:1:8
2 differences
""",
    ),
    (
        b"[&x {k: 1}, *x]",
        b"[{k: 1}, {k: 2}]",
        """[0][1].k: value
  - 1        x.yaml:1:9
  + 2        y.yaml:1:14
1 difference
""",
    ),
    (
        b"? [a, b]\n: [c]\n? {d: e}\n: f\n",
        b"? {d: e}\n: g\n? [a, c]\n: [c]\n",
        """[0].<value 0>: only in A
  - [a, b]        x.yaml:1:3
[0].<value 1>: value
  - f        x.yaml:4:3
  + g        y.yaml:2:3
[0].<value 1>: only in B
  + [a, c]        y.yaml:3:3
3 differences
""",
    ),
    (
        b"\xef\xbb\xbf\xc3\xa9: [\xc3\xa9, b]",
        "é: [é, c]".encode("utf-16"),
        """[0].é[1]: value
  - b        x.yaml:1:8
  + c        y.yaml:1:8
1 difference
""",
    ),
    (b"a: 'b'", b"a: b", "[0].a: quotes\n  - 'b'        x.yaml:1:4\n  + b          y.yaml:1:4\n1 difference\n"),
    (b"{b: c, a: d}", b"a: d\nb: c", "[0]: order of keys\n  - {b: c, a: d}        x.yaml:1:1\n  + a: d                y.yaml:1:1\n1 difference\n"),
    (b"{a: b, c: d}", b"a: b\nc: d", ""),
]


def all_differences():
    """What diff --all lists."""
    for first, second, wanted in ALL:
        put("x.yaml", first)
        put("y.yaml", second)
        judge_run(f"diff --all of {first} and {second}", ["diff", "--all", "x.yaml", "y.yaml"], int(wanted != ""), wanted.encode())
        status = int(wanted != "" and "quotes" not in wanted)
        judge_run("the status alone, of the documents", ["diff", "-q", "--all", "--documents", "x.yaml", "y.yaml"], status)
    put("x.yaml", b"[" + b"a, " * 2000 + b"]")
    put("y.yaml", b"[" + b"b, " * 2000 + b"]")
    lines = run("diff", "--all", "x.yaml", "y.yaml").stdout.splitlines()
    judge("many differences", len(lines) == 6001 and lines[-1] == b"2000 differences" and lines[5997] == b"[0][1999]: value", lines[-4:])
    put("y.yaml", b"- *a")
    told = b"y.yaml:1:3: composer error: found undefined alias: *a\n- *a\n  ^\n"
    judge_run("a document that doesn't load", ["diff", "--all", "x.yaml", "y.yaml"], 2, b"", told)


def differences():
    """What diff shows, with each cause."""
    for first, second, path, *shown in DIFFERENCES:
        put("x.yaml", first)
        put("y.yaml", second)
        ran = run("diff", "x.yaml", "y.yaml")
        path_line, *lines = ran.stdout.decode().splitlines()
        sides = zip(("  - ", "  + "), ("x.yaml", "y.yaml"), shown)
        wanted = [(sign + it.rsplit(" ", 1)[0], f"{name}:{it.rsplit(' ', 1)[1]}") for sign, name, it in sides if it]
        found = [tuple(it.rsplit(" ", 1)) for it in lines]
        is_well = [(it.rstrip(), place) for it, place in found] == wanted and len({len(it) for it, _ in found}) < 2
        judge(f"diff of {first} and {second}", path_line == path and is_well and ran.returncode == 1, ran)
        judge("the status alone", run("diff", "-q", "x.yaml", "y.yaml").returncode == 1)
        if b"*" not in first:
            listed = run("diff", "--all", "x.yaml", "y.yaml")
            judge(f"diff --all of {first} and {second}", listed.stdout == ran.stdout + b"1 difference\n" and listed.returncode == 1, listed)


def steps(folder):
    """Files that are written in place, where each call fails in its turn, or the process ends before it."""
    put(f"{folder}/calls.c", CALLS.encode())
    built = ["cc", "-shared", "-fPIC", "-o", f"{folder}/calls.so", f"{folder}/calls.c", "-ldl"]
    if subprocess.run(built, check=False).returncode:
        print("program_test: no C compiler, so no call fails")
        return
    for ways in ({}, {"STOPS": "1"}):
        failed = 0
        for number in range(1, 40):
            shutil.rmtree("s", ignore_errors=True)
            put("s/a.yaml", OLD)
            ran = run("norm", "-w", "s/a.yaml", LD_PRELOAD=f"{folder}/calls.so", AT=str(number), **ways)
            judge(f"call {number} {ways}: old or new, whole", content("s/a.yaml") in (OLD, NEW), ran)
            left = sorted(os.listdir("s"))
            judge(f"call {number} {ways}: nothing is left", bool(ways) or left == ["a.yaml"], left, ran)
            failed += ran.returncode != 0
            told = ran.returncode == 0 or ways or (content("s/a.yaml") == OLD and ran.returncode == 1 and ran.stderr)
            judge(f"call {number} {ways}: it is reported", told, ran)
        judge(f"{failed} of {number} runs failed {ways}: some, and not the last", failed > 5 and ran.returncode == 0, ran)


def hooks(folder):
    """The hooks, by pre-commit."""
    if not shutil.which("pre-commit"):
        print("program_test: pre-commit isn't installed, so no hook is tried")
        return
    git = ["git", "-c", "user.name=a", "-c", "user.email=a@b"]
    env = {**os.environ, "HOME": folder, "PATH": f"{folder}/bin:{os.environ['PATH']}"}
    os.makedirs(f"{folder}/bin")
    os.symlink(PROGRAM, f"{folder}/bin/yaml_cli")
    put("hooks/.pre-commit-hooks.yaml", content(f"{TOP}/.pre-commit-hooks.yaml"))
    for words in (["init", "-q", "."], ["add", "-A"], ["commit", "-qm", "x"]):
        subprocess.run([*git, *words], cwd="hooks", check=True)
    at = subprocess.run(["git", "rev-parse", "HEAD"], cwd="hooks", check=True, capture_output=True, text=True).stdout
    listed = "".join(f"  - id: {it}\n" for it in ("yaml-check", "yaml-norm"))
    put("repo/.pre-commit-config.yaml", f"repos:\n- repo: {folder}/hooks\n  rev: {at}  hooks:\n{listed}".encode())
    for name, text, passed in (("-n.yaml", b"a: b\n", [True, True]), ("x.yml", b"{a: b}\n", [True, False]), ("y.yaml", b"[", [False] * 2)):
        put(f"repo/{name}", text)
        subprocess.run([*git, "init", "-q", "."], cwd="repo", check=True)
        subprocess.run([*git, "add", "-A"], cwd="repo", check=True)
        found = []
        for hook in ("yaml-check", "yaml-norm"):
            words = ["pre-commit", "run", hook, "--all-files"]
            found.append(subprocess.run(words, cwd="repo", env=env, check=False, capture_output=True).returncode == 0)
        judge(f"the hooks on {name}", found == passed, found)


def main():
    with tempfile.TemporaryDirectory() as folder:
        os.makedirs(f"{folder}/work")
        os.chdir(f"{folder}/work")
        folders()
        findings()
        unique_keys()
        places()
        differences()
        all_differences()
        steps(folder)
        os.makedirs(f"{folder}/hooked")
        os.chdir(f"{folder}/hooked")
        hooks(f"{folder}/hooked")
        os.chdir("/")
    print(f"program_test: {len(wrong_ones)} wrong")
    return 1 if wrong_ones else 0


if __name__ == "__main__":
    sys.exit(main())
