#!/usr/bin/env python3
"""Packs what `make program library libyaml` has built, as out/dist: `make dist`. It proves and compiles nothing.

    tools/dist.py

out/dist gets the archive yaml_cli-VERSION-linux-x86_64.tar.gz with its install.sh, three packages for Debian, the wheel for Python,
PROVED.txt, which says what was proved and with what, and SHA256SUMS. All is the same, byte for byte, when it is packed twice: names
are sorted, times are those of the commit, owners are 0. GATE names the log of a run of the gate, whose last line PROVED.txt shows.

Where something isn't built, or is older than its sources, a line says which command builds it, the status is 2, and out/dist stays as it was.
It needs git, tar, binutils and, for Debian's packages, dpkg-deb.
"""
import gzip
import hashlib
import os
import re
import shutil
import subprocess
import sys
import tarfile
import tempfile

TOOLS = os.path.dirname(os.path.abspath(__file__))
TOP = os.path.dirname(TOOLS)
sys.path.insert(0, TOOLS)
import versions

LIBRARY = "usr/lib/x86_64-linux-gnu"
# What has to be built: the file, and the command that builds it.
BUILT = [
    ("crates/yaml_cli/out/yaml_cli", "make program"),
    ("out/library/libyaml_c.a", "make library"),
    ("out/library/libyaml_c.so", "make library"),
    ("out/libyaml/libyaml-0.so.2", "make libyaml"),
    ("out/libyaml/libyaml.a", "make libyaml"),
]
ABOUT = "YAML tool and library whose answers are proved"
LONG = f"""\
 Checks, compares and rewrites YAML 1.1 as libyaml 0.2.5 reads it. It is a
 port of libyaml to a language with contracts, in which every function is
 proved: it can't read out of bounds or hang, and what it writes has the
 same content as what it read.
"""


def say(text):
    print(f"make dist: {text}", file=sys.stderr)


def output_of(*words):
    return subprocess.run(words, cwd=TOP, check=True, capture_output=True, text=True).stdout.strip()


def missing():
    """The commands that build what isn't built, or is older than the sources."""
    commands = []
    for path, command in BUILT:
        file = f"{TOP}/{path}"
        is_built = os.path.exists(file) and (file.endswith(".a") or not subprocess.run([f"{TOOLS}/is_built.sh", file], check=False).returncode)
        if not is_built and command not in commands:
            commands.append(command)
    return commands


def commit():
    """The commit, with a word where files differ from it, and its time in seconds."""
    if not os.path.exists(f"{TOP}/.git"):
        return "unknown", 0
    dirty = "-changed" if output_of("git", "status", "--porcelain", "--untracked-files=no") else ""
    name, time = output_of("git", "log", "-1", "--format=%H %ct").split()
    return name + dirty, int(time)


class Tree:
    """A folder that is packed: files are put at their places below it, as they are or as text."""

    def __init__(self, at):
        self.at = at

    def place(self, path, mode):
        target = os.path.join(self.at, path)
        os.makedirs(os.path.dirname(target), exist_ok=True)
        return target, mode

    def file(self, source, path, mode=0o644):
        target, mode = self.place(path, mode)
        shutil.copyfile(os.path.join(TOP, source), target)
        os.chmod(target, mode)
        return target

    def text(self, text, path, mode=0o644):
        target, mode = self.place(path, mode)
        with open(target, "w", encoding="utf-8") as file:
            file.write(text)
        os.chmod(target, mode)

    def packed(self, source, path):
        """A gzipped file, as Debian asks for manual pages and changelogs."""
        target, _ = self.place(path, 0o644)
        with open(os.path.join(TOP, source), "rb") as file, open(target, "wb") as out:
            out.write(gzip.compress(file.read(), 9, mtime=0))
        os.chmod(target, 0o644)

    def link(self, name, path):
        target, _ = self.place(path, 0o644)
        os.symlink(name, target)

    def stripped(self, source, path, mode=0o644, words=("--strip-unneeded",)):
        """What is built, without the names that only a debugger reads."""
        target = self.file(source, path, mode)
        subprocess.run(["strip", "-D", *words, target], check=True)
        return target

    def settle(self, time):
        """Gives all that is packed one time and plain rights."""
        for folder, folders, files in os.walk(self.at):
            for name in folders + files:
                os.utime(f"{folder}/{name}", (time, time), follow_symlinks=False)
            os.chmod(folder, 0o755)
            os.utime(folder, (time, time))


def archive(work, dist, version, time):
    """The archive for any Linux: bin, share, LICENSE, README.md and install.sh."""
    name = f"yaml_cli-{version}-linux-x86_64"
    tree = Tree(f"{work}/{name}")
    tree.stripped("crates/yaml_cli/out/yaml_cli", "bin/yaml_cli", 0o755)
    tree.file("docs/man/yaml_cli.1", "share/man/man1/yaml_cli.1")
    tree.file("completions/yaml_cli.bash", "share/bash-completion/completions/yaml_cli")
    tree.file("completions/_yaml_cli", "share/zsh/site-functions/_yaml_cli")
    tree.file("completions/yaml_cli.fish", "share/fish/vendor_completions.d/yaml_cli.fish")
    tree.file("tools/dist/install.sh", "install.sh", 0o755)
    for path in ("LICENSE", "README.md"):
        tree.file(path, path)
    tree.settle(time)

    def plain(entry):
        entry.uid = entry.gid = 0
        entry.uname = entry.gname = "root"
        entry.mtime = time
        return entry

    paths = sorted(os.path.relpath(f"{folder}/{it}", work) for folder, _, files in os.walk(tree.at) for it in files)
    with open(f"{dist}/{name}.tar.gz", "wb") as out, gzip.GzipFile("", "wb", 9, out, mtime=0) as zipped:
        with tarfile.open(fileobj=zipped, mode="w", format=tarfile.USTAR_FORMAT) as tar:
            for path in paths:
                tar.add(f"{work}/{path}", path, recursive=False, filter=plain)


def changelog(name, version, time):
    """Debian's own log of a package: what is new is in CHANGELOG.md."""
    date = output_of("date", "-u", "-R", "-d", f"@{time}")
    return f"{name} ({version}) unstable; urgency=medium\n\n  * See CHANGELOG.md.\n\n -- The Zurkjoft authors <maintainers@users.noreply.zurkjoft.example>  {date}\n"


def copyright_text():
    with open(f"{TOP}/LICENSE", encoding="utf-8") as file:
        text = file.read()
    rows = [f" {it}" if it else " ." for it in text.strip().split("\n")[4:]]
    holder = re.search(r"Copyright \(c\) (.*)", text)[1]
    return "\n".join(["Format: https://www.debian.org/doc/packaging-manuals/copyright-format/1.0/", "Upstream-Name: Zurkjoft", "",
                      "Files: *", f"Copyright: {holder}", "License: Expat", *rows, ""])


def debian(work, dist, name, version, time, fill, depends, section, about, control=()):
    """One package for Debian. `fill` puts its files."""
    tree = Tree(f"{work}/{name}")
    fill(tree)
    doc = f"usr/share/doc/{name}"
    tree.text(copyright_text(), f"{doc}/copyright")
    log = f"{work}/{name}.log"
    with open(log, "w", encoding="utf-8") as file:
        file.write(changelog(name, version, time))
    tree.packed(log, f"{doc}/changelog.gz")
    files = sorted(os.path.relpath(f"{folder}/{it}", tree.at) for folder, _, its in os.walk(tree.at) for it in its)
    size = sum(os.lstat(f"{tree.at}/{it}").st_size + 1023 >> 10 for it in files)
    rows = [f"Package: {name}", f"Version: {version}", "Architecture: amd64", f"Section: {section}", "Priority: optional",
            "Maintainer: The Zurkjoft authors <maintainers@users.noreply.zurkjoft.example>", f"Installed-Size: {size}",
            f"Depends: {depends}", *(["Multi-Arch: same"] if section.startswith("lib") else []), f"Description: {about}"]
    tree.text("\n".join(rows) + "\n" + LONG, "DEBIAN/control")
    sums = [f"{sum_of(f'{tree.at}/{it}', 'md5')}  {it}\n" for it in files if not os.path.islink(f"{tree.at}/{it}")]
    tree.text("".join(sums), "DEBIAN/md5sums")
    for path, text in control:
        tree.text(text, f"DEBIAN/{path}")
    tree.settle(time)
    subprocess.run(["dpkg-deb", "--root-owner-group", "-Zxz", "-b", tree.at, f"{dist}/{name}_{version}_amd64.deb"], check=True,
                   stdout=subprocess.DEVNULL, env={**os.environ, "SOURCE_DATE_EPOCH": str(time)})


def sum_of(path, kind="sha256"):
    with open(path, "rb") as file:
        return hashlib.new(kind, file.read()).hexdigest()


def pkgconfig(name, folder, include, version, about, flag):
    return (f"libdir={folder}\nincludedir={include}\n\nName: {name}\nDescription: {about}\nVersion: {version}\n"
            f"Cflags: -I${{includedir}}\nLibs: -L${{libdir}} {flag}\n")


def debian_packages(work, dist, version, time):
    major = version.split(".")[0]
    shared, beside = f"libyaml_c.so.{major}", f"{LIBRARY}/yaml_round"
    library, development = f"libyaml-c{major}", "libyaml-c-dev"

    def program(tree):
        tree.stripped("crates/yaml_cli/out/yaml_cli", "usr/bin/yaml_cli", 0o755)
        tree.packed("docs/man/yaml_cli.1", "usr/share/man/man1/yaml_cli.1.gz")
        tree.file("completions/yaml_cli.bash", "usr/share/bash-completion/completions/yaml_cli")
        tree.file("completions/_yaml_cli", "usr/share/zsh/vendor-completions/_yaml_cli")
        tree.file("completions/yaml_cli.fish", "usr/share/fish/vendor_completions.d/yaml_cli.fish")

    def calls(tree):
        tree.stripped(f"out/library/{shared}", f"{LIBRARY}/libyaml_c.so.{version}")
        tree.link(f"libyaml_c.so.{version}", f"{LIBRARY}/{shared}")
        tree.stripped("out/libyaml/libyaml-0.so.2", f"{beside}/libyaml-0.so.2")

    def headers(tree):
        tree.link(shared, f"{LIBRARY}/libyaml_c.so")
        tree.stripped("out/library/libyaml_c.a", f"{LIBRARY}/libyaml_c.a", words=("--strip-debug", "--remove-section=.comment"))
        tree.file("bindings/c/yaml_c.h", "usr/include/yaml_c.h")
        tree.text(pkgconfig("yaml_c", f"/{LIBRARY}", "/usr/include", version, "a proved YAML 1.1 engine, parser and emitter", "-lyaml_c"),
                  f"{LIBRARY}/pkgconfig/yaml_c.pc")
        tree.link("libyaml-0.so.2", f"{beside}/libyaml.so")
        tree.stripped("out/libyaml/libyaml.a", f"{beside}/libyaml.a", words=("--strip-debug", "--remove-section=.comment"))
        tree.file("bindings/libyaml/yaml.h", f"{beside}/include/yaml.h")
        tree.text(pkgconfig("LibYAML", f"/{beside}", f"/{beside}/include", "0.2.5", "libyaml's interface over a proved YAML parser and emitter", "-lyaml"),
                  f"{beside}/pkgconfig/yaml-0.1.pc")

    needs = {it: versions.glibc_of(f"{TOP}/{it}") for it in ("crates/yaml_cli/out/yaml_cli", f"out/library/{shared}", "out/libyaml/libyaml-0.so.2")}
    newest = max(list(needs.values())[1:], key=versions.number)
    debian(work, dist, "yaml-cli", version, time, program, f"libc6 (>= {needs['crates/yaml_cli/out/yaml_cli']})", "utils", ABOUT)
    debian(work, dist, library, version, time, calls, f"libc6 (>= {newest})", "libs", f"{ABOUT}, the library for C",
           [("shlibs", f"libyaml_c {major} {library} (>= {version})\n"), ("triggers", "activate-noawait ldconfig\n")])
    debian(work, dist, development, version, time, headers, f"{library} (= {version}), libc6-dev", "libdevel", f"{ABOUT}, files for compiling")


def wheel(dist, time):
    os.environ["SOURCE_DATE_EPOCH"] = str(time)
    sys.path.insert(0, f"{TOP}/bindings/python")
    sys.dont_write_bytecode = True
    import build_backend
    build_backend.build_wheel(dist)


def proved(dist, name, sums):
    kit = output_of("rt", "version") if shutil.which("rt") else "the kit isn't on the path"
    gate = "its log wasn't named (GATE=FILE)"
    if os.environ.get("GATE"):
        with open(os.environ["GATE"], encoding="utf-8") as file:
            gate = file.read().strip().split("\n")[-1]
    text = ["Every function of the program and of the library for C is proved by the kit before it is compiled.", "",
            f"commit: {name}", f"kit:    {kit}", f"gate:   {gate}", "", "what was built, before names for debuggers were left out:", ""]
    text += [f"{sum_of(f'{TOP}/{path}')}  {path}" for path, _ in BUILT]
    with open(f"{dist}/PROVED.txt", "w", encoding="utf-8") as file:
        file.write("\n".join([*text, "", "what is packed:", "", *sums, ""]))


def main():
    commands = missing()
    if commands:
        say(f"not built, or older than the sources: run {', then '.join(commands)}")
        return 2
    if not shutil.which("dpkg-deb"):
        say("dpkg-deb isn't here, which makes Debian's packages")
        return 2
    version = versions.version()
    name, time = commit()
    os.makedirs(f"{TOP}/out", exist_ok=True)
    with tempfile.TemporaryDirectory(dir=f"{TOP}/out") as work:
        dist = f"{work}/dist"
        os.mkdir(dist)
        archive(work, dist, version, time)
        debian_packages(work, dist, version, time)
        wheel(dist, time)
        sums = [f"{sum_of(f'{dist}/{it}')}  {it}" for it in sorted(os.listdir(dist))]
        proved(dist, name, sums)
        sums.append(f"{sum_of(f'{dist}/PROVED.txt')}  PROVED.txt")
        with open(f"{dist}/SHA256SUMS", "w", encoding="utf-8") as file:
            file.write("\n".join([*sums, ""]))
        shutil.rmtree(f"{TOP}/out/dist", ignore_errors=True)
        os.rename(dist, f"{TOP}/out/dist")
    say(f"packed version {version} into out/dist; make dist-test tries each package")
    return 0


if __name__ == "__main__":
    sys.exit(main())
