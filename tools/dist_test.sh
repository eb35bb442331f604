#!/bin/bash
# Tries what `make dist` has packed: `make dist-test`. It isn't part of the gate.
#
#     tools/dist_test.sh [FOLDER]      FOLDER: where the packages are (out/dist)
#
# Sums first: one byte that was changed fails. Then each package is installed into an empty root or a virtual environment, run from
# there (check, norm, diff; a C program by pkg-config; Python's tests over the wheel), its man page and completions are looked for,
# and everything is removed again, with nothing left. lintian judges Debian's packages where it is there. Needs dpkg, a C compiler,
# pkg-config, python3 with venv; where one isn't there a line says so and that part fails.
set -u
top=$(cd "$(dirname "$0")/.." && pwd)
dist=$(realpath -m "${1:-$top/out/dist}")
work=$(mktemp -d)
trap 'chmod -R u+w "$work"; rm -rf "$work"' EXIT
failed=0

say() { echo "dist-test: $*"; }
wrong() {
    say "FAILED: $*"
    failed=1
}
needs() { command -v "$1" >/dev/null || { wrong "$1 isn't here: $2 isn't tried"; return 1; }; }

# program FILE: check, norm and diff, run from where it was installed.
program() {
    printf 'a: {b: 1}\n' >"$work/a.yaml"
    printf 'a:\n  b: 2\n' >"$work/b.yaml"
    printf 'a: [1\nb: 2\n' >"$work/bad.yaml"
    [ "$("$1" --version)" = "yaml_cli $version (libyaml 0.2.5, YAML 1.1)" ] || wrong "$1 --version says: $("$1" --version)"
    "$1" check "$work/a.yaml" || wrong "$1 check refuses what loads"
    "$1" check "$work/bad.yaml" 2>/dev/null && wrong "$1 check accepts what doesn't load"
    [ "$("$1" norm "$work/a.yaml")" = $'a:\n  b: 1' ] || wrong "$1 norm writes something else"
    "$1" diff "$work/a.yaml" "$work/b.yaml" | grep -qF '[0].a.b' || wrong "$1 diff shows no path"
}

# pages FOLDER PAGE COMPLETION..: the man page and the completions are there, and the page names the program.
pages() {
    local page=$1 it
    shift
    { zcat -f "$page" 2>/dev/null | grep -q '^\.TH YAML_CLI 1'; } || wrong "$page isn't there, or is no man page"
    for it; do
        grep -q yaml_cli "$it" 2>/dev/null || wrong "$it isn't there"
    done
}

# left FOLDER: what is in it besides dpkg's own files.
left() { (cd "$1" && find . -mindepth 1 ! -type d ! -path './var/*' | sort | head -5); }

archive() {
    local it=$work/archive name=yaml_cli-$version-linux-x86_64 at
    mkdir -p "$it" && tar -xzf "$dist/$name.tar.gz" -C "$it" || { wrong "the archive can't be unpacked"; return; }
    for at in "$work/prefix" "$work/a prefix"; do
        "$it/$name/install.sh" "$at" >/dev/null || wrong "install.sh fails for $at"
        program "$at/bin/yaml_cli"
        pages "$at/share/man/man1/yaml_cli.1" "$at/share/bash-completion/completions/yaml_cli" \
            "$at/share/zsh/site-functions/_yaml_cli" "$at/share/fish/vendor_completions.d/yaml_cli.fish"
        rm -r "$at"
    done
    # a file in the way acts as a folder that can't be written, also for root
    : >"$work/file"
    "$it/$name/install.sh" "$work/file/below" >/dev/null 2>"$work/errors" && wrong "install.sh says nothing of a folder that can't be made"
    [ "$(wc -l <"$work/errors")" = 1 ] || wrong "install.sh doesn't say in one line that it can't write: $(cat "$work/errors")"
    mkdir -p "$work/half/share/fish/vendor_completions.d/yaml_cli.fish"
    "$it/$name/install.sh" "$work/half" >/dev/null 2>&1 && wrong "install.sh goes on over a file that it can't put"
    [ -z "$(find "$work/half" -type f)" ] && [ ! -e "$work/half/bin" ] || wrong "install.sh leaves parts of an installation that failed"
    say "archive: installed, run, removed"
}

debian() {
    needs dpkg "Debian's packages" || return
    local root=$work/root name names
    names=$(cd "$dist" && ls ./*.deb)
    mkdir -p "$root/var/lib/dpkg/updates" "$root/var/lib/dpkg/info" && : >"$root/var/lib/dpkg/status"
    (cd "$dist" && dpkg --root="$root" --force-depends --force-not-root -i $names) >"$work/dpkg" 2>&1 ||
        { wrong "dpkg doesn't install the packages: $(tail -3 "$work/dpkg")"; return; }
    program "$root/usr/bin/yaml_cli"
    pages "$root/usr/share/man/man1/yaml_cli.1.gz" "$root/usr/share/bash-completion/completions/yaml_cli" \
        "$root/usr/share/zsh/vendor-completions/_yaml_cli" "$root/usr/share/fish/vendor_completions.d/yaml_cli.fish"
    compiled "$root"
    # nothing of Debian's own libyaml has one of these names
    (cd "$root" && find ./usr ! -type d | sed 's/^\.//' | sort) >"$work/ours"
    for name in libyaml-0-2 libyaml-dev; do
        dpkg -L "$name" 2>/dev/null | sort | comm -12 - "$work/ours" >"$work/both"
        while IFS= read -r it; do [ -d "$it" ] || wrong "$name has $it too"; done <"$work/both"
    done
    grep -E '/libyaml-0\.so|/libyaml\.(so|a)$|/yaml\.h$|/yaml-0\.1\.pc$' "$work/ours" | grep -v '/yaml_round/' && wrong "a file stands where Debian's libyaml has its own"
    names=$(for it in "$dist"/*.deb; do dpkg-deb -f "$it" Package; done)
    dpkg --root="$root" --force-not-root --purge $names >"$work/dpkg" 2>&1 || wrong "dpkg doesn't remove the packages: $(tail -3 "$work/dpkg")"
    [ -z "$(left "$root")" ] || wrong "removed packages leave $(left "$root")"
    if needs lintian "what Debian's rules say"; then
        lintian --allow-root --fail-on error "$dist"/*.deb >"$work/lintian" 2>&1 || wrong "lintian: $(grep '^E:' "$work/lintian" | head -5)"
        say "lintian: $(grep -c '^W:' "$work/lintian") warnings, no error"
    fi
    say "Debian's packages: installed, run, removed"
}

# compiled ROOT: a C program against the -dev package, by pkg-config.
compiled() {
    needs pkg-config "the C library's package" || return
    local root=$1 flags below=usr/lib/x86_64-linux-gnu
    flags=$(PKG_CONFIG_LIBDIR=$root/$below/pkgconfig PKG_CONFIG_SYSROOT_DIR=$root pkg-config --cflags --libs yaml_c) || { wrong "pkg-config finds no yaml_c"; return; }
    cp "$top/bindings/c/example.c" "$work/example.c"
    ${CC:-cc} -Wall -Werror -o "$work/example" "$work/example.c" $flags || { wrong "a C program doesn't compile against the packages"; return; }
    echo 'a: b' | LD_LIBRARY_PATH=$root/$below "$work/example" >"$work/output" 2>&1 || wrong "the C program fails: $(head -3 "$work/output")"
    flags=$(PKG_CONFIG_LIBDIR=$root/$below/yaml_round/pkgconfig PKG_CONFIG_SYSROOT_DIR=$root pkg-config --cflags --libs yaml-0.1) || { wrong "pkg-config finds no yaml-0.1"; return; }
    printf '#include <yaml.h>\n#include <stdio.h>\nint main(void) { puts(yaml_get_version_string()); return 0; }\n' >"$work/version.c"
    ${CC:-cc} -o "$work/version" "$work/version.c" $flags && [ "$(LD_LIBRARY_PATH=$root/$below/yaml_round "$work/version")" = 0.2.5 ] ||
        wrong "a program of libyaml's doesn't run on the packages"
    say "C: compiled by pkg-config and run"
}

wheel() {
    local it=$work/venv file
    file=$(ls "$dist"/*.whl) && python3 -m venv "$it" >/dev/null 2>&1 || { wrong "python3 makes no virtual environment"; return; }
    "$it/bin/pip" install -q --disable-pip-version-check --no-index "$file" >"$work/pip" 2>&1 || { wrong "pip doesn't install the wheel: $(tail -3 "$work/pip")"; return; }
    # the tests read the header and the crates beside them, and no package but the installed one
    mkdir -p "$work/top/bindings/python" && ln -s "$top/crates" "$top/docs" "$top/tools" "$work/top" && ln -s "$top/bindings/c" "$work/top/bindings"
    cp -r "$top/bindings/python/tests" "$work/top/bindings/python"
    (cd "$work/top/bindings/python" && env -u PYTHONPATH -u YAML_C_SO "$it/bin/python" -W error -m unittest discover -s tests -t .) >"$work/output" 2>&1 ||
        wrong "Python's tests over the wheel: $(tail -c 1500 "$work/output")"
    say "wheel: Python's tests: $(tail -1 "$work/output")"
    if [ -e "$it/bin/yaml_cli" ]; then program "$it/bin/yaml_cli"; fi
    python3 - "$file" "$work" <<'END' || wrong "the wheel's tag promises an older C library than it needs"
import re, sys, zipfile, subprocess
sys.path.insert(0, "tools")
import versions
wheel, work = sys.argv[1:]
promised = versions.number(".".join(re.search(r"manylinux_(\d+)_(\d+)_x86_64", wheel).groups()))
with zipfile.ZipFile(wheel) as it:
    for name in it.namelist():
        if it.read(name)[:4] == b"\x7fELF":
            needed = versions.glibc_of(it.extract(name, work))
            print(f"dist-test: {name} needs glibc {needed}")
            if versions.number(needed) > promised:
                sys.exit(1)
END
    "$it/bin/pip" uninstall -q -y yaml_c >/dev/null 2>&1 && ! "$it/bin/python" -c 'import yaml_c' 2>/dev/null || wrong "the wheel can't be removed"
    find "$it" -path '*yaml_c*' | grep -q . && wrong "the removed wheel leaves $(find "$it" -path '*yaml_c*' | head -3)"
    say "wheel: installed, tried, removed"
}

cd "$top" || exit 2
[ -f "$dist/SHA256SUMS" ] || { say "$dist isn't there: make dist packs it"; exit 2; }
version=$(python3 -c 'import sys; sys.path.insert(0, "tools"); import versions; print(versions.version())')
(cd "$dist" && sha256sum -c --quiet SHA256SUMS) || { wrong "a file isn't what was packed"; exit 1; }
[ "$(cd "$dist" && ls | grep -v SHA256SUMS | sort)" = "$(awk '{ print $2 }' "$dist/SHA256SUMS" | sort)" ] || wrong "SHA256SUMS doesn't list what is in $dist"
archive
debian
wheel
for it in crates/yaml_cli/out/yaml_cli out/library/libyaml_c.so; do
    needed=$(tools/versions.py "$it" | sed 's/.* //')
    grep -q "glibc.*\b$needed\b" README.md || wrong "README.md doesn't say that $it needs glibc $needed"
done
[ $failed -eq 0 ] && say "all passed"
exit $failed
