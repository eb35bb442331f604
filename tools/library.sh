#!/bin/bash
# Proves and builds the C library, as an archive and as a shared object: `make library`, and installs it: `make install-library`.
#
#     tools/library.sh
#     tools/library.sh install PREFIX           LIBRARY: the folder that it is taken from (out/library)
#     tools/library.sh link ARCHIVE FOLDER      makes both of what is compiled already (tools/near_library.py)
#
# What it is built on is proved side by side, or taken from what the gate and `make program` have
# kept (tools/program.py). The archive and the shared object have the calls of bindings/c/yaml_c.h
# and no other symbol, and what they need beside them is the C library's malloc, realloc, free and
# memory functions. It needs the kit, a C compiler, binutils.
#
# The shared object's name is libyaml_c.so.MAJOR, of the repository's version: calls and records stay what they are within it.
# Installed are it, the archive, the header and yaml_c.pc for pkg-config, below DESTDIR where that is set.
set -eu
top=$(cd "$(dirname "$0")/.." && pwd)
crate=$top/crates/yaml_round_c
out=$top/out/library

version=$(sed -n 's/.*"\([0-9.]*\) .*/\1/p' "$top/crates/yaml_cli_program/src/version.rt")
name=libyaml_c.so.${version%%.*}

say() { echo "make library: $*" >&2; }

# pkgconfig PREFIX: the description for pkg-config of the library that is installed there.
pkgconfig() {
    cat <<END
prefix=$1
libdir=\${prefix}/lib
includedir=\${prefix}/include

Name: yaml_c
Description: a proved YAML 1.1 engine, parser and emitter
Version: $version
Cflags: -I\${includedir}
Libs: -L\${libdir} -lyaml_c
END
}

install_into() {
    local at=${DESTDIR:-}$1
    install -d "$at/lib/pkgconfig" "$at/include"
    install -m 755 "$out/$name" "$at/lib/libyaml_c.so.$version"
    ln -sf "libyaml_c.so.$version" "$at/lib/$name"
    ln -sf "$name" "$at/lib/libyaml_c.so"
    install -m 644 "$out/libyaml_c.a" "$at/lib/libyaml_c.a"
    install -m 644 "$top/bindings/c/yaml_c.h" "$at/include/yaml_c.h"
    pkgconfig "$1" >"$at/lib/pkgconfig/yaml_c.pc"
    chmod 644 "$at/lib/pkgconfig/yaml_c.pc"
    say "installed into $at: lib/libyaml_c.a, lib/$name, include/yaml_c.h, lib/pkgconfig/yaml_c.pc"
}

# link ARCHIVE FOLDER: one object of all, of which only the calls can be seen, as an archive and as a shared object. Both are as
# old as the file $work/since, so that a source that was edited meanwhile is newer.
link() {
    local kit
    kit=$(dirname "$(rt doc)")
    ld -r -o "$work/yaml_c.o" --whole-archive "$1" --no-whole-archive "$kit/c/liblibc_c.a"
    objcopy --wildcard --keep-global-symbol='yaml_c_*' "$work/yaml_c.o"
    ar rcs "$work/libyaml_c.a" "$work/yaml_c.o"
    ${CC:-cc} -shared -Wl,-z,defs -Wl,-soname,"$name" -o "$work/$name" "$work/yaml_c.o"
    ln -s "$name" "$work/libyaml_c.so"
    touch -r "$work/since" "$work/libyaml_c.a" "$work/$name"
    mkdir -p "$2"
    mv "$work/libyaml_c.a" "$work/$name" "$work/libyaml_c.so" "$2"
}

if [ "${1:-}" = install ]; then
    out=${LIBRARY:-$out}
    [ -f "$out/libyaml_c.a" ] && [ -f "$out/$name" ] || { say "$out isn't there: make library makes it"; exit 2; }
    install_into "${2:?PREFIX is missing}"
    exit
fi
work=$(mktemp -d)
trap 'rm -rf "$work"' EXIT
touch "$work/since"
if [ "${1:-}" = link ]; then
    link "${2:?ARCHIVE is missing}" "${3:?FOLDER is missing}"
    exit
fi
if "$top/tools/is_built.sh" "$out/$name"; then
    say "out/library/libyaml_c.a and out/library/libyaml_c.so are newer than all sources"
    exit
fi
"$top/tools/kit.sh" 'make library' || exit 1
say "proving yaml_round_c and what it stands on"
"$top/tools/program.py" yaml_round_c || { say "not proved, so not built"; exit 1; }
link "$crate/out/libyaml_round_c.a" "$out"
say "built out/library/libyaml_c.a and out/library/libyaml_c.so; their header is bindings/c/yaml_c.h"
