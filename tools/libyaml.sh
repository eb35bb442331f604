#!/bin/bash
# Builds the library with libyaml's own interface over the proved one: `make libyaml`, and installs it: `make install-libyaml`.
#
#     tools/libyaml.sh
#     tools/libyaml.sh install PREFIX
#
# out/libyaml gets libyaml-0.so.2, which has libyaml's name and symbols, libyaml.so beside it for linkers, libyaml.a,
# include/yaml.h and pkgconfig/yaml-0.1.pc. They are made of out/library/libyaml_c.a, which is proved, and of the C code of
# bindings/libyaml, which isn't. Installed, they are in a folder of their own, PREFIX/lib/yaml_round (below DESTDIR where
# that is set), so that no library of the system is replaced. It needs a C compiler (CC, CFLAGS) and binutils. LIBRARY names the
# folder of another libyaml_c.a, as tools/near_library.py makes it; what is made of that is in its folder libyaml.
set -eu
top=$(cd "$(dirname "$0")/.." && pwd)
source=$top/bindings/libyaml
out=${LIBRARY:-$top/out}/libyaml
proved=${LIBRARY:-$top/out/library}/libyaml_c.a
compiler=${CC:-cc}

say() { echo "make libyaml: $*" >&2; }

# pkgconfig FOLDER: the description for pkg-config of a library that is there.
pkgconfig() {
    cat <<END
libdir=$1
includedir=$1/include

Name: LibYAML
Description: libyaml's interface over a proved YAML parser and emitter
Version: 0.2.5
Cflags: -I\${includedir}
Libs: -L\${libdir} -lyaml
END
}

install_into() {
    [ -f "$out/libyaml-0.so.2" ] || { say "$out isn't there: make libyaml makes it"; exit 2; }
    local folder=$1/lib/yaml_round
    local at=${DESTDIR:-}$folder
    install -d "$at/include" "$at/pkgconfig"
    install -m 755 "$out/libyaml-0.so.2" "$at/libyaml-0.so.2"
    ln -sf libyaml-0.so.2 "$at/libyaml.so"
    install -m 644 "$out/libyaml.a" "$at/libyaml.a"
    install -m 644 "$source/yaml.h" "$at/include/yaml.h"
    pkgconfig "$folder" >"$at/pkgconfig/yaml-0.1.pc"
    say "installed into $at: to run a program on it, LD_LIBRARY_PATH=$folder"
}

if [ "${1:-}" = install ]; then
    install_into "$2"
    exit
fi
[ -f "$proved" ] || { say "$proved isn't there: make library makes it"; exit 1; }

work=$(mktemp -d)
trap 'rm -rf "$work"' EXIT
objects=()
for file in "$source"/*.c; do
    objects+=("$work/$(basename "$file" .c).o")
    $compiler -std=c11 -fPIC -Wall -Wextra ${CFLAGS:--O2 -fno-plt} -I "$source" -I "$top/bindings/c" -c -o "${objects[-1]}" "$file"
done
# The commit is noted in .comment, since a symbol for it would be one more than libyaml has.
commit=$(git -C "$top" describe --always --dirty 2>/dev/null || echo unknown)
echo "__asm__(\".ident \\\"yaml_round $commit\\\"\");" | $compiler -x c -c -o "$work/commit.o" -
objects+=("$work/commit.o")

mkdir -p "$out/include" "$out/pkgconfig"
$compiler -shared -Wl,-soname,libyaml-0.so.2 -Wl,--version-script="$source/libyaml.map" -Wl,-z,defs -Wl,-z,relro -Wl,-z,now \
    -o "$work/libyaml-0.so.2" "${objects[@]}" "$proved"
# One object of all, of which only libyaml's own symbols can be seen.
grep -o 'yaml_[a-z_]*' "$source/libyaml.map" >"$work/symbols"
ld -r -o "$work/libyaml.o" "${objects[@]}" --whole-archive "$proved" --no-whole-archive
objcopy --keep-global-symbols="$work/symbols" "$work/libyaml.o"
ar rcs "$work/libyaml.a" "$work/libyaml.o"
cp "$source/yaml.h" "$out/include/yaml.h"
pkgconfig "$out" >"$out/pkgconfig/yaml-0.1.pc"
mv "$work/libyaml-0.so.2" "$work/libyaml.a" "$out"
ln -sf libyaml-0.so.2 "$out/libyaml.so"
say "built $out/libyaml-0.so.2 and $out/libyaml.a; to run a program on it, LD_LIBRARY_PATH=$out"
