#!/bin/bash
# Builds and runs the C example and Python's tests over the library that `make library` leaves in out/library:
# `make bindings-test`. It isn't part of the gate. It needs a C compiler (CC) and python3 (3.10 or newer), and under
# AddressSanitizer one that has it; where it hasn't, a line says so and that part is left out.
#
#     tools/bindings_test.sh          LIBRARY: the folder of another build, as tools/near_library.py makes it; the package for
#                                     Python, which holds the one of out/library, isn't installed then
#
# The example is linked with the archive and with the shared object; both must write the same, also under ASan and UBSan, with
# no block left. bindings/c/check.c calls the archive with numbers that mean nothing and with each allocation refused in turn.
# Python's tests run as they are and, with ASan's library before the C library, once more. The library is installed into a
# folder of its own and the example linked with it, by pkg-config where that is there; the package is installed by pip, where
# that is there, with nothing else at hand; its types are tried by mypy, where that is there.
set -u
top=$(cd "$(dirname "$0")/.." && pwd)
built=$(realpath -m "$top/out/library")
library=$(realpath -m "${LIBRARY:-$built}")
export LIBRARY=$library
compiler=${CC:-cc}
version=$(sed -n 's/.*"\([0-9.]*\) .*/\1/p' "$top/crates/yaml_cli_program/src/version.rt")
cd "$top" && work=$(mktemp -d) || exit 2
trap 'rm -rf "$work"' EXIT
failed=0

say() { echo "bindings-test: $*"; }
wrong() {
    say "FAILED: $*"
    failed=1
}

[ -f "$library/libyaml_c.a" ] && [ -f "$library/libyaml_c.so" ] || {
    say "$library/libyaml_c.a and .so aren't there: make library makes them"
    exit 2
}

# compile NAME FILE FLAG..: a program of bindings/c.
compile() {
    local name=$1 file=$2
    shift 2
    $compiler -O1 -g -Wall -Wextra -Werror -I "$top/bindings/c" -o "$work/$name" "$top/bindings/c/$file" "$@" && return
    wrong "$file doesn't compile as $name"
    return 1
}

# ends NAME STATUS OUTPUT ERRORS: what the program gave, a pattern of its output's last line and its errors.
ends() {
    local status=$? last
    last=$(tail -n 1 "$work/output")
    [ "$status" = "$2" ] || wrong "$1 ends with status $status, not $2"
    [[ $last =~ ^$3$ ]] || wrong "$1 writes at the end: $last"
    [ "$(cat "$work/errors")" = "$4" ] || wrong "$1 says: $(head -c 1000 "$work/errors")"
}

# example NAME: the example on a text that is accepted, one that is refused, and none; all programs of it write the same.
example() {
    "$work/$1" <<<$'%TAG !e! tag:x\n--- !e!a\n- &x {k: v}\n- *x' >"$work/output" 2>"$work/errors"
    ends "$1" 0 '# emitted again: [1-9][0-9]* bytes, the same content' ''
    [ -f "$work/first" ] || cp "$work/output" "$work/first"
    cmp -s "$work/first" "$work/output" || wrong "$1 writes something else: $(diff "$work/first" "$work/output" | head -5)"
    "$work/$1" <<<'key: [1, 2' >"$work/output" 2>"$work/errors"
    ends "$1" 1 '' "parser error: while parsing a flow sequence (line 1, column 6): did not find expected ',' or ']' (line 2, column 1)"
    "$work/$1" </dev/null >"$work/output" 2>"$work/errors"
    ends "$1" 0 '# emitted again: 0 bytes, the same content' ''
    say "C example, $1: run"
}

# hostile NAME: bindings/c/check.c, which judges itself.
hostile() {
    "$work/$1" >"$work/output" 2>"$work/errors" || wrong "$1: $(cat "$work/output" "$work/errors" | head -c 3000)"
    say "$1: $(tail -n 1 "$work/output")"
}

has_sanitizer() {
    echo 'int main(void) { return 0; }' >"$work/empty.c"
    $compiler -fsanitize=address,undefined -o "$work/empty" "$work/empty.c" 2>/dev/null && "$work/empty" 2>/dev/null
}

# linked NAME FLAG..: the example, with the header and the library that the flags name and nothing of the repository.
linked() {
    local name=$1
    shift
    cp "$top/bindings/c/example.c" "$work/example.c"
    $compiler -Wall -Wextra -Werror -o "$work/$name" "$work/example.c" "$@" || { wrong "example.c doesn't compile as $name"; return 1; }
}

# installed: the library as `make install-library` leaves it.
installed() {
    local at=$work/installed flags name
    tools/library.sh install "$at" 2>/dev/null && DESTDIR=$work/below tools/library.sh install /opt/it 2>/dev/null ||
        { wrong "the library can't be installed"; return; }
    (cd "$at" && find . ! -type d | sort) >"$work/listed"
    (cd "$work/below/opt/it" && find . ! -type d | sort) | cmp -s - "$work/listed" || wrong "with DESTDIR other files are installed"
    grep -qx 'prefix=/opt/it' "$work/below/opt/it/lib/pkgconfig/yaml_c.pc" || wrong "yaml_c.pc names DESTDIR"
    name=$(objdump -p "$at/lib/libyaml_c.so" | sed -n 's/ *SONAME *//p')
    [[ $name =~ ^libyaml_c\.so\.[0-9]+$ && -f $at/lib/$name ]] || wrong "the shared object's name is ${name:-none}"
    flags="-I$at/include -L$at/lib -lyaml_c"
    if command -v pkg-config >/dev/null; then
        export PKG_CONFIG_PATH=$at/lib/pkgconfig
        flags=$(pkg-config --cflags --libs yaml_c) || wrong "pkg-config finds no yaml_c"
        [ "$(pkg-config --modversion yaml_c)" = "$version" ] || wrong "pkg-config tells another version than $version"
    else
        say "pkg-config isn't here: yaml_c.pc isn't tried"
    fi
    linked installed_shared $flags && LD_LIBRARY_PATH=$at/lib example installed_shared
    objdump -p "$work/installed_shared" | grep -q "NEEDED  *$name\$" || wrong "the example doesn't need $name"
    linked installed_archive -I"$at/include" "$at/lib/libyaml_c.a" && example installed_archive
}

heap=-Wl,--wrap=malloc,--wrap=realloc,--wrap=free
compile archive example.c "$library/libyaml_c.a" && example archive
compile shared example.c "$library/libyaml_c.so" -Wl,-rpath,"$library" && example shared
compile hostile check.c "$library/libyaml_c.a" $heap && hostile hostile
installed
if has_sanitizer; then
    sanitized='-fsanitize=address,undefined -fno-sanitize-recover=all'
    compile archive_asan example.c $sanitized "$library/libyaml_c.a" && example archive_asan
    compile shared_asan example.c $sanitized "$library/libyaml_c.so" -Wl,-rpath,"$library" && example shared_asan
    compile hostile_asan check.c $sanitized "$library/libyaml_c.a" $heap && hostile hostile_asan
else
    say "$compiler has no AddressSanitizer here: the programs in C aren't run under it"
fi
echo '#include "yaml_c.h"' >"$work/header.cc"
if $compiler -x c++ -fsyntax-only "$work/empty.c" 2>/dev/null; then
    $compiler -x c++ -std=c++11 -Wall -Wextra -Werror -fsyntax-only -I "$top/bindings/c" "$work/header.cc" || wrong "the header isn't C++"
    say "header as C++: done"
else
    say "$compiler compiles no C++ here: the header isn't tried as such"
fi

# tests NAME VARIABLE..: Python's tests with these variables set.
tests() {
    local name=$1
    shift
    cd "$top/bindings/python" || exit 2
    env "$@" "$python" -W error -m unittest discover -s tests -t . >"$work/$name" 2>&1 ||
        wrong "Python's tests, $name: $(tail -c 3000 "$work/$name")"
    say "Python's tests, $name: $(grep '^Ran ' "$work/$name"): $(tail -1 "$work/$name")"
}

# packed: the package as pip installs it, without a network and with its own library.
packed() {
    [ "$library" = "$built" ] || { say "another library than out/library: the package isn't installed"; return; }
    "$python" -m pip --version >/dev/null 2>&1 || { say "pip isn't here: the package isn't installed"; return; }
    "$python" -m pip install -q --disable-pip-version-check --no-index --target "$work/site" "$top/bindings/python" >"$work/pip" 2>&1 ||
        { wrong "pip doesn't install the package: $(tail -c 2000 "$work/pip")"; return; }
    local told
    told=$(cd "$work" && env -u YAML_C_SO PYTHONPATH="$work/site" "$python" -c '
import os, yaml_c
here = os.path.dirname(yaml_c.__file__)
print(yaml_c.__version__, sorted({"libyaml_c.so", "py.typed"} & set(os.listdir(here))), here, yaml_c._library.library._name)
print(yaml_c.load("a: [b]"), repr(yaml_c.dump({"a": ["b"]})), yaml_c.safe_load("a: [1]"))')
    [ "$told" = "$version ['libyaml_c.so', 'py.typed'] $work/site/yaml_c $work/site/yaml_c/libyaml_c.so
{'a': ['b']} 'a:\n- b\n' {'a': [1]}" ] || wrong "the installed package says: $told"
    if [ -f "$top/crates/yaml_cli/out/yaml_cli" ]; then
        "$work/site/bin/yaml_cli" --version >/dev/null || wrong "the installed package's program doesn't run"
    else
        say "the program isn't built: the package is installed without it"
    fi
    say "the package, installed by pip: run"
}

# The library that is to be loaded first, where the compiler has it as one: gcc's name, then clang's.
asan() {
    local name path
    for name in libasan.so libclang_rt.asan-x86_64.so; do
        path=$($compiler -print-file-name=$name)
        [ "${path#/}" != "$path" ] && [ -e "$path" ] && echo "$path" && return
    done
    return 1
}

export YAML_C_SO=$library/libyaml_c.so PYTHONDONTWRITEBYTECODE=1
# The interpreter itself: what has its name on the path may be a shell script.
if ! python=$(python3 -c 'import sys; assert sys.version_info >= (3, 10); print(sys.executable)' 2>/dev/null); then
    wrong "python3 of 3.10 or newer isn't here"
else
    tests plain
    packed
    if command -v mypy >/dev/null; then
        (cd "$top/bindings/python" && mypy --strict --no-error-summary --cache-dir "$work/mypy" yaml_c) >"$work/mypy.txt" ||
            wrong "mypy: $(tail -n 20 "$work/mypy.txt")"
        say "Python's types, by mypy --strict: done"
    else
        say "mypy isn't here: Python's types aren't tried"
    fi
    if preload=$(asan); then
        tests asan LD_PRELOAD="$preload" ASAN_OPTIONS=detect_leaks=0 PYTHONMALLOC=malloc
    else
        say "$compiler has no AddressSanitizer to be loaded first: Python's tests aren't run under it"
    fi
fi
[ $failed -eq 0 ] && say "all passed"
exit $failed
