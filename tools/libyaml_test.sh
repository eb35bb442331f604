#!/bin/bash
# Tests the library that `make libyaml` leaves in out/libyaml: `make libyaml-test`. It isn't part of the gate. It needs a C
# compiler (CC), binutils and python3; what of AddressSanitizer, Debian's libyaml-dev, python3-yaml, ruby with psych,
# libyaml-libyaml-perl, lua-yaml, php-yaml and swi-prolog isn't on the machine is named, and its part is left out.
#
#     tools/libyaml_test.sh          JOBS: how many clients run side by side; LIST=1: prints what differs, for the list;
#                                    LIBRARY: the folder of another build, of which tools/libyaml.sh made its own
#
# By itself: symbols, soname and layouts; events, tokens and texts of the vectors' inputs, and of two broken ones of each, beside
# the proved core's own, also from a reader of single bytes, with flushes, and cut at each place where that can be; that documents
# and output come in time; that 20 MB take little room, and many brackets little time and no stack; the symbols that no header
# declares; each allocation refused in turn; all these inputs under AddressSanitizer and UBSan, with readers and writers that fail,
# and calls in orders made by chance. Beside Debian's libyaml: at which events an emitter refuses streams made by chance, and all
# answers for each file, by a C program and by the bindings of Python, Ruby, Perl, Lua, PHP and Prolog, where
# bindings/libyaml/tests/expected.txt lists what differs and why; a difference that isn't there fails, and so does one that is
# there and isn't seen.
set -u
top=$(cd "$(dirname "$0")/.." && pwd)
core=$(realpath -m "${LIBRARY:-$top/out/library}")/libyaml_c.a
library=$(realpath -m "${LIBRARY:-$top/out}")/libyaml
source=$top/bindings/libyaml
tests=$source/tests
compiler=${CC:-cc}
work=$(mktemp -d) || exit 2
trap 'rm -rf "$work"' EXIT
failed=0
strict='-std=c11 -O1 -g -Wall -Wextra -Werror'

say() { echo "libyaml-test: $*"; }
wrong() {
    say "FAILED: $*"
    failed=1
}

[ -f "$library/libyaml-0.so.2" ] && [ -f "$library/libyaml.a" ] || {
    say "$library/libyaml-0.so.2 and libyaml.a aren't there: make libyaml makes them"
    exit 2
}

# compile NAME FILE FLAG..: a program of the tests, against our header.
compile() {
    local name=$1 file=$2
    shift 2
    $compiler $strict -I "$source" -I "$top/bindings/c" -o "$work/$name" "$tests/$file" "$@" && return
    wrong "$file doesn't compile"
    return 1
}

# judges NAME COMMAND..: a program that judges itself and reports in its last line what it saw.
judges() {
    local name=$1
    shift
    "$@" >"$work/output" 2>"$work/errors" || wrong "$name: $(cat "$work/output" "$work/errors" | head -c 3000)"
    say "$(tail -n 1 "$work/output")"
}

# ---- what a linker sees
symbols() {
    grep -o 'yaml_[a-z_]*' "$source/libyaml.map" | sort >"$work/listed"
    nm -D --defined-only "$library/libyaml-0.so.2" | awk '{ print $3 }' | sort >"$work/exported"
    cmp -s "$work/listed" "$work/exported" || wrong "symbols: $(diff "$work/listed" "$work/exported" | head -5)"
    nm --defined-only --extern-only "$library/libyaml.a" | awk 'NF == 3 { print $3 }' | sort >"$work/archived"
    cmp -s "$work/listed" "$work/archived" || wrong "symbols of libyaml.a: $(diff "$work/listed" "$work/archived" | head -5)"
    readelf -d "$library/libyaml-0.so.2" >"$work/dynamic"
    grep -q 'SONAME.*\[libyaml-0.so.2\]' "$work/dynamic" || wrong "the soname isn't libyaml-0.so.2"
    [ "$(grep -o 'NEEDED.*' "$work/dynamic" | grep -cv 'libc.so')" = 0 ] || wrong "it needs more than libc: $(grep NEEDED "$work/dynamic")"
    local file
    for file in "$source"/*.c; do
        $compiler $strict -fPIC -I "$source" -I "$top/bindings/c" -c -o "$work/part.o" "$file" || wrong "$file doesn't compile"
        [ -z "$(nm "$work/part.o" | grep -E ' [bBdDC] ')" ] || wrong "$file has a variable that can be written"
    done
    say "symbols: $(wc -l <"$work/exported"), no variable that can be written"
}

layouts() {
    local system=${YAML_H:-/usr/include/yaml.h}
    $compiler -std=c11 -fsyntax-only -I "$source" "$tests/layout_test.c" || wrong "our header has another layout"
    echo '#include "yaml.h"' >"$work/header.cc"
    if $compiler -x c++ -fsyntax-only /dev/null 2>/dev/null; then
        $compiler -x c++ -std=c++11 -Wall -Wextra -Werror -fsyntax-only -I "$source" "$work/header.cc" || wrong "the header isn't C++"
    else
        say "$compiler compiles no C++ here: the header isn't tried as such"
    fi
    if [ -f "$system" ]; then
        $compiler -std=c11 -fsyntax-only -I "$(dirname "$system")" "$tests/layout_test.c" || wrong "$system has another layout"
        say "layouts: as in $system"
    else
        say "layouts: as stated; libyaml-dev isn't here, so its header isn't tried"
    fi
}

has_sanitizer() {
    echo 'int main(void) { return 0; }' >"$work/empty.c"
    $compiler -fsanitize=address,undefined -o "$work/empty" "$work/empty.c" 2>/dev/null && "$work/empty" 2>/dev/null
}

# ---- by itself
alone() {
    local heap=-Wl,--wrap=malloc,--wrap=calloc,--wrap=realloc,--wrap=free
    # windows and pieces as small as can be
    local small='-DLAYER_WINDOW=8 -DLAYER_PIECE=0'
    compile against_core against_core.c "$core" -L "$library" -lyaml -Wl,-rpath,"$library" &&
        judges against_core "$work/against_core" "$work"/inputs/given/* "$work"/inputs/broken/*
    compile in_pieces against_core.c $small "$source"/*.c "$core" &&
        judges 'in small pieces' "$work/in_pieces" "$work"/inputs/given/* "$work"/inputs/broken/*
    compile promptly promptly.c -L "$library" -lyaml -Wl,-rpath,"$library" && judges promptly "$work/promptly"
    compile large large.c -L "$library" -lyaml -Wl,-rpath,"$library" && judges large bash -c "ulimit -s 256; exec $work/large"
    compile undeclared undeclared.c -L "$library" -lyaml -Wl,-rpath,"$library" && judges undeclared "$work/undeclared"
    compile refuse refuse.c "$library/libyaml.a" $heap && judges refuse "$work/refuse"
    compile refuse refuse.c $small "$source"/*.c "$core" $heap && judges 'refuse, in small pieces' "$work/refuse"
    if has_sanitizer; then
        compile hostile hostile.c $small "$source"/*.c "$core" -fsanitize=address,undefined -fno-sanitize-recover=all &&
            judges hostile "$work/hostile" "$work"/inputs/given/* "$work"/inputs/broken/*
        compile orders orders.c $small "$source"/*.c "$core" $heap -fsanitize=address,undefined -fno-sanitize-recover=all &&
            judges orders "$work/orders" 20000 "$work"/inputs/given/* "$work"/inputs/broken/*
    else
        say "$compiler has no AddressSanitizer here: broken texts aren't run under it"
    fi
}

# ---- beside Debian's
# beside NAME FOLDER CLIENT..
beside() {
    local name=$1 folder=$2
    shift 2
    "$python" "$tests/beside.py" "$tests/expected.txt" "$library" '' "$folder" "$name" "$@" >"$work/output" 2>&1 || failed=1
    if [ -n "${LIST:-}" ]; then cat "$work/output"; else sed 's/^/libyaml-test: /' "$work/output" | tail -n 40; fi
}

# At which event an emitter refuses a stream, and why.
refusals() {
    local streams=20000
    compile refused refused.c -lyaml || return
    "$work/refused" $streams >"$work/theirs.txt" || wrong "refused fails with Debian's"
    LD_LIBRARY_PATH=$library "$work/refused" $streams >"$work/ours.txt" || wrong "refused fails"
    cmp -s "$work/theirs.txt" "$work/ours.txt" || wrong "refused: $(diff "$work/theirs.txt" "$work/ours.txt" | head -5)"
    say "refused: $streams streams, $(grep -c ' 0 7 ' "$work/theirs.txt") with a fault, told at the same events"
}

c_client() {
    local section
    if ! $compiler $strict -I "$source" -o "$work/show" "$tests/show.c" -lyaml 2>"$work/errors"; then
        say "libyaml-dev isn't here: no answers are compared with Debian's libyaml"
        return
    fi
    compile theirs undeclared.c -lyaml && judges "undeclared, Debian's" "$work/theirs"
    compile theirs promptly.c -lyaml && judges "promptly, Debian's" "$work/theirs"
    refusals
    for section in events tokens documents plain canonical unicode wide utf16 dumped; do
        beside "$section" "$work/inputs/given" "$work/show" "$section"
    done
    beside broken-events "$work/inputs/broken" "$work/show" events
}

# The interpreter of the system, which has Debian's packages.
clients() {
    local section
    if /usr/bin/python3 -c 'import yaml; assert yaml.__with_libyaml__' 2>/dev/null; then
        for section in tokens events emitted loaded; do
            beside "pyyaml-$section" "$work/inputs/given" /usr/bin/python3 -S -c \
                "import sys; sys.path.append('/usr/lib/python3/dist-packages'); exec(open('$tests/pyyaml_client.py').read())" "$section"
        done
    else
        say "python3-yaml isn't here: PyYAML isn't run"
    fi
    if ruby -e 'require "psych"' 2>/dev/null; then
        beside psych "$work/inputs/given" ruby --disable-gems "$tests/psych_client.rb"
    else
        say "ruby with psych isn't here: psych isn't run"
    fi
    if perl -e 'use YAML::XS' 2>/dev/null; then
        beside yaml-xs "$work/inputs/given" perl "$tests/xs_client.pl"
    else
        say "libyaml-libyaml-perl isn't here: YAML::XS isn't run"
    fi
    if lua5.1 -e 'assert(require("yaml").scanner)' 2>/dev/null; then
        beside lua "$work/inputs/given" lua5.1 "$tests/lua_client.lua"
    else
        say "lua5.1 with lua-yaml isn't here: it isn't run"
    fi
    if php -r 'exit(function_exists("yaml_parse") ? 0 : 1);' 2>/dev/null; then
        beside php "$work/inputs/given" php "$tests/php_client.php"
    else
        say "php-cli with php-yaml isn't here: it isn't run"
    fi
    if swipl -g 'use_module(library(yaml))' -t halt 2>/dev/null; then
        beside swi-prolog "$work/inputs/given" swipl "$tests/prolog_client.pl"
    else
        say "swi-prolog with library(yaml) isn't here: it isn't run"
    fi
}

python=$(command -v python3) || {
    say "python3 isn't here"
    exit 2
}
"$python" "$tests/inputs.py" "$work/inputs" || exit 2
symbols
layouts
alone
c_client
clients
[ $failed -eq 0 ] && say "all passed"
exit $failed
