#!/bin/bash
# Formats FILE, or a small text where none is named: `make run`.
#
#     tools/run.sh [FILE]
#
# Where the proved program is built and newer than all sources, it is used at once. Else one that is built without proofs is
# used, and a line on standard error says so: it is built where none is kept that is newer than all sources.
set -u
top=$(cd "$(dirname "$0")/.." && pwd)
program=$top/crates/yaml_cli/out/yaml_cli
unproved=$top/out/unproved/yaml_cli
file=${1:-}
case $file in
    '' | /*) ;;
    *) file=$PWD/$file ;;
esac

say() { echo "make run: $*" >&2; }

# The words of the program: `fmt`, and the file where one is named. The small text comes on standard input.
format() {
    if [ -n "$file" ]; then
        "$@" fmt "$file" </dev/null
    else
        printf '["a", "b"]' | "$@" fmt
    fi
}

# What `rt try` says of itself isn't the program's.
without_notes() { grep -Ev '^(rt: |interpreter: |checked: |run=)'; }

# By `rt try`, which keeps no program: where the kit doesn't build as tools/unproved.py has it, or the build is refused. One
# step is all that its interpreter is given: a program that reads arguments gets no answer of it.
try_it() {
    say "that build has failed; tries the whole program by 'rt try'"
    notes=$(mktemp) || exit 2
    trap 'rm -f "$notes"' EXIT
    cd "$top/crates/yaml_cli" || exit 2
    format rt try --steps 1 -- 2>"$notes"
    status=$?
    without_notes <"$notes" >&2
    exit $status
}

if "$top/tools/is_built.sh"; then
    format "$program"
    exit
fi
if [ -n "$file" ] && [ ! -r "$file" ]; then
    echo "yaml_cli: cannot read the input" >&2
    exit 1
fi
if "$top/tools/is_built.sh" "$unproved" && [ "$unproved" -nt "$top/tools/unproved.py" ]; then
    say "runs the program that was built without proofs; 'make program' builds the proved one"
else
    "$top/tools/kit.sh" 'make run' || exit 1
    say "builds the program without proofs, in about half a minute, and keeps it until a source changes;" \
        "'make program' builds the proved one"
    "$top/tools/unproved.py" || try_it
fi
# It has no arguments, and formats standard input.
if [ -n "$file" ]; then
    "$unproved" <"$file"
else
    printf '["a", "b"]' | "$unproved"
fi
status=$?
# a signal: a check that is built into the program, or the machine, has stopped it
[ $status -lt 128 ] || say "the program was stopped; 'rt try -- fmt FILE' in crates/yaml_cli says where"
exit $status
