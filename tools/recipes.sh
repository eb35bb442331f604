#!/bin/bash
# Runs what README.md shows: the commands of its first screen and of 'What it does' with the answers that are there, the recipes, and the lines for C
# and Python where `make library` has left the library. It isn't part of the gate. It needs git and, for these lines, a C
# compiler and python3.
#
#     tools/recipes.sh
#
# PROGRAM names a program that is built already; else `make program` proves and builds it. All is done in a folder of its own.
set -u
top=$(cd "$(dirname "$0")/.." && pwd)
if [ -z "${PROGRAM:-}" ]; then
    "$top/tools/program.py" || exit 2
    PROGRAM=$top/crates/yaml_cli/out/yaml_cli
fi
work=$(mktemp -d) || exit 2
trap 'rm -rf "$work"' EXIT
mkdir "$work/bin" "$work/shown" "$work/repo" "$work/top"
ln -s "$(realpath "$PROGRAM")" "$work/bin/yaml_cli"
export PATH=$work/bin:$PATH HOME=$work TMPDIR=$work GIT_CONFIG_NOSYSTEM=1
failed=0

say() { echo "recipes: $*"; }
wrong() {
    say "WRONG: $*"
    failed=1
}

# section TITLE: the lines of README.md below a title.
section() { awk -v title="## $1" '/^## / { on = $0 == title; next } on' "$top/README.md"; }

# recipe NUMBER: the text of a recipe, as it is.
recipe() { section Recipes | awk -v wanted="$1" '/^```/ { inside = $0 == "```sh"; n += inside; next } inside && n == wanted'; }

# line START: the command between ` and ` in README.md that begins so.
line() { sed -n "s/.*\`\($1[^\`]*\)\`.*/\1/p" "$top/README.md" | head -1; }

# What a line `$ cat FILE` shows is put into the file; what another line shows is what its command has to write.
judge() {
    case $command in
        '') ;;
        'cat '*) printf '%s' "$shown" >"${command#cat }" ;;
        *)
            found=$(bash -c "$command" 2>&1; echo .)
            if [ "${found%.}" = "$shown" ]; then count=$((count + 1)); else wrong "$command writes ${found%.}, not $shown"; fi
            ;;
    esac
}

cd "$work/shown" || exit 2
command='' shown='' count=0
while IFS= read -r text; do
    case $text in
        '    $ '*)
            judge
            command=${text#????$ } shown=''
            ;;
        '    '*) shown+=${text#????}$'\n' ;;
    esac
done < <(awk '/^## / { exit } 1' "$top/README.md"; section 'What it does')
judge
[ "$count" -gt 1 ] || wrong "too few commands of the first screen and of 'What it does' were met"
say "the first screen and 'What it does': $count commands"

cd "$work/repo" || exit 2
git init -q . && git config user.email a@b.c && git config user.name nobody
printf 'a: {b: c}   # why\nd: e\n' >some.yaml
bash -c "$(recipe 1)" || wrong "the recipe of a diff ends with status $?"
git add -A && git commit -qm first
printf 'a:\n    b: c\nd: "e"\n' >some.yaml
[[ $(git diff | grep -c '^[+-][^+-]') == 2 ]] || wrong "a diff by content shows more than the quotes: $(git diff)"
printf 'a:\n    b: c\n\nd: e # not\n' >some.yaml
[[ $(git diff | grep -c '^[+-][^+-]') == 0 ]] || wrong "a diff by content shows styles: $(git diff)"
printf 'a: [\n' >some.yaml
[[ $(git diff | grep -c '^+a: \[') == 1 ]] || wrong "a text that is refused isn't shown as it is: $(git diff)"
say "a diff by content"

printf 'a: [\n' >some.yaml
found=$(bash -c "$(recipe 2)")
[ $? -eq 1 ] && [ -z "$found" ] || wrong "a refused file has the key $found"
for text in 'a: {b: c}' $'a:\n  b: c # d'; do
    printf '%s' "$text" >some.yaml
    found=$(bash -c "$(recipe 2)") || wrong "the recipe of a key ends with status $?"
    [ "$found" = "${before:=$found}" ] || wrong "one content has the keys $before and $found"
done
[[ $before =~ ^[0-9a-f]{64} ]] || wrong "the key is $before"
say "a key of a content"

recipe 3 >.git/hooks/pre-commit && chmod +x .git/hooks/pre-commit
printf 'a: [\n' >wrong.yaml
git add -A
found=$(git commit -qm second 2>&1) && wrong "a file that doesn't load was committed"
[[ $found == *wrong.yaml:*"did not find expected node content"* ]] || wrong "the hook says: $found"
printf 'a: *b\n' >wrong.yaml
git add -A
git commit -qm second 2>/dev/null && wrong "an undefined alias was committed"
printf 'a: [b]\n' >wrong.yaml
git add -A
git commit -qm second || wrong "the hook refuses what loads"
say "a check before each commit"

mkdir -p vendor && printf 'a: [\n' >vendor/some.yaml && printf 'b: [\n' >own.yml
found=$(bash -c "$(recipe 4)")
[ $? -eq 1 ] && [[ $found == "::error file="*"own.yml"* && $found != *vendor* ]] || wrong "the findings below a folder are $found"
say "a check of a folder"

printf 'd: f\na: {b: c}\n' >some.yaml
git add -A && git commit -qnm third
printf 'a: {b: e}\n' >some.yaml
found=$(bash -c "$(recipe 5)")
[ $? -eq 1 ] && [[ $found == *"[0].d: only in A"*"[0].a.b: value"*"2 differences" ]] || wrong "the changes since a commit are $found"
say "changes since a commit"

if [ -f "$top/out/library/libyaml_c.so" ]; then
    cd "$work/top" && ln -s "$top/bindings" "$top/out" . && printf '{a: b}' >some.yaml
    bash -c "$(line 'cc -I')" >"$work/c" || wrong "the line for C ends with status $?"
    bash -c "$(line 'PYTHONPATH=')" >"$work/python" || wrong "the line for Python ends with status $?"
    [[ $(<"$work/c") == *'{a: b}'* && $(<"$work/python") == *'[80, 443]'* ]] || wrong "C and Python write $(cat "$work/c" "$work/python")"
    say "C and Python"
else
    say "out/library isn't there: the lines for C and Python are left out"
fi
[ $failed -eq 0 ] && say "all as README.md says"
exit $failed
