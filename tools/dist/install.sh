#!/bin/sh
# Installs yaml_cli, its man page and its completions below PREFIX (/usr/local where none is named):
#
#     ./install.sh [PREFIX]
#
# Where a file can't be put, a line says so, the status is 1, and what was put is taken away again.
here=$(cd -- "$(dirname -- "$0")" && pwd) || exit 1
prefix=${1:-/usr/local}
files='bin/yaml_cli
share/man/man1/yaml_cli.1
share/bash-completion/completions/yaml_cli
share/zsh/site-functions/_yaml_cli
share/fish/vendor_completions.d/yaml_cli.fish'

# The folders that are made, outermost first, so that they can be taken away again.
made=''
folder() {
    [ -d "$1" ] && return
    folder "$(dirname -- "$1")" && mkdir -- "$1" 2>/dev/null && made="$1
$made"
}

put=''
failed() {
    printf '%s' "$put" | while IFS= read -r it; do rm -f -- "$it"; done
    printf '%s' "$made" | while IFS= read -r it; do rmdir -- "$it" 2>/dev/null; done
    echo "install.sh: can't write into $prefix" >&2
    exit 1
}

while IFS= read -r file; do
    folder "$(dirname -- "$prefix/$file")" && [ ! -d "$prefix/$file" ] && [ ! -d "$prefix/$file.new" ] || failed
    put="$prefix/$file.new
$put"
    cp -- "$here/$file" "$prefix/$file.new" 2>/dev/null || failed
done <<END
$files
END
while IFS= read -r file; do
    mv -f -- "$prefix/$file.new" "$prefix/$file" 2>/dev/null || failed
done <<END
$files
END
echo "installed below $prefix: $prefix/bin/yaml_cli"
