#!/bin/bash
# Whether the proved program, or the file that is named, is built and newer than all sources of all crates.
#
#     tools/is_built.sh [FILE]
top=$(cd "$(dirname "$0")/.." && pwd)
program=${1:-$top/crates/yaml_cli/out/yaml_cli}
cd "$top" && [ -x "$program" ] || exit 1
for folder in crates/*/src crates/*/specs crates/*/proofs; do
    [ -d "$folder" ] && echo "$folder"
done | {
    mapfile -t folders
    newer=$(find crates.txt "${folders[@]}" -newer "$program" -print -quit) && [ -z "$newer" ]
}
