#!/bin/bash
# Whether the Rattle kit's command `rt` is on the path; where it isn't, a line says what to do.
#
#     tools/kit.sh WHO
command -v rt >/dev/null && exit
echo "${1:-kit}: the Rattle kit's command 'rt' isn't on the path: README.md, 'Get it', says where the kit comes from" >&2
exit 1
