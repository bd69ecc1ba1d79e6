#!/bin/sh
# Runs every command of README.md, docs/, rules/README.md, the help and the man page with the program, and compares the
# output with the text beside it. It also tries the commands of tests/commands.txt, the tutorial typed in its own order,
# the refused files, the rule files, these with their factors turned, the tables of coefficients, and the links. Ends
# with 1 if one differs. The program is the one that TILING names, or crates/tiling/out/tiling.
. "$(dirname "$0")/needs"
need program python3
exec python3 "$top/checks/documents.py" "$top" "$program"
