#!/bin/sh
# Counts the instructions of the calls that docs/COST.md has a figure of, by callgrind, and compares each with that figure:
# 3 % more or less is a fault. It prints each that differs, with what was counted. What a figure leaves out, as the start,
# is counted too, so the way of linking makes no difference. Takes a minute. Ends with 1 if one differs. The program is the
# one that TILING names, or crates/tiling/out/tiling.
#   checks/cost.sh --all     prints every figure
. "$(dirname "$0")/needs"
need program valgrind python3
exec python3 "$top/checks/cost.py" "$top" "$program" "$@"
