#!/bin/sh
# Counts in crates/ what makes contracts and proofs hard to read: clause lines above 110 columns, proof lines above 150,
# calls with more than 10 clauses, copies in answers (a line that is at least the third of its kind in one file), lines of
# definitions above 110 columns, clause lines that a crate says twice, and functions with five and more parameters.
# Names the worst, and ends with 1 if there are more than the numbers in lines.py, which are those of today: write the
# smaller number there if one falls.
#   checks/lines.sh CRATE..     lists all of them in these crates
. "$(dirname "$0")/needs"
need python3
exec python3 "$top/checks/lines.py" "$top" "$@"
