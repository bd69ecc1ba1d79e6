#!/bin/sh
# Counts the cases of the proved tests, by crate, and compares them with checks/cases.txt. A case is a row of a table: an
# element of an array that a `const` or `static` names, and that a loop walks or a function is given; or a line of a text of
# rows, which is a string that begins on the line after its first quote. Lines that begin with `#` don't count. A check that
# stands alone is a case, too: a `note`, or in a test an assertion or a call of a function named `check..`, outside of loops.
# Tests are in the crates trial_..; of another crate the files that have a test are counted. Ends with 1 if a count fell.
#   checks/cases.sh CRATE..     lists each table of these crates, and how many checks of each file stand alone
#   checks/cases.sh --write     writes the counts of today
case ${1:-} in -h | --help) sed -n '2,/^[^#]/s/^# \{0,1\}//p' "$0"; exit 0 ;; esac
top=$(cd "$(dirname "$0")/.." && pwd) || exit 1
command -v python3 > /dev/null || { echo "cases: skipped, since there is no python3"; exit 0; }
exec python3 "$top/checks/cases.py" "$top" "$@"
