#!/bin/sh
# Tries wrong bodies, checks/wrong/CRATE/*.edit: the prover must refuse each. They have the form of must-fail edits,
# which rt ci tries one by one; here all those of a crate stand in one check, so that each costs a third.
#   checks/wrong.sh [CRATE..]   tries the edits of these crates, or of all, over what rt check or ./tiling --build
#                               proved; 15 seconds of processor each
#   checks/wrong.sh --trials    tries this script: it must tell an edit that changes nothing, that is no code, whose
#                               text is not there, or that a clause lets through, and a control that is not proved
# A copy of the function, with the edit and under a name of its own, stands beside the function, with the same clauses
# and a copy of its proof files. A second copy, the control, has no edit. The control must be proved, and the copy with
# the edit must not be ('no proof' is said of a function with no proof file). An edit whose text or copy the prover
# does not read, or of which nothing is said, is a fault. An edit outside a function, of a trait's method, or of a
# function that calls itself is tried by rt must-fail, in a copy of the crate; so is one with a line '# alone: REASON'.
# The last line counts the edits. Ends with 1 if one is not refused or could not be tried.
. "$(dirname "$0")/needs"
need rt python3
case ${1:-} in --trials) exec python3 "$top/checks/wrong_trials.py" "$top" ;; esac
exec python3 "$top/checks/wrong.py" "$top" "$top/checks/wrong" "$@"
