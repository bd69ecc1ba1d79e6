#!/bin/sh
# Counts in every document the sentences of more than 30 words, the lines above 110 columns, and the words for which
# there are plainer ones. Counts them too in the comments that users of a crate read: at the head of each source
# file, and before public items, variants and groups of clauses. Names the worst, and ends with 1 if a document or a
# crate has more than it may. A sign between the terms of a formula counts as a word of its sentence. A few documents have a
# greatest length, in words or lines. The numbers that are allowed are in sentences.py, and only ever fall; without a row
# there, none is allowed.
#   checks/sentences.sh [DOCUMENT|CRATE|FILE..]      lists all of them in these
. "$(dirname "$0")/needs"
need python3
exec python3 "$top/checks/sentences.py" "$top" "$@"
