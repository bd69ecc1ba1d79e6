#!/bin/sh
# Finds the tiles around vertices of every file of rules/, by their definition, with integers and without the engine,
# and compares what `star` prints with them. Counts the stars of whole tiles of Penrose's tilings and of Ammann-Beenker,
# which are those of the literature, and tries stars of 61 to 66 tiles. Ends with 1 if one differs. The program is the
# one that TILING names, or crates/tiling/out/tiling.
. "$(dirname "$0")/needs"
need program python:tomllib
exec "$python" "$top/checks/stars.py" "$top" "$program"
