#!/bin/sh
# Lists whole supertiles of every file of rules/, by their definition, with integers and without the engine, and
# compares the program with them: `place` on each tile, and `neighbour` on each edge of each tile. Ends with 1 if one
# differs. The program is the one that TILING names, or crates/tiling/out/tiling.
. "$(dirname "$0")/needs"
need program python:tomllib
exec "$python" "$top/checks/supertiles.py" "$top" "$program"
