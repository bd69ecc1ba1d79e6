#!/bin/sh
# Finds the tiles of windows of every file of rules/, by their definition, with integers and without the engine, and
# compares what `draw` prints with them: the tiles with their addresses in the frame as it must have grown, and the
# counts. It does the same for the sums of `drill`. Ends with 1 if one differs. The program is the one that TILING
# names, or crates/tiling/out/tiling.
. "$(dirname "$0")/needs"
need program python:tomllib
exec "$python" "$top/checks/windows.py" "$top" "$program"
