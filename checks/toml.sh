#!/bin/sh
# Tests that the scripts of tools/ take a rule file as a TOML document exactly if the program does: documents at the
# edges of TOML 1.1 and of the program's limits, and rule files with a few bytes changed. Ends with 1 if they differ.
# The program is the one that TILING names, or crates/tiling/out/tiling.
. "$(dirname "$0")/needs"
need program python:tomllib
exec "$python" "$top/checks/toml.py" "$top" "$program"
