#!/bin/sh
# Gives the program 3,000 inputs that are wrong, right, or nearly one of both, always the same ones, and compares each
# answer with the formats. tests/hostile/hostile.py says how, and runs more. Ends with 1 if one is wrong. The program is the one
# that TILING names, or crates/tiling/out/tiling.
. "$(dirname "$0")/needs"
need program python:tomllib
exec "$python" "$top/tests/hostile/hostile.py" "$program" 3000 1
