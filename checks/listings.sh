#!/bin/sh
# Makes lists of windows of the built-in rules, by their definition, with integers and without the engine: right ones in
# any order and with addresses of any depth, and each of them corrupted in many ways. Compares what `verify` prints with
# what it must print. Ends with 1 if one differs. The program is the one that TILING names, or crates/tiling/out/tiling.
. "$(dirname "$0")/needs"
need program python:tomllib
exec "$python" "$top/checks/listings.py" "$top" "$program"
