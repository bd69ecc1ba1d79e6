#!/bin/sh
# Calls each script of tools/, figures/, packaging/ and of the folders of tests/ with scripts. It answers --help and -h
# with its usage on standard output and status 0, does nothing without arguments, and ends without a message if the pipe
# that it writes to is closed. Nothing in the repository changes. The scripts of docs/foreign/ print their usage without
# arguments, and those of checks/ with --help. Ends with 1 if one does not. The program is the one that TILING names, or
# crates/tiling/out/tiling.
. "$(dirname "$0")/needs"
need python:tomllib
exec "$python" "$top/checks/tools.py" "$top" "$program"
