#!/bin/sh
# Runs the tests of the Python package, tests/python: its answers against the program's bytes and the literature, its
# commands, its wheel in a fresh environment, and its page in a browser; then pyflakes and mypy. Ends with 1 if one
# fails. It needs numpy, pytest and the C library: the one that TILING_LIBRARY names, or .tiling/libtiling.so.0, or
# what gcc links of .tiling/libtiling.a or crates/tiling_c/out/libtiling_c.a. A test that needs more, such as scipy or
# chromium with selenium, is skipped without it, and says so. The program is the one that TILING names, or
# crates/tiling/out/tiling.
. "$(dirname "$0")/needs"
need program python:numpy,pytest
work=$(mktemp -d) || exit 1
trap 'rm -rf "$work"' EXIT
cd "$top" || exit 1

# find_library: sets TILING_LIBRARY to a library that is there or can be linked
find_library() {
    TILING_LIBRARY=${TILING_LIBRARY:-$top/.tiling/libtiling.so.0}
    for archive in "$library" crates/tiling_c/out/libtiling_c.a; do
        [ ! -f "$TILING_LIBRARY" ] || return 0
        [ -f "$archive" ] && is_there gcc || continue
        packaging/make_library.sh "$archive" "$work" > "$work/log" 2>&1 && TILING_LIBRARY=$work/libtiling.so.0
    done
    [ -f "$TILING_LIBRARY" ]
}
find_library || skip library
export TILING_LIBRARY PYTHONDONTWRITEBYTECODE=1
status=0
tested=$python
TILING_PROGRAM=$program "$tested" -m pytest -q -rs -p no:cacheprovider tests/python || status=1
for module in scipy networkx pandas matplotlib shapely ezdxf jsonschema hypothesis h5py selenium pyflakes mypy; do
    "$tested" -c "import $module" 2> /dev/null || echo "$script: skipped in part: $module"
done
cd python || exit 1
! has_modules pyflakes || "$python" -m pyflakes pagnetuf benchmarks ../tests/python || status=1
! has_modules mypy || "$python" -m mypy --cache-dir /dev/null || status=1
exit $status
