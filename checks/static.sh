#!/bin/sh
# Links the program without the dynamic loader, as `./tiling --build` does if it can, and runs the checks of documents,
# hostile inputs and streams on it. Ends with 1 if one of them fails. Its object is crates/tiling/out/tiling.o.
. "$(dirname "$0")/needs"
object=$top/crates/tiling/out/tiling.o
need "$object"
work=$(mktemp -d) || exit 1
trap 'rm -rf "$work"' EXIT
"$top/packaging/link_static.sh" "$object" "$work/program" \
    || skip 'C compiler, C library as an archive, or kit'
fault=0
for check in documents hostile streams; do
    TILING=$work/program "$top/checks/$check.sh" > "$work/said" || { fault=1; cat "$work/said"; }
    echo "static: $(tail -n 1 "$work/said")"
done
exit $fault
