#!/bin/sh
# Tests that each picture of rules/ and docs/ is valid by the document type of SVG 1.1, and so is what the commands of
# docs/PICTURES.md make that put a style sheet after the first line, if there is a program. It needs xmllint and the
# W3C's document types (in Debian libxml2-utils and w3c-sgml-lib), and is skipped without them. Ends with 1 if one is
# not valid. The program is the one that TILING names, or crates/tiling/out/tiling.
. "$(dirname "$0")/needs"
need xmllint
type=
for file in /usr/share/xml/w3c-sgml-lib/schema/dtd/REC-SVG11-*/svg11.dtd; do [ ! -f "$file" ] || type=$file; done
[ -n "$type" ] || skip 'svg11.dtd of w3c-sgml-lib'
work=$(mktemp -d) || exit 1
trap 'rm -rf "$work"' EXIT
if [ -x "$program" ]; then
    cp -r "$top/tools" "$top/rules" "$work" && cp "$top/python/pagnetuf/svg.py" "$work/tools" && ln -s "$program" "$work/tiling" || exit 1
    sed -n "s/^    \\\$ \\(\\.\\/tiling draw .*| sed '1a <style.*> rhombs.svg\\)\$/\\1/p" "$top/docs/PICTURES.md" > "$work/command"
    [ -s "$work/command" ] || { echo "valid: docs/PICTURES.md has no such command" >&2; exit 1; }
    (cd "$work" && sh ./command) || exit 1
fi
count=0
bad=0
for file in "$top"/rules/figures/*.svg "$top"/docs/*/*.svg "$top"/docs/gallery/drawn/*.svg "$work"/*.svg; do
    [ -f "$file" ] || continue
    count=$((count + 1))
    xmllint --nonet --noout --dtdvalid "$type" "$file" 2> "$work/said" && continue
    bad=$((bad + 1))
    echo "valid: ${file#"$top"/}: $(head -n 1 "$work/said")" >&2
done
echo "valid: $count pictures looked at, $bad aren't valid"
[ $bad -eq 0 ]
