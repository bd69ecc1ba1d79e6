#!/bin/sh
# Draws the gallery again with the program, and compares it with docs/gallery, byte for byte: each picture of
# docs/gallery/drawn, and the page docs/gallery/tilings.html. Each file of rules/ has its picture, each is XML, and the
# command of README.md draws the picture above it. Ends with 1 if one differs, is missing, or is drawn by nothing. The
# program is the one that TILING names, or crates/tiling/out/tiling.
. "$(dirname "$0")/needs"
need program python:tomllib
work=$(mktemp -d) || exit 1
trap 'rm -rf "$work"' EXIT
TILING=$program PYTHON=$python "$top/figures/draw_gallery.sh" "$work" || { echo "gallery: figures/draw_gallery.sh failed" >&2; exit 1; }
here=$top/docs/gallery
there=$work/docs/gallery
count=0
bad=0
fault() {
    echo "gallery: $*" >&2
    bad=$((bad + 1))
}

for file in "$here"/drawn/* "$there"/drawn/*; do
    name=${file##*/}
    [ "$file" = "$here/drawn/$name" ] || [ ! -f "$here/drawn/$name" ] || continue
    count=$((count + 1))
    cmp -s "$here/drawn/$name" "$there/drawn/$name" || fault "drawn/$name isn't what the program draws, or one is missing"
    [ "$name" = stars.svg ] || [ "$name" = rhombs.svg ] || [ -f "$top/rules/${name%.svg}.toml" ] || fault "drawn/$name is the picture of no file of rules/"
    "$python" -c 'import sys, xml.etree.ElementTree as tree; tree.parse(sys.argv[1])' "$file" 2> /dev/null || fault "drawn/$name is no XML"
done
for file in "$top"/rules/*.toml; do
    name=$(basename "$file" .toml)
    [ -f "$here/drawn/$name.svg" ] || fault "rules/$name.toml has no picture"
done
count=$((count + 1))
cmp -s "$here/tilings.html" "$there/tilings.html" || fault "tilings.html isn't what tools/draw_page.py makes"

# the command of the README
command=$(sed -n 's/^    \$ \(\.\/tiling draw .*> rhombs.svg\)$/\1/p' "$top/README.md")
cp -r "$top/tools" "$top/rules" "$work" && cp "$top/python/pagnetuf/svg.py" "$work/tools" && ln -s "$program" "$work/tiling" || exit 1
(cd "$work" && sh -c "$command")
count=$((count + 1))
cmp -s "$here/drawn/rhombs.svg" "$work/rhombs.svg" || fault "the command of README.md draws another picture"

echo "gallery: $count drawn and compared, $bad differ"
[ $bad -eq 0 ]
