#!/bin/sh
# Draws every picture that scripts make from rule files again, and compares each with the file in the repository: the
# same text, and numbers that differ by no more than rounding. Ends with 1 if one differs, is missing, or is drawn by
# nothing. gallery.sh does the same for the pictures that the program draws.
. "$(dirname "$0")/needs"
need python:tomllib
drawn=$(mktemp -d) || exit 1
trap 'rm -rf "$drawn"' EXIT
PYTHON=$python "$top/figures/draw_all.sh" "$drawn" || { echo "pictures: figures/draw_all.sh failed" >&2; exit 1; }
"$python" - "$top" "$drawn" << 'END'
import os, re, sys
import xml.etree.ElementTree as tree

top, drawn = sys.argv[1:]
FOLDERS = ("rules/figures", "docs/figures", "docs/gallery")
NUMBER = re.compile(r"-?\d+\.\d+")
bad, count = 0, 0


def names(root, folder):
    return {name for name in os.listdir(os.path.join(root, folder)) if name.endswith(".svg")}


def text(root, folder, name):
    with open(os.path.join(root, folder, name), encoding="utf-8") as file:
        return file.read()


def is_same(one, other):
    """The same text, with decimals that differ by less than 0.11."""
    a, b = NUMBER.findall(one), NUMBER.findall(other)
    return NUMBER.split(one) == NUMBER.split(other) and all(abs(float(x) - float(y)) < 0.11 for x, y in zip(a, b))


for folder in FOLDERS:
    for name in sorted(names(top, folder) | names(drawn, folder)):
        count += 1
        why = None
        if name not in names(drawn, folder):
            why = "is drawn by nothing"
        elif name not in names(top, folder):
            why = "is missing"
        elif not is_same(text(top, folder, name), text(drawn, folder, name)):
            why = "isn't what its rule file gives"
        else:
            try:
                tree.parse(os.path.join(top, folder, name))
            except tree.ParseError as fault:
                why = f"is no XML: {fault}"
        if why:
            bad += 1
            print(f"pictures: {folder}/{name} {why}", file=sys.stderr)
print(f"pictures: {count} drawn and compared, {bad} differ")
sys.exit(1 if bad else 0)
END
