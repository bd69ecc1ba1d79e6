#!/bin/sh
# Draws again the pictures that scripts make from rule files, in the folders below FOLDER; the repository's own
# are those below its top, `.`:
#   figures/draw_all.sh FOLDER        (Python 3.11 or later)
# figures/draw_gallery.sh draws those that the program makes.

usage() {
    sed -n '2,/^$/s/^# \{0,1\}//p' "$0"
}
case ${1-} in
-h | --help) usage; exit ;;
esac
[ $# -eq 1 ] || { usage >&2; exit 2; }
top=$(cd "$(dirname "$0")/.." && pwd) || exit 1
to=$(cd "$1" && pwd) || exit 1
python=${PYTHON:-python3}
mkdir -p "$to/rules/figures" "$to/docs/figures" "$to/docs/gallery" || exit 1
cd "$top" || exit 1
fault=0

rule() { "$python" tools/draw_rule.py "$@" || fault=1; }
patch() {
    name=$1
    shift
    "$python" tools/draw_patch.py "$@" > "$to/docs/gallery/$name.svg" || fault=1
}

rule --to "$to/rules/figures" rules/*.toml
rule --to "$to/docs/figures" docs/refused/*.toml

patch supertiles --colour turn --window 20,12 --outline 3 rules/half_triangle_three.toml 0 8
patch address_chair --colour child --label --mark 0:1/0,2/0 --width 400 rules/chair.toml 0 2
patch address_p3 --colour child --label --mark 2:1/0,0/0 --mark 3:1/2,1/0 --width 400 rules/penrose_p3.toml 0 2
"$python" figures/draw_dissection.py rules/chair.toml > "$to/docs/gallery/dissection.svg" || fault=1
"$python" figures/draw_walk.py rules/chair.toml 0 3/0,1/0,0/0 6,6,0,7 > "$to/docs/gallery/walk.svg" || fault=1
"$python" figures/draw_window.py rules/penrose_p3.toml 0 2/3,1/1,0/1,2/2,0/2,0/2,1/3,1/1 2.2,1.6 9 > "$to/docs/gallery/window.svg" || fault=1
"$python" figures/draw_descent.py rules/penrose_p3.toml 0 2/3,1/1,0/1,2/2,0/2,0/2,1/3,1/1 5,3.5 5,3,0 > "$to/docs/gallery/descent.svg" || fault=1
"$python" figures/draw_steps.py 4 6 8 10 > "$to/docs/gallery/steps.svg" || fault=1
exit $fault
