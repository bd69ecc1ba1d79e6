#!/bin/sh
# Draws the gallery again with the program, docs/gallery/drawn and docs/gallery/tilings.html, below FOLDER; the
# repository's own is that below its top, `.`:
#   figures/draw_gallery.sh FOLDER        (Python 3.11 or later; the program is the one that TILING names, or ./tiling)
# Each picture is a window far out in a deep supertile: what `draw` prints, coloured by tools/paint.py; and
# one shows stars: what `star` prints, drawn by figures/draw_stars.py.

usage() {
    sed -n '2,/^$/s/^# \{0,1\}//p' "$0"
}
case ${1-} in
-h | --help) usage; exit ;;
esac
[ $# -eq 1 ] || { usage >&2; exit 2; }
top=$(cd "$(dirname "$0")/.." && pwd) || exit 1
to=$(cd "$1" && pwd) || exit 1
python=${PYTHON:-python3}
program=${TILING:-$top/tiling}
case $program in /*) ;; *) program=$PWD/$program ;; esac
mkdir -p "$to/docs/gallery/drawn" || exit 1
cd "$top" || exit 1
work=$(mktemp -d) || exit 1
trap 'rm -rf "$work"' EXIT
fault=0

# A file of rules/, the name of its rule or `-`, the words of the window, and the options of paint.py.
picture() {
    name=$1 words="draw rule=$2 $3 layers=svg,list" file=rules/$1.toml
    shift 3
    title="tiling $words"
    case $words in *rule=-*) title="$title < $file" ;; esac
    # shellcheck disable=SC2086
    if "$program" $words < "$file" > "$work/drawn" \
        && "$python" tools/paint.py --title "$title" "$@" < "$work/drawn" > "$to/docs/gallery/drawn/$name.svg"; then
        return
    fi
    echo "draw_gallery: $name isn't drawn" >&2
    fault=1
}

# the same, of a rule with glue: whole tiles, each of two halves
whole() {
    name=$1 rule=$2 window=$3
    shift 3
    picture "$name" "$rule" "$window glue=yes" "$@"
}

whole penrose_p2 p2 'seed=5 addr=0: at=700000,-300000,0,0 half=18,9'
whole penrose_p3 p3 'seed=3 addr=2: at=-610000,250000,0,0 half=15,8' --palette sea
whole ammann_beenker ab 'seed=8 addr=0: at=400000,0,90000,0 half=18,8' --palette rose
picture chair chair 'seed=42 addr=0: at=700000,-300000,0,0 half=34,10' --colour turn
picture half_hex halfhex 'seed=7 addr=0: at=500000,100000,0,0 half=23,8' --colour turn
whole penrose_p1 - 'seed=1 addr=0: at=700000,-300000,0,0 half=22,11' \
    --palette '#1f5f7a,#3a9a9c,#8ecae6,#8ecae6,#f4b860,#f4b860,#f4b860,#f4b860'
picture square_four - 'seed=1 addr=0: at=700000,-300000,0,0 half=20,6' --colour child --level 1 --palette stone
picture square_nine - 'seed=1 addr=0: at=700000,-300000,0,0 half=20,6' --colour child --palette turns
picture period_doubling_squares - 'seed=1 addr=0: at=700000,-300000,0,0 half=32,10' --palette earth
picture rudin_shapiro_squares - 'seed=1 addr=0: at=700000,-300000,0,0 half=48,15' \
    --palette '#e4ddd0,#6f7f80,#e4ddd0,#6f7f80,#6f7f80,#e4ddd0,#6f7f80,#e4ddd0,#e4ddd0,#6f7f80,#e4ddd0,#6f7f80,#6f7f80,#e4ddd0,#6f7f80,#e4ddd0'
picture squiral_squares - 'seed=1 addr=0: at=700000,-300000,0,0 half=48,15' --palette sea
picture chair_squares - 'seed=1 addr=0: at=700000,-300000,0,0 half=32,10' --colour turn --palette earth
picture table_squares - 'seed=1 addr=0: at=700000,-300000,0,0 half=32,10' --colour turn --palette sea
picture thue_morse_squares - 'seed=1 addr=0: at=700000,-300000,0,0 half=20,6'
picture domino_table - 'seed=1 addr=0: at=700000,-300000,0,0 half=30,9' --colour turn
picture rectangle_four - 'seed=1 addr=0: at=700000,-300000,0,0 half=30,9' --colour child --palette earth
picture half_square_two - 'seed=1 addr=0: at=700000,-300000,0,0 half=15,6' --colour turn
picture half_square_turned - 'seed=1 addr=0: at=700000,-300000,0,0 half=15,4' --colour turn --palette rose
picture half_square_four - 'seed=1 addr=0: at=700000,-300000,0,0 half=15,4' --colour turn --palette sea
picture right_triangle_four - 'seed=1 addr=0: at=700000,-300000,0,0 half=20,6' --colour child --palette day
whole half_chair - 'seed=1 addr=0: at=700000,-300000,0,0 half=25,8' --colour turn --palette earth
picture quadrant_chair - 'seed=1 addr=0: at=700000,-300000,0,0 half=50,15' --colour child --palette earth
picture tromino_nine - 'seed=1 addr=0: at=700000,-300000,0,0 half=34,10' --colour turn --palette sea
picture p_pentomino_four - 'seed=1 addr=0: at=700000,-300000,0,0 half=44,13' --colour turn
picture l_tetromino_four - 'seed=2 addr=0: at=700000,-300000,0,0 half=40,12' --colour turn --palette rose
picture paper_rectangle_two - 'seed=1 addr=0: at=700000,-300000,0,0 half=24,10' --colour child --level 1 --palette stone
picture parallelogram_two - 'seed=1 addr=0: at=700000,-300000,0,0 half=20,8' --colour child --level 1 --palette rose
picture silver_mean_squares - 'seed=1 addr=0: at=700000,-300000,0,0 half=39,16' --palette earth
picture rhomb_eight_four - 'seed=1 addr=0: at=700000,-300000,0,0 half=17,7' --colour child --palette sea
picture rhomb_ten_four - 'seed=1 addr=0: at=700000,-300000,0,0 half=20,10' --colour child --palette rose
picture rhomb_six_four - 'seed=1 addr=0: at=700000,-300000,0,0 half=20,7' --colour child --palette stone
picture triangle_four - 'seed=1 addr=0: at=700000,-300000,0,0 half=14,5' --colour child --palette day
picture triangle_nine - 'seed=1 addr=0: at=700000,-300000,0,0 half=14,5' --colour child --palette turns
picture half_triangle_three - 'seed=1 addr=0: at=700000,-300000,0,0 half=19,7' --colour turn
picture rectangle_three - 'seed=1 addr=0: at=700000,-300000,0,0 half=24,9' --colour child --palette earth
whole half_hex_halves - 'seed=1 addr=0: at=500000,-300000,0,0 half=42,15' --colour turn --palette rose
picture equithirds - 'seed=1 addr=0: at=700000,-300000,0,0 half=14,5' --palette sea
picture sphinx - 'seed=1 addr=0: at=700000,-300000,0,0 half=32,11' --colour turn
picture sphinx_nine - 'seed=1 addr=0: at=700000,-300000,0,0 half=32,11' --colour turn --palette rose
whole ammann_beenker_mirrored - 'seed=1 addr=0: at=400000,0,90000,0 half=18,8' --palette sea
whole robinson_rhomb_halves - 'seed=1 addr=0: at=700000,-300000,0,0 half=15,8' --colour turn
whole robinson_kite_halves - 'seed=1 addr=0: at=700000,-300000,0,0 half=18,9' --palette earth
whole robinson_rhomb_turned - 'seed=1 addr=0: at=700000,-300000,0,0 half=15,8' --palette rose
picture fibonacci_rhombs - 'seed=1 addr=0: at=700000,-300000,0,0 half=24,12' --palette sea
picture tuebingen_triangles - 'seed=1 addr=0: at=700000,-300000,0,0 half=16,8'

# the picture of README.md, round the first tile
"$program" draw rule=p3 addr=0: at=0,0,0,0 half=20,12 glue=yes layers=svg,list | "$python" tools/paint.py \
    > "$to/docs/gallery/drawn/rhombs.svg" || fault=1

# the stars of Penrose's rhombs, by de Bruijn's names
"$python" figures/draw_stars.py "$program" rules/penrose_p3.toml \
    D 2:1/0,0/0 0 J 2:0/2,0/2,0/2 0 Q 2:0/2,1/0,0/0 2 K 2:0/2,0/2,0/2,0/2 2 S3 0:0/0,0/0,0/0,0/0 0 \
    S4 0:0/0,2/3,0/3,0/3,0/3 0 S 2:1/0,0/0,0/0,0/0,0/0 2 S5 3:0/3,1/1,0/1,0/1,0/1,0/1 2 \
    > "$to/docs/gallery/drawn/stars.svg" || fault=1

# the page in which the tile under the pointer says its address
cd "$to/docs/gallery/drawn" && set -- penrose_p2.svg penrose_p3.svg penrose_p1.svg ammann_beenker.svg chair.svg half_hex.svg equithirds.svg
"$python" "$top/tools/draw_page.py" "$@" > "$to/docs/gallery/tilings.html" || fault=1
exit $fault
