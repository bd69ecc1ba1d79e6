#!/bin/sh
# answers.sh ANSWERS: compares what the library answers, in the texts of the program ANSWERS, with what the
# command that TILING names prints, byte for byte. They are windows of each built-in rule, their whole tiles,
# the place of each of their tiles, each of their edges, also those on the boundary of the supertile, and how
# the first tile lies to each. Then a walk from the base, and the tiles around each of its vertices.
answers=$1
work=$(mktemp -d) || exit 1
trap 'rm -rf "$work"' EXIT
fault=0
compared=0

same() {
    cmp -s "$1" "$2" && return
    echo "answers: $3 differ" >&2
    fault=1
}

while read -r rule seed base at half; do
    numbers=$(echo "$at $half" | tr ',' ' ')
    rm -f "$work"/star_*
    # shellcheck disable=SC2086
    "$answers" "$rule" "$seed" "$base" $numbers "$work" || { fault=1; continue; }
    "$TILING" draw "rule=$rule" "seed=$seed" "addr=$base" "at=$at" "half=$half" layers=list \
        > "$work/list_told"
    same "$work/list" "$work/list_told" "the tiles of $rule $seed $base $at $half"
    "$TILING" draw "rule=$rule" "seed=$seed" "addr=$base" "at=$at" "half=$half" layers=list glue=yes \
        > "$work/wholes_told"
    same "$work/wholes" "$work/wholes_told" "the whole tiles of $rule $seed $base $at $half"
    "$TILING" calc "rule=$rule" < "$work/script" > "$work/told"
    same "$work/script_answers" "$work/told" "the tiles' places and neighbours of $rule $seed $base $at $half"
    set -- "rule=$rule" "seed=$seed" "addr=$base"
    "$TILING" walk "$@" path=0,1,2,0,1,2,1,0 > "$work/walk_told" 2> "$work/note"
    same "$work/walk" "$work/walk_told" "the walks of $rule $seed $base"
    for star in "$work"/star_*; do
        "$TILING" star "$@" "vertex=${star##*_}" > "$work/told" 2> "$work/note"
        same "$star" "$work/told" "the stars of $rule $seed $base ${star##*_}"
    done
    head -n 20 "$work/outside" | while read -r addr edge own part; do
        told=$("$TILING" neighbour "rule=$rule" "addr=$addr" "edge=$edge" 2>&1)
        [ "$told" = "8 Outside $own $part" ] && continue
        echo "answers: edge $edge of $addr of $rule differs" >&2
        echo x >> "$work/wrong"
    done
    [ ! -s "$work/wrong" ] || fault=1
    compared=$((compared + $(wc -l < "$work/list")))
done << 'ROWS'
chair 42 0: 1,1,0,0 2,1
chair 7 0:1/0 -30,50,0,0 12,9
chair 0 0: 700000,-300000,0,0 4,4
p2 42 1: 0,0,0,0 9,9
p2 5 1:1/0 100,-7,3,1 6,4
p3 42 2:1/0,0/0 0,0,0,0 12,8
p3 18446744073709551615 0: 4,-4,9,1 7,7
ab 42 0: 0,0,0,0 9,9
ab 3 2: -20,11,5,4 5,8
halfhex 42 0: 0,0,0,0 9,9
halfhex 1 0: 31,-4,0,0 3,3
ROWS
[ "$compared" -gt 1000 ] || { echo "answers: only $compared tiles were compared" >&2; fault=1; }
exit $fault
