#!/bin/sh
# What to do about a refusal, for a person at a terminal:
#   tools/cures.sh STATUS WORD..    says it on standard error, of a call with these words that ended with this status
# The installed command calls it, and the script ./tiling reads it for its functions.

# Prints what the program prints about wrong arguments, and in a second line what is wrong with them; nothing about
# right ones.
judge_words() { LC_ALL=C awk -f "$words" -- "$@"; }

# Prints a fix below a refusal, for a person at a terminal. Its arguments are the status, and then those of the call.
cure() {
    refused=$1
    shift
    case $refused in
    2) told=$(judge_words "$@"); say "${told#*"$newline"} ($called --help shows all arguments)" ;;
    3) say 'docs/TUTORIAL.md has this refusal of a rule file, and what to do' ;;
    4) say 'an address is KIND:CHILD/PARENT,CHILD/PARENT,.. from fine to coarse, as 0:1/0,2/0: see docs/FORMATS.md' ;;
    5) say 'even 64 levels leave this edge on the boundary: begin with a shorter address, or another seed' ;;
    6) say 'too far out for coordinates: use fewer digits, or neighbour, which takes all 64; for a window another seed' ;;
    7) say 'at most 200,000 tiles are drawn: take a smaller window, by half=W,H' ;;
    8) say 'this edge is on the edge of the whole supertile: one more digit on the right makes the supertile larger' ;;
    9) say 'standard input could not be read: give the rule file, the script or the listing by < FILE' ;;
    10) [ -p /dev/stdout ] || say 'standard output could not be written: is the disk full?' ;;
    11) say 'memory ran out; a rule file of a mebibyte may need 640 MB' ;;
    12) say 'edges are counted from 0; the second number is how many this tile has' ;;
    13) say 'the number after the name is that of the line, counted from 1: see docs/FORMATS.md, "Scripts"' ;;
    15) say 'vertices are counted from 0; the second number is how many this tile has' ;;
    16) say 'at most 64 tiles around a vertex are printed, and the rule puts more there: take another vertex' ;;
    17) say 'docs/FORMATS.md, "Verify", has this fault of a listing, and what to do; lines are counted from 1' ;;
    esac
}

newline='
'
case $0 in
*cures.sh)
    usage() { sed -n '2,/^$/s/^# \{0,1\}//p' "$0"; }
    say() { printf 'tiling: %s\n' "$*" >&2; }
    case ${1-} in
    -h | --help) usage; exit ;;
    [1-9] | 1[0-9]) ;;
    *) usage >&2; exit 2 ;;
    esac
    words=$(dirname "$0")/words.awk called=tiling
    cure "$@"
    ;;
*) words=$top/tools/words.awk called=./tiling ;;
esac
