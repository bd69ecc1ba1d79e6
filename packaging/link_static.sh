#!/bin/sh
# Links the proved object of the program without the dynamic loader, so that a call starts in a fifth of the instructions:
#   packaging/link_static.sh OBJECT PROGRAM    writes PROGRAM, or ends with 1 where there is no C compiler, no C library as an
#                                          archive, or no Rattle kit
# `./tiling --build` calls it, and keeps PROGRAM only if it answers as the kit's own program does.

usage() {
    sed -n '2,/^$/s/^# \{0,1\}//p' "$0"
}
case ${1-} in
-h | --help) usage; exit ;;
esac
[ $# -eq 2 ] || { usage >&2; exit 2; }
command -v cc > /dev/null && command -v rt > /dev/null && kit=$(rt doc) && kit=${kit%/*}/c || exit 1
cc -static -no-pie -s -o "$2" "$1" "$kit/libos_c.a" "$kit/liblibc_c.a" > /dev/null 2>&1 || { rm -f "$2"; exit 1; }
