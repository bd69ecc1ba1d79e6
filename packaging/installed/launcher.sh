#!/bin/sh
# The installed command `tiling` where there is no C compiler to make it of launcher.c, which says what it does.
# packaging/install.sh puts the paths for the names between @.
case ${1-} in
board | poster | explore | atlas | rules)
    export PYTHONPATH="@PACKAGES@${PYTHONPATH:+:$PYTHONPATH}" TILING_COMMAND=tiling
    export TILING_PROGRAM="${TILING_PROGRAM:-@PROGRAM@}"
    exec @PYTHON@ -m pagnetuf "$@"
    ;;
esac
[ $# -gt 0 ] || exec cat "@SHARE@/HELP.txt"
if [ $# -eq 1 ]; then
    case $1 in
    --help | -h | help) exec cat "@SHARE@/HELP.txt" ;;
    --version) exec cat "@SHARE@/VERSION" ;;
    esac
fi
# (called by a short name, since the program's own name is a word of its, which has to be UTF-8)
program="@PROGRAM@"
cd "${program%/*}" || exit 125
[ -t 2 ] || { exec "./${program##*/}" "$@"; exit 125; }
"./${program##*/}" "$@"
status=$?
case $status in [2-9] | 1[0-7]) sh "@SHARE@/tools/cures.sh" $status "$@" ;; esac
exit $status
