#!/bin/sh
# Installs the program into a temporary prefix and tries what is there: the command answers as the program does,
# with its help, its version and the commands of the Python package; the man page, the completions of bash and
# zsh, the C library by pkg-config; a staged installation has the same files; uninstall.sh removes every file.
# Then makes a package of Debian's form and looks into it. Ends with 1 where one of these fails, and says which
# tools are missing.
# The program is the one that TILING names, with the C library beside it, or .tiling/program, or
# crates/tiling/out/tiling.
. "$(dirname "$0")/needs"
fault=0
say() { echo "install: $*" >&2; }
failed() { say "$*"; fault=1; }
has() { command -v "$1" > /dev/null; }

program=
for program in "${TILING:-}" "$top/.tiling/program" "$top/crates/tiling/out/tiling" ''; do
    [ ! -x "$program" ] || break
done
[ -n "$program" ] || skip program
program=$(cd "$(dirname "$program")" && pwd)/${program##*/}
has_modules numpy || python=
work=$(mktemp -d) || exit 1
trap 'rm -rf "$work"' EXIT
prefix="$work/a prefix"
tiling=$prefix/bin/tiling
export TILING="$program" PYTHON="${python:-python3}"
unset PYTHONPATH TILING_PROGRAM TILING_LIBRARY TILING_COMMAND

# A call of the installed command and of the program answer alike: standard output, standard error, status.
alike() {
    printf '0 0 0,0,0,0 0:3/0\n' | "$tiling" "$@" > "$work/out1" 2> "$work/err1"
    one=$?
    printf '0 0 0,0,0,0 0:3/0\n' | "$program" "$@" > "$work/out2" 2> "$work/err2"
    two=$?
    [ $one = $two ] && cmp -s "$work/out1" "$work/out2" && cmp -s "$work/err1" "$work/err2" \
        || failed "tiling $* answers otherwise than the program"
}

# What the completion of bash offers for a line.
offers() {
    bash -c '. "$1"; shift; COMP_WORDS=("$@"); COMP_CWORD=$(($# - 1)); _tiling; printf "%s\n" "${COMPREPLY[@]}"' \
        - "$prefix/share/bash-completion/completions/tiling" "$@" 2> /dev/null | LC_ALL=C sort | tr '\n' ' '
}
is_offered() {
    wanted=$1
    shift
    [ "$(offers "$@")" = "$wanted " ] || failed "bash completes '$*' to $(offers "$@")and not $wanted"
}

try_help() {
    for word in '' --help -h help; do
        # shellcheck disable=SC2086
        "$tiling" $word > "$work/help" 2> "$work/err" && [ ! -s "$work/err" ] \
            && grep -q '^  tiling place rule=NAME' "$work/help" || failed "tiling $word prints no help"
    done
    ! grep -n '\./tiling\|--build' "$work/help" >&2 || failed 'the help speaks of a checkout'
    "$tiling" --version | grep -q '^tiling [0-9]' || failed 'tiling --version prints no version'
    [ "$("$tiling" --help 2> /dev/null < /dev/null | head -n 1 | wc -l)" = 1 ] || failed 'help into a pipe that closes'
    grep '^  \$ tiling [a-z]' "$work/help" | sed 's/^  \$ //' | while IFS= read -r line; do
        PATH=$prefix/bin:$PATH sh -c "$(printf '%s' "$line" | sed "s|< \(.*\)$|< '\1'|")" > /dev/null || echo "$line"
    done > "$work/lines"
    [ ! -s "$work/lines" ] || failed "a line of the help fails: $(cat "$work/lines")"
}

try_program() {
    alike place rule=chair addr=0:1/0,2/0
    alike draw rule=p3 addr=0: at=0,0,0,0 half=20,12 glue=yes layers=svg,list
    alike verify rule=chair seed=42 addr=0: at=1,1,0,0 half=2,1
    alike calc rule=chair
    alike nonsense
    alike place rule=chair addr=9:
    alike --help place
    alike place "$(printf '\377')"
    cmp -s "$program" "$prefix/lib/tiling/program" || failed 'another program is installed'
    has script || { say 'skipped in part: no script'; return; }
    told=$(script -qec "'$tiling' drow rule=p3" /dev/null < /dev/null)
    case $told in *'2 BadWords 0'*'did you mean draw'*) ;; *) failed "no word of what to do at a terminal: $told" ;; esac
    [ -z "$("$tiling" drow rule=p3 2>&1 > /dev/null | sed 1d)" ] || failed 'what to do is said where there is no terminal'
}

try_python() {
    [ -n "$python" ] || { say 'skipped in part: no python:numpy'; return; }
    [ -f "$prefix/lib/libtiling.so.0" ] || { say 'skipped in part: no library'; return; }
    cd "$work" || return
    "$tiling" board p3 --tiles 60 > board.json && "$python" -c '
import json, sys
assert len(json.load(open("board.json"))["tiles"]) == 60' || failed 'tiling board'
    "$tiling" poster ab --size 150,100 --cut --to dxf --out cut.dxf 2> /dev/null && grep -q LINE cut.dxf || failed 'tiling poster'
    "$tiling" atlas "$prefix/share/tiling/rules/sphinx.toml" --out sphinx.html && grep -q '</html>' sphinx.html || failed 'tiling atlas'
    "$tiling" board nonsense > /dev/null 2> "$work/err" && failed 'tiling board nonsense is taken'
    grep -q '^tiling board: ' "$work/err" || failed 'a message names another command'
    "$tiling" board --help | grep -q '^usage: tiling board' || failed 'tiling board --help'
    "$tiling" explore sphinx --seed 3 --print > page && grep -q '#seed=3&base=0:&at=0,0,0,0&tiling=sphinx$' page \
        && "$python" -c '
import sys, urllib.request
assert b"tiling-wasm" in urllib.request.urlopen(open("page").read().strip()).read()' || failed 'tiling explore'
    PYTHONPATH="$prefix/lib/python3/dist-packages" "$python" -c '
import sys, pagnetuf
assert pagnetuf.find_program() == sys.argv[1] + "/lib/tiling/program", pagnetuf.find_program()
assert pagnetuf.Tiling("p3").neighbour("2:1/0,0/0", 2) == ("3:1/2,1/0", 0)' "$prefix" || failed 'import pagnetuf'
    cd "$top" || exit 1
}

try_library() {
    [ -f "$prefix/lib/libtiling.so.0" ] || { say 'skipped in part: no library'; return; }
    for tool in pkg-config gcc; do has $tool || { say "skipped in part: no $tool"; return; }; done
    printf '%s\n' '#include <tiling.h>' '#include <stdio.h>' 'int main(void) {' \
        'tiling_machine t; tiling_address a; tiling_tile p;' \
        'if (tiling_abi() != TILING_ABI || tiling_open("chair", 5, &t)) return 1;' \
        'if (tiling_read_address(t, "0:1/0,2/0", 9, &a) || tiling_place(t, &a, &p)) return 2;' \
        'return !(p.turn == 1 && p.shift[0] == 7 && p.shift[1] == 1); }' > "$work/first.c"
    # shellcheck disable=SC2046
    eval gcc -o "'$work/first'" "'$work/first.c'" "$(PKG_CONFIG_PATH="$prefix/lib/pkgconfig" pkg-config --cflags --libs tiling)" \
        && LD_LIBRARY_PATH="$prefix/lib" "$work/first" || failed 'a C program over tiling.pc'
}

try_shells() {
    if has bash; then
        for command in place neighbour walk draw check calc drill star verify; do
            keys=$(sed -n "s/^ *needs\[\"$command\"\] = \"\(.*\)\"; may\[\"$command\"\] = \"\(.*\)\"$/\1 \2/p" \
                "$top/tools/words.awk" | tr ' ' '\n' | sed '/^$/d; s/$/=/' | LC_ALL=C sort | tr '\n' ' ')
            is_offered "${keys% }" tiling $command ''
        done
        is_offered 'atlas' tiling a
        is_offered 'ab' tiling place rule = a
        is_offered 'at=' tiling draw rule = p3 addr = 0: at
        is_offered 'csv' tiling board p3 --to c
        is_offered '--joined' tiling poster p3 --joi
        [ -z "$python" ] || for command in board poster explore atlas; do
            "$tiling" $command --help | grep -o '^  --[a-z]*\|^  -h, --help' | sed 's/.*--/--/' | LC_ALL=C sort -u > "$work/real"
            offers tiling $command p3 - | tr ' ' '\n' | sed '/^$/d' > "$work/offered"
            cmp -s "$work/real" "$work/offered" || failed "bash completes other options of $command"
        done
    else
        say 'skipped in part: no bash'
    fi
    if has zsh; then
        zsh -n "$prefix/share/zsh/site-functions/_tiling" || failed 'the completion of zsh'
        zsh -f "$top/checks/install_zsh.zsh" "$prefix/share/zsh/site-functions" > "$work/zsh" 2>&1 \
            || { failed 'zsh does not complete as it should'; cat "$work/zsh" >&2; }
    else
        say 'skipped in part: no zsh'
    fi
}

try_launcher() {
    sed -e "s|@PROGRAM@|$prefix/lib/tiling/program|; s|@SHARE@|$prefix/share/tiling|" \
        -e "s|@PACKAGES@|$prefix/lib/python3/dist-packages|; s|@PYTHON@|$PYTHON|" "$top/packaging/installed/launcher.sh" > "$work/launcher"
    chmod +x "$work/launcher"
    tiling=$work/launcher
    try_help
    try_program
    [ -z "$python" ] || [ ! -f "$prefix/lib/libtiling.so.0" ] || "$tiling" board p3 --tiles 5 > /dev/null \
        || failed 'launcher.sh board'
    tiling=$prefix/bin/tiling
}

try_staged() {
    DESTDIR=$work/stage "$top/packaging/install.sh" --prefix /opt/tiling 2> /dev/null || failed 'with DESTDIR'
    cmp -s "$work/stage/opt/tiling/share/tiling/installed" "$prefix/share/tiling/installed" || failed 'DESTDIR has other files'
    ! grep -rl "$work/stage" "$work/stage" >&2 || failed 'a staged file names the stage'
    DESTDIR=$work/stage "$top/packaging/uninstall.sh" --prefix /opt/tiling
    [ -z "$(find "$work/stage/opt/tiling" -mindepth 1 2> /dev/null)" ] || failed 'uninstall.sh leaves files of a stage'
}

try_deb() {
    has dpkg-deb || { say 'skipped in part: no dpkg-deb'; return; }
    mkdir "$work/deb"
    file=$("$top/packaging/make_deb.sh" "$work/deb" 2> /dev/null) && [ -f "$file" ] || { failed 'no package'; return; }
    dpkg-deb --fsys-tarfile "$file" | tar -t > "$work/inside"
    for name in bin/tiling lib/tiling/program share/man/man1/tiling.1.gz lib/python3/dist-packages/pagnetuf/tiling.py \
        share/tiling/rules/sphinx.toml share/doc/tiling/copyright; do
        grep -qx "./usr/$name" "$work/inside" || failed "the package has no $name"
    done
    dpkg-deb --info "$file" | grep -q '^ Package: tiling$' || failed 'the package is of another name'
}

"$top/packaging/install.sh" --prefix "$prefix" 2> "$work/err" || { cat "$work/err" >&2; failed 'install.sh'; exit 1; }
(cd "$prefix" && find . ! -type d | sed 's,^\./,,' | LC_ALL=C sort) > "$work/there"
LC_ALL=C sort "$prefix/share/tiling/installed" | diff "$work/there" - >&2 || failed 'the list of files (>) is not what is there (<)'
try_help
try_program
try_python
try_library
try_shells
try_launcher
if has man; then
    LC_ALL=C.UTF-8 man --warnings -E UTF-8 -l -Tutf8 "$prefix/share/man/man1/tiling.1" 2> "$work/err" > /dev/null
    [ ! -s "$work/err" ] || failed "the man page: $(cat "$work/err")"
fi
try_staged
try_deb
"$top/packaging/uninstall.sh" --prefix "$prefix"
[ -z "$(find "$prefix" -mindepth 1 2> /dev/null)" ] || failed "uninstall.sh leaves $(find "$prefix" -mindepth 1 | head -n 3)"
for word in 'install.sh' 'install.sh --prefix here' 'install.sh --nonsense' 'uninstall.sh' 'make_deb.sh'; do
    # shellcheck disable=SC2086
    "$top/packaging/"$word > /dev/null 2>&1
    [ $? = 2 ] || failed "$word is not refused"
done
exit $fault
