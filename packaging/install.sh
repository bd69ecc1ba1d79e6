#!/bin/sh
# Installs the built program and what belongs to it:
#   packaging/install.sh --prefix DIR              below DIR, an absolute path, as /usr/local
#   DESTDIR=FOLDER packaging/install.sh --prefix DIR    the same files below FOLDER, for makers of packages
#
#   bin/tiling                  the command: help, the commands of the Python package, or the program
#   lib/tiling/program          the proved program itself
#   lib/libtiling.*, include/tiling.h, lib/pkgconfig/tiling.pc     the C library, if it is built
#   lib/python3/dist-packages/pagnetuf          the Python package; --packages NAME is another folder of DIR
#   share/man/man1/tiling.1, share/bash-completion/completions/tiling, share/zsh/site-functions/_tiling
#   share/tiling                help, rule files, scripts, and `installed`, the list of all that was put there
#   share/doc/tiling            documents
#
# packaging/uninstall.sh --prefix DIR removes what the list names. `./tiling --build` comes first. The program is
# that which TILING names, or .tiling/program, with the library beside it. PYTHON names the interpreter of
# the Python package: python3.

usage() {
    sed -n '2,/^$/s/^# \{0,1\}//p' "$0"
}
say() { printf 'install: %s\n' "$*" >&2; }
wrong() { say "$*"; usage >&2; exit 2; }

prefix=
packages=lib/python3/dist-packages
while [ $# -gt 0 ]; do
    case $1 in
    -h | --help) usage; exit ;;
    --prefix=* | --packages=*) word=$1; shift; set -- "${word%%=*}" "${word#*=}" "$@"; continue ;;
    --prefix) [ $# -gt 1 ] || wrong '--prefix needs a folder'; prefix=$2; shift 2 ;;
    --packages) [ $# -gt 1 ] || wrong '--packages needs a folder'; packages=$2; shift 2 ;;
    *) wrong "there is no option $1" ;;
    esac
done
case $prefix in
'') usage >&2; exit 2 ;;
*["\"'\\\$\`@"]* | *'
'*) wrong 'a prefix has no quotes, backslashes, dollars or at signs' ;;
/*) prefix=${prefix%/} ;;
*) wrong 'a prefix is an absolute path' ;;
esac

set -e
top=$(cd "$(dirname "$0")/.." && pwd)
program=${TILING:-$top/.tiling/program}
built=$(dirname "$program")
python=${PYTHON:-python3}
root=${DESTDIR-}$prefix
share=$prefix/share/tiling
[ -x "$program" ] || { say "there is no $program: ./tiling --build makes it"; exit 1; }
umask 022
work=$(mktemp -d)
trap 'rm -rf "$work"' EXIT

# Puts a file of a mode to a place below the prefix, and into the list.
put() {
    install -D -m "$1" "$2" "$root/$3"
    printf '%s\n' "$3" >> "$work/list"
}

# Puts all files of a folder of the repository that `git` would keep.
put_all() {
    (cd "$top/$1" && find . -type f ! -path '*/__pycache__/*' ! -name '*.pyc') | sed 's,^\./,,' | LC_ALL=C sort \
        > "$work/files"
    while IFS= read -r name; do
        put 644 "$top/$1/$name" "$2/$name"
    done < "$work/files"
}

# Makes the command of installed/launcher.c, without the dynamic loader if that can be; else of installed/launcher.sh.
make_launcher() {
    for how in -static -O2; do
        ! command -v cc > /dev/null || ! cc -O2 -Wall $how -s -DPROGRAM="\"$prefix/lib/tiling/program\"" \
            -DSHARE="\"$share\"" -DPACKAGES="\"$prefix/$packages\"" -DPYTHON="\"$python\"" \
            -o "$work/tiling" "$top/packaging/installed/launcher.c" 2> /dev/null || return 0
    done
    sed -e "s|@PROGRAM@|$prefix/lib/tiling/program|; s|@SHARE@|$share|; s|@PACKAGES@|$prefix/$packages|" \
        -e "s|@PYTHON@|$python|" "$top/packaging/installed/launcher.sh" > "$work/tiling"
}

# The help without what only a checkout has, and with the commands of the Python package.
make_help() {
    sed -e '/^docs\/FORMATS.md has/,$d; /^  \.\/tiling --build/d' \
        -e '/^  \.\/tiling --help, --version/i\
  tiling board|poster|explore|atlas|rules --help     a board as data, a page to print or cut, a page in the\
                                                     browser, a page about a rule, the rules; they need Python\
                                                     and numpy' \
        -e 's,^  \./tiling\(.*\)   \( *[a-z].*\)$,  tiling\1     \2,; s,\./tiling,tiling,g' \
        -e "s,< rules/,< $share/rules/,; s,the script could not,tiling could not," "$top/docs/HELP.txt"
    cat << END
'man tiling' has the same in more words, and $prefix/share/doc/tiling/docs
FORMATS.md, each refusal with its fix, TUTORIAL.md, a rule file step by step, and LISTINGS.md, a list from
another program.
END
}

# The man page, with the paths of what is installed.
make_manual() {
    sed "s,\\(^\\|[ (]\\)docs/,\\1$prefix/share/doc/tiling/docs/,g; s,< rules/,< $share/rules/,g" "$top/docs/tiling.1"
}

make_version() {
    printf 'tiling %s\n' "$version"
    [ ! -f "$built/program.stamp" ] || sed -n 2p "$built/program.stamp"
    git -C "$top" log -1 --format='sources: commit %h of %as' 2> /dev/null || true
}

version=$(sed -n 's/^__version__ = "\(.*\)"$/\1/p' "$top/python/pagnetuf/__init__.py")
make_launcher
make_help > "$work/help"
make_manual > "$work/manual"
make_version > "$work/version"
put 755 "$work/tiling" bin/tiling
put 755 "$program" lib/tiling/program
put 644 "$work/help" share/tiling/HELP.txt
put 644 "$work/version" share/tiling/VERSION
put 644 "$work/manual" share/man/man1/tiling.1
put 644 "$top/packaging/installed/completion.bash" share/bash-completion/completions/tiling
put 644 "$top/packaging/installed/completion.zsh" share/zsh/site-functions/_tiling

if [ -f "$built/libtiling.a" ]; then
    put 644 "$top/include/tiling.h" include/tiling.h
    put 644 "$built/libtiling.a" lib/libtiling.a
    sed "s/@VERSION@/$version/" "$top/packaging/installed/tiling.pc" > "$work/pc"
    put 644 "$work/pc" lib/pkgconfig/tiling.pc
else
    say "there is no $built/libtiling.a, so no C library, which the commands in Python need"
fi
if [ -f "$built/libtiling.so.0" ]; then
    put 644 "$built/libtiling.so.0" lib/libtiling.so.0
    ln -sf libtiling.so.0 "$root/lib/libtiling.so"
    echo lib/libtiling.so >> "$work/list"
fi

put_all python/pagnetuf "$packages/pagnetuf"
put_all rules share/tiling/rules
for name in cures.sh words.awk paint.py corners.py draw_rule.py draw_patch.py draw_page.py page.html command_line.py rule_file.py \
    toml_document.py older_toml.py; do
    mode=644
    [ ! -x "$top/tools/$name" ] || mode=755
    put $mode "$top/tools/$name" "share/tiling/tools/$name"
done
put 644 "$top/python/pagnetuf/svg.py" share/tiling/tools/svg.py
put 755 "$top/packaging/uninstall.sh" share/tiling/tools/uninstall.sh
put 644 "$top/README.md" share/doc/tiling/README.md
put_all docs share/doc/tiling/docs
for name in rules tools; do
    ln -sfn "../../tiling/$name" "$root/share/doc/tiling/$name"
    echo "share/doc/tiling/$name" >> "$work/list"
done
echo share/tiling/installed >> "$work/list"
install -D -m 644 "$work/list" "$root/share/tiling/installed"
