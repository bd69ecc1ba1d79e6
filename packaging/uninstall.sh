#!/bin/sh
# Removes what packaging/install.sh put below a prefix, by the list that it left there:
#   packaging/uninstall.sh --prefix DIR
# Folders that are empty then are removed too. DESTDIR is that of the installation.

usage() {
    sed -n '2,/^$/s/^# \{0,1\}//p' "$0"
}
case ${1-} in
-h | --help) usage; exit ;;
--prefix) prefix=${2-} ;;
--prefix=*) prefix=${1#--prefix=} ;;
*) usage >&2; exit 2 ;;
esac
case $prefix in
/*) ;;
*) usage >&2; exit 2 ;;
esac
root=${DESTDIR-}${prefix%/}
list=$root/share/tiling/installed
[ -f "$list" ] || { echo "uninstall: there is no $list, so nothing is installed here" >&2; exit 1; }
folders=$(mktemp) || exit 1
trap 'rm -f "$folders"' EXIT
while IFS= read -r name; do
    case $name in
    /* | ../* | */../* | '') continue ;;
    esac
    rm -f "$root/$name"
    case $name in
    # (what Python keeps of a module beside it)
    *.py) rm -f "$root/${name%/*}/__pycache__/$(basename "$name" .py)".*.pyc ;;
    esac
    printf '%s\n' "${name%/*}"
    case $name in
    *.py) printf '%s\n' "${name%/*}/__pycache__" ;;
    esac
done < "$list" > "$folders"
# the folders, the deepest first, and those above them
awk -F / '{ path = ""; for (i = 1; i <= NF; i++) { path = path (i > 1 ? "/" : "") $i; print i, path } }' \
    "$folders" | LC_ALL=C sort -u | LC_ALL=C sort -rn | cut -d ' ' -f 2- | while IFS= read -r folder; do
    rmdir "$root/$folder" 2> /dev/null || true
done
