#!/bin/sh
# Compares the versions, which follow the rule of CHANGELOG: that of the Python package, of the JavaScript package and the
# newest one of CHANGELOG are the same, and while it begins with 0 its second number is that of the C library's interface,
# which the header, the source, and the two packages have. Ends with 1 if one differs.
. "$(dirname "$0")/needs"
fault=0
# same WHAT WANTED GOT
same() {
    [ "$2" = "$3" ] && return
    echo "version: $1 is '$3', and should be '$2'" >&2
    fault=1
}
# found FILE EXPRESSION: what the first line of the file that has the expression says in its parentheses
found() { sed -n "s/$2/\\1/p" "$top/$1" | head -n 1; }
version=$(found python/pagnetuf/__init__.py '^__version__ = "\(.*\)"$')
abi=$(found include/tiling.h '^#define TILING_ABI \([0-9]*\)$')
case $version in
0.*) number=${version#0.}; number=${number%%.*} ;;
*) number=${version%%.*} ;;
esac
same 'the number of the interface, by the version,' "$number" "$abi"
same 'ABI of crates/tiling_c' "$abi" "$(found crates/tiling_c/src/machines.rt '^const ABI: u32 = \([0-9]*\);$')"
same 'ABI of python/pagnetuf/library.py' "$abi" "$(found python/pagnetuf/library.py '^ABI = \([0-9]*\)$')"
same 'ABI of js/pagnetuf.js' "$abi" "$(found js/pagnetuf.js '^const ABI = \([0-9]*\);$')"
grep -q '^dynamic = .*version' "$top/python/pyproject.toml" || same 'the version of python/pyproject.toml' "$version" "$(found python/pyproject.toml '^version = "\(.*\)"$')"
same 'the version of js/package.json' "$version" "$(found js/package.json '^ *"version": "\(.*\)",$')"
same 'the newest version of CHANGELOG.md' "$version" "$(found CHANGELOG.md '^## \([0-9.]*\).*')"
[ "$fault" -ne 0 ] || echo "version: $version, with the interface $abi"
exit $fault
