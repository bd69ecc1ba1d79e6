#!/bin/sh
# Makes the wheel of the Python package, which pip installs, for Linux on x86-64:
#   packaging/make_wheel.sh FOLDER      writes pagnetuf-VERSION-py3-none-manylinux_2_N_x86_64.whl into FOLDER
# It has the C library, the rule files of rules/, the page docs/explore.html and the marks of types inside, so that
# nothing of the checkout is needed. `./tiling --build` comes first. LIBRARY names another library than
# .tiling/libtiling.so.0, and PYTHON another interpreter than python3, which needs pip, setuptools and wheel. Nothing
# is asked of a network.

usage() {
    sed -n '2,/^$/s/^# \{0,1\}//p' "$0"
}
case ${1-} in
-h | --help) usage; exit ;;
esac
[ $# -eq 1 ] || { usage >&2; exit 2; }
set -e
top=$(cd "$(dirname "$0")/.." && pwd)
library=${LIBRARY:-$top/.tiling/libtiling.so.0}
python=${PYTHON:-python3}
say() { printf 'make_wheel: %s\n' "$*" >&2; }
[ -f "$library" ] || { say "there is no $library: ./tiling --build makes it"; exit 1; }
"$python" -c 'import setuptools, wheel, pip' 2> /dev/null || { say "$python needs pip, setuptools and wheel"; exit 1; }
mkdir -p "$1"
folder=$(cd "$1" && pwd)
umask 022
work=$(mktemp -d)
trap 'rm -rf "$work"' EXIT

# The least minor number N of glibc 2.N that has all that the library asks for, and at least 17, as pip's oldest tag.
glibc_of() {
    {
        echo 17
        objdump -T "$1" | sed -n 's/.*GLIBC_2\.\([0-9]*\).*/\1/p'
    } | sort -n | tail -n 1
}

cp "$top/python/pyproject.toml" "$work"
(cd "$top/python" && find pagnetuf -type f ! -path '*/__pycache__/*' ! -name '*.pyc') | while IFS= read -r name; do
    install -D -m 644 "$top/python/$name" "$work/$name"
done
install -m 644 "$library" "$work/pagnetuf/libtiling.so.0"
install -m 644 "$top/docs/explore.html" "$work/pagnetuf/explore.html"
mkdir "$work/pagnetuf/rules"
install -m 644 "$top"/rules/*.toml "$work/pagnetuf/rules"
# (what leads elsewhere in the repository leads nowhere from a wheel)
sed 's/\[\([^]]*\)\]([^)]*)/\1/g' "$top/docs/PYTHON.md" > "$work/README.md"
printf '[bdist_wheel]\nplat_name = manylinux_2_%s_x86_64\n' "$(glibc_of "$library")" > "$work/setup.cfg"
"$python" -m pip wheel --quiet --no-index --no-deps --no-build-isolation --no-cache-dir --wheel-dir "$work/made" "$work" \
    > "$work/log" 2>&1 || { cat "$work/log" >&2; exit 1; }
for made in "$work"/made/*.whl; do
    mv "$made" "$folder"
    echo "$folder/$(basename "$made")"
done
