#!/bin/sh
# Makes the C library from the archive of crates/tiling_c, as the kit builds it:
#   packaging/make_library.sh ARCHIVE FOLDER    writes libtiling.a and, where there is gcc, libtiling.so.0 into FOLDER
# Both hold what they need of the kit, and only tiling_* is seen of them, so that a program may have other libraries of
# the kit as well. KIT names the folder of the kit; without it that of the `rt` on the PATH is taken.

usage() {
    sed -n '2,/^$/s/^# \{0,1\}//p' "$0"
}
case ${1-} in
-h | --help) usage; exit ;;
esac
[ $# -eq 2 ] || { usage >&2; exit 2; }
set -e
archive=$1
folder=$2
kit=${KIT:-$(dirname "$(dirname "$(readlink -f "$(command -v rt)")")")}
for tool in ld objcopy ar; do
    command -v $tool > /dev/null || { echo "make_library: there is no $tool" >&2; exit 1; }
done
work=$(mktemp -d)
trap 'rm -rf "$work"' EXIT

ld -r -o "$work/tiling.o" --whole-archive "$archive" "$kit/c/liblibc_c.a" --no-whole-archive
objcopy --wildcard --keep-global-symbol='tiling_*' "$work/tiling.o"
ar rcsD "$work/libtiling.a" "$work/tiling.o"
mv "$work/libtiling.a" "$folder/libtiling.a"

command -v gcc > /dev/null || { echo 'make_library: no libtiling.so.0, since there is no gcc' >&2; exit 0; }
printf 'TILING_1 {\n  global: tiling_*;\n  local: *;\n};\n' > "$work/tiling.map"
gcc -shared -o "$work/libtiling.so.0" "$work/tiling.o" -Wl,-soname,libtiling.so.0 \
    -Wl,--version-script="$work/tiling.map" -Wl,-z,now -Wl,-z,relro -Wl,--no-undefined
mv "$work/libtiling.so.0" "$folder/libtiling.so.0"
ln -sf libtiling.so.0 "$folder/libtiling.so"
