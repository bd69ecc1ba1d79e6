#!/bin/sh
# Makes tiling.wasm, the engine for browsers and Node, from the proved C library's own LLVM module:
#   packaging/make_wasm.sh FOLDER      writes FOLDER/tiling.wasm, from what ./tiling --build has proved
#   packaging/make_wasm.sh --sources   prints one checksum of the sources of the library: crates.txt, and src/ of each
#                                      crate that it needs
# The module has no imports, a stack of 1 MiB, and a memory that grows. Its exports are the functions of include/tiling.h,
# each with numbers of 32 bits, and `memory`, `take` and `give`. wasm/ has the parts: README.md there says what each
# does, and what nothing proves. It needs the Rattle kit and python3, and takes about a minute and a half.

usage() {
    sed -n '2,/^$/s/^# \{0,1\}//p' "$0"
}
top=$(cd "$(dirname "$0")/.." && pwd) || exit 1
parts=$top/wasm
case ${1-} in
-h | --help) usage; exit ;;
--sources) exec python3 "$parts/crates.py" "$top" sources ;;
esac
[ $# -eq 1 ] || { usage >&2; exit 2; }
set -e
mkdir -p "$1"
folder=$(cd "$1" && pwd)
say() { echo "make_wasm: $*" >&2; }
for tool in rt python3; do
    command -v $tool > /dev/null || { say "no tiling.wasm, since there is no $tool"; exit 1; }
done
kit=$(dirname "$(dirname "$(readlink -f "$(command -v rt)")")")
clang=$kit/toolchain/bin/clang
[ -d "$top/crates/tiling_c/out/incremental" ] || { say 'no tiling.wasm, since the C library is not proved here'; exit 1; }
work=$(mktemp -d)
trap 'rm -rf "$work"' EXIT

# `rattle build --toolchain FOLDER` hands its module to FOLDER/bin/clang. Ours keeps a copy, and then runs the kit's.
keep_module() {
    mkdir -p "$work/toolchain/bin"
    for part in "$kit/toolchain/bin"/* "$kit/toolchain/lib"; do
        ln -s "$part" "$work/toolchain/${part#"$kit/toolchain/"}"
    done
    rm "$work/toolchain/bin/clang"
    sed -e "s|@CLANG@|$clang|" -e "s|@KEPT@|$work/module.bc|" "$parts/clang.sh" > "$work/toolchain/bin/clang"
    chmod +x "$work/toolchain/bin/clang"
    python3 "$parts/crates.py" "$top" words "$kit" > "$work/words"
    (
        cd "$top/crates/tiling_c"
        set --
        while IFS= read -r word; do set -- "$@" "$word"; done < "$work/words"
        "$kit/bin/rattle" build "$@" --backend llvm --toolchain "$work/toolchain" -o "$work/library.a"
    ) > "$work/log" 2>&1 || { tail -n 5 "$work/log" >&2; return 1; }
    [ -s "$work/module.bc" ] || { say 'rattle handed no module to clang'; return 1; }
}

flags='--target=wasm32-unknown-unknown --no-default-config -O2 -ffunction-sections -fdata-sections -mbulk-memory'
# Compiles a file into an object beside it.
compile() {
    # shellcheck disable=SC2086
    "$clang" $flags "$@"
}

link() {
    ln -s "$clang" "$work/wasm-ld"
    "$work/wasm-ld" --no-entry --gc-sections --strip-all --stack-first -z stack-size=1048576 --fatal-warnings \
        "$work"/*.o -o "$work/tiling.wasm"
}

keep_module
"$clang" --target=x86_64-unknown-linux-gnu -x ir "$work/module.bc" -S -emit-llvm -O0 -Xclang -disable-llvm-passes \
    -o "$work/module.ll"
python3 "$parts/to_wasm32.py" "$work/module.ll" "$work/engine.ll" >&2
python3 "$parts/make_shim.py" "$top/include/tiling.h" "$work/engine.ll" > "$work/shim.ll"
cat "$work/shim.ll" >> "$work/engine.ll"
compile -mllvm -trap-unreachable -c -x ir "$work/engine.ll" -o "$work/engine.o"
for part in heap int128; do
    compile -std=c11 -Wall -Werror -Wno-int-to-pointer-cast -Wno-parentheses -ffreestanding -fno-builtin \
        -c "$parts/$part.c" -o "$work/$part.o"
done
link
mv "$work/tiling.wasm" "$folder/tiling.wasm"
