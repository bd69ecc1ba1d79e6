#!/bin/sh
# Holds tiling.wasm against the native library: the same commands, random calls of every function of include/tiling.h, many
# of them hostile, and heavy calls, in Node, in Chromium, and in Firefox. No byte may differ, and of the random calls of
# each function at least a tenth ends with OK. Then it runs the tests of js/pagnetuf.js, of the module's memory, and of the
# package, compares its types by tsc, and runs the examples of docs/JAVASCRIPT.md. Before all that, and without a build,
# the page docs/explore.html must have the checksum of the library's present sources.
# Ends with 1 if one of these fails. The last line has the counts. The module is the one that TILING_WASM names, or
# .tiling/tiling.wasm; the library the one that TILING_ARCHIVE names, or .tiling/libtiling.a. ROUNDS is how many random
# calls are made at least.
. "$(dirname "$0")/needs"
tests=$top/tests/wasm
wasm=${TILING_WASM:-$top/.tiling/tiling.wasm}
case $wasm in /*) ;; *) wasm=$PWD/$wasm ;; esac
rounds=${ROUNDS:-1000000}
page=$top/docs/explore.html
fault=0
export PYTHONDONTWRITEBYTECODE=1

say() { echo "wasm: $*" >&2; }
failed() { say "$*"; fault=1; }

# the page's checksum
if [ -f "$page" ]; then
    need python3
    sources=$("$top/packaging/make_wasm.sh" --sources) || failed 'no checksum of the sources'
    grep -q "<meta name=\"\{0,1\}tiling-sources\"\{0,1\} content=\"\{0,1\}$sources\"\{0,1\}" "$page" \
        || failed 'docs/explore.html has the engine of other sources: make it again'
fi
[ $fault = 0 ] || exit 1
need library "$wasm" node python3 gcc
work=$(mktemp -d) || exit 1
trap 'rm -rf "$work"' EXIT
clang=
is_there rt && clang=$(dirname "$(dirname "$(readlink -f "$(command -v rt)")")")/toolchain/bin/clang

native() { gcc -std=c11 -Wall -Wextra -Werror -O2 -I "$top/include" -o "$work/$1" "$tests/$1.c" "$library"; }

# Compiles the random calls for WebAssembly, to lie in the memory of the module.
make_random() {
    [ -x "$clang" ] || { say 'skipped in part: no rt'; return 1; }
    ln -s "$clang" "$work/wasm-ld"
    "$clang" --target=wasm32-unknown-unknown --no-default-config -std=c11 -Wall -Wextra -Werror -O2 -ffreestanding \
        -mbulk-memory -nostdinc -isystem "$tests/headers" -I "$top/include" -c "$tests/random.c" -o "$work/random.o" \
        && "$work/wasm-ld" --no-entry --import-memory --global-base=16777216 --no-stack-first -z stack-size=1048576 \
            --allow-undefined --strip-all "$work/random.o" -o "$work/random.wasm"
}

# Makes one kind of calls natively and in Node, and compares all bytes.
compare_calls() {
    python3 "$tests/make_calls.py" "$top" "$1" > "$work/$1.calls" 2> "$work/$1.count" || return 1
    "$work/calls" "$work/$1.calls" "$work/$1.native" > /dev/null || return 1
    node "$tests/run.mjs" calls "$wasm" "$work/$1.calls" "$work/$1.wasm" && cmp "$work/$1.native" "$work/$1.wasm"
}
count_of() { sed -n 's/^make_calls: \([0-9]*\) .*/\1/p' "$work/$1.count"; }

# Whether each function of the header was tried, and a tenth of its calls ended with OK.
enough_right() {
    grep -o '\btiling_[a-z_]*(' "$top/include/tiling.h" | tr -d '(' | sort -u > "$work/functions"
    sed -n 's/^\(tiling_[a-z_]*\) .*/\1/p' "$1" | sort > "$work/tried"
    diff "$work/functions" "$work/tried" >&2 || { say 'tests/wasm/random.c does not try each function'; return 1; }
    awk '/ calls, .* OK$/ { if (10 * $4 < $2) { print "wasm: only " $4 " of " $2 " calls of " $1 " end with OK"; bad = 1 } } END { exit bad }' "$1" >&2
}

compare_random() {
    native random && "$work/random" "$rounds" "$top"/rules/*.toml > "$work/random.native" \
        && node "$tests/run.mjs" random "$wasm" "$work/random.wasm" "$rounds" "$top"/rules/*.toml > "$work/random.node" \
        && diff "$work/random.native" "$work/random.node" >&2 && enough_right "$work/random.node"
}

# Runs the usual calls, and a fifth of the random ones, in a browser.
compare_browser() {
    "$python" "$tests/browser.py" "$1" "$work/page.html" > "$work/$1.said" 2> "$work/$1.log"
    case $? in
    0) ;;
    77) say "skipped in part: no $1"; return 0 ;;
    *) tail -n 5 "$work/$1.said" "$work/$1.log" >&2; return 1 ;;
    esac
    tried="$tried, $1"
    grep -qx "answers $(sha256sum < "$work/usual.native" | cut -d ' ' -f 1)" "$work/$1.said" || return 1
    [ ! -f "$work/random.wasm" ] && return
    "$work/random" $((rounds / 5)) "$top"/rules/*.toml > "$work/fifth.native" && grep -qxFf "$work/fifth.native" "$work/$1.said" \
        && [ "$(grep -cxFf "$work/fifth.native" "$work/$1.said")" = "$(grep -c '' "$work/fifth.native")" ]
}

native calls || failed 'the native library does not link'
for kind in usual heavy; do compare_calls $kind || failed "the $kind calls differ"; done
random='no random calls'
if make_random; then
    compare_random || failed 'the random calls differ'
    random="$(awk '/ OK$/ { functions++; calls += $2; right += $4; share = 100 * $4 / $2; if (!least || share < least) least = share }
        END { printf "%d random calls of %d functions, %d of them OK, at each at least %d %%", calls, functions, right, least }' \
        "$work/random.node")"
fi
tried=node
if [ -f "$work/random.wasm" ]; then set -- "$work/random.wasm" $((rounds / 5)); else set -- "$wasm" 0; fi
python3 "$tests/make_page.py" "$wasm" "$work/usual.calls" "$@" "$top"/rules/*.toml > "$work/page.html" || failed 'no page'
for browser in chromium firefox; do compare_browser $browser || failed "$browser answers differently"; done

gcc -O2 -o "$work/int128" "$tests/int128.c" && "$work/int128" > /dev/null || failed 'wasm/int128.c differs from the compiler'
TILING_WASM=$wasm node --test --test-reporter=tap "$tests"/*.test.mjs > "$work/tests" 2>&1 || { grep -A 30 '^not ok\|failureType' "$work/tests" | head -n 60 >&2; failed 'tests fail'; }
"$python" "$tests/example.py" "$top" "$wasm" 2> "$work/example.log"
case $? in
0) ;;
77) say 'skipped in part: no chromium' ;;
*) tail -n 3 "$work/example.log" >&2; failed 'the page of docs/JAVASCRIPT.md' ;;
esac
if is_there tsc; then
    tsc --noEmit --strict --target es2021 --module es2020 --lib es2021,dom "$tests/use.ts" >&2 || failed 'the types differ'
else
    say 'skipped in part: no tsc'
fi
echo "wasm: $(count_of usual) commands, $(count_of heavy) heavy ones, $random, in $tried;" \
    "$(sed -n 's/^# pass \([0-9]*\)$/\1/p' "$work/tests") tests; $([ $fault = 0 ] && echo 'no byte differs' || echo FAILED)"
exit $fault
