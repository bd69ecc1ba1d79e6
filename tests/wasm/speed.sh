#!/bin/sh
# Measures tiling.wasm beside the native library, in the same minute: a window of P3 of about 200,000 tiles, neighbours and
# places; natively, in Node, Chromium and Firefox, and natively again. Medians of the wall time, and the least; it is no test.
#   tests/wasm/speed.sh [ROUNDS]     15 by default; TILING_WASM and TILING_ARCHIVE as for checks/wasm.sh
case ${1:-} in -h | --help) sed -n '2,/^[^#]/s/^# \{0,1\}//p' "$0"; exit 0 ;; esac
set -e
top=$(cd "$(dirname "$0")/../.." && pwd)
tests=$top/tests/wasm
wasm=${TILING_WASM:-$top/.tiling/tiling.wasm}
rounds=${1:-15}
work=$(mktemp -d)
trap 'rm -rf "$work"' EXIT

gcc -std=gnu11 -Wall -Wextra -O2 -I "$top/include" -o "$work/speed" "$tests/speed.c" "${TILING_ARCHIVE:-$top/.tiling/libtiling.a}"
{
    echo '<!doctype html><meta charset="utf-8"><pre></pre><script type="module">'
    sed -e 's/^export //' -e '/^const { readFileSync }/,$d' "$tests/speed.mjs"
    echo "const wasm = Uint8Array.from(atob('$(base64 -w 0 "$wasm")'), (letter) => letter.charCodeAt(0));"
    printf '%s\n' "document.querySelector('pre').textContent = (await measured(wasm, $rounds)) + '\\nEND\\n';"
    echo '</script>'
} > "$work/page.html"

"$work/speed" "$rounds"
node "$tests/speed.mjs" "$wasm" "$rounds"
for browser in chromium firefox; do
    python3 "$tests/browser.py" $browser "$work/page.html" | sed -n "s/^.* tiles; /$browser: &/p" || echo "$browser: not measured"
done
"$work/speed" "$rounds"
