#!/bin/sh
# Compares include/tiling.h with the source of the C library: the exports of crates/tiling_c, with their parameters as C
# sees them, are the header's. The header alone is C99 and C++, and gives the plain values the sizes and places of
# tests/library/layout.c, and the examples of docs/EMBEDDING.md are right C. Ends with 1 if it does not. It needs no build.
. "$(dirname "$0")/needs"
need python3 gcc
header=$top/include/tiling.h
fault=0
failed() { echo "header: $*" >&2; fault=1; }

python3 "$top/checks/header.py" "$top" || failed 'the header and the source differ'
gcc -std=c99 -Wall -Wextra -Wpedantic -Werror -fsyntax-only -x c "$header" || failed 'the header is no C99'
if command -v g++ > /dev/null; then
    g++ -Wall -Wextra -Werror -fsyntax-only -x c++ "$header" || failed 'the header is no C++'
else
    echo 'header: skipped in part: no g++'
fi
gcc -std=c11 -Wall -Werror -fsyntax-only -I "$top/include" "$top/tests/library/layout.c" || failed 'another layout'
for number in 1 2 3; do
    awk -v number=$number '/^```c$/ { at++; on = at == number; next } /^```/ { on = 0 } on' "$top/docs/EMBEDDING.md" \
        | gcc -std=c99 -Wall -Wextra -Wpedantic -Werror -fsyntax-only -I "$top/include" -x c - \
        || failed "example $number of docs/EMBEDDING.md is no C"
done
exit $fault
