#!/bin/sh
# Checks the built C library. Its symbols are the functions of include/tiling.h, and a C program goes through each
# function and each status. Hostile numbers do no harm, under sanitizers and under valgrind. Eight threads on one
# machine get the answers of one. Running out of memory at any one call is answered by its status. The answers are the
# command's, byte for byte. The examples of docs/EMBEDDING.md print what is written there, and the archive that Rattle's own compiler makes passes the same trials and answers alike. Ends
# with 1 if one of these fails, and says which tools are missing. The library is the one that TILING_ARCHIVE names, or
# .tiling/libtiling.a; the program is the one that TILING names, or crates/tiling/out/tiling. The archive of the other
# compiler is the one that OTHER_ARCHIVE names, or one that is built here, in a minute, if the library is built from the
# present sources. ROUNDS and WATCHED_ROUNDS say how many rounds of hostile numbers are tried.
. "$(dirname "$0")/needs"
need gcc library
archive=$library
tests=$top/tests/library
header=$top/include/tiling.h
rounds=${ROUNDS:-1000000}
watched=${WATCHED_ROUNDS:-10000}
fault=0

say() { echo "library: $*" >&2; }
failed() { say "$*"; fault=1; }
has() { command -v "$1" > /dev/null; }

work=$(mktemp -d) || exit 1
trap 'rm -rf "$work"' EXIT

# Compiles the test NAME_HOW of tests/library/NAME.c with these options.
compile() {
    name=$1 && shift
    gcc -std=c11 -Wall -Wextra -Werror -O1 -g "$@" -I "$top/include" -o "$work/$name" \
        "$tests/${name%_*}.c" "$archive" -lpthread
}

# Compiles and runs it, with one more word for the program.
try() {
    name=$1 word=$2 && shift 2
    compile "$name" "$@" && "$work/$name" "$word" > /dev/null || failed "$name failed"
}

# the symbols of the archive are the functions of the header
if has nm; then
    nm -g --defined-only "$archive" | sed -n 's/^.* T //p' | LC_ALL=C sort > "$work/symbols"
    grep -o '\btiling_[a-z_]*(' "$header" | tr -d '(' | LC_ALL=C sort -u > "$work/declared"
    diff "$work/declared" "$work/symbols" >&2 || failed 'the header (<) and the archive (>) differ'
else
    say 'skipped in part: no nm'
fi

# Tries what needs no other tool.
try_calls() {
    try each_call_plain "$top/rules"
    try threads_plain ''
    try no_memory_plain '' -Wl,--wrap=malloc,--wrap=realloc,--wrap=free
}

# Runs the examples of the document: two programs, of which the second draws each of 758 tiles, and a token's step.
try_document() {
    awk -v to="$work/example" '/^```c$/ { n++; on = 1; next } /^```/ { on = 0 } on { print > (to n ".c") }
        /^```text$/ { text = 1; next } /^```/ { text = 0 } text { print > (to ".text") }' "$top/docs/EMBEDDING.md"
    for number in 1 2; do
        gcc -std=c11 -Wall -Wextra -Werror -O1 -I "$top/include" -o "$work/example$number" "$work/example$number.c" "$archive" \
            && "$work/example$number" > "$work/printed$number" || failed "example $number of docs/EMBEDDING.md failed"
    done
    cmp -s "$work/printed1" "$work/example.text" || failed 'the first example of docs/EMBEDDING.md prints something else'
    [ "$(grep -c '^<path .*Z' "$work/printed2")" = 758 ] || failed 'the picture of docs/EMBEDDING.md has other tiles'
    try token_plain '' "-DEXAMPLE=\"$work/example3.c\""
}

try_calls
try_document
if compile hostile_sane -fsanitize=address,undefined 2> /dev/null; then
    "$work/hostile_sane" "$rounds" > /dev/null || failed 'hostile numbers do harm'
else
    say 'skipped in part: no sanitizers of gcc'
    try hostile_plain "$rounds"
fi
if has valgrind; then
    compile hostile_watched
    valgrind -q --error-exitcode=9 "$work/hostile_watched" "$watched" > /dev/null || failed 'valgrind saw harm'
else
    say 'skipped in part: no valgrind'
fi
if [ -x "$program" ]; then
    compile answers_plain && TILING=$program sh "$tests/answers.sh" "$work/answers_plain" \
        || failed "the answers aren't the command's"
else
    say 'skipped in part: no program'
fi

# Whether the kit is here, and has proved and built the library of the present sources.
can_build() {
    [ -z "${TILING_ARCHIVE-}" ] && has rt && [ -f "$top/crates/tiling_c/out/libtiling_c.a" ] \
        && "$top/tiling" --version | grep -q '^proved and built'
}

# Builds the archive by Rattle's own compiler, over what is proved, and puts the kit's other one back.
build_other() {
    out=$top/crates/tiling_c/out
    mkdir "$work/other" && cp "$out/libtiling_c.a" "$work/kept.a" || return 1
    (cd "$top/crates/tiling_c" && rt lib --backend rattle) > "$work/log" 2>&1 \
        && "$top/packaging/make_library.sh" "$out/libtiling_c.a" "$work/other" >> "$work/log" 2>&1
    built=$?
    mv "$work/kept.a" "$out/libtiling_c.a"
    [ $built = 0 ] || tail -n 5 "$work/log" >&2
    return $built
}

# Draws 200 windows: a rule, a seed, a base, the four coefficients of a centre, half a width and half a height.
draw_windows() {
    awk 'BEGIN {
        srand(1)
        count = split("chair halfhex p2 p3 ab", rules, " ")
        for (i = 0; i < 200; i++) {
            rule = i % count + 1
            printf "%s %d 0:", rules[rule], 1000000 * rand()
            for (j = 0; j < 4; j++) printf " %d", (j > 1 && rule < 3 ? 0 : 400 * rand() - 200)
            print "", 1 + int(9 * rand()), 1 + int(9 * rand())
        }
    }'
}

# Writes what the archive answers: how often hostile numbers get each status, and all about the drawn windows.
tell() {
    compile hostile_plain && "$work/hostile_plain" "$rounds" > "$1/statuses" && compile answers_plain || return 1
    while read -r window; do
        folder=$1/$(echo "$window" | tr ' :' '__') && mkdir "$folder" || return 1
        # shellcheck disable=SC2086
        "$work/answers_plain" $window "$folder" || return 1
    done < "$work/windows"
}

compare_compilers() {
    draw_windows > "$work/windows"
    mkdir "$work/first" "$work/second"
    tell "$work/first" || { failed 'the library does not answer'; return; }
    archive=$other
    try_calls
    tell "$work/second" || { failed "the other compiler's library does not answer"; return; }
    diff -r "$work/first" "$work/second" > "$work/differences" && return
    head -n 5 "$work/differences" >&2
    failed "two compilers' libraries answer differently"
}

other=${OTHER_ARCHIVE:-$work/other/libtiling.a}
if [ -n "${OTHER_ARCHIVE-}" ]; then
    compare_compilers
elif ! can_build; then
    say 'skipped in part: no archive of the other compiler, and none can be built here'
elif build_other; then
    compare_compilers
else
    failed "Rattle's own compiler builds no library"
fi
exit $fault
