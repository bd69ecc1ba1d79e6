#!/bin/sh
# Tests the program's streams and exit status, which no proof speaks of. An answer is on standard output, with nothing
# on standard error. A refusal has its exit code, its one line on standard error, and nothing on standard output. The
# program is the one that is given, or that TILING names, or crates/tiling/out/tiling. The last line is 'N passed, M
# failed'; ends with 1 if one failed.
. "$(dirname "$0")/needs"
program=${1:-$program}
need program
work=$(mktemp -d) || exit 1
trap 'rm -rf "$work"' EXIT
passed=0
failed=0

# counts a case: its name, and whether it holds
count() {
    if [ "$2" = yes ]; then
        passed=$((passed + 1))
    else
        failed=$((failed + 1))
        echo "streams: $1" >&2
    fi
}

# whether the files `out` and `err` have these lines, or nothing where a line is empty, and the status is this
holds() {
    if [ -n "$3" ]; then printf '%s\n' "$3"; fi > "$work/want_out"
    if [ -n "$4" ]; then printf '%s\n' "$4"; fi > "$work/want_err"
    [ "$1" = "$2" ] && cmp -s "$work/out" "$work/want_out" && cmp -s "$work/err" "$work/want_err" && echo yes
}

# runs words over an input: the exit status wanted, the lines on standard output and on standard error, the input, and
# the words
try() {
    code=$1 out=$2 err=$3 input=$4
    shift 4
    "$program" "$@" < "$input" > "$work/out" 2> "$work/err"
    count "$*, from $input" "$(holds $? "$code" "$out" "$err")"
}

# an address of kind 0 with this digit so many times
address() {
    digits=$1
    i=1
    while [ $i -lt "$2" ]; do digits="$digits,$1" i=$((i + 1)); done
    echo "0:$digits"
}

chair="$top/rules/chair.toml"
awk 'BEGIN { for (i = 0; i < 1048577; i++) printf "#" }' > "$work/long"
window='seed=42 addr=0: at=1,1,0,0 half=2,1'
printf '0 1 3,1,0,0 0:1/0\n0 0 0,0,0,0 0:3/0' > "$work/listing"

# answers
try 0 '0 1 7,1,0,0' '' /dev/null place rule=chair addr=0:1/0,2/0
try 0 '0:1/0,0/0 7' '' /dev/null neighbour edge=4 rule=chair addr=0:0/0,1/0
try 0 'accepted order 10 kinds 4 types 8' '' /dev/null check rule=p3
try 0 'accepted order 6 kinds 1 types 1' '' /dev/null check rule=halfhex
try 0 '0 1 0,1,0,0' '' "$top/rules/half_square_turned.toml" place rule=- addr=0:1/0,0/0
try 0 'accepted order 4 kinds 1 types 1' '' "$chair" check rule=-
try 0 '0 1 7,1,0,0' '' "$chair" place rule=- addr=0:1/0,2/0
try 0 'right 2' '' "$work/listing" verify rule=chair $window

# refusals
try 2 '' '2 BadWords 0' /dev/null
try 2 '' '2 BadWords 3' /dev/null place rule=chair addr=0: addr=0:
try 3 '' '3 RuleRefused Missing format' /dev/null check rule=-
try 3 '' '3 RuleTooLong' "$work/long" check rule=-
try 4 '' '4 BadAddress WrongChild 0' /dev/null place rule=chair addr=0:4/0
try 6 '' '6 CoordLimit 26843544,13421772,0,0' /dev/null place rule=chair "addr=$(address 2/0 40)"
try 8 '' '8 Outside 4 0' /dev/null neighbour rule=chair addr=0:0/0 edge=4
try 9 '' '9 ReadFault' "$work" check rule=-
try 9 '' '9 ReadFault' "$work" verify rule=chair $window
try 12 '' '12 NoEdge 8 8' /dev/null neighbour rule=chair addr=0:0/0 edge=8
try 17 '' '17 BadListing Missing 0:1/0' /dev/null verify rule=chair $window
try 17 '' '17 BadListing BadLine 1 0' "$work/long" verify rule=chair $window

# an address is tested before the listing is read
try 4 '' '4 BadAddress UnknownKind 0' "$work" verify rule=chair addr=1: at=1,1,0,0 half=2,1

# words that aren't UTF-8: nothing is written
try 1 '' '' /dev/null "$(printf 'place\377')"

# streams that are full: standard output is to blame, or standard error, which changes no status
if [ -c /dev/full ]; then
    : > "$work/out"
    "$program" place rule=chair addr=0: < /dev/null > /dev/full 2> "$work/err"
    count 'standard output is full' "$(holds $? 10 '' '10 WriteFault')"
    : > "$work/err"
    "$program" place rule=chair < /dev/null > "$work/out" 2> /dev/full
    count 'standard error is full' "$(holds $? 2 '' '')"
fi

# a pipe that nobody reads, and streams that do not block: nothing is tried again
if command -v python3 > /dev/null; then
    python3 - "$program" "$chair" > "$work/told" << 'END'
import os, subprocess, sys

program, chair = sys.argv[1:]
large = ["draw", "rule=p3", "addr=0:", "at=0,0,0,0", "half=60,60", "layers=list"]
whole = subprocess.run([program, *large], stdout=subprocess.PIPE).stdout


def told(what, is_right):
    print("yes" if is_right else "no", what, flush=True)


def ends(words, status, note, **streams):
    ran = subprocess.run([program, *words], stderr=subprocess.PIPE, **streams)
    return (ran.returncode, ran.stderr) == (status, note)


for is_default in (True, False):
    reader, writer = os.pipe()
    os.close(reader)
    is_right = ends(large, 10, b"10 WriteFault\n", stdout=writer, restore_signals=is_default)
    told(f"a closed pipe, its signal {'as usual' if is_default else 'ignored'}", is_right)
    os.close(writer)
ran = subprocess.Popen([program, *large], stdout=subprocess.PIPE, stderr=subprocess.PIPE)
ran.stdout.read(10)
ran.stdout.close()
told("a reader that leaves", (ran.wait(), ran.stderr.read()) == (10, b"10 WriteFault\n"))

reader, writer = os.pipe()
os.set_blocking(writer, False)
told("a full pipe that does not block", ends(large, 10, b"10 WriteFault\n", stdout=writer))
os.close(writer)
with open(reader, "rb") as pipe:
    taken = pipe.read()
told("what the full pipe took", 0 < len(taken) < len(whole) and whole.startswith(taken))
reader, writer = os.pipe()
os.set_blocking(reader, False)
told("an empty input that does not block", ends(["check", "rule=-"], 9, b"9 ReadFault\n", stdin=reader))

with open(chair, "rb") as file:
    data = file.read()
pipe = subprocess.PIPE
ran = subprocess.Popen([program, "check", "rule=-"], stdin=pipe, stdout=pipe, stderr=pipe)
for start in range(0, len(data), 100):
    ran.stdin.write(data[start : start + 100])
    ran.stdin.flush()
out, err = ran.communicate()
told("an input in pieces", (ran.returncode, out, err) == (0, b"accepted order 4 kinds 1 types 1\n", b""))
END
    while read -r holds what; do count "$what" "$holds"; done < "$work/told"
    [ "$(wc -l < "$work/told")" = 7 ] || count 'the streams of a pipe' no
fi

echo "$passed passed, $failed failed"
[ $failed -eq 0 ]
