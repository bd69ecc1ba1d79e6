#!/bin/sh
# Tries the script `tiling` in a small repository of its own, with a stand-in for `rt` that proves nothing and takes no
# time: its answers before and after the program is built, on which stream, and with which status. Ends with 1 if one is
# wrong. What the script says of wrong arguments is compared with the program, if there is one. The program is the one
# that TILING names, or crates/tiling/out/tiling.
. "$(dirname "$0")/needs"
need flock sha256sum awk nproc
home=$PWD
work=$(mktemp -d) || exit 1
trap 'rm -rf "$work"' EXIT
here=$work/repository
mkdir -p "$here/docs" "$here/crates/low/src" "$here/crates/low/specs" "$here/crates/low/proofs" "$here/crates/tiling/src"
mkdir -p "$work/bin" "$work/without"
mkdir "$here/tools"
cp "$top/tiling" "$here/tiling" && cp "$top/docs/HELP.txt" "$here/docs/" && cp "$top/tools/words.awk" "$top/tools/cures.sh" "$top/tools/follow_build.py" "$top/tools/command_line.py" "$here/tools/" || exit 1
printf '%s\n' 'low:' 'tiling: low' > "$here/crates.txt"
echo one > "$here/crates/low/src/lib.rt"
echo two > "$here/crates/tiling/src/main.rt"
echo proof > "$here/crates/low/proofs/Lib.antt"

# The program: `place` answers, `neighbour` is refused; `calc`, `verify` and what has `rule=-` print standard
# input.
cat > "$work/program" << 'END'
#!/bin/sh
case $1 in
place) [ "$3" = addr=name ] && echo "$0" || echo "answer ${3#addr=}" ;;
neighbour) echo '8 Outside 4 0' >&2; exit 8 ;;
calc | verify) exec cat ;;
*) for word; do [ "$word" = rule=- ] && exec cat; done; echo '2 BadWords 0' >&2; exit 2 ;;
esac
END
# The stand-in for the compiler: the file `silent` makes it fail.
cat > "$here/tools/compile_unproved.py" << END
import os, shutil, sys
if os.path.exists("$work/silent"):
    sys.exit("error: it does not compile")
shutil.copy("$work/program", sys.argv[2])
os.chmod(sys.argv[2], 0o755)
END
# The stand-in for `rt`: the file `fails` makes the proofs fail.
cat > "$work/bin/rt" << END
#!/bin/sh
case "\$1 \$2" in
'all check')
    printf '== low\nfn low::a: proved\nlogic=proved functions=1 sum=0\n== tiling\n'
    [ ! -f "$work/fails" ] || { printf 'fn tiling::main: not proved\n== summary\n1 of 2 crates ok\n'; exit 1; }
    printf 'logic=proved functions=1 sum=0\n== summary\nlow: ok\ntiling: ok\n2 of 2 crates ok\n'
    ;;
'run --')
    mkdir -p out && cp "$work/program" out/tiling && chmod +x out/tiling
    [ ! -f "$work/edits" ] || echo three > "$here/crates/low/src/lib.rt"
    ;;
'version ') echo 'a kit' ;;
esac
END
chmod +x "$work/bin/rt" "$work/program"
ln -s "$here/tiling" "$work/link"
for tool in sh dash readlink find head tail sed awk cat touch cp mv mkdir rm sort sha256sum date mktemp nproc flock git chmod tee; do
    found=$(command -v $tool) && ln -s "$found" "$work/without/$tool"
done
PATH=$work/bin:$PATH
export PATH

tried=0
fault=0
# try NAME STATUS OUT ERR: compares what the last call of `run` gave. ERR is a pattern of the shell.
try() {
    tried=$((tried + 1))
    out=$(cat "$work/out")
    err=$(cat "$work/err")
    [ "$status" = "$2" ] && [ "$out" = "$3" ] || { echo "script: $1: status $status, output '$out'" >&2; fault=1; }
    case $err in
    $4) ;;
    *) echo "script: $1: on standard error '$err'" >&2; fault=1 ;;
    esac
}
run() { "$@" > "$work/out" 2> "$work/err"; status=$?; }
without() { (PATH=$work/without; export PATH; "$@"); }
is_quiet() { [ ! -s "$work/err" ] || { echo "script: $1: something is on standard error" >&2; fault=1; }; }

one_line='tiling: unproved: *--build*'
nl='
'
run "$here/tiling" --help < /dev/null
try help 0 "$(cat "$top/docs/HELP.txt")" ''
run without "$here/tiling" -h
try 'help without rt' 0 "$(cat "$top/docs/HELP.txt")" ''
run without "$here/tiling"
try 'no words' 0 "$(cat "$top/docs/HELP.txt")" '' && is_quiet 'no words'
run without "$here/tiling" draw rule=p3 addr=0: at=0,0,0,0 half=2,2
try 'a missing key' 2 '' "2 BadWords 5${nl}tiling: draw needs layers= (*"
run without "$here/tiling" neighbor rule=p3
try 'a wrong command' 2 '' "2 BadWords 0${nl}tiling: *did you mean neighbour?*"
run without "$here/tiling" star rule=p3 vertx=1
try 'a wrong key' 2 '' "2 BadWords 2${nl}tiling: star has no key vertx=; did you mean vertex=?*"
run without "$here/tiling" check rule=rules/chair.toml
try 'a wrong value' 2 '' "2 BadWords 1${nl}tiling: *rule=- < rules/chair.toml*"
run "$here/tiling" --version
try 'version before' 0 'not proved and built from these sources' ''
run "$here/tiling" place rule=chair addr=one
try 'unproved answer' 0 'answer one' "$one_line"
run "$here/tiling" neighbour rule=chair addr=0: edge=4
try 'unproved refusal' 8 '' "$one_line${nl}8 Outside 4 0"
printf 'a\nb' > "$work/in"
run "$here/tiling" check rule=- < "$work/in"
try 'unproved, with standard input' 0 "$(cat "$work/in")" "$one_line"
run "$here/tiling" calc rule=chair < "$work/in"
try 'unproved, with a script' 0 "$(cat "$work/in")" "$one_line"
yes '0 0 0,0,0,0 0:' | head -n 100000 > "$work/listing"
run "$here/tiling" verify rule=chair addr=0: at=0,0,0,0 half=1,1 < "$work/listing"
try 'unproved, with a listing of more than a mebibyte' 0 "$(cat "$work/listing")" "$one_line"
run "$here/tiling" check rule=- <&-
try 'unproved, with no standard input' 1 '' "$one_line${nl}cat*"
touch "$work/silent"
run "$here/tiling" place rule=chair addr=one
try 'unproved, compiled already' 0 'answer one' "$one_line"
run without "$here/tiling" place rule=chair addr=two
try 'unproved, compiled already, without rt' 0 'answer two' "$one_line"
rm "$here/.tiling/unproved"
run "$here/tiling" place rule=chair addr=one
try 'unproved, and does not compile' 125 '' "$one_line${nl}*it does not compile*${nl}tiling: *--build*"
rm "$work/silent"
run without "$here/tiling" place rule=chair addr=one
try 'neither rt nor program' 125 '' "tiling: there is no 'rt'*"
touch "$work/fails"
run "$here/tiling" --build
try 'a proof that fails' 125 '' "tiling: *proved low, 1 of 2*${nl}*not proved${nl}*tiling: not proved and built*"
run "$here/tiling" place rule=chair addr=one
try 'no program after it' 0 'answer one' "$one_line"
rm "$work/fails"
touch "$work/edits"
run "$here/tiling" --build
try 'a source that changes meanwhile' 125 '' '*a source changed*'
rm "$work/edits"
run "$work/link" --build
try build 0 '' "tiling: proving*proved low, 1 of 2*${nl}*proved tiling, 2 of 2${nl}tiling: proved and built"
run "$here/tiling" --build
try 'build again' 0 '' 'tiling: proved and built already'
run "$here/tiling" place rule=chair addr=two
try 'proved answer' 0 'answer two' '' && is_quiet 'proved answer'
run "$here/tiling" neighbour rule=chair addr=0: edge=4
try 'proved refusal' 8 '' '8 Outside 4 0'
run "$work/link" place rule=chair addr=three
try 'through a link' 0 'answer three' ''
run without "$work/link" place rule=chair addr=four
try 'without rt' 0 'answer four' ''
cd "$here/docs" && run sh ../tiling place rule=chair addr=five
try 'from another folder' 0 'answer five' ''
rm -rf "$here/crates/tiling/out"
run "$here/tiling" place rule=chair addr=six
try 'while crates/tiling/out is away' 0 'answer six' '' && is_quiet 'while crates/tiling/out is away'
mkdir -p "$here/crates/tiling/out" && cp "$work/program" "$here/crates/tiling/out/tiling"
rm -r "$here/.tiling" && run "$here/tiling" --keep 0
run "$here/tiling" --version
try 'a program of the gate, of other sources' 0 'not proved and built from these sources' ''
run "$here/tiling" --keep "$("$here/tiling" --seal)"
run "$here/tiling" --version
case $(cat "$work/out") in *' by the gate with a kit'*) ;; *) echo 'script: a program of the gate' >&2; fault=1 ;; esac
touch "$here/crates/low/src/lib.rt"
run "$here/tiling" place rule=chair addr=seven
try 'a source that was only touched' 0 'answer seven' '' && is_quiet 'a source that was only touched'
run "$here/tiling" --version
try 'version after' 0 "$(cat "$work/out")" ''
case $(cat "$work/out") in 'proved and built '*' with a kit'*) ;; *) echo 'script: version after' >&2; fault=1 ;; esac
echo four > "$here/crates/low/src/lib.rt"
run "$here/tiling" place rule=chair addr=eight
try 'a source that changed' 0 'answer eight' "$one_line"
echo three > "$here/crates/low/src/lib.rt"
run "$here/tiling" place rule=chair addr=nine
try 'the former source again' 0 'answer nine' ''
echo five > "$here/crates/low/src/more.rt"
run "$here/tiling" place rule=chair addr=ten
try 'one more source' 0 'answer ten' "$one_line"
rm "$here/crates/low/src/more.rt"
run "$here/tiling" place rule=chair addr=eleven
try 'one source less' 0 'answer eleven' ''
mv "$here/crates/low/proofs" "$work/proofs"
run "$here/tiling" place rule=chair addr=twelve
try 'one folder less' 0 'answer twelve' "$one_line"
mv "$work/proofs" "$here/crates/low/proofs"
run "$here/tiling" place rule=chair addr=thirteen
try 'the folder again' 0 'answer thirteen' ''
mkdir "$work/$(printf 'caf\351')" && cp -r -p "$here" "$work/$(printf 'caf\351')/" || exit 1
run "$work/$(printf 'caf\351')/repository/tiling" place rule=chair addr=name
try 'from a folder whose name is not UTF-8' 0 ./program ''
if command -v script > /dev/null && script -qec true /dev/null > /dev/null 2>&1; then
    run script -qec "$here/tiling neighbour rule=chair addr=0: edge=4" /dev/null < /dev/null
    tr -d '\r' < "$work/out" > "$work/seen"
    tried=$((tried + 1))
    case $(cat "$work/seen") in
    "8 Outside 4 0${nl}tiling: "*"one more digit"*) ;;
    *) echo "script: at a terminal: '$(cat "$work/seen")'" >&2; fault=1 ;;
    esac
fi

# The words that the program refuses, and no others, are refused where nothing is built, with the same line.
case $program in /*) ;; *) program=$home/$program ;; esac
cat > "$work/words.awk" << 'END'
function one(text,    parts, n) { n = split(text, parts, " "); return parts[int(rand() * n) + 1] }
function value(key) {
    if (rand() < 0.1) return one("00 -1 -0 x 256 65 201 4097 18446744073709551616 1,2 0,0,0 0,0,0,0,0 , 1, svg,svg yes= =")
    if (key == "rule") return one("chair p2 p3 ab halfhex - Chair")
    if (key == "addr") return one("0: 0:1/0 x")
    if (key == "at") return one("0,0,0,0 1,-1,0,0 1048576,-1048576,0,0 1048577,0,0,0 -0,0,0,0")
    if (key == "half") return one("1,1 2,3 4096,1 0,1 1,4097")
    if (key == "layers") return one("svg list,census census,svg,list svg,list,census,svg")
    if (key == "glue") return one("yes no maybe")
    if (key == "path") return one("0 0,1 255 256 0,,1")
    if (key == "n") return one("1 2 0")
    return one("0 1 64 255 256 18446744073709551615")
}
BEGIN {
    keys = "rule addr at half layers seed glue edge vertex grow path n"
    needs["place"] = "rule addr"; needs["neighbour"] = "rule addr edge"; needs["walk"] = "rule addr path grow seed"
    needs["draw"] = "rule addr at half layers glue seed"; needs["check"] = "rule"; needs["calc"] = "rule"
    needs["drill"] = "rule n seed"; needs["star"] = "rule addr vertex seed"; needs["verify"] = "rule addr at half seed"
    srand(1)
    for (i = 0; i < 400; i++) {
        command = one("place neighbour walk draw check calc drill star verify")
        n = split(needs[command], own, " ")
        line = rand() < 0.05 ? "plaec" : command
        for (j = 1; j <= n; j++) {
            key = rand() < 0.03 ? one(keys) : own[j]
            if (rand() < 0.95) line = line " " key (rand() < 0.01 ? "" : "=") value(key)
        }
        print line
    }
}
END
if [ -x "$program" ]; then
    rm -rf "$here/.tiling"
    printf '#!/bin/sh\necho passed\n' > "$work/program"
    awk -f "$work/words.awk" > "$work/calls"
    refused=0
    while IFS= read -r words; do
        tried=$((tried + 1))
        # shellcheck disable=SC2086
        "$program" $words < /dev/null > /dev/null 2> "$work/wanted"
        wanted=$?
        # shellcheck disable=SC2086
        run "$here/tiling" $words < /dev/null
        if [ $wanted -eq 2 ]; then
            refused=$((refused + 1))
            [ "$status" = 2 ] && [ "$(sed -n 1p "$work/err")" = "$(cat "$work/wanted")" ]
        else
            [ "$status" = 0 ] && [ "$(cat "$work/out")" = passed ]
        fi || { echo "script: $words: $(cat "$work/wanted") of the program, and $status of the script: $(cat "$work/err")" >&2; fault=1; }
    done < "$work/calls"
    echo "script: of 400 drawn calls $refused are refused for their words"
fi
echo "script: $tried calls tried"
exit $fault
