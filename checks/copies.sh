#!/bin/sh
# Compares the copies of rule files that the program trial_rule_files reads, in crates/trial_rule_files/data, with the files of
# rules/ and docs/refused/. Each has its copy, and each copy its file. (Those named `_round_a_vertex` are made by
# tools/fan_rule.py, and checks/stars.sh compares them.) Ends with 1 if one differs or is missing.
. "$(dirname "$0")/needs"
data="$top/crates/trial_rule_files/data"
fault=0
same() {
    cmp -s "$1" "$2" && return
    echo "copies: $1 and $2 differ, or one is missing" >&2
    fault=1
}
for file in "$top"/rules/*.toml "$top"/docs/refused/*.toml; do
    same "$file" "$data/$(basename "$file")"
done
for copy in "$data"/*.toml; do
    name=$(basename "$copy")
    case $name in *_round_a_vertex.toml) continue ;; esac
    [ -f "$top/rules/$name" ] || [ -f "$top/docs/refused/$name" ] || { echo "copies: $copy is a copy of nothing" >&2; fault=1; }
done
exit $fault
