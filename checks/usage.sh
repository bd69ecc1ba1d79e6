#!/bin/sh
# Makes docs/HELP.txt and docs/tiling.1 from the table docs/usage.toml, and compares them with the files. The commands and
# keys of that table are those of tools/words.awk, and so are those of docs/FORMATS.md. Ends with 1 if one differs.
. "$(dirname "$0")/needs"
need python:tomllib
fault=0
for pair in help:HELP.txt man:tiling.1; do
    "$python" "$top/tools/make_usage.py" "${pair%%:*}" "$top/docs/usage.toml" | cmp -s - "$top/docs/${pair#*:}" && continue
    echo "usage: docs/${pair#*:} isn't what tools/make_usage.py ${pair%%:*} makes of docs/usage.toml" >&2
    fault=1
done
"$python" - "$top" << 'END' || fault=1
import re, sys, tomllib

top, bad = sys.argv[1], 0
read = lambda name: open(f"{top}/{name}", encoding="utf-8").read()  # noqa: E731
name_of = lambda key: key.strip("[]").partition("=")[0]  # noqa: E731
asked = {
    command["name"]: ([name_of(key) for key in command["keys"] if key[0] != "["], [name_of(key) for key in command["keys"] if key[0] == "["])
    for command in tomllib.loads(read("docs/usage.toml"))["command"]
}
words = read("tools/words.awk")
keys = lambda table, name: re.search(rf'{table}\["{name}"\] = "(.*?)"', words)[1].split()  # noqa: E731
rows = dict(re.findall(r"^\| `(\w+)` \| (`rule`.*?) \|", read("docs/FORMATS.md"), re.M))
for name, (required, allowed) in asked.items():
    for where, got in (
        ("tools/words.awk", (keys("needs", name), keys("may", name))),
        ("docs/FORMATS.md", tuple(re.findall(r"`(\w+)`", part) for part in (rows.get(name, "") + ";").split(";")[:2])),
    ):
        if tuple(map(set, got)) != (set(required), set(allowed)):
            print(f"usage: {name}: {where} has the keys {got}, docs/usage.toml {required, allowed}", file=sys.stderr)
            bad = 1
print(f"usage: {len(asked)} commands, help and man page compared with their table")
sys.exit(bad)
END
exit $fault
