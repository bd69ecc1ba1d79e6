#!/bin/sh
# Compares the maps of CONTRIBUTING ("To add something") with the sources. Each path of a map is there; a folder that ends
# with / is before those in it. Each file that the map's `git grep` finds is in the map, except wrong bodies, tests, and
# the proof of one function. Ends with 1 if a file is missing.
. "$(dirname "$0")/needs"
need python3 git
git -C "$top" rev-parse --is-inside-work-tree > /dev/null 2>&1 || skip "work tree of git"
exec python3 - "$top" << 'END'
import os, re, shlex, subprocess, sys

top = sys.argv[1]
LEFT_OUT = re.compile(r"must-fail/|crates/trial_|/proofs/.*/|checks/wrong/")
page = open(f"{top}/CONTRIBUTING.md", encoding="utf-8").read()
maps = re.split(r"^### ", re.search(r"^## To add something\n(.*?)^## ", page, re.M | re.S)[1], flags=re.M)[1:]


def paths_of(entry):
    """The paths that an entry of a list names, and those of them that are not there."""
    folder, paths, missing = "", set(), []
    for span in re.findall(r"`([^`]*)`", entry):
        if "/" not in span and "." not in span and not os.path.isfile(f"{top}/{span}") or " " in span or "NAME" in span:
            continue
        if span.endswith("/") and os.path.isdir(f"{top}/{span}"):
            folder = span
            continue
        found = [path for path in (folder + span, span) if os.path.exists(f"{top}/{path}")]
        paths |= set(found[:1])
        missing += [] if found else [folder + span]
    return paths, missing


faults, told = [], 0
for text in maps:
    title, listed = text.split("\n")[0], set()
    for entry in re.split(r"^- ", text, flags=re.M)[1:]:
        paths, missing = paths_of(entry)
        listed |= paths
        faults += [f"{title}: there is no {path}" for path in missing]
    told += len(listed)
    for command in re.findall(r"`git grep (.*?)`", text.split("\n- ")[0], re.S):
        ran = subprocess.run(["git", "grep", *shlex.split(command)], cwd=top, stdout=subprocess.PIPE, text=True)
        faults += [f"{title}: {file} is missing" for file in ran.stdout.split() if file not in listed and not LEFT_OUT.search(file)]
for fault in faults:
    print(f"maps: {fault}", file=sys.stderr)
print(f"maps: {len(maps)} maps with {told} files, {len(faults)} faults")
sys.exit(1 if faults else 0)
END
