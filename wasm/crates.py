#!/usr/bin/env python3
"""What the C library is made of, by crates.txt.

  wasm/crates.py TOP sources       one checksum of crates.txt and of src/ of each crate that the library needs
  wasm/crates.py TOP words KIT     the arguments by which `rattle build` makes the library over what is proved, a line
                                   each, for a call in crates/tiling_c; KIT is the folder of the kit"""
import hashlib
import os
import sys

LIBRARY = "tiling_c"


def dependencies(top: str):
    """What each crate of the repository depends on, by its name."""
    found = {}
    with open(os.path.join(top, "crates.txt"), encoding="utf-8") as file:
        for line in file:
            name, colon, needed = line.partition("#")[0].partition(":")
            if colon:
                found[name.split()[0]] = needed.split()
    return found


def below(crates: dict, name: str, seen=None):
    """The crates of the repository that a crate needs, itself among them, sorted."""
    seen = set() if seen is None else seen
    if name in crates and name not in seen:
        seen.add(name)
        for needed in crates[name]:
            below(crates, needed, seen)
    return sorted(seen)


def checksum(top: str) -> str:
    """The SHA-256 of the lines `SHA-256 path` of all files, in the order of their paths."""
    folders = [os.path.join("crates", name, "src") for name in below(dependencies(top), LIBRARY)]
    paths = ["crates.txt"]
    for folder in folders:
        for place, _, names in os.walk(os.path.join(top, folder)):
            paths += [os.path.relpath(os.path.join(place, name), top) for name in names]
    whole = hashlib.sha256()
    for path in sorted(paths):
        with open(os.path.join(top, path), "rb") as file:
            whole.update(f"{hashlib.sha256(file.read()).hexdigest()}  {path}\n".encode())
    return whole.hexdigest()


def words(top: str, kit: str):
    """The arguments of `rattle build`, without the compiler and without where the archive goes."""
    crates = dependencies(top)
    built = {name: os.path.join(top, "crates", name, "out", "rlib") for name in below(crates, LIBRARY)}
    found = ["--crate-name", LIBRARY, "src/lib.rt", "--crate-type", "staticlib"]
    for name in ["std", *crates[LIBRARY]]:
        folder = built.get(name, os.path.join(kit, "rlibs"))
        found += ["--extern", f"{name}={os.path.join(folder, name)}.rlib"]
    for folder in [os.path.join(kit, "rlibs"), *(built[name] for name in built if name != LIBRARY)]:
        found += ["-L", f"dependency={folder}"]
    found += ["--antt-project", os.path.join(kit, "rattle", "logic", "antt-project.json")]
    return [*found, "--logic-built", os.path.join(kit, "logic_built"), "--incremental", "out/incremental", "--jobs", "2"]


def main():
    top, what, *more = sys.argv[1:]
    lines = [checksum(top)] if what == "sources" else words(top, more[0])
    print("\n".join(lines))


main()
