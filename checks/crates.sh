#!/bin/sh
# Makes docs/made/CRATES.md from crates.txt and the first sentence of each crate's root file, and compares it with the file.
# Ends with 1 if it differs.
#   checks/crates.sh --write      writes the file
. "$(dirname "$0")/needs"
need python3
exec python3 - "$top" "$@" << 'END'
import os, re, sys, textwrap

top, words = sys.argv[1], sys.argv[2:]
page = f"{top}/docs/made/CRATES.md"
PARTS = (
    ("The program", "From the top down. A crate uses the contracts of crates below it, and the theorems of the theory."),
    ("The theory", "Definitions, proofs and laws, and no other code. Only `theory_walks` names types of the program."),
    ("Tests", "In crates of their own, since a crate with tests is proved twice."),
)


def read(name):
    with open(name, encoding="utf-8") as file:
        return file.read()


def root(crate):
    return next(f"{crate}/src/{name}.rt" for name in ("lib", "main") if os.path.exists(f"{top}/crates/{crate}/src/{name}.rt"))


def comment(crate):
    return " ".join(re.findall(r"^//! ?(.*)$", read(f"{top}/crates/{root(crate)}"), re.M)).strip()


def part_of(crate):
    """Which part of the page has a crate."""
    return 1 if crate.startswith("theory_") else 2 if crate.startswith("trial_") else 0


crates = [line.split("#")[0].split(":")[0].split()[0] for line in read(f"{top}/crates.txt").split("\n") if line.split("#")[0].strip()]
lines = ["# The crates", ""]
lines += textwrap.wrap("Each crate with the first sentence of its root file, which says what it promises to the crates above. "
                       "[ARCHITECTURE](../ARCHITECTURE.md) has the layers and where to read first. "
                       "`checks/crates.sh --write` makes this page from `crates.txt` and the root files.", 110)
for number, (title, text) in enumerate(PARTS):
    lines += ["", f"## {title}", "", text, "", "| Crate | What it is |", "|---|---|"]
    chosen = [crate for crate in crates if part_of(crate) == number]
    for crate in reversed(chosen) if number == 0 else chosen:
        plain = re.sub(r" \([^()]*\)", "", comment(crate))
        first = re.match(r".*?[.](?=\s+[A-Z`]|$)", plain)[0].replace("|", "\\|")
        lines.append(f"| [`{crate}`](../../crates/{root(crate)}) | {first} |")
made = "\n".join(lines) + "\n"
if words == ["--write"]:
    with open(page, "w", encoding="utf-8") as file:
        file.write(made)
elif not os.path.exists(page) or read(page) != made:
    sys.exit("crates: docs/made/CRATES.md isn't what checks/crates.sh --write makes")
print(f"crates: {len(crates)} crates on the page")
END
