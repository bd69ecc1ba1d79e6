#!/bin/sh
# Makes docs/made/NAMES.md: the words of the definitions (crates/*/specs) that two crates have, each with the first sentence
# of its comment in each of them. Compares it with the file, and ends with 1 if it differs.
#   checks/names.sh --write      writes the file
. "$(dirname "$0")/needs"
need python3
exec python3 - "$top" "$@" << 'END'
import glob, os, re, sys

top, is_written = sys.argv[1], sys.argv[2:] == ["--write"]
page = f"{top}/docs/made/NAMES.md"
WORD = re.compile(r"(?:(?:abbrev|unfoldable|pub|record|data) )+([^ :]+)")
IS_DEFINITION = re.compile(r"(abbrev|unfoldable|pub|record|data)( .*)? [^ ]+ *:|(pub |abbrev |unfoldable )*(record|data) ")
HEAD = """# Words that two crates have

For readers of proofs: the words of the definitions that more than one crate has, with the comment of each.
They are one idea for two subjects, or plain words. A source names the crate of each word that it cites, in its
`ghost use`. `checks/names.sh --write` makes this page.

| Word | Crate | Meaning |
|---|---|---|
"""


def definitions(file):
    """The words that a file defines, each with its comment."""
    comment = ""
    for line in open(file, encoding="utf-8"):
        if line.startswith("-- "):
            comment += f" {line[3:].strip()}"
            continue
        word = WORD.match(line)
        if word and IS_DEFINITION.match(line) and not re.match(r"(pub )?(use|mod) ", line):
            yield word[1], comment.strip()
        comment = ""


found = {}  # of each word, the crates that have it, each with the comment of its first definition there
for file in sorted(glob.glob(f"{top}/crates/*/specs/*.antt")):
    for word, comment in definitions(file):
        found.setdefault(word, {}).setdefault(file.split("/")[-3], comment)
shared = {word: found[word] for word in sorted(found) if len(found[word]) > 1}
rows = [
    f"| `{word}` | `{crate}` | {re.split(r'(?<=[.:;]) ', comment)[0].rstrip('.:;').replace('|', chr(92) + '|')} |\n"
    for word, crates in shared.items()
    for crate, comment in sorted(crates.items())
]
made = HEAD + "".join(rows)
if is_written:
    with open(page, "w", encoding="utf-8") as file:
        file.write(made)
elif not os.path.exists(page) or open(page, encoding="utf-8").read() != made:
    sys.exit("names: docs/made/NAMES.md isn't what checks/names.sh --write makes")
print(f"names: two crates have {len(shared)} words")
END
