#!/bin/sh
# Counts the words of each document as wc -w does, and the rows of tables above 300 characters, and compares them with
# checks/words.txt. Counts only fall: a document with more words than its number there is a fault, and so is one without a
# number. The last two lines are the whole, and the long rows. The pages of docs/made/ are not counted: each is made whole
# by a script of checks/ that names it, and has no word written by hand. Ends with 1 if a count rose.
#   checks/words.sh --write     writes the counts of today, and a line for each new document, if the whole did not rise
. "$(dirname "$0")/needs"
need python3
exec python3 - "$top" "$@" << 'END'
import glob, os, re, sys

top, is_written = sys.argv[1], sys.argv[2:] == ["--write"]
kept, LONGEST = f"{top}/checks/words.txt", 300
WHOLE, LONG_ROWS = "in all", "long rows"


def read(name):
    with open(f"{top}/{name}", encoding="utf-8") as file:
        return file.read()


def is_long_row(line):
    return line.startswith("|") and len(line) > LONGEST


pages = ["README.md", "CONTRIBUTING.md", "crates/README.md", "rules/README.md"]
pages += sorted(os.path.relpath(path, top) for path in glob.glob(f"{top}/docs/*.md")) + ["docs/HELP.txt"]
texts = {page: read(page) for page in pages if os.path.exists(f"{top}/{page}")}
counts = {page: len(text.split()) for page, text in texts.items()}
counts[WHOLE] = sum(counts.values())
counts[LONG_ROWS] = sum(is_long_row(line) for text in texts.values() for line in text.split("\n"))
allowed = {name: int(number) for number, name in re.findall(r"^(\d+) (.+)$", read("checks/words.txt"), re.M)}

if is_written:
    if counts[WHOLE] > allowed[WHOLE]:
        sys.exit(f"words: the documents have {counts[WHOLE]} words, and may have {allowed[WHOLE]}")
    allowed = {name: min(number, allowed.get(name, number)) for name, number in counts.items()}
    with open(kept, "w", encoding="utf-8") as file:
        file.write("".join(f"{number} {name}\n" for name, number in allowed.items()))

scripts = "".join(read(os.path.relpath(path, top)) for path in glob.glob(f"{top}/checks/*.sh"))
faults = [f"{name} has {number} words, and may have {allowed.get(name, 0)}" for name, number in counts.items() if number > allowed.get(name, 0)]
faults += [f"{row[:60]}.. of {page} has {len(row)} characters" for page, text in texts.items() for row in text.split("\n")
           if counts[LONG_ROWS] > allowed[LONG_ROWS] and is_long_row(row)]
made = sorted(os.path.relpath(path, top) for path in glob.glob(f"{top}/docs/made/*"))
faults += [f"no script of checks/ makes {page}" for page in made if page not in scripts]
for fault in faults:
    print(f"words: {fault}", file=sys.stderr)
fallen = [name for name, number in counts.items() if number < allowed.get(name, 0)]
if fallen:
    print(f"words: fewer in {', '.join(fallen)}: checks/words.sh --write")
print(f"words: {counts[WHOLE]} in {len(texts)} documents, {counts[LONG_ROWS]} long rows, {len(made)} pages made by scripts, {len(faults)} faults")
sys.exit(1 if faults else 0)
END
