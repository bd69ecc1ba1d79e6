#!/usr/bin/env python3
"""Counts the cases of the proved tests: what checks/cases.sh says."""
import glob
import os
import re
import sys

TABLE = re.compile(r"\b(?:const|static) ([A-Z][A-Z0-9_]*): (&(?:'static )?)?\[(.*?)\] =\s*&?\[", re.S)
# A string that begins on the line after its first quote is a text of rows, one a line.
TEXT = re.compile(r'"\\\n((?:[^"\\]|\\.)*)"', re.S)
NAMED_TEXT = re.compile(r'\bconst ([A-Z][A-Z0-9_]*): &str =\s*(?="\\\n)')
NOTE = re.compile(r"\.note\(")
IN_A_TEST = re.compile(r"\bassert\w*!?\(|\bcheck(?:_\w+)?\(")
# What the numbers of a rule or of a polygon are made of: no cases, unless a loop walks them.
PARTS = re.compile(r"(?:Quad|Placed|EdgeType|Kind|Point|Child|Format|u8|i64|\[i(?:8|64); 4\])(?!\w)")


def blanked(text):
    """Returns the text with the same length, without what comments and literals say."""
    token = re.compile(r"//[^\n]*|\"(?:[^\"\\]|\\.)*\"|'(?:[^'\\]|\\.)'", re.S)
    return token.sub(lambda found: re.sub(r"[^\n]", "_" if found[0][0] in "\"'" else " ", found[0]), text)


def end_of(text, start):
    """Returns where the bracket that stands before `start` is closed, and how many elements it has."""
    depth, elements, is_begun, at = 1, 0, False, start
    while depth:
        sign = text[at]
        depth += (sign in "([{") - (sign in ")]}")
        if depth == 1 and sign == ",":
            elements, is_begun = elements + is_begun, False
        elif depth and not sign.isspace():
            is_begun = True
        at += 1
    return at, elements + is_begun


def without_loops(text):
    """Returns the text without the bodies of its loops."""
    found = re.search(r"\bfor [^;{}]*? in [^;]*?\{", text)
    if not found:
        return text
    return text[: found.end()] + without_loops(text[end_of(text, found.end())[0] :])


def lines_of(found):
    """Counts the rows of a text of rows."""
    return sum(not line.startswith("#") for line in found[1].rstrip("\n").split("\n"))


def tables_of(text, written):
    """Yields the name, the type and the number of rows of each table, of the blanked text and the text as it is written."""
    for found in NAMED_TEXT.finditer(written):
        yield found[1], "", lines_of(TEXT.match(written, found.end()))
    for found in TABLE.finditer(text):
        end, rows = end_of(text, found.end())
        repeated = re.match(r"[^,]*?; (\d+)\]\Z", text[found.end() : end], re.S)
        more = sum(lines_of(it) - 1 for it in TEXT.finditer(written, found.end(), end))
        yield found[1], found[3], int(repeated[1]) if repeated else rows + more


def is_walked(name, kind, texts):
    """Whether a loop walks the table of this name, or a function or another table is given it."""
    loop = rf"\bin &?(?:\w+::)*{name}\b|\b{name}\.(?:iter|as_slice)\("
    given = rf"[(,]\s*&(?:\w+::)*{name}\s*[,)]"
    return not kind or any(re.search(loop, it) or not PARTS.match(kind) and re.search(given, it) for it in texts)


def alone_in(text):
    """Counts the checks of a file that stand alone."""
    count = 0
    for found in re.finditer(r"(#\[test\]\s*)?(?:pub(?:\(crate\))? )?fn \w+[^;{}]*?\{", text):
        end, _ = end_of(text, found.end())
        body = without_loops(text[found.end() : end])
        count += len(NOTE.findall(body)) + (len(IN_A_TEST.findall(body)) if found[1] else 0)
    return count


def cases_of(crate, lists):
    """Counts the cases of a crate."""
    texts, written = {}, {}
    for file in sorted(glob.glob(f"{crate}/src/**/*.rt", recursive=True)):
        with open(file, encoding="utf-8") as it:
            written[file] = it.read()
        if os.path.basename(crate).startswith("trial_") or "#[test]" in written[file]:
            texts[file] = blanked(written[file])
    if not any("#[test]" in text for text in texts.values()):
        return 0
    count = 0
    for file, text in texts.items():
        tables = [(name, rows) for name, kind, rows in tables_of(text, written[file]) if is_walked(name, kind, texts.values())]
        alone = alone_in(text)
        count += sum(rows for _, rows in tables) + alone
        if lists and (tables or alone):
            said = ", ".join([*(f"{name} {rows}" for name, rows in tables), f"alone {alone}"])
            print(f"{os.path.relpath(file, os.path.dirname(crate))}: {said}")
    return count


def main(top, *words):
    page = f"{top}/checks/cases.txt"
    is_written = words == ("--write",)
    counts = {}
    for crate in sorted(glob.glob(f"{top}/crates/*")):
        name = os.path.basename(crate)
        counts[name] = cases_of(crate, name in words)
    counts = {name: count for name, count in counts.items() if count}
    if is_written:
        with open(page, "w", encoding="utf-8") as file:
            file.write("".join(f"{name} {count}\n" for name, count in counts.items()))
    with open(page, encoding="utf-8") as file:
        wanted = {name: int(count) for name, count in (line.split() for line in file if line.strip())}
    fallen = [name for name, count in wanted.items() if counts.get(name, 0) < count]
    for name in fallen:
        print(f"cases: {name} has {counts.get(name, 0)} cases, and had {wanted[name]}", file=sys.stderr)
    print(f"cases: {sum(counts.values())} cases of {len(counts)} crates, of which {len(fallen)} have fewer than before")
    return 1 if fallen else 0


if __name__ == "__main__":
    sys.exit(main(*sys.argv[1:]))
