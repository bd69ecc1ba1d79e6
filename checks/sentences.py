"""Long sentences, wide lines and avoided words of the documents and of comments: see sentences.sh. Called with the top,
and with the names of the documents, crates or sources of which everything is to be listed."""
import glob
import os
import re
import sys

LONGEST, WIDEST, SHOWN = 30, 110, 5
# how many long sentences, wide lines and avoided words a document may have; none without a row here
ALLOWED = {}
# how many words a document may have, so that it reads in three minutes: a command, a formula or a quotation is one
WORDS = {"README.md": 750}
# how many lines a document may have
LENGTHS = {"README.md": 110}
# what has a plainer word, and is never meant otherwise; CONTRIBUTING has those that we meet most
AVOIDED = [
    r"but for", r"but that", r"nothing but", r"be it", r"want of memory", r"memory is wanting", r"is (wanting|lacking)",
    r"(says?|said) (its|their) words", r"(is|are|was|were) told", r"tells?", r"(isn't|aren't|wasn't) there", r"hasn't (an?|the|its|this|no)\b",
    r"wherever", r"exactly (there )?where", r"and else", r"else (it|they|the|a)\b", r"each once",
    r"just one", r"one alone", r"the (only|first) such(?! (value|format|line)\b)", r"likewise", r"so too", r"so it is with",
    r"is so(?= (of|for|with|exactly)|[.,;:])",
    r"whoever", r"everybody", r"behind", r"beside", r"one like(s|d)\b", r"round (?=(an?|the|it|its|them|each|every|this|that|one|both|vertex)\b)",
    r"stands?\b(?! (for|on)\b)", r"(is|are|be) had", r"(is|are) due", r"it is meant", r"(has|have|had) to be", r"start numbers?",
    r"half extents?", r"spoilt", r"foreign", r"dear(est)?", r"cures?", r"some (?=[\d.]+)", r"(only )?so many", r"a (hundredth|fourth) of",
    r"in place of", r"anew", r"mostly", r"as it must", r"apart from the engine", r"at hand", r"by the clock",
]
WORD = re.compile("|".join(rf"\b{word}\b" for word in AVOIDED), re.I)


def documents(top):
    """The names of all documents, and the crates, of which the comments are counted."""
    folders = ("", "crates/", "rules/", "docs/")
    pages = [f"{folder}{name}" for folder in folders for name in sorted(os.listdir(f"{top}/{folder}")) if name.endswith(".md")]
    return [*pages, "docs/HELP.txt", "docs/tiling.1", *sorted(os.path.relpath(path, top) for path in glob.glob(f"{top}/crates/*/"))]


def files_of(top, name):
    """The files of a document: itself, or the sources of a crate."""
    if not os.path.isdir(f"{top}/{name}"):
        return [name]
    return sorted(os.path.relpath(path, top) for path in glob.glob(f"{top}/{name}/src/*.rt"))


def is_shown(mark, line, in_trait):
    """Whether a comment of this mark before this line is read by users of a crate: that of a file, of a public item, of
    a variant, of a method of a public trait, or of a group of clauses."""
    if mark == "///":
        return in_trait or re.match(r"\s*pub |\s+[A-Z]\w*\s*([,{(]|$)", line)
    return mark == "//!" or re.match(r"\s*(ensures|requires)\b", line)


def comments(source):
    """The shown comments of a source as prose, each in its line, and all other lines empty."""
    lines, shown, mark, below = source.split("\n"), [], None, ""
    traits = [(found.start(), found.end()) for found in re.finditer(r"^pub trait .*?^\}", source, re.M | re.S)]
    at = len(source) + 1
    for line in reversed(lines):
        at -= len(line) + 1
        found = re.match(r"\s*(//[/!]?)(?: |$)(.*)", line)
        if found is None:
            below, mark = (below if re.match(r"\s*#\[", line) else line), None
            shown.append("")
            continue
        if found[1] != mark:
            mark, is_read = found[1], is_shown(found[1], below, any(start < at < end for start, end in traits))
        shown.append(found[2] if is_read else "")
    return "\n".join(reversed(shown))


def manual_lines(text):
    """The lines of a man page as prose. A request of the macros ends the sentence before it, unless it only sets a
    font; what follows .TP is a heading."""
    is_heading = False
    for line in text.split("\n"):
        if is_heading or re.match(r"\.(?!(B|I|BR|IR|BI|RB)\b)", line):
            yield ""
        elif line.startswith("."):
            yield re.sub(r"\s+", " ", line.split(" ", 1)[-1].replace('"', ""))
        else:
            yield re.sub(r"\\(f.|\(..|[-e ])", "", line)
        is_heading = line.startswith(".TP")


def blocks(name, text):
    """The pieces of a document that are prose, each with the number of its first line: paragraphs, entries of lists
    and cells of tables. No code, no commands and no output."""
    fenced, piece, first = False, [], 0
    lines = list(manual_lines(text)) if name.endswith(".1") else text.split("\n")
    for number, line in enumerate([*lines, ""], 1):
        if line.startswith("```"):
            fenced = not fenced
        is_deep, is_text = line.startswith("    "), name.endswith(".txt")
        is_code = fenced or (is_deep and not is_text) or re.match(r"```|\[\w+\]: |\s*(\./|\$ )", line)
        starts = not is_deep if is_text else re.match(r"\s*([-*] |\d+\. |#+ |\|)", line)
        if piece and (is_code or starts or not line.strip()):
            yield first, " ".join(piece)
            piece = []
        if is_code or not line.strip():
            continue
        if line.startswith("|"):
            for cell in re.split(r"(?<!\\)\|", line):
                yield number, cell
            continue
        if not piece:
            first = number
        piece.append(re.sub(r"^\s*([-*] |\d+\. |#+ )", "", line).strip())


def plain(text):
    """A piece of prose without the addresses of links, with one word for each piece of code, formula or quotation."""
    text = re.sub(r"`[^`]*`", "code", text)
    text = re.sub(r"“[^”]*”", "quotation", text)
    return re.sub(r"!?\[([^\]]*)\]\([^)]*\)", r"\1", text)


def sentences(text):
    """The sentences of a piece of prose."""
    return re.split(r"(?<=[.?!])[*\"')]*\s+(?=[\"'*(\[]*(?:[A-Z0-9]|code\b|quotation\b))", text)


def count(text, signs=""):
    """How many words a text has, and how many of these signs."""
    return sum(1 for word in text.split() if re.search(rf"[\w{signs}]", word))


def length(sentence):
    """How many words a sentence has. A sign between the terms of a formula is read as a word."""
    return count(sentence, signs=r"=<>≤≥+→-")


def wide_lines(name, text, prose):
    """The lines that could be broken and aren't: no rows of tables, no code, no commands, no pictures; of a source, the
    shown comments."""
    fenced = False
    for number, (line, shown) in enumerate(zip(text.split("\n"), prose.split("\n")), 1):
        fenced ^= shown.startswith("```")
        is_free = not shown or fenced or re.match(r"```|    |\||!\[|  ?\$? ?\./tiling|\$ tiling|\.", shown)
        if len(line) > WIDEST and not is_free:
            yield number, f"{len(line)} columns"


def faults(top, name):
    """The long sentences, the wide lines and the avoided words of a file, each with its line and what it is."""
    with open(os.path.join(top, name), encoding="utf-8") as file:
        text = file.read()
    prose = comments(text) if name.endswith(".rt") else text
    long, avoided = [], []
    for line, piece in blocks(name, prose):
        for sentence in sentences(plain(piece)):
            if length(sentence) > LONGEST:
                long.append((length(sentence), line, f"{length(sentence)} words: {sentence}"))
        avoided += [(line, found[0].strip()) for found in WORD.finditer(plain(piece))]
    return [(line, what) for _, line, what in sorted(long, reverse=True)], list(wide_lines(name, text, prose)), avoided


def sizes(top, name):
    """How many words and how many lines a document has."""
    with open(os.path.join(top, name), encoding="utf-8") as file:
        text = file.read()
    return sum(count(plain(piece)) for _, piece in blocks(name, text)), text.count("\n")


def faults_of(top, name):
    """The same of all files of a document, each with its place."""
    kinds = [], [], []
    for file in files_of(top, name):
        for kind, found in zip(kinds, faults(top, file)):
            kind += [f"{file}:{line}: {what}" for line, what in found]
    return kinds


def words_of(place):
    """How many words the long sentence of a place has."""
    return int(re.search(r": (\d+) words: ", place)[1])


def main():
    top, listed = sys.argv[1], sys.argv[2:]
    bad, total, worst = 0, [0, 0, 0], []
    for name in listed or documents(top):
        found = faults_of(top, name.rstrip("/"))
        numbers = [len(it) for it in found]
        total = [a + b for a, b in zip(total, numbers)]
        worst += found[0]
        for place in [it for kind in found for it in kind] if listed else []:
            print(place)
        allowed = ALLOWED.get(name, (0, 0, 0))
        for what, number, limit in zip(("long sentences", "wide lines", "avoided words"), numbers, allowed):
            if number > limit:
                print(f"sentences: {name} has {number} {what}, and may have {limit}", file=sys.stderr)
                bad += 1
            elif number < limit:
                print(f"sentences: {name} has {number} {what}, and may have {limit}: write {number} in checks/sentences.py")
    for which, (what, limits) in enumerate((("words", WORDS), ("lines", LENGTHS))):
        for name, limit in limits.items():
            number = sizes(top, name)[which]
            if number > limit:
                print(f"sentences: {name} has {number} {what}, and may have {limit}", file=sys.stderr)
                bad += 1
    for place in sorted(worst, key=words_of, reverse=True)[:SHOWN] if not listed else []:
        print(f"sentences: {place}")
    print(f"sentences: {total[0]} of more than {LONGEST} words, {total[1]} lines above {WIDEST} columns, {total[2]} avoided words")
    return 1 if bad else 0


sys.exit(main())
