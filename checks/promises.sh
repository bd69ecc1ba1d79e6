#!/bin/sh
# Reads the rows of docs/PROMISES.md that have a clause: each promise has at most 40 words, and each name in the column
# of clauses is a clause, a call, a type or a definition of crates/*/src or crates/*/specs. A name in parentheses after
# a call, and not after "by", is a clause of this call. In docs/THEOREM.md each clause and record after the name of a source
# in bold is in that source, line for line, and so is each name with a link. In docs/MATHEMATICS.md each file named with its
# crate is in specs/ of the crate. Then makes docs/made/CLAUSES.md, the public laws and calls with their clauses, and
# compares it. Ends with 1 if anything is not so.
#   checks/promises.sh --write      writes docs/made/CLAUSES.md, and what docs/THEOREM.md quotes
. "$(dirname "$0")/needs"
need python3
exec python3 - "$top" "$@" << 'END'
import glob, os, re, sys, textwrap

top, most, is_written = sys.argv[1], 40, sys.argv[2:] == ["--write"]
names = set()
for kind in ("src/*.rt", "specs/*.antt"):
    for file in glob.glob(f"{top}/crates/*/{kind}"):
        names |= set(re.findall(r"[A-Za-z_]\w*", open(file, encoding="utf-8").read()))
names |= {name.split("/")[-2] for name in glob.glob(f"{top}/crates/*/")}
clauses, last = {}, ""  # of each call, the labels
for file in glob.glob(f"{top}/crates/*/src/*.rt"):
    for call, label in re.findall(r"^ *(?:pub(?:\([^)]*\))? )?[a-z\"C ]*\bfn (\w+)|^ *ensures (\w+) \{", open(file, encoding="utf-8").read(), re.M):
        last = call or last
        clauses.setdefault(last, set()).update([label] if label else [])
bad, rows, labels, is_proved = [], 0, 0, False
for number, line in enumerate(open(f"{top}/docs/PROMISES.md", encoding="utf-8"), 1):
    if not line.startswith("|"):
        is_proved = False
        continue
    cells = re.split(r"(?<!\\)\|", line.strip()[1:-1])
    if re.search(r"[Cc]lause", cells[-1]) and not is_proved:
        is_proved = True
        continue
    if not is_proved or re.fullmatch(r"[-| ]+", line.strip()):
        continue
    rows += 1
    words = sum(1 for word in cells[0].split() if re.search(r"\w", word))
    if words > most:
        bad.append(f"line {number} has {words} words, and may have {most}")
    for code in re.findall(r"`([^`]*)`", cells[-1]):
        bad += [f"line {number} names {name}, which no crate has" for name in re.findall(r"[A-Za-z_]\w*", code) if name not in names]
    for calls, inner in re.findall(r"((?:`[^`]*`, )*`[^`]*`) \(([^()]*)\)", cells[-1]):
        of = set().union(*(clauses.get(call, set()) for call in re.findall(r"\w+", calls)))
        given = re.findall(r"`(\w+)`", re.split(r"\bby\b", inner)[0])
        labels += len(given)
        bad += [f"line {number} names {label}, which is no clause of {calls}" for label in given if label not in of]


def read(name):
    with open(f"{top}/{name}", encoding="utf-8") as file:
        return file.read()


def piece_of(source, head):
    """The clause or record of a source that begins so, as code of a page: a clause to its last brace, a record to the
    next empty line."""
    lines, piece = read(source).split("\n"), []
    for line in lines[next((at for at, line in enumerate(lines) if re.match(rf"\s*{re.escape(head)}\b", line)), len(lines)) :]:
        text = "\n".join(piece)
        if not line.strip() or (head.startswith("ensures") and piece and text.count("{") == text.count("}")):
            break
        piece.append(line)
    return textwrap.indent(textwrap.dedent("\n".join(piece)), "    ")


def quoted_clauses():
    """What THEOREM quotes is in the source named above it, line for line."""
    page = read("docs/THEOREM.md")
    quotes = re.findall(r"\*\*\[`[^`]*`\]\(\.\./([^)]*)\)\*\*.*?\n\n(    (ensures \w+|pub record \w+).*\n(?: {4}.*\n)*)", page)
    for source, quoted, head in quotes:
        now = piece_of(source, head) + "\n"
        if now != quoted and is_written and now.strip():
            page = page.replace(quoted, now)
            with open(f"{top}/docs/THEOREM.md", "w", encoding="utf-8") as file:
                file.write(page)
        elif now != quoted:
            bad.append(f"docs/THEOREM.md quotes {head}, which {source} has in other words")
    if len(quotes) != 4:
        bad.append(f"docs/THEOREM.md quotes {len(quotes)} pieces of sources, and should four")
    for told, source in re.findall(r"\[((?:`\w+`(?:, )?)+)\]\(\.\./(crates/[^)]*)\)", page):
        has = re.findall(r"\w+", read(source))
        bad.extend(f"docs/THEOREM.md names {name} of {source}, which lacks it" for name in re.findall(r"\w+", told) if name not in has)


def files_told():
    """Each file of definitions that MATHEMATICS names before its crate is there."""
    for line in read("docs/MATHEMATICS.md").split("\n\n"):
        for files, crate in re.findall(r"((?:`\w+(?:\.antt)?`(?:, | and )?)+) of\s+`(\w+)`", line):
            for name in re.findall(r"`(\w+)\.antt`", files):
                if not os.path.exists(f"{top}/crates/{crate}/specs/{name}.antt"):
                    bad.append(f"docs/MATHEMATICS.md names {name}.antt of {crate}, which is not there")


def is_public(file):
    """Whether the module of a source is one that other crates may name."""
    folder, name = os.path.split(file)
    roots = [root for root in (f"{folder}/lib.rt", f"{folder}/main.rt") if os.path.exists(f"{top}/{root}")]
    return file in roots or any(re.search(rf"^pub mod {name[:-3]};", read(root), re.M) for root in roots)


def public_calls(file):
    """The public calls of a source that have a clause: each with its owner, its name, its comment and its labels."""
    calls, comment, owner, is_trait, now, has_names = [], [], "", False, None, is_public(file)
    for line in read(file).split("\n"):
        opened = re.match(r"(?:pub )?(trait|impl)\b(?:<[^{]*?>)?\s*(?:[^{]* for )?(\w+)", line)
        if opened:
            owner, is_trait = opened[2], opened[1] == "trait"
        elif line.startswith("}"):
            owner, is_trait = "", False
        doc = re.match(r"\s*/// ?(.*)", line)
        if doc:
            comment.append(doc[1])
            continue
        call = re.match(r"^( *)(pub )?((?:const |unsafe |extern \"C\" )*)fn (\w+)", line)
        if call:
            now = None
            if 'extern "C"' in call[3] or has_names and "/tiling_c/" not in file and (call[2] or (is_trait and call[1])):
                now = (owner if call[1] else "", call[4], list(comment), [])
                calls.append([now, False])
        clause = re.match(r"\s*ensures (\w+)? ?\{", line)
        if clause and now:
            calls[-1][1] = True
            now[3].extend([clause[1]] if clause[1] else [])
        if not re.match(r"\s*#\[", line):
            comment = []
    return [call for call, has_clause in calls if has_clause]


def told(name, comment):
    """The first sentence of a call's comment, or the first paragraph of a law's."""
    ends = (number for number, line in enumerate(comment) if not line or re.match(r"[-|#] ?|\d\. ", line))
    text = re.sub(r"\[(`[^`]*`)\](?:\([^)]*\))?", r"\1", " ".join(comment[: next(ends, len(comment))]))
    first = re.match(r".*?[.](?=\s+[A-Z`\[]|$)", text)
    return (text if name.endswith("_law") or not first else first[0]).replace("|", "\\|")


def clauses_page():
    lines = ["# Clauses", ""]
    lines += textwrap.wrap("For readers of proofs: the public laws and calls that have clauses, by crate, from the bottom up, with their "
                           "comments. A law is a function without a body whose clause is a theorem. [PROMISES](../PROMISES.md) says in words what they carry together. "
                           "`checks/promises.sh --write` makes this page from the sources.", 110)
    crates = [line.split("#")[0].split(":")[0].split()[0] for line in read("crates.txt").split("\n") if line.split("#")[0].strip()]
    count = 0
    for crate in crates:
        rows = []
        for path in sorted(glob.glob(f"{top}/crates/{crate}/src/*.rt")) if not crate.startswith("trial_") else []:
            file = os.path.relpath(path, top)
            for owner, name, comment, labels in public_calls(file):
                call = f"{owner}::{name}" if owner else name
                rows.append(f"| [`{call}`](../../{file}) | {told(name, comment)} | {', '.join(f'`{label}`' for label in labels)} |")
        count += len(rows)
        lines += ["", f"## {crate}", "", "| Call | What it does, or states | Clauses |", "|---|---|---|", *rows] if rows else []
    return "\n".join(lines) + "\n", count


quoted_clauses()
files_told()
made, calls_made = clauses_page()
page = f"{top}/docs/made/CLAUSES.md"
if is_written:
    with open(page, "w", encoding="utf-8") as file:
        file.write(made)
elif not os.path.exists(page) or open(page, encoding="utf-8").read() != made:
    bad.append("docs/made/CLAUSES.md isn't what checks/promises.sh --write makes")
for fault in bad:
    print(f"promises: {fault}", file=sys.stderr)
print(f"promises: {rows} rows with {labels} clauses of calls, {calls_made} public calls with clauses, {len(bad)} faults")
sys.exit(1 if bad else 0)
END
