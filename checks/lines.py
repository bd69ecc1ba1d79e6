"""What makes contracts and proofs hard to read: see lines.sh. Called with the top, and with the names of the crates of
which everything is to be listed."""
import glob
import os
import re
import sys
from collections import Counter

SHOWN = 3
# what is counted, and how much of it there may be
CEILINGS = {
    "clause lines above 110 columns": 0,
    "proof lines above 150 columns": 0,
    "calls with more than 10 clauses": 4,
    "copies in answers": 297,
    "lines of definitions above 110 columns": 0,
    "clause lines said again in their crate": 399,
    "functions with five and more parameters": 106,
}
CLAUSE_WIDTH, PROOF_WIDTH, MOST_CLAUSES, LEAST_COPIES, LEAST_LENGTH = 110, 150, 10, 3, 12
MOST_PARAMETERS, LEAST_SAID = 4, 40  # a clause that is said again has more characters than that
# names that say who speaks, and not what is said
SPEAKERS = (
    ("machine.now", "M"), ("t.rule", "M"), ("self.machine.now", "M"), ("(frame_in frame.now)", "frame.old"),
    ("frame_in frame.now", "frame.old"), ("(window_in M.order window.now)", "window.now"), ("self.old", "frame.old"),
    ("self.new", "frame.new"),
)
FUNCTION = re.compile(r"(?m)^ *(?:pub(?:\(\w+\))? )?(?:const )?(?:unsafe )?(?:extern \"C\" )?fn (\w+)(?:<[^(]*>)?\(([^)]*)\)")
CLAUSE = re.compile(r"\s*(requires|ensures|invariant|decreases)\b.*\{")
CALL = re.compile(r"\s*(?:pub(?:\(\w+\))? )?(?:const )?(?:unsafe )?(?:extern \"C\" )?fn (\w+)")


def read(name):
    with open(name, encoding="utf-8") as file:
        return file.read().split("\n")


def clauses(lines):
    """Each clause of a file: the function that has it, and its lines with their numbers."""
    name, clause, depth = "", [], 0
    for number, line in enumerate(lines, 1):
        call = CALL.match(line)
        if call and not clause:
            name = call[1], number
        if clause or CLAUSE.match(line):
            clause.append((number, line))
            depth += line.count("{") - line.count("}")
            if depth <= 0:
                yield name, clause
                clause, depth = [], 0


def wide_clauses(lines):
    for _, clause in clauses(lines):
        for number, line in clause:
            if len(line) > CLAUSE_WIDTH:
                yield len(line), number, f"{len(line)} columns"


def crowded_calls(lines):
    for (name, number), count in Counter(name for name, clause in clauses(lines) if name).items():
        if count > MOST_CLAUSES:
            yield count, number, f"{name} has {count} clauses"


def wide_proofs(lines):
    for number, line in enumerate(lines, 1):
        if len(line) > PROOF_WIDTH and not re.match(r"(pub )?use ", line):
            yield len(line), number, f"{len(line)} columns"


def steps(lines):
    """The steps of a file's proofs, however their lines are wrapped: what each let names, and what each proof ends with."""
    step, start = [], 0
    for number, line in enumerate(lines, 1):
        if line.startswith(("use ", "--")) or line.strip().startswith("--"):
            continue
        for part in re.split(r"(?=\blet )|(?<= in)$|(?<= in )", line if line[:1] == " " else "\n" + line):
            if part.startswith(("let ", "\n")) or (step and step[-1].endswith(" in")):
                yield start, " ".join(" ".join(step).split())
                step, start = [], number
            step.append(part.strip())
    yield start, " ".join(" ".join(step).split())


def copies(lines):
    """For each step that is in a file at least three times, how many of its copies are the third or a further one."""
    places = {}
    for number, step in steps(lines):
        if len(step) >= LEAST_LENGTH:
            places.setdefault(step, []).append(number)
    for step, found in places.items():
        if len(found) >= LEAST_COPIES:
            yield len(found) - LEAST_COPIES + 1, found[0], f"{len(found)} times {step[:60]}"


def wide_definitions(lines):
    for number, line in enumerate(lines, 1):
        if len(line) > CLAUSE_WIDTH and not re.match(r"(pub )?use ", line):
            yield len(line), number, f"{len(line)} columns"


def crowded_functions(lines):
    text = "\n".join(lines)
    for found in FUNCTION.finditer(text):
        count = sum(bool(it.strip()) for it in re.sub(r"<[^<>]*>|\[[^\]]*\]", "", found[2]).split(","))
        if count > MOST_PARAMETERS:
            yield count, text.count("\n", 0, found.start()) + 1, f"{found[1]} has {count} parameters"


def said(clause):
    """What a clause says, without its label and without who says it."""
    text = re.sub(r"^(requires|ensures)( \w+)?", r"\1", " ".join(" ".join(line for _, line in clause).split()))
    for speaker, name in SPEAKERS:
        text = text.replace(speaker, name)
    return text


def said_again(top, crates):
    """The clauses of the product that an earlier clause of their crate says, too."""
    for crate in crates:
        known = set()
        for file in [] if crate.startswith("trial_") else sorted(glob.glob(f"{top}/crates/{crate}/src/**/*.rt", recursive=True)):
            for (name, _), clause in clauses(read(file)):
                text = said(clause)
                if len(text) > LEAST_SAID and text in known and text.startswith(("requires", "ensures")):
                    yield len(clause), f"{os.path.relpath(file, top)}:{clause[0][0]}", f"{name}: {text[:70]}"
                known.add(text)


def found(top, crates):
    """What each count finds: its size, its file with the line, and what it is."""
    names = lambda pattern: [it for crate in crates for it in sorted(glob.glob(f"{top}/crates/{crate}/{pattern}", recursive=True))]  # noqa: E731
    kinds = [(names("src/*.rt"), wide_clauses), (names("proofs/**/*.antt"), wide_proofs), (names("src/*.rt"), crowded_calls)]
    kinds.append((names("proofs/**/Answers.antt"), copies))
    kinds.append((names("specs/**/*.antt"), wide_definitions))
    product = [it for it in names("src/**/*.rt") if not it.startswith(f"{top}/crates/trial_")]
    kinds.append((product, crowded_functions))
    titles = [title for title in CEILINGS if title != "clause lines said again in their crate"]
    for title, (files, look) in zip(titles, kinds):
        rows = [(size, f"{os.path.relpath(file, top)}:{line}", what) for file in files for size, line, what in look(read(file))]
        yield title, sum(size for size, _, _ in rows) if look is copies else len(rows), sorted(rows, reverse=True)
    rows = sorted(said_again(top, crates), reverse=True)
    yield "clause lines said again in their crate", sum(size for size, _, _ in rows), rows


def main():
    top, listed = sys.argv[1], sys.argv[2:]
    crates = listed or sorted(os.listdir(f"{top}/crates"))
    bad = 0
    for title, count, rows in found(top, crates):
        print(f"lines: {count} {title}")
        for _, where, what in rows if listed else rows[:SHOWN]:
            print(f"lines:   {where}: {what}")
        limit = count if listed else CEILINGS[title]
        if count > limit:
            print(f"lines: {count} {title}, and there may be {limit}", file=sys.stderr)
            bad += 1
        elif count < limit:
            print(f"lines: {title}: there may be {limit}; write {count} in checks/lines.py")
    return 1 if bad else 0


sys.exit(main())
