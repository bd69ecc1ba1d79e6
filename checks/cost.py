"""Instructions of calls, by callgrind, against the tables of docs/COST.md: see cost.sh. Called with the top, the program,
and --all to print every figure."""
import concurrent.futures
import dataclasses
import os
import re
import subprocess
import sys

MARGIN = 0.03
# the columns of the tables: each rule's name in a call, and its file
RULES = {
    "chair": ("chair", "chair"),
    "P2": ("p2", "penrose_p2"),
    "P3": ("p3", "penrose_p3"),
    "Ammann-Beenker": ("ab", "ammann_beenker"),
    "half-hex": ("halfhex", "half_hex"),
}
# the figures that are counted, by their rows: a census for each rule, since it takes what all pictures take
WHOLE = {"neighbour": ["chair", "P3"], "check": ["P3"]}
DRAWN = {"`layers=census`": list(RULES), "`layers=list`": ["chair", "P3"], "`layers=svg`": ["chair", "P3"]}
GLUED = {"P3": ["census", "list", "svg"]}


@dataclasses.dataclass(frozen=True)
class Call:
    """Words of the program, and what it reads."""

    words: str
    text: bytes = b""

    def instructions(self, program):
        tool = ["valgrind", "--tool=callgrind", "--callgrind-out-file=/dev/null", program, *self.words.split()]
        told = subprocess.run(
            tool, input=self.text, env={"PATH": os.environ["PATH"]}, stdout=subprocess.DEVNULL, stderr=subprocess.PIPE
        ).stderr
        return int(re.search(rb"Collected : ([0-9]+)", told)[1])


@dataclasses.dataclass
class Figure:
    """A figure of the tables, the call that it is of, the call that it leaves out, and what the rest is divided by."""

    told: int
    call: Call
    left_out: Call
    parts: int = 1

    def counted(self, counts):
        return (counts[self.call] - counts[self.left_out]) / self.parts


def number(text):
    return int(text.replace(",", ""))


def table(document, title):
    """The rows of a section's table: the first cell of each, and the others by the rule of their column."""
    section = document.split(f"\n## {title}\n")[1].split("\n## ")[0]
    rows = [[cell.strip() for cell in line.strip("|").split("|")] for line in section.split("\n") if line.startswith("|")]
    return [(row[0], dict(zip(rows[0][1:], row[1:]))) for row in rows[2:]]


def whole_calls(top, rows):
    """What calls take beyond the start, which is all that a call without words takes."""
    for (name, cells), (_, places) in zip(rows, rows[1:] + [("", {})]):
        command = re.match(r"`(\w+)", name)
        for rule in WHOLE.get(command and command[1], []):
            told = number(re.search(r"\((.*)\)", cells[rule])[1])
            if command[1] == "check":
                with open(f"{top}/rules/{RULES[rule][1]}.toml", "rb") as file:
                    call = Call("check rule=-", file.read())
            else:
                further = " edge=0" if "edge=0" in name else ""
                call = Call(f"{command[1]} rule={RULES[rule][0]} addr={places[rule].strip('`')}{further}")
            yield Figure(told, call, Call(""))


def drawings(rows):
    """What a tile, or a half of one, takes beyond the least window."""
    cells = dict(rows)
    sizes = {rule: cell.split("; ") for rule, cell in cells["`half=`; tiles"].items()}
    told = {(layer, rule): cells[layer][rule] for layer, rules in DRAWN.items() for rule in rules}
    for (layer, rule), cost in told.items():
        yield drawn(cost, rule, sizes[rule], layer.strip("`"))
    row = next(name for name in cells if name.startswith("with `glue=yes`"))
    for rule, layers in GLUED.items():
        for layer, cost in zip(layers, cells[row][rule].split(", ")):
            yield drawn(cost, rule, sizes[rule], f"layers={layer} glue=yes")


def drawn(cost, rule, size, further):
    half, tiles = size
    words = f"draw rule={RULES[rule][0]} seed=42 addr=0: at=0,0,0,0 {further} half="
    return Figure(number(cost), Call(words + half), Call(words + "1,1"), number(tiles))


def counted(program, figures):
    """The instructions of each call, as many at a time as there are processors."""
    calls = {call for figure in figures for call in (figure.call, figure.left_out)}
    with concurrent.futures.ThreadPoolExecutor(len(os.sched_getaffinity(0))) as pool:
        return dict(zip(calls, pool.map(lambda call: call.instructions(program), calls)))


def main():
    top, program, *words = sys.argv[1:]
    with open(f"{top}/docs/COST.md", encoding="utf-8") as file:
        document = file.read()
    figures = [*whole_calls(top, table(document, "Whole calls")), *drawings(table(document, "Drawing"))]
    counts = counted(program, figures)
    bad = 0
    for figure in figures:
        count = figure.counted(counts)
        is_bad = abs(count - figure.told) > MARGIN * figure.told
        bad += is_bad
        if is_bad or words == ["--all"]:
            said = f"cost: {figure.call.words}: {count:,.0f}, and docs/COST.md has {figure.told:,}"
            print(said, file=sys.stderr if is_bad else sys.stdout)
    print(f"cost: {len(figures)} figures counted, {bad} differ by more than {MARGIN:.0%}")
    return 1 if bad else 0


sys.exit(main())
