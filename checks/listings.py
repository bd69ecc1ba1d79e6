"""Listings of windows, made as their definition says and then spoilt, against what `verify` says of them.

The tiles of a window are found from the top, by which supertiles meet it: no search across edges, no table and no code
of the engine is used. Their lines are put in any order, and some addresses are cut where the frame goes on by itself.
Such a listing is right; and with one thing spoilt, on its first, a middle or its last line, the fault that is due must
come.
"""
import concurrent.futures
import os
import random
import subprocess
import sys
import tomllib

sys.dont_write_bytecode = True
from supertiles import address  # noqa: E402
from windows import GREATEST, Box, Frame, Tiling, drawn_base, shift_of  # noqa: E402

WINDOWS = 40  # of each rule
DEEPEST = 64
# the files of the rules that are built in, by their names
NAMES = {
    "ammann_beenker.toml": "ab",
    "chair.toml": "chair",
    "half_hex.toml": "halfhex",
    "penrose_p2.toml": "p2",
    "penrose_p3.toml": "p3",
}
# large windows, round tiles of these addresses
LARGE = [
    ("ab", "0:" + ",".join(["6/0"] * 12), "40,40"),
    ("p3", "0:", "60,60"),
    ("chair", "0:3/0", "90,45"),
]


class Line:
    """A line of a listing: what stands in it, and the tile, as (kind, turn, shift, digits), that it is of."""

    def __init__(self, frame, tile, draw):
        self.kind, self.turn, self.shift, digits = tile[0], tile[1], shift_of(tile), tile[3]
        self.digits = self.full = digits
        while self.digits and self.digits[-1] == frame.digits[len(self.digits) - 1] and draw.randrange(2):
            self.digits = self.digits[:-1]

    def copy(self, **changed):
        line = Line.__new__(Line)
        line.__dict__.update(self.__dict__, **changed)
        return line

    def text(self):
        return f"{self.kind} {self.turn} {','.join(map(str, self.shift))} {address((self.kind, self.digits))}\n"


def missing(frame, base_depth, lines, tile):
    """The note where the tile has no line: its address at the depth to which the other lines grow the frame, or at its
    own level where that is deeper."""
    least = max([base_depth, *(len(line.digits) for line in lines)])
    digits = tile.full
    while len(digits) > least and digits[-1] == frame.digits[len(digits) - 1]:
        digits = digits[:-1]
    return f"17 BadListing Missing {address((tile.kind, digits))}"


def spoilt(tiling, frame, base_depth, lines, draw):
    """Listings with one thing spoilt, or two, and the notes that are due."""
    for place in sorted({0, len(lines) // 2, len(lines) - 1}):
        yield from without_or_twice(frame, base_depth, lines, place, draw)
        yield from moved(tiling, lines, place, draw)
        yield from with_other_text(lines, place)
    yield from with_strangers(tiling, frame, base_depth, lines, draw)
    for stranger in outsiders(tiling, frame, draw):
        place = draw.randint(0, len(lines))
        yield lines[:place] + [stranger] + lines[place:], f"17 BadListing NotOfFrame {place + 1}"
        # a line twice is told behind one that isn't of the frame, and that behind one whose words are wrong
        yield [lines[0], *lines, stranger], f"17 BadListing NotOfFrame {len(lines) + 2}"
        yield [stranger, lines[0], *lines, "0\n"], f"17 BadListing BadLine {len(lines) + 3} 1"


def without_or_twice(frame, base_depth, lines, place, draw):
    """Listings without a line, and with it twice."""
    line, others = lines[place], lines[:place] + lines[place + 1 :]
    yield others, missing(frame, base_depth, others, line)
    again, full = draw.randint(place + 1, len(lines)), line.copy(digits=line.full)
    yield lines[:again] + [full] + lines[again:], f"17 BadListing Double {again + 1}"


def moved(tiling, lines, place, draw):
    """Listings with a line's tile in another place, and turned."""
    line, shift = lines[place], list(lines[place].shift)
    shift[draw.randrange(4)] += draw.choice((-1, 1))
    turn = (line.turn + draw.randint(1, tiling.ring.order - 1)) % tiling.ring.order
    motion = f"{line.turn} {','.join(map(str, line.shift))}"
    for other in (line.copy(shift=shift), line.copy(turn=turn), line.copy(turn=line.turn + tiling.ring.order)):
        yield lines[:place] + [other] + lines[place + 1 :], f"17 BadListing WrongPlace {place + 1} {motion}"


def with_other_text(lines, place):
    """Listings with a line whose words haven't their forms."""
    text, kind, number = lines[place].text(), lines[place].kind, place + 1
    for other, note in (
        (text.replace(":", ";"), f"Address {number} BadText {len(str(kind))}"),
        (text[:-1] + " x\n", f"BadLine {number} 4"),
        (text[:-1] + " \n", f"BadLine {number} 4"),
        (text.rpartition(" ")[0] + "\n", f"BadLine {number} 3"),
        (text.replace(",", ", ", 1), f"BadLine {number} 2"),
        (text.replace(" ", "  ", 1), f"BadLine {number} 1"),
        ("\n", f"BadLine {number} 0"),
        (str(kind + 1) + text[text.index(" ") :], f"BadKind {number}"),
    ):
        yield [*lines[:place], other, *lines[number:]], f"17 BadListing {note}"


def with_strangers(tiling, frame, base_depth, lines, draw):
    """Listings with the line of a tile that doesn't meet the window, and with one in the place of another."""
    near = Box(tiling.plane, tiling.point(frame.centre), (frame.half[0] + 3, frame.half[1] + 3))
    listed = {line.full for line in lines}
    strangers = [tile for tile in frame.tiles(near) if tile[3] not in listed]
    for tile in draw.sample(strangers, min(2, len(strangers))):
        place, stranger = draw.randint(0, len(lines)), Line(frame, tile, draw)
        yield lines[:place] + [stranger] + lines[place:], f"17 BadListing Stray {place + 1}"
        # a line renamed to a tile that doesn't meet the window: the tile that it was is missing
        place = draw.randrange(len(lines))
        renamed = Line(frame, tile, draw).copy(turn=lines[place].turn, shift=lines[place].shift)
        others = lines[:place] + [renamed] + lines[place + 1 :]
        yield others, missing(frame, base_depth, others, lines[place])


def outsiders(tiling, frame, draw):
    """A line that isn't of the frame: its supertile of some depth has another kind than the base's."""
    depth = draw.randint(0, len(frame.digits))
    top = frame.digits[depth - 1][1] if depth else frame.kind
    kinds = [kind for kind in range(len(tiling.kinds)) if kind != top]
    if not kinds:
        return
    kind, digits = draw.choice(kinds), ()
    for _ in range(depth):
        child = draw.randrange(len(tiling.kinds[kind]["children"]))
        digits = ((child, kind), *digits)
        kind = tiling.kinds[kind]["children"][child][0]
    yield Line(frame, (kind, 0, (0, 0, 0, 0), digits), draw)


def is_near(tiling, frame, box):
    """Whether a supertile round the base that is far within the limit of coordinates holds the window's centre."""
    inner = Frame(tiling, frame.kind, (), 0)
    for level in range(len(frame.digits) + 1):
        motion = tiling.inverse(inner.base)
        corners = [a + b for corner in tiling.corners(inner.top, level, motion[0]) for a, b in zip(corner, motion[1])]
        if max(map(abs, corners)) > GREATEST // 16:
            return False
        if box.has_centre_in(tiling.outline(inner.top, level, motion)):
            return True
        if level < len(frame.digits):
            inner.add(*frame.digits[level])
    return False


def window(tiling, draw):
    """The words of a call, and the frame grown to its window, the depth of the base and the lines; or None in place of
    these where the window is beyond the limits."""
    kind, digits = drawn_base(tiling, draw)
    seed, far = draw.randrange(2**64), draw.choice((1, 6, 6, 40))
    centre = [draw.randint(-far, far) if i < tiling.ring.size else 0 for i in range(4)]
    half = draw.randint(1, 4), draw.randint(1, 4)
    frame, box = Frame(tiling, kind, digits, seed), Box(tiling.plane, tiling.point(centre), half)
    frame.centre, frame.half = centre, half
    at = ",".join(map(str, centre))
    words = [f"seed={seed}", f"addr={address((kind, digits))}", f"at={at}", f"half={half[0]},{half[1]}"]
    while not frame.is_enough(box):
        if len(frame.digits) == DEEPEST:
            return words, None
        frame.grow()
    if not is_near(tiling, frame, box):
        return words, None
    lines = [Line(frame, tile, draw) for tile in frame.tiles(box)]
    draw.shuffle(lines)
    return words, (frame, len(digits), lines)


def text_of(listing):
    """The text of a listing, of whose lines some may be texts already."""
    return "".join(line if isinstance(line, str) else line.text() for line in listing)


def called(program, name, words, text):
    ran = subprocess.run([program, "verify", f"rule={name}", *words], input=text.encode(), capture_output=True)
    return ran.returncode, ran.stdout.decode(), ran.stderr.decode()


def compared(program, rules, file):
    """How many listings of a rule were right and how many spoilt, and those of which something else was said."""
    with open(os.path.join(rules, file), "rb") as source:
        tiling = Tiling(tomllib.load(source))
    draw, right, count, wrong = random.Random(file), 0, 0, []
    while right < WINDOWS:
        words, found = window(tiling, draw)
        if found is None:
            continue
        frame, depth, lines = found
        trials = [(lines, None), *spoilt(tiling, frame, depth, lines, draw)]
        right, count = right + 1, count + len(trials) - 1
        for listing, note in trials:
            wanted = (0, f"right {len(lines)}\n", "") if note is None else (17, "", f"{note}\n")
            text = text_of(listing)
            told = called(program, NAMES[file], words, text)
            if told != wanted:
                call = f"verify rule={NAMES[file]} {' '.join(words)}"
                wrong.append(f"{call}: {told!r} in place of {wanted!r} of {text[:600]!r}")
    return right, count, wrong


def drawn_otherwise(program, name, address, half):
    """What differs where what `draw` lists of a large window is verified: as many lines are right as the census counts."""
    words = [f"addr={address}", "at=0,0,0,0", f"half={half}"]
    run = lambda layers: subprocess.run([program, "draw", f"rule={name}", *words, f"layers={layers}"], capture_output=True)  # noqa: E731
    count = run("census").stdout.decode().split()[-1]
    told = called(program, name, words, run("list").stdout.decode())
    return [] if told == (0, f"right {count}\n", "") else [f"{name}: verify {' '.join(words)}: {told!r} in place of right {count}"]


def main(top, program):
    rules = os.path.join(top, "rules")
    with concurrent.futures.ProcessPoolExecutor(os.cpu_count()) as pool:
        results = list(pool.map(compared, [program] * len(NAMES), [rules] * len(NAMES), NAMES))
    wrong = [line for *_, lines in results for line in lines]
    for name, base, half in LARGE:
        wrong += drawn_otherwise(program, name, base, half)
    for line in wrong[:20]:
        print(f"listings: {line[:1500]}", file=sys.stderr)
    right, bad = sum(n for n, *_ in results), sum(n for _, n, _ in results)
    print(f"listings: {len(NAMES)} rules, {right + len(LARGE)} right and {bad} spoilt listings verified, {len(wrong)} differ")
    sys.exit(1 if wrong else 0)


if __name__ == "__main__":
    main(*sys.argv[1:])
