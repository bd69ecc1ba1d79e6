"""The tiles round a vertex, found as their definition says, against what `star` prints.

In a whole supertile they are those of its list that have the vertex. Where the vertex lies on its boundary, or the base is
deep in a supertile of many levels, the frame grows by words made here until the vertex is on no edge of its polygon, and
the tiles are found from the top. They are put in order by the ends of their edges. Points are lists of whole coefficients;
no step from tile to tile by addresses, no table and no code of the engine is used.

The halves that `star` prints of Penrose's tilings and of Ammann-Beenker are joined to whole tiles: their stars are those of
the literature, as often as it says. And where very many tiles meet, 64 are printed and 65 are refused.
"""
import collections
import concurrent.futures
import math
import os
import random
import subprocess
import sys
import tomllib

sys.dont_write_bytecode = True
sys.path.append(os.path.join(os.path.dirname(os.path.abspath(__file__)), "..", "tools"))
from fan_rule import RULES, fan_rule  # noqa: E402
from supertiles import Supertile, address  # noqa: E402
from windows import Box, Frame, Tiling, drawn_base, shift_of  # noqa: E402

DRAWN = 20  # vertices of tiles at drawn addresses of each rule
CORNERED = 5  # vertices of tiles that are one child again and again, up to the greatest depth
DEPTH = 3  # of the whole supertiles
DEEPEST = 64
MOST = 64  # tiles of a star


class Spot(Box):
    """A point, asked what a window is asked: it meets the edges that it is on, and the polygons that it is in."""

    def __init__(self, plane, point):
        super().__init__(plane, point, (0, 0))

    def meets_edge(self, p, q):
        less, turn = self.plane.is_less, self.plane.turn(p, q, self.centre)
        beyond = any(
            less(c, a) and less(c, b) or less(a, c) and less(b, c) for c, a, b in zip(self.centre, p, q)
        )
        return turn == 0 and not beyond


class Corner:
    """A tile, as (kind, turn, shift, digits), and one of its vertices, with those before and behind it."""

    def __init__(self, tile, vertex, outline):
        self.tile, self.vertex, self.point = tile, vertex, outline[vertex]
        self.edge = (vertex - 1) % len(outline)  # that ends at the vertex
        self.before, self.behind = outline[self.edge], outline[(vertex + 1) % len(outline)]

    def name(self):
        return address((self.tile[0], self.tile[3]))

    def line(self):
        kind, turn, *_ = self.tile
        return f"{kind} {turn} {','.join(map(str, shift_of(self.tile)))} {self.name()} {self.vertex}\n"


def corners(tiling, tiles):
    for tile in tiles:
        kind, turn, shift, _ = tile
        outline = [tuple(a + b for a, b in zip(v, shift)) for v in tiling.corners(kind, 0, turn)]
        for vertex in range(len(outline)):
            yield Corner(tile, vertex, outline)


def in_turn(base, corners):
    """Of the corners at a point the base, and behind each the one across its edge that ends there; and whether the base
    comes again behind the last, which must then be the last of all."""
    across = {corner.behind: corner for corner in corners}
    assert len(across) == len(corners), "two tiles have one edge"
    turn = [base]
    while turn[-1].before in across:
        corner = across[turn[-1].before]
        if corner is base:
            assert len(turn) == len(corners), "a tile has the vertex and none of its edges leads there"
            return turn, True
        turn.append(corner)
    return turn, False


def answer(turn, comes_back):
    """The status, what is printed and what is noted."""
    if len(turn) > MOST:
        return 16, "", "16 StarTooBig\n"
    if comes_back:
        return 0, "".join(corner.line() for corner in turn), ""
    return 5, "", f"5 DepthLimit {turn[-1].name()} {turn[-1].edge}\n"


def in_frame(tiling, kind, digits, vertex, seed):
    """What must come of a vertex of a base, in a frame that grows as far as it must."""
    frame, point = Frame(tiling, kind, digits, seed), tiling.corners(kind, 0, 0)[vertex]
    spot = Spot(tiling.plane, point)
    while not frame.is_enough(spot) and len(frame.digits) < DEEPEST:
        frame.grow()
    found = [corner for corner in corners(tiling, frame.tiles(spot)) if corner.point == point]
    (base,) = [corner for corner in found if corner.tile[3] == tuple(frame.digits) and corner.tile[0] == kind]
    assert base.vertex == vertex and base.tile[1:3] == (0, (0,) * tiling.ring.size)
    turn, comes_back = in_turn(base, found)
    assert comes_back == frame.is_enough(spot)
    return answer(turn, comes_back)


class Listed:
    """A whole supertile, and its corners by the point where they are."""

    def __init__(self, tiling, rule, kind, depth):
        self.tiling, self.at = tiling, collections.defaultdict(list)
        tiles = [(own, turn, shift, digits) for own, digits, turn, shift in Supertile(tiling.ring, rule, kind, depth).tiles]
        self.corners = list(corners(tiling, tiles))
        for corner in self.corners:
            self.at[corner.point].append(corner)

    def from_base(self, corner, base):
        """The corner where the base stands on its prototile."""
        back = self.tiling.inverse(base.tile[1:3])
        motion = self.tiling.composed(back, corner.tile[1:3])
        (tile,) = [(corner.tile[0], *motion, corner.tile[3])]
        return next(moved for moved in corners(self.tiling, [tile]) if moved.vertex == corner.vertex)

    def wanted(self, base, seed):
        """What must come of a corner."""
        turn, comes_back = in_turn(base, self.at[base.point])
        if comes_back:
            return answer([self.from_base(corner, base) for corner in turn], True)
        kind, _, _, digits = base.tile
        return in_frame(self.tiling, kind, digits, base.vertex, seed)


def trials(tiling, rule, drawn):
    """Words, and what must come of them."""
    listed = [Listed(tiling, rule, kind, DEPTH) for kind in range(len(tiling.kinds))]
    for supertile, corner in ((supertile, corner) for supertile in listed for corner in supertile.corners):
        seed = drawn.choice((0, drawn.randrange(2**64)))
        words = [f"addr={corner.name()}", f"vertex={corner.vertex}", *([f"seed={seed}"] if seed else [])]
        yield words, supertile.wanted(corner, seed)
    for _ in range(DRAWN):
        kind, digits = drawn_base(tiling, drawn)
        vertex, seed = drawn.randrange(len(tiling.kinds[kind]["vertices"])), drawn.randrange(2**64)
        words = [f"addr={address((kind, digits))}", f"vertex={vertex}", f"seed={seed}"]
        yield words, in_frame(tiling, kind, digits, vertex, seed)
    same = [(k, n) for k, kind in enumerate(tiling.kinds) for n, child in enumerate(kind["children"]) if child[0] == k]
    for _ in range(CORNERED if same else 0):
        kind, child = drawn.choice(same)
        vertex, digits = drawn.randrange(len(tiling.kinds[kind]["vertices"])), ((child, kind),) * DEEPEST
        words = [f"addr={address((kind, digits))}", f"vertex={vertex}"]
        yield words, in_frame(tiling, kind, digits, vertex, 0)


def called(program, words, text):
    ran = subprocess.run([program, *words, "rule=-"], input=text, capture_output=True)
    return ran.returncode, ran.stdout.decode(), ran.stderr.decode()


def differing(name, words, told, wanted):
    return [] if told == wanted else [f"{name}: star {' '.join(words)}: {told!r} in place of {wanted!r}"]


def compared(program, name, text):
    """How many stars of a rule were compared, how many of them are refused, and those that differ."""
    rule, drawn, wrong, count = tomllib.loads(text.decode()), random.Random(name), [], collections.Counter()
    tiling = Tiling(rule)
    for words, wanted in trials(tiling, rule, drawn):
        count[wanted[0]] += 1
        wrong += differing(name, words, called(program, ["star", *words], text), wanted)
    edges = len(rule["kind"][0]["vertices"])
    wanted = 15, "", f"15 NoVertex {edges} {edges}\n"
    wrong += differing(name, ["addr=0:"], called(program, ["star", "addr=0:", f"vertex={edges}"], text), wanted)
    return count, wrong


# Of rules that cut tiles in halves: which whole tile each kind is half of; how deep a supertile is asked; and the stars of
# whole tiles, each with its tiles and the share of all vertices that has it. Where two have the same tiles, the type of
# the edges between these is told as well. The rhombs' stars have de Bruijn's names, those of kites and darts Conway's.
GOLDEN, SILVER, ROOT = (1 + math.sqrt(5)) / 2, 1 + math.sqrt(2), math.sqrt(5)
WHOLES = {
    "penrose_p3": (
        ("thin", "thin", "thick", "thick"),
        8,
        {
            "D": ("2 thick 1 thin", GOLDEN**-2),
            "J": ("3 thick 2 thin", GOLDEN**-3),
            "Q": ("1 thick 2 thin", GOLDEN**-4),
            "K": ("3 thick 1 thin", GOLDEN**-5),
            "S3": ("3 thick 4 thin", GOLDEN**-6),
            "S4": ("4 thick 2 thin", GOLDEN**-7),
            "S": ("5 thick by type 2", GOLDEN**-5 / ROOT),
            "S5": ("5 thick by type 0", GOLDEN**-7 / ROOT),
        },
    ),
    "penrose_p2": (
        ("kite", "kite", "dart", "dart"),
        7,
        {
            "ace": ("1 dart 2 kite", GOLDEN**-2),
            "deuce": ("2 dart 2 kite", GOLDEN**-3),
            "jack": ("2 dart 3 kite", GOLDEN**-4),
            "queen": ("1 dart 4 kite", GOLDEN**-5),
            "king": ("3 dart 2 kite", GOLDEN**-6),
            "sun": ("5 kite", GOLDEN**-4 / ROOT),
            "star": ("5 dart", GOLDEN**-6 / ROOT),
        },
    ),
    "ammann_beenker": (
        ("rhomb", "square", "square"),
        4,
        {
            "three": ("2 rhomb 1 square", SILVER**-1),
            "four": ("2 rhomb 2 square", 2 * SILVER**-2),
            "five": ("2 rhomb 3 square", 2 * SILVER**-3),
            "six": ("4 rhomb 2 square", 2 * SILVER**-4),
            "seven": ("6 rhomb 1 square", SILVER**-5),
            "eight": ("8 rhomb", SILVER**-4),
        },
    ),
}


def whole_star(tiling, names, lines, stars):
    """The name of the star of the whole tiles of the halves that lines say, or what it is where it has none: two halves
    are one tile where the edge between them is a glue edge."""
    tiles, between = collections.Counter(), set()
    for line in lines.splitlines():
        kind, *_, vertex = map(int, (line.split()[0], line.split()[-1]))
        edge = tiling.kinds[kind]["edges"][vertex - 1]
        if edge not in tiling.glued:
            tiles[names[kind]] += 1
            between.add(edge - edge % 2)
    text = " ".join(f"{number} {name}" for name, number in sorted(tiles.items()))
    full = f"{text} by type {min(between)}"
    return next((name for name, (own, _) in stars.items() if own in (text, full)), full)


def counted(program, name, text):
    """How many vertices inside a supertile have each star of whole tiles, by what is printed, and what differs."""
    names, depth, stars = WHOLES[name]
    rule, wrong, found = tomllib.loads(text.decode()), [], collections.Counter()
    tiling = Tiling(rule)
    for base, *others in Listed(tiling, rule, 0, depth).at.values():
        turn, comes_back = in_turn(base, [base, *others])
        if comes_back:
            told = called(program, ["star", f"addr={base.name()}", f"vertex={base.vertex}"], text)
            found[whole_star(tiling, names, told[1], stars)] += 1
            count = len(told[1].splitlines())
            if told[0] or count != len(turn):
                wrong.append(f"{name}: star of {base.name()} {base.vertex}: {told!r} in place of {len(turn)} tiles")
    all_of = sum(found.values())
    for star in found.keys() | stars.keys():
        share = stars[star][1] if star in stars else 0
        if not found[star] or abs(found[star] - share * all_of) > math.sqrt(all_of):
            wrong.append(f"{name}: {found[star]} of {all_of} vertices have the star {star}, in place of {share:.4f} of them")
    return found, wrong


def crowded(top, program):
    """What differs of stars of very many tiles, and of the files of rules that have them."""
    wrong = []
    for number, (cut, corners) in RULES.items():
        text, (kind, digits), vertex = fan_rule(cut, corners)
        path = os.path.join(top, "crates", "trial_rule_files", "data", f"{number}_round_a_vertex.toml")
        if os.path.exists(path):
            with open(path, encoding="utf-8") as file:
                wrong += [] if file.read() == text else [f"{path} isn't what tools/fan_rule.py makes"]
        wanted = in_frame(Tiling(tomllib.loads(text)), kind, digits, vertex, 0)
        assert len(wanted[1].splitlines()) == (number if number <= MOST else 0)
        words = [f"addr={address((kind, digits))}", f"vertex={vertex}"]
        wrong += differing(f"{number} tiles", words, called(program, ["star", *words], text.encode()), wanted)
    return wrong


def tried(program, path):
    """What comes of a rule file: how many answers have each status, how many vertices each star, and what differs."""
    name = os.path.basename(path).removesuffix(".toml")
    with open(path, "rb") as file:
        text = file.read()
    statuses, wrong = compared(program, name, text)
    found, more = counted(program, name, text) if name in WHOLES else ({}, [])
    return statuses, found, wrong + more


def main(top, program):
    rules = os.path.join(top, "rules")
    paths = sorted(os.path.join(rules, name) for name in os.listdir(rules) if name.endswith(".toml"))
    with concurrent.futures.ProcessPoolExecutor(os.cpu_count()) as pool:
        many = pool.submit(crowded, top, program)
        results = list(pool.map(tried, [program] * len(paths), paths))
    wrong = many.result() + [line for *_, lines in results for line in lines]
    for line in wrong[:20]:
        print(f"stars: {line[:1500]}", file=sys.stderr)
    statuses = sum((count for count, *_ in results), collections.Counter())
    stars, refused = statuses[0], statuses.total() - statuses[0]
    whole = [(len(found), sum(found.values())) for _, found, _ in results if found]
    print(
        f"stars: {len(paths)} rules, {stars} stars and {refused} refusals compared, "
        f"{sum(n for _, n in whole)} vertices of whole tiles with {sum(n for n, _ in whole)} stars, {len(wrong)} differ"
    )
    sys.exit(1 if wrong or not paths or not refused else 0)


if __name__ == "__main__":
    main(*sys.argv[1:])
