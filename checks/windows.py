"""Windows of every rule file, found as their definition says, against what the program draws, tile by tile and glued, and
against the sums of `drill`.

Points are lists of whole coefficients of the powers of ζ, and a comparison of coordinates is one of whole numbers. The
frame grows by words made here; the tiles are found from the top, by which supertiles meet the window: no search across
edges, no table and no code of the engine is used.
"""
import concurrent.futures
import functools
import math
import os
import random
import subprocess
import sys
import tomllib

sys.dont_write_bytecode = True
from supertiles import Ring, address  # noqa: E402

WINDOWS = 50  # of each rule
DRILLED = 5  # windows of a drill of each rule
LONG = {"penrose_p3.toml": ((1, 2755), (1, 2756))}  # half extents, where six numbers of a tile just fit 64 bits, and where not
DEEPEST = 64
GREATEST = 2**24  # of the coefficients of a shift
REFUSED = {5: b"5 DepthLimit ", 6: b"6 CoordLimit ", 7: b"7 TooManyTiles"}


def words_of(seed):
    """The growth words: the stream 54 of the generator PCG-XSH-RR 64/32."""
    increment, mask = (54 << 1) | 1, 2**64 - 1
    state = ((increment + seed) * 6364136223846793005 + increment) & mask
    while True:
        word = (((state >> 18) ^ state) >> 27) & 0xFFFFFFFF
        turn = state >> 59
        yield ((word >> turn) | (word << (32 - turn))) & 0xFFFFFFFF
        state = (state * 6364136223846793005 + increment) & mask


def minus(u, v):
    return u[0] - v[0], u[1] - v[1]


class Plane:
    """Twice the coordinates X and Y of a point, each as (a, b), which stands for a + b√d.

    X is twice the real part, and Y the imaginary part over that of ζ."""

    FORMS = {
        4: (0, lambda p: (4 * p[0], 0), lambda p: (2 * p[1], 0)),
        6: (0, lambda p: (4 * p[0] + 2 * p[1], 0), lambda p: (2 * p[1], 0)),
        8: (2, lambda p: (4 * p[0], 2 * (p[1] - p[3])), lambda p: (2 * (p[1] + p[3]), 2 * p[2])),
        10: (
            5,
            lambda p: (4 * p[0] + p[1] - p[2] + p[3], p[1] + p[2] - p[3]),
            lambda p: (2 * p[1] + p[2] + p[3], p[2] + p[3]),
        ),
    }

    def __init__(self, order):
        self.root, self.x, self.y = self.FORMS[order]

    def at(self, p):
        return self.x(p), self.y(p)

    def sign(self, u):
        a, b = u
        if a >= 0 and b >= 0:
            return int(a > 0 or b > 0)
        if a <= 0 and b <= 0:
            return -1
        more = a * a - b * b * self.root
        return (more > 0) - (more < 0) if a > 0 else (more < 0) - (more > 0)

    def is_less(self, u, v):
        return self.sign(minus(v, u)) > 0

    def thousandths(self, u):
        """The greatest whole number up to 500 times a + b√d, rounded down by parts, which is no less: a is whole."""
        a, b = u
        root = math.isqrt((500 * b) ** 2 * self.root)
        return 500 * a + (root if b >= 0 or root == 0 else -root - 1)

    def turn(self, p, q, r):
        """The sign of the turn from p by q to r."""
        ax, ay, bx, by = (minus(s[i], p[i]) for s in (q, r) for i in (0, 1))
        return self.sign(minus(self.product(ax, by), self.product(ay, bx)))

    def product(self, u, v):
        return u[0] * v[0] + u[1] * v[1] * self.root, u[0] * v[1] + u[1] * v[0]


class Box:
    """The open box of a window."""

    def __init__(self, plane, centre, half):
        self.plane, self.centre = plane, plane.at(centre)
        (x, y), (w, h) = self.centre, half
        self.low = (x[0] - 2 * w, x[1]), (y[0] - 2 * h, y[1])
        self.high = (x[0] + 2 * w, x[1]), (y[0] + 2 * h, y[1])
        self.corners = [(self.low[0], self.low[1]), (self.high[0], self.low[1]), self.high, (self.low[0], self.high[1])]

    def meets_edge(self, p, q):
        """Whether a point of the edge is in the box: no line of a side of the box has the edge beyond it, and the edge's
        own line has corners of the box on both sides."""
        less = self.plane.is_less
        for i in (0, 1):
            if not (less(self.low[i], p[i]) or less(self.low[i], q[i])):
                return False
            if not (less(p[i], self.high[i]) or less(q[i], self.high[i])):
                return False
        sides = [self.plane.turn(p, q, corner) for corner in self.corners]
        return max(sides) > 0 > min(sides)

    def meets_one_of(self, outline):
        return any(self.meets_edge(p, q) for p, q in zip(outline, outline[1:] + outline[:1]))

    def has_centre_in(self, outline):
        """Whether the centre, which is on no edge, is inside the outline."""
        inside, less = False, self.plane.is_less
        for p, q in zip(outline, outline[1:] + outline[:1]):
            if less(self.centre[1], p[1]) != less(self.centre[1], q[1]):
                upward = less(p[1], q[1])
                inside ^= (self.plane.turn(p, q, self.centre) > 0) == upward
        return inside

    def meets(self, outline):
        return self.meets_one_of(outline) or self.has_centre_in(outline)


class Tiling:
    """A rule file's numbers, its supertiles' outlines, and who uses a kind."""

    def __init__(self, rule):
        self.ring, self.kinds = Ring(rule["order"]), rule["kind"]
        self.glued = {ty for glue in rule["glue"] for ty in (glue, rule["type"][glue]["mate"])}
        self.plane, self.factor = Plane(rule["order"]), self.point(rule["lambda"])
        self.uses = [
            [(parent, n) for parent, kind in enumerate(self.kinds) for n, child in enumerate(kind["children"]) if child[0] == own]
            for own in range(len(self.kinds))
        ]
        self.power = functools.lru_cache(None)(self.power)
        self.corners = functools.lru_cache(None)(self.corners)

    def point(self, coefficients):
        return tuple(coefficients[: self.ring.size])

    def power(self, level):
        """The inflation factor to the level."""
        return (1,) + (0,) * (self.ring.size - 1) if level == 0 else self.ring.times(self.power(level - 1), self.factor)

    def corners(self, kind, level, turn):
        """The vertices of a supertile, turned."""
        grown = [self.ring.times(self.power(level), self.point(vertex)) for vertex in self.kinds[kind]["vertices"]]
        return [self.ring.turned(turn, vertex) for vertex in grown]

    def outline(self, kind, level, motion):
        turn, shift = motion
        return [self.plane.at(tuple(a + b for a, b in zip(v, shift))) for v in self.corners(kind, level, turn)]

    def child(self, kind, number, level):
        """The kind of a child and its motion in a supertile of that level."""
        own, turn, *shift = self.kinds[kind]["children"][number]
        return own, (turn, self.ring.times(self.power(level - 1), self.point(shift)))

    def sides(self, kind, motion):
        """The edges of a tile, each by its ends in the plane, and whether it is glued along it."""
        outline = self.outline(kind, 0, motion)
        for number, side in enumerate(zip(outline, outline[1:] + outline[:1])):
            yield side, self.kinds[kind]["edges"][number] in self.glued

    def widest(self):
        """A number of lengths that is more than a tile is wide or high."""
        return 2 + 4 * max(sum(map(abs, vertex)) for kind in self.kinds for vertex in kind["vertices"])

    def composed(self, outer, inner):
        around = self.ring.turned(outer[0], inner[1])
        return (outer[0] + inner[0]) % self.ring.order, tuple(a + b for a, b in zip(around, outer[1]))

    def inverse(self, motion):
        back = -motion[0] % self.ring.order
        return back, tuple(-a for a in self.ring.turned(back, motion[1]))


class Frame:
    """A base whose supertile grows: the digits from fine to coarse, and where the base lies in the supertile."""

    def __init__(self, tiling, kind, digits, seed):
        self.tiling, self.kind, self.top, self.words = tiling, kind, kind, words_of(seed)
        self.digits, self.base = [], (0, (0,) * tiling.ring.size)
        for child, parent in digits:
            self.add(child, parent)

    def add(self, child, parent):
        self.digits.append((child, parent))
        own, motion = self.tiling.child(parent, child, len(self.digits))
        assert own == self.top
        self.base, self.top = self.tiling.composed(motion, self.base), parent

    def grow(self):
        uses = self.tiling.uses[self.top]
        parent, child = uses[next(self.words) % len(uses)]
        self.add(child, parent)

    def is_enough(self, box):
        outline = self.tiling.outline(self.top, len(self.digits), self.tiling.inverse(self.base))
        return not box.meets_one_of(outline) and box.has_centre_in(outline)

    def tiles(self, box):
        """The tiles that meet the box, found from the top: (kind, turn, shift, digits)."""
        found, left = [], [(self.top, self.tiling.inverse(self.base), ())]
        while left:
            kind, motion, digits = left.pop()
            level = len(self.digits) - len(digits)
            if not box.meets(self.tiling.outline(kind, level, motion)):
                continue
            if level == 0:
                found.append((kind, *motion, digits))
                continue
            for number in range(len(self.tiling.kinds[kind]["children"])):
                own, inner = self.tiling.child(kind, number, level)
                left.append((own, self.tiling.composed(motion, inner), ((number, kind), *digits)))
        return found


def whole_tiles(frame, tiles, centre, half):
    """The tiles, each with the other half or None, in a frame that has grown until all other halves are in it; None where
    one never is."""
    tiling, wide = frame.tiling, frame.tiling.widest()
    box = Box(tiling.plane, tiling.point(centre), (half[0] + wide, half[1] + wide))
    while True:
        near = {
            side: tile for tile in frame.tiles(box) for side, glued in tiling.sides(tile[0], tile[1:3]) if glued
        }
        wholes = []
        for tile in tiles:
            sides = [side for side, glued in tiling.sides(tile[0], tile[1:3]) if glued]
            other = near.get((sides[0][1], sides[0][0])) if sides else None
            if sides and not other:
                break
            wholes.append((tile, other))
        else:
            return wholes
        if len(frame.digits) == DEEPEST:
            return None
        frame.grow()


def drawn_base(tiling, drawn):
    """A kind and digits, from the top down by drawn children, or one child of its own kind again and again: such a base
    often lies at the border of each of its supertiles."""
    kind, digits = drawn.randrange(len(tiling.kinds)), ()
    depth = drawn.choice((0, 0, 1, 2, 3, 5, 8, 21, DEEPEST))
    same = [number for number, child in enumerate(tiling.kinds[kind]["children"]) if child[0] == kind]
    if same and drawn.randrange(4) == 0:
        return kind, ((drawn.choice(same), kind),) * depth
    for _ in range(depth):
        child = drawn.randrange(len(tiling.kinds[kind]["children"]))
        digits = ((child, kind), *digits)
        kind = tiling.kinds[kind]["children"][child][0]
    return kind, digits


def outline_of(tiling, first, second):
    """The outline of a whole tile, as the picture has it."""
    def round_of(tile):
        """The vertices from the end of the glue edge round to its start."""
        sides = list(tiling.sides(tile[0], tile[1:3]))
        edge = next((number for number, (_, glued) in enumerate(sides) if glued), None) if second else len(sides) - 1
        vertices = [side[0] for side, _ in sides]
        return vertices[edge + 1 :] + vertices[: edge + 1]

    return round_of(first) + (round_of(second)[1:-1] if second else [])


def path_of(tiling, centre, kind, outline):
    """The line of the picture that is this outline."""
    middle = tiling.plane.at(tiling.point(centre))
    numbers = [" ".join(str(tiling.plane.thousandths(minus(p[i], middle[i]))) for i in (0, 1)) for p in outline]
    return f'<path class="k{kind}" d="M{"L".join(numbers)}Z"/>'


def shift_of(tile):
    """The four coefficients of a tile's shift."""
    return tile[2] + (0,) * (4 - len(tile[2]))


def text_of(tiling, frame, wholes, centre):
    """The list, the census and the paths of whole tiles, each a tile and another half or None."""
    whole = {}
    for tile, other in wholes:
        first, second = (tile, other) if not other or tile[0] < other[0] else (other, tile)
        whole[shift_of(first), first[1], first[0]] = first, second
    lines = []
    for key in sorted(whole):
        parts = [
            f"{tile[0]} {tile[1]} {','.join(map(str, shift_of(tile)))} {address((tile[0], (*tile[3], *frame.digits[len(tile[3]):])))}"
            for tile in whole[key]
            if tile
        ]
        lines.append(" + ".join(parts))
    counts = [f"{k} {sum(1 for key in whole if key[2] == k)}" for k in range(len(tiling.kinds))]
    paths = [path_of(tiling, centre, key[2], outline_of(tiling, *whole[key])) for key in sorted(whole)]
    return "\n".join([*lines, *counts, f"all {len(whole)}", *paths, ""])


def drawn_window(tiling, drawn):
    """A base, a seed, a centre and half extents."""
    kind, digits = drawn_base(tiling, drawn)
    seed, far = drawn.randrange(2**64), drawn.choice((1, 6, 6, 6, 40, 3000))
    centre = [drawn.randint(-far, far) if i < tiling.ring.size else 0 for i in range(4)]
    return (kind, digits), seed, centre, (drawn.randint(1, 5), drawn.randint(1, 5))


def trial(tiling, base, seed, centre, half):
    """The words of a call, and the texts that it must print without glue and with it; None where it is beyond the limits."""
    kind, digits = base
    frame, box = Frame(tiling, kind, digits, seed), Box(tiling.plane, tiling.point(centre), half)
    at = ",".join(map(str, centre))
    words = [f"seed={seed}", f"addr={address(base)}", f"at={at}", f"half={half[0]},{half[1]}", "layers=list,census,svg"]
    while not frame.is_enough(box):
        if len(frame.digits) == DEEPEST:
            return words, None, None
        frame.grow()
    tiles = [(own, turn, tuple(shift), below) for own, turn, shift, below in frame.tiles(box)]
    if any(abs(a) > GREATEST for tile in tiles for a in tile[2]):
        return words, None, None
    text = text_of(tiling, frame, [(tile, None) for tile in tiles], centre)
    wholes = whole_tiles(frame, tiles, centre, half)
    if wholes is None or any(abs(a) > GREATEST for _, other in wholes if other for a in other[2]):
        return words, text, None
    return words, text, text_of(tiling, frame, wholes, centre)


def without_frame(text):
    """What was drawn, without the lines of the picture that aren't paths."""
    return "\n".join(line for line in text.split("\n") if not line.startswith(("<svg", "<g", "</")))


def is_right(ran, wanted):
    """Whether the call did as wanted. A value beyond the limits may have been looked at on the way, and is named."""
    if ran.returncode == 0:
        return without_frame(ran.stdout.decode()) == wanted
    named = ran.returncode in REFUSED and ran.stdout == b"" and ran.stderr.startswith(REFUSED[ran.returncode])
    if wanted is None or not named:
        return named
    return ran.returncode == 6 and any(abs(int(a)) > GREATEST for a in ran.stderr.split()[2].split(b","))


def reduced(order, a):
    """The point of four coefficients, by the powers of ζ that the order has."""
    if order == 4:
        return [a[0] - a[2], a[1] - a[3], 0, 0]
    if order == 6:
        return [a[0] - a[2] - a[3], a[1] + a[2], 0, 0]
    return a


def count_of(frame, box):
    """How many tiles meet the box, in the frame grown to it; None where it is beyond the limits."""
    while not frame.is_enough(box):
        if len(frame.digits) == DEEPEST:
            return None
        frame.grow()
    tiles = frame.tiles(box)
    return None if any(abs(a) > GREATEST for tile in tiles for a in tile[2]) else len(tiles)


def drilled(tiling, seed):
    """What `drill` must print of the first windows of a seed."""
    words, counts, depths = words_of(seed), [], []
    for _ in range(DRILLED):
        six = [next(words) % 64 for _ in range(6)]
        centre = reduced(tiling.ring.order, [word - 32 for word in six[:4]])
        frame, box = Frame(tiling, 0, (), seed), Box(tiling.plane, tiling.point(centre), (six[4] + 1, six[5] + 1))
        counts.append(count_of(frame, box))
        depths.append(len(frame.digits))
    met = [count for count in counts if count is not None]
    depth = max((depth for count, depth in zip(counts, depths) if count is not None), default=0)
    lines = [f"windows {DRILLED}", f"tiles {sum(met)}", f"largest {max(met, default=0)}", f"depth {depth}"]
    return "\n".join([*lines, f"refused {DRILLED - len(met)}", ""])


def compared(program, path):
    """How many windows of the rule of a file were compared, how many of them were refused, and those that differ."""
    with open(path, "rb") as file:
        text = file.read()
    tiling, drawn = Tiling(tomllib.loads(text.decode())), random.Random(os.path.basename(path))
    refused, wrong = 0, []
    windows = [drawn_window(tiling, drawn) for _ in range(WINDOWS)]
    windows += [((0, ()), 42, [0, 0, 0, 0], half) for half in LONG.get(os.path.basename(path), ())]
    for window in windows:
        words, *texts = trial(tiling, *window)
        for glue, wanted in zip(("no", "yes"), texts):
            ran = subprocess.run([program, "draw", "rule=-", *words, f"glue={glue}"], input=text, capture_output=True)
            refused += ran.returncode != 0
            if not is_right(ran, wanted):
                told = ran.stdout.decode() if ran.returncode == 0 else ran.stderr.decode()
                wrong.append(f"{os.path.basename(path)}: draw {' '.join(words)} glue={glue}: {told!r} in place of {wanted!r}")
    seed = drawn.randrange(2**64)
    words = ["drill", "rule=-", f"n={DRILLED}", f"seed={seed}"]
    ran = subprocess.run([program, *words], input=text, capture_output=True)
    wanted = drilled(tiling, seed)
    if ran.stdout.decode() != wanted:
        wrong.append(f"{os.path.basename(path)}: {' '.join(words)}: {ran.stdout!r} {ran.stderr!r} in place of {wanted!r}")
    return 2 * len(windows) + DRILLED, refused, wrong


def main(top, program):
    rules = os.path.join(top, "rules")
    paths = sorted(os.path.join(rules, name) for name in os.listdir(rules) if name.endswith(".toml"))
    with concurrent.futures.ProcessPoolExecutor(os.cpu_count()) as pool:
        results = list(pool.map(compared, [program] * len(paths), paths))
    wrong = [line for *_, lines in results for line in lines]
    for line in wrong[:20]:
        print(f"windows: {line[:1500]}", file=sys.stderr)
    windows, refused = sum(count for count, *_ in results), sum(count for _, count, _ in results)
    print(f"windows: {len(paths)} rules, {windows} windows compared, {refused} of them refused, {len(wrong)} differ")
    sys.exit(1 if wrong or not paths or refused * 2 > windows else 0)


if __name__ == "__main__":
    main(*sys.argv[1:])
