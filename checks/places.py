"""What docs/TILINGS.md and docs/COORDINATES.md say of places, windows and perpendicular space, beside what
the program draws: corners by the numbers of the rule files, exactly and apart from the engine. documents.py
calls it."""
import math
import os
import subprocess
import tomllib

from stars import WHOLES, whole_star
from supertiles import Ring
from windows import Tiling

FILES = {"chair": "chair", "p2": "penrose_p2", "p3": "penrose_p3", "ab": "ammann_beenker", "halfhex": "half_hex"}
HIGH = {4: 1.0, 6: math.sin(math.pi / 3), 8: math.sin(math.pi / 4), 10: math.sin(math.pi / 5)}


class Rule:
    """A built-in rule, or that of a file of the library: its numbers, and calls of the program with it."""

    def __init__(self, top, program, name):
        with open(os.path.join(top, "rules", f"{FILES.get(name, name)}.toml"), "rb") as file:
            self.text = file.read()
        self.numbers = tomllib.loads(self.text.decode())
        self.program, self.name, self.word = program, name, f"rule={name if name in FILES else '-'}"
        self.tiling, self.ring = Tiling(self.numbers), Ring(self.numbers["order"])
        self.order, self.glue = self.numbers["order"], "yes" if self.numbers["glue"] else "no"

    def call(self, command, *words):
        """The lines of an answer, or the note of a refusal."""
        ran = subprocess.run([self.program, command, self.word, *words], input=self.text, capture_output=True)
        return (ran.stdout or ran.stderr).decode().splitlines()

    def listed(self, words, width, height, glue="no"):
        return self.call("draw", *words, f"half={width},{height}", "layers=list", f"glue={glue}")

    def outline(self, line):
        """The corners of a tile, or of a whole one of two halves without those between."""
        corners = []
        halves = line.split(" + ")
        for half in halves:
            kind, turn, shift, _ = half.split(" ")
            own = self.tiling.corners(int(kind), 0, int(turn))
            moved = self.point([int(a) for a in shift.split(",")])
            own = [tuple(a + b for a, b in zip(corner, moved)) for corner in own]
            if len(halves) > 1:
                edges = self.numbers["kind"][int(kind)]["edges"]
                glued = next(n for n, ty in enumerate(edges) if ty in self.tiling.glued)
                own = [own[(glued + 1 + n) % len(own)] for n in range(len(own) - 1)]
            corners += own
        return corners

    def point(self, coefficients):
        return tuple(coefficients[: self.ring.size])

    def xy(self, point, power=1):
        """A point by decimals, with a power of ζ in place of ζ."""
        angles = [2 * math.pi * power * k / self.order for k in range(len(point))]
        return sum(a * math.cos(t) for a, t in zip(point, angles)), sum(a * math.sin(t) for a, t in zip(point, angles))


def distance(p, a, b):
    """How far a point is from the line between two others."""
    along, own = (b[0] - a[0], b[1] - a[1]), (p[0] - a[0], p[1] - a[1])
    share = max(0.0, min(1.0, (along[0] * own[0] + along[1] * own[1]) / (along[0] ** 2 + along[1] ** 2)))
    return math.hypot(own[0] - share * along[0], own[1] - share * along[1])


def word(words, key):
    return next(one.partition("=")[2] for one in words if one.startswith(f"{key}="))


def turned_about(rule, middle, step, corner):
    """A corner after so many steps of a turn about a point."""
    away = rule.ring.turned(step, tuple(c - m for c, m in zip(corner, middle)))
    return tuple(m + a for m, a in zip(middle, away))


def symmetric_radius(rule, words, fold, most):
    """The least distance from the middle of a window to a tile that a turn by so much of a full turn takes to
    no tile; or where there is none so near, the distance that is looked at."""
    middle, step = rule.point([int(a) for a in word(words, "at").split(",")]), rule.order // fold
    # (a tile is less than three lengths wide, so what a tile nearer than that is turned to meets the window)
    wide, high = 2 * (most + 3), math.ceil((most + 3) / HIGH[rule.order])
    tiles = [rule.outline(line) for line in rule.listed(words, wide, high, rule.glue)]
    known, centre, nearest = {frozenset(tile) for tile in tiles}, rule.xy(middle), most
    for tile in tiles:
        seen = [rule.xy(corner) for corner in tile]
        near = min(distance(centre, a, b) for a, b in zip(seen, seen[1:] + seen[:1]))
        if near < nearest and frozenset(turned_about(rule, middle, step, corner) for corner in tile) not in known:
            nearest = near
    return nearest


def star_of(rule, words, vertex):
    """The name of the star round a vertex, and the coefficients of that vertex."""
    names, _, stars = WHOLES[FILES[rule.name]]
    lines = rule.call("star", f"addr={word(words, 'addr')}", f"vertex={vertex}")
    return whole_star(rule.tiling, names, "\n".join(lines), stars), vertex_of(rule, words, vertex)


def vertex_of(rule, words, vertex):
    """The coefficients of a vertex of the base."""
    kind = int(word(words, "addr").partition(":")[0])
    return f"at={','.join(map(str, rule.numbers['kind'][kind]['vertices'][int(vertex)]))}"


def side_by_side(rule, right, up):
    """Whether four windows, by these steps from one to the next, have just the tiles of one window of twice
    the size."""
    width, height = 12, 8
    step = lambda n, m: [n * a + m * b for a, b in zip(right(width, height), up(width, height))]  # noqa: E731
    motion = lambda line: line.rpartition(" ")[0]  # noqa: E731
    at = lambda point: f"at={','.join(map(str, point))}"  # noqa: E731
    four = set()
    for n in (0, 1):
        for m in (0, 1):
            four |= set(map(motion, rule.listed(["addr=0:", at(step(n, m))], width, height)))
    middle = [a // 2 for a in step(1, 1)]
    assert [2 * a for a in middle] == step(1, 1)
    return four == set(map(motion, rule.listed(["addr=0:", at(middle)], 2 * width, 2 * height)))


def corners_of(rule, width, height):
    """The corners of whole tiles of a window round the point 0."""
    return {corner for line in rule.listed(["addr=0:", "at=0,0,0,0"], width, height, "yes") for corner in rule.outline(line)}


def octagon_width(rule):
    """How wide, from side to side, the vertices of a window are in perpendicular space: the least and the
    most of four ways."""
    spots = [rule.xy(corner, 3) for corner in corners_of(rule, 120, 85)]
    widths = []
    for k in range(4):
        x, y = math.cos(k * math.pi / 4), math.sin(k * math.pi / 4)
        along = [a * x + b * y for a, b in spots]
        widths.append(max(along) - min(along))
    return min(widths), max(widths)


def five_fold_figure(spots):
    """The radius of the least regular pentagon round spots of perpendicular space, and whether they leave its
    notches free, as a pentagram in it does."""
    ways = [(math.cos(2 * math.pi * k / 5), math.sin(2 * math.pi * k / 5)) for k in range(5)]
    reach = lambda sign: [max(sign * (x * a + y * b) for a, b in spots) for x, y in ways]  # noqa: E731
    # (a corner is farther from the middle than a side)
    sign = 1 if sum(reach(1)) > sum(reach(-1)) else -1
    corners = [(sign * x, sign * y) for x, y in ways]
    far = reach(sign)
    middle = [0.4 * sum(h * corner[i] for h, corner in zip(far, corners)) for i in (0, 1)]
    radius = max(h - x * middle[0] - y * middle[1] for h, (x, y) in zip(far, corners))
    # a line of the pentagram is so far from the middle; a spot in a notch is beyond two of them
    line = radius * math.cos(0.4 * math.pi) + 0.04
    beyond = lambda a, b: sum(x * (a - middle[0]) + y * (b - middle[1]) > line for x, y in corners)  # noqa: E731
    return radius, all(beyond(a, b) < 2 for a, b in spots)


def five_fold_figures(rule):
    """The figures that the vertices of a window fill in perpendicular space, one for each of their
    classes."""
    classes = {}
    for corner in corners_of(rule, 150, 128):
        a, b, c, d = corner
        classes.setdefault((a - b + c - d) % 5, []).append(rule.xy(corner, 3))
    return sorted(map(five_fold_figure, classes.values()))


def pentagons_beside(rule):
    """For each kind of whole tile of penrose_p1 with five sides of a pentagon, how many such tiles lie beside
    one."""
    tiles, sides = [], {}
    for line in rule.listed(["addr=0:", "at=5000,200,0,0"], 60, 50, "yes"):
        corners, kind = rule.outline(line), int(line.partition(" ")[0])
        edges = list(zip(corners, corners[1:] + corners[:1]))
        sides.update(dict.fromkeys(edges, kind))
        tiles.append((kind, edges))
    found = {}
    for kind, edges in tiles:
        beside = [sides.get(edge[::-1]) for edge in edges]
        if kind <= 3 and None not in beside:
            found.setdefault(min(kind, 2), set()).add(sum(other <= 3 for other in beside))
    return found
