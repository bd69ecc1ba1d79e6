#!/usr/bin/env python3
"""Prints a rule file with this number of tiles around the vertex 1 of the tile 3:0/1,6/0,0/0:

    fan_rule.py TILES        (61, 64, 65 or 66)

A rule of order 6 with factor 4, made to try stars that are as large as they may be, or larger.

A *fan* is a triangle with angles of 60°. The rule cuts it from one corner, its apex, into thin triangles, and each of
these into sixteen of its own kind. So where apexes meet, six fans become a star of many tiles. A *broad fan* is cut in the
same way, except in its middle, where one broad triangle replaces several thin ones. Fans lie in pairs, base on base. A
*field* is a triangle that is cut into fields, with a pair of fans in its corner 0, a pair of broad fans in its corner 1,
and a field in its corner 2. Six of the fields around one point turn to it the corners that are asked for. Three levels
below, there are around that point the tiles of a fan for each corner 0, those of a broad fan for each corner 1, and one
for each corner 2.
"""
import sys

sys.dont_write_bytecode = True
from command_line import Arguments, run  # noqa: E402

SIDE = 4  # of a field and of a fan; a thin triangle has its apex four times as far from its base
FIELD, FAN, BROAD = range(3)  # the first kinds
MIDDLE = 1, 2  # the point of a field, in sides, round which the six fields lie

# The bases from one end of a fan to the other: of the thin triangles before the middle, which are also those behind it; of
# those in the middle; and of what is in the middle of a broad fan. Those longer than two are of the broad triangle.
ELEVEN = [1, 2, 1], [2, 1, 2, 1, 2], [2, 4, 2]
TWELVE = [2, 2], [1] * 8, [8]
# by the number of tiles: how fans are cut, and the corners that six fields turn to the middle
RULES = {
    61: (TWELVE, [0, 0, 0, 0, 0, 2]),
    64: (ELEVEN, [0, 0, 0, 0, 0, 1]),
    65: (TWELVE, [0, 0, 0, 0, 0, 1]),
    66: (ELEVEN, [0, 0, 0, 0, 0, 0]),
}


def plus(p, q):
    return p[0] + q[0], p[1] + q[1]


def times(n, p):
    return n * p[0], n * p[1]


def step(turn):
    """The point one side from the origin, after so many sixths of a full turn."""
    return [(SIDE, 0), (0, SIDE), (-SIDE, SIDE), (-SIDE, 0), (0, -SIDE), (SIDE, -SIDE)][turn % 6]


def opposite(size, distance):
    """The point on the side across from the apex, by its distance from where that begins."""
    return size - distance, distance


class Rule:
    """Edge types by their names, each its own mate, and kinds, as a rule file has them."""

    def __init__(self):
        self.numbers, self.parts, self.kinds = {}, [], []

    def type(self, name, parts=None):
        """The number of a type, which is cut into these parts, or into four of itself."""
        if name not in self.numbers:
            self.numbers[name] = number = len(self.parts)
            self.parts.append(parts or [number] * 4)
        return self.numbers[name]

    def bases(self, lengths):
        return [self.type(f"base {length}") for length in lengths]

    def text(self):
        lines = ["format = 2", "order = 6", "lambda = [4, 0, 0, 0]", "glue = []"]
        for number, parts in enumerate(self.parts):
            lines += ["", "[[type]]", f"mate = {number}", f"parts = {parts}"]
        for vertices, edges, children in self.kinds:
            points = [[*point, 0, 0] for point in vertices]
            placed = [[kind, turn, *shift, 0, 0] for kind, turn, shift in children]
            lines += ["", "[[kind]]", f"vertices = {points}", f"edges = {edges}", f"children = {placed}"]
        return "\n".join([*lines, ""])


def cut_in_sixteen(kind, first, last):
    """The children of a triangle with its apex at the origin, by its two other corners: sixteen of its own kind."""
    at = lambda i, j: plus(times(i, first), times(j, last))
    up = [(kind, 0, at(i, j)) for j in range(4) for i in range(4 - j)]
    down = [(kind, 3, at(i + 1, j + 1)) for j in range(3) for i in range(3 - j)]
    return up + down


def triangle(rule, kind, base, start, end):
    """A thin triangle, or the broad one, between two distances on the far side of a fan. Its long sides have one edge; but
    those along the sides of the fan have four, and then the vertices begin with a corner that sees them all."""
    size, side = 4 * SIDE, [rule.type("side")] * 4
    first, last, apex = opposite(size, start), opposite(size, end), (0, 0)
    long = [rule.type(f"long {distance}") for distance in (start, end) if 0 < distance < size]
    if start == 0:
        vertices, edges = [last, apex, *(times(n, step(0)) for n in (1, 2, 3)), first], [*long, *side, base]
    elif end == size:
        vertices, edges = [first, last, *(times(n, step(1)) for n in (3, 2, 1)), apex], [base, *side, *long]
    else:
        vertices, edges = [apex, first, last], [long[0], base, long[1]]
    return vertices, edges, cut_in_sixteen(kind, first, last)


def field(corners):
    """The children of a field: first the six that turn these of their corners to the middle, and then the fans."""
    at = lambda i, j: (i * SIDE, j * SIDE)
    middle = at(*MIDDLE)
    # field n lies between the steps n and n + 1 from the middle: its corner 0 is there, or behind one of the two
    six = [
        (FIELD, (n - 2 * own) % 6, plus(middle, step(n + 2 - own)) if own else middle) for n, own in enumerate(corners)
    ]
    fans = [(FAN, 0, at(0, 0)), (FAN, 3, at(1, 1)), (BROAD, 2, at(4, 0)), (BROAD, 5, at(2, 1))]
    up = [(FIELD, 0, at(i, j)) for i, j in ((1, 0), (2, 0), (0, 1), (2, 1), (0, 3))]
    return [*six, *fans, *up, (FIELD, 3, at(2, 1))]


def fan_rule(cut, corners):
    """The text of the rule whose fans are cut so, and whose six fields turn these corners to the middle, the first of them
    corner 0; the kind and the digits of a tile that has the middle as a vertex; and the number of that vertex."""
    ends, middle, broad = cut
    rule, triangles = Rule(), {}
    side, end = rule.type("side"), rule.type("end of a fan", rule.bases(ends))
    fans = {FAN: ("middle of a fan", middle), BROAD: ("middle of a broad fan", broad)}
    a, b = sum(ends) // 4, sum(middle) // 4
    outline = [(0, 0), *(opposite(SIDE, distance) for distance in (0, a, a + b, SIDE))]
    rule.kinds = [([(0, 0), step(0), step(1)], [side] * 3, field(corners)), None, None]
    for fan, (name, inner) in fans.items():
        start, children = 0, []
        for length in ends + inner + ends:
            place = start, start + length
            if place not in triangles:
                triangles[place] = kind = len(rule.kinds)
                rule.kinds.append(triangle(rule, kind, *rule.bases([length]), *place))
            children.append((triangles[place], 0, (0, 0)))
            start += length
        rule.kinds[fan] = outline, [side, end, rule.type(name, rule.bases(inner)), end, side], children
    return rule.text(), (triangles[0, ends[0]], ((0, FAN), (len(corners), FIELD), (0, FIELD))), 1


def main(words):
    arguments = Arguments()
    arguments.add_argument("tiles", type=int, choices=RULES)
    text, _, _ = fan_rule(*RULES[arguments.parse_args(words).tiles])
    sys.stdout.write(text)


if __name__ == "__main__":
    run(main, __doc__)
