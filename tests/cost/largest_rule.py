"""Prints an accepted rule whose machine for two addresses has very many nodes, for measuring.

    largest_rule.py STEPS SEED > RULE.toml      400 steps with the seed 1 take about 20 seconds

It has 16 kinds, the most that are allowed: 15 rectangles of 4 by 2, with a vertex at each unit, so with 12 edges, the most
that are allowed, and one of 3 by 2 with 10. All edges have one type. Each is three times as large when cut into tiles of
these shapes, lying and standing. Without the smaller one all tiles would be at even distances. It chooses at random how
each kind is cut, and which kinds its children have and which way around. Each step chooses again for one kind or one
child, and keeps the change unless fewer pairs of edges meet. A node is such a pair; there could be (15 * 12 + 10) ** 2 =
36,100 of these. Their number is printed to standard error, with each tenth of the steps. It uses nothing of the engine."""
import os
import random
import sys
from collections import deque

sys.dont_write_bytecode = True
TOP = os.path.dirname(os.path.dirname(os.path.dirname(os.path.abspath(__file__))))
sys.path[1:1] = [os.path.join(TOP, "tools")]
from command_line import WrongWords, run  # noqa: E402

FACTOR, KINDS = 3, 16
LONGER = 0.9  # how often a longer rectangle is tried first
SHAPES = [(4, 2)] * (KINDS - 1) + [(3, 2)]


def corners(width, height):
    """The vertices, from the middle of a side of two edges, from which the whole tile is seen."""
    low = [(x, 0) for x in range(width)]
    right = [(width, y) for y in range(height)]
    high = [(width - x, height) for x in range(width)]
    left = [(0, height - y) for y in range(height)]
    ring = low + right + high + left
    return ring[width + 1:] + ring[:width + 1]


VERTICES = [corners(*shape) for shape in SHAPES]


def filled(draw, grid):
    """A way to fill a grid with rectangles, mostly the longer ones, as (x, y, length, lies), or none."""
    for y, row in enumerate(grid):
        for x, taken in enumerate(row):
            if taken:
                continue
            long, short = [(4, 2), (2, 4)], [(3, 2), (2, 3)]
            draw.shuffle(long)
            draw.shuffle(short)
            for across, up in long + short if draw.random() < LONGER else short + long:
                if x + across > len(row) or y + up > len(grid):
                    continue
                cells = [(j, i) for j in range(y, y + up) for i in range(x, x + across)]
                if any(grid[j][i] for j, i in cells):
                    continue
                for j, i in cells:
                    grid[j][i] = True
                rest = filled(draw, grid)
                if rest is not None:
                    return [(x, y, max(across, up), across > up)] + rest
                for j, i in cells:
                    grid[j][i] = False
            return None
    return []


def turned(point, turn):
    x, y = point
    for _ in range(turn):
        x, y = -y, x
    return x, y


def placed(draw, kind, x, y, lies):
    """A child there, turned in one of the two ways: (turn, shift)."""
    width, height = SHAPES[kind]
    if lies:
        return draw.choice([(0, x, y), (2, x + width, y + height)])
    return draw.choice([(1, x + height, y), (3, x, y + width)])


def drawn_children(draw, kind):
    """The children of a kind: (kind, turn, shift)."""
    width, height = SHAPES[kind]
    children = []
    for x, y, length, lies in filled(draw, [[False] * (width * FACTOR) for _ in range(height * FACTOR)]):
        child = draw.choice([k for k, shape in enumerate(SHAPES) if shape[0] == length])
        children.append((child,) + placed(draw, child, x, y, lies))
    return children


def changed(draw, children):
    """The same with one child of another kind, or turned half round."""
    place = draw.randrange(len(children))
    kind, turn, x, y = children[place]
    width, height = SHAPES[kind]
    if draw.random() < 0.5:
        kind = draw.choice([k for k, shape in enumerate(SHAPES) if shape == SHAPES[kind]])
    else:
        across, up = {0: (width, height), 1: (-height, width), 2: (-width, -height), 3: (height, -width)}[turn]
        turn, x, y = (turn + 2) % 4, x + across, y + up
    return children[:place] + [(kind, turn, x, y)] + children[place + 1:]


def drawn_rule(steps, seed):
    """The children of each kind, and how many pairs of edges meet."""
    draw = random.Random(seed)
    rule = [drawn_children(draw, kind) for kind in range(KINDS)]
    most = 0
    for step in range(steps):
        if step % max(1, steps // 10) == 0:
            print(f"step {step} of {steps}: {most} pairs of edges meet", file=sys.stderr)
        kind = draw.randrange(KINDS)
        own = drawn_children(draw, kind) if draw.random() < 0.5 else changed(draw, rule[kind])
        other = rule[:kind] + [own] + rule[kind + 1:]
        pairs = len(meeting(other)) if are_all_used(other) else 0
        if pairs >= most:
            rule, most = other, pairs
    return rule, most


def edges_of(child):
    kind, turn, right, up = child
    moved = [(x + right, y + up) for x, y in (turned(p, turn) for p in VERTICES[kind])]
    return [(moved[e], moved[(e + 1) % len(moved)]) for e in range(len(moved))]


def meeting(rule):
    """The pairs of edges by which two tiles meet in some supertile."""
    found, waiting, along = set(), deque(), []

    def take(pair):
        for one in (pair, pair[2:] + pair[:2]):
            if one not in found:
                found.add(one)
                waiting.append(one)

    for kind, children in enumerate(rule):
        at = {segment: (child[0], e) for child in children for e, segment in enumerate(edges_of(child))}
        for (start, end), one in at.items():
            if (end, start) in at:
                take(one + at[(end, start)])
        rows, vertices = [], VERTICES[kind]
        for e, (ax, ay) in enumerate(vertices):
            bx, by = vertices[(e + 1) % len(vertices)]
            points = [(ax * FACTOR + (bx - ax) * j, ay * FACTOR + (by - ay) * j) for j in range(FACTOR + 1)]
            rows.append([at[(points[j], points[j + 1])] for j in range(FACTOR)])
        along.append(rows)
    while waiting:
        a, e, b, f = waiting.popleft()
        for j in range(FACTOR):
            take(along[a][e][j] + along[b][f][FACTOR - 1 - j])
    return found


def are_all_used(rule):
    return {child[0] for children in rule for child in children} == set(range(KINDS))


def printed(rule):
    print(f"format = 1\nglue = []\nlambda = [{FACTOR}, 0, 0, 0]\norder = 4")
    for kind, children in enumerate(rule):
        listed = ", ".join(f"[{k}, {t}, {x}, {y}, 0, 0]" for k, t, x, y in children)
        points = ", ".join(f"[{x}, {y}, 0, 0]" for x, y in VERTICES[kind])
        print(f"\n[[kind]]\nchildren = [{listed}]\nedges = [{', '.join('0' for _ in VERTICES[kind])}]\nvertices = [{points}]")
    print(f"\n[[type]]\nmate = 0\nparts = [{', '.join('0' for _ in range(FACTOR))}]")


def main(words):
    if len(words) != 2 or not all(word.isascii() and word.isdigit() for word in words):
        raise WrongWords
    rule, pairs = drawn_rule(int(words[0]), int(words[1]))
    print(pairs, "pairs of edges meet", file=sys.stderr)
    printed(rule)


if __name__ == "__main__":
    run(main, __doc__)
