#!/usr/bin/env python3
"""Draws a walk in a supertile that grows: a panel for each depth, with the way so far, as SVG.

    draw_walk.py FILE.toml KIND DIGITS PATH > PICTURE.svg      (Python 3.11 or later)

The base is a tile of that kind. DIGITS are those that it grows, as in 3/0,1/0, the finest first. PATH has the numbers of
the edges crossed, as in 0,3. The base stays where it is, and so does every tile found."""
import os
import sys

sys.dont_write_bytecode = True
TOP = os.path.dirname(os.path.dirname(os.path.abspath(__file__)))
sys.path[1:1] = [os.path.join(TOP, "tools")]
from command_line import Arguments, Trouble, count, digits, run  # noqa: E402
from rule_file import box, centre, load, sides  # noqa: E402
from svg import arrow_head, element, path, root  # noqa: E402

HEAD, UNIT, ROOM = 28, 13, 26
BASE, NEW, OLD, WAY = "#f3b08a", "#eef2f6", "#cfdfee", "#b04a1c"


def placed(rule, kind, depth):
    """The tiles of a supertile, as (kind, turn, shift)."""
    tiles = [(kind, 0, 0)]
    for level in range(depth, 0, -1):
        scale = rule.factor ** (level - 1)
        tiles = [
            (below, (turn + more) % rule.order, shift + rule.zeta**turn * moved * scale)
            for of, turn, shift in tiles
            for below, more, moved in rule.kinds[of].children
        ]
    return tiles


def base_motion(rule, digits):
    """The motion of the base in the supertile that these digits name."""
    turn, shift = 0, 0
    for level in range(len(digits), 0, -1):
        child, parent = digits[level - 1]
        _, more, moved = rule.kinds[parent].children[child]
        shift += rule.zeta**turn * moved * rule.factor ** (level - 1)
        turn = (turn + more) % rule.order
    return turn, shift


def frame(rule, kind, digits):
    """The tiles of the frame as polygons: the base stands on its prototile."""
    turn, shift = base_motion(rule, digits)
    back = rule.zeta**-turn
    top = digits[-1][1] if digits else kind
    return [
        (of, [(rule.zeta**more * vertex + moved - shift) * back for vertex in rule.kinds[of].vertices])
        for of, more, moved in placed(rule, top, len(digits))
    ]


def across(tiles, tile, edge):
    """The tile that has an edge running from the end of this one to its start, or None."""
    start, end = sides(tile[1])[edge]
    for other in tiles:
        if any(abs(a - end) + abs(b - start) < 1e-6 for a, b in sides(other[1])):
            return other
    return None


def walks(rule, kind, digits, path):
    """For each depth: its tiles, the tiles walked through so far, and the edge at which it ends, if one lies outside."""
    found, depth = [], 0
    way = [frame(rule, kind, [])[0]]
    for edge in path:
        if edge >= len(rule.kinds[way[-1][0]].edges):
            raise Trouble(f"a tile of kind {way[-1][0]} has no edge {edge}")
        while (other := across(frame(rule, kind, digits[:depth]), way[-1], edge)) is None:
            found.append((frame(rule, kind, digits[:depth]), list(way), sides(way[-1][1])[edge]))
            depth += 1
            if depth > len(digits):
                raise Trouble("the walk needs more digits")
        way.append(other)
    return [*found, (frame(rule, kind, digits[:depth]), way, None)]


def arrow(seen, a, b, dashes=None):
    """An arrow from a to b."""
    a, b = seen(a), seen(b)
    along = (b - a) / abs(b - a)
    shaft = path([a, b - along * 5], "", stroke=WAY, stroke_width=2, stroke_dasharray=dashes)
    return [shaft, path(arrow_head(b, along, 7, 0.45), fill=WAY)]


def panel(number, shown, seen, known):
    """The supertile of a depth: what was known before in a darker tint, the base, and the way."""
    tiles, way, outside = shown
    lines = []
    for _, polygon in tiles:
        is_old = any(abs(centre(polygon) - at) < 1e-6 for at in known)
        lines.append(path(map(seen, polygon), fill=OLD if is_old else NEW, stroke="#8594a3", stroke_width=0.8))
    lines.append(path(map(seen, way[0][1]), fill=BASE, stroke="#333", stroke_width=1.6))
    for before, after in zip(way, way[1:]):
        lines += arrow(seen, centre(before[1]), centre(after[1]))
    if outside:
        middle, at = (outside[0] + outside[1]) / 2, centre(way[-1][1])
        out = (outside[1] - outside[0]) * -1j
        lines += arrow(seen, at, middle + out / abs(out) * 0.7, "4 3")
    return lines


def draw(rule, kind, digits, path):
    """The text of the SVG file."""
    shown = walks(rule, kind, digits, path)
    left, low, right, high = box([z for _, polygon in shown[-1][0] for z in polygon])
    wide, tall = (right - left) * UNIT + ROOM, (high - low) * UNIT
    body = []
    for number, each in enumerate(shown):
        seen = lambda z, x=number * wide + ROOM / 2: complex(x + (z.real - left) * UNIT, HEAD + (high - z.imag) * UNIT)
        known = [centre(polygon) for _, polygon in shown[number - 1][0]] if number else []
        body.append(element("text", f"depth {number}", x=f"{(number + 0.5) * wide:.1f}", y=18))
        body += panel(number, each, seen, known)
    size = f"{len(shown) * wide:.0f}", f"{HEAD + tall + 10:.0f}"
    return whole_picture(size, f"{rule.name}: a walk in a supertile that grows", body, 13, stroke_linejoin="round")


def whole_picture(size, title, body, font_size, **look):
    """The text of the SVG file of a width and a height."""
    look = {"font_family": "sans-serif", "font_size": font_size, "text_anchor": "middle", **look}
    head = root(f"0 0 {size[0]} {size[1]}", *size, **look)
    white = element("rect", width="100%", height="100%", fill="white")
    return "\n".join([head, element("title", title), white, *body, "</svg>", ""])


def frame_arguments():
    """The first arguments of each script that draws a frame: the rule file, and the frame's kind and digits."""
    arguments = Arguments()
    arguments.add_argument("file")
    arguments.add_argument("kind", type=count)
    arguments.add_argument("digits", type=digits)
    return arguments


def edges_of(word):
    """A type of argparse: the edges of a walk."""
    return [count(edge) for edge in word.split(",") if edge]


def main(words):
    arguments = frame_arguments()
    arguments.add_argument("path", type=edges_of)
    options = arguments.parse_args(words)
    try:
        print(draw(load(options.file), options.kind, options.digits, options.path), end="")
    except IndexError as fault:
        raise Trouble(f"{options.file} has no such kind, child or edge") from fault


if __name__ == "__main__":
    run(main, __doc__)
