#!/usr/bin/env python3
"""Draws the tiles around some vertices, as the program prints them, side by side as SVG.

    draw_stars.py PROGRAM FILE.toml NAME ADDRESS VERTEX .. > PICTURE.svg      (Python 3.11 or later)

Each vertex takes three arguments: the text below it, the address of a tile, and the number of a vertex of it. What `star`
prints is drawn. If only one half of a tile has the vertex, the other half is drawn in a lighter colour, as its mirror
image. No line is drawn where two halves are glued. Edges of type 0 and of its mate are red."""
import os
import subprocess
import sys

sys.dont_write_bytecode = True
TOP = os.path.dirname(os.path.dirname(os.path.abspath(__file__)))
sys.path[1:1] = [os.path.join(TOP, "tools")]
from command_line import Arguments, Trouble, run  # noqa: E402
from rule_file import load, sides  # noqa: E402
from svg import circle, element, label, path, root  # noqa: E402

CELL, FOOT, UNIT, IN_ROW = 170, 32, 44, 4
COLOURS = ["#1f5f7a", "#8ecae6", "#f4b860", "#3a9a9c"]  # of whole tiles, each by the lesser kind of its halves


def printed(program, path, address, vertex):
    """The lines of a star: kind, turn, shift and vertex of each tile."""
    with open(path, "rb") as file:
        words = [program, "star", "rule=-", f"addr={address}", f"vertex={vertex}"]
        ran = subprocess.run(words, stdin=file, capture_output=True, text=True)
    if ran.returncode:
        raise Trouble(f"no star of {address} {vertex}: {ran.stderr.strip()}")
    for line in ran.stdout.splitlines():
        kind, turn, shift, _, number = line.split()
        yield int(kind), int(turn), [int(a) for a in shift.split(",")], int(number)


def wholes(rule):
    """For each kind the colour of its whole tile, and the edge along which it is glued, or None."""
    glued = {ty for glue in rule.glue for ty in (glue, rule.mates[glue])}
    edges = [next((n for n, ty in enumerate(kind.edges) if ty in glued), None) for kind in rule.kinds]
    first = {}
    for number, (kind, edge) in enumerate(zip(rule.kinds, edges)):
        own = number if edge is None else kind.edges[edge]
        mate = own if edge is None else rule.mates[own]
        first.setdefault(own, first.get(mate, len(set(first.values()))))
    keys = [number if edge is None else kind.edges[edge] for number, (kind, edge) in enumerate(zip(rule.kinds, edges))]
    return [(COLOURS[first[key] % len(COLOURS)], edge) for key, edge in zip(keys, edges)]


def mirrored(polygon, edge):
    """A polygon in the mirror of one of its edges."""
    a, b = sides(polygon)[edge]
    along = (b - a) / abs(b - a)
    return [a + ((z - a) / along).conjugate() * along for z in polygon]


def star(rule, tiles, middle):
    """The fills of a star, and the lines above them, about a point of the picture."""
    seen = lambda z: middle + UNIT * z.conjugate()
    fills, lines, kinds, red = [], [], wholes(rule), (0, rule.mates[0])
    for kind, turn, shift, vertex in tiles:
        at = [rule.zeta**turn * corner + rule.point(shift) for corner in rule.kinds[kind].vertices]
        spot, (colour, edge) = at[vertex], kinds[kind]
        polygon = [corner - spot for corner in at]
        parts = [(polygon, None)]
        if edge is not None and vertex not in (edge, (edge + 1) % len(polygon)):
            parts.insert(0, (mirrored(polygon, edge), 0.45))
        for part, lighter in parts:
            fills.append(path(map(seen, part), fill=colour, fill_opacity=lighter))
            types = rule.kinds[kind].edges
            lines += [(side, "red" if types[n] in red else "line") for n, side in enumerate(sides(part)) if n != edge]
    return fills + [path(map(seen, side), "", class_=colour) for side, colour in lines]


def draw(program, name, stars):
    rule = load(name)
    rows = -(-len(stars) // IN_ROW)
    wide, high = CELL * min(IN_ROW, len(stars)), (CELL + FOOT) * rows
    out = [
        root(f"0 0 {wide} {high}", wide, high, "1.1"),
        '<style type="text/css">.line,.red{fill:none;stroke:#222;stroke-width:1.2;stroke-linecap:round}.red{stroke:#c0392b;stroke-width:2}'
        "text{font:15px sans-serif;text-anchor:middle}</style>",
        element("rect", width=wide, height=high, fill="white"),
    ]
    for number, (name_below, address, vertex) in enumerate(stars):
        row, column = divmod(number, IN_ROW)
        middle = complex(CELL * (column + 0.5), (CELL + FOOT) * row + CELL / 2)
        out.append(f"<g><title>{name_below}: star addr={address} vertex={vertex}</title>")
        out += star(rule, printed(program, name, address, vertex), middle)
        out += [circle(middle, 3), label(middle + 1j * (CELL / 2 + 20), name_below) + "</g>"]
    return "\n".join([*out, "</svg>", ""])


def main(words):
    arguments = Arguments()
    arguments.add_argument("program")
    arguments.add_argument("file")
    arguments.add_argument("stars", nargs="+")
    options = arguments.parse_args(words)
    if len(options.stars) % 3:
        arguments.error("each star has three arguments: NAME ADDRESS VERTEX")
    stars = list(zip(options.stars[::3], options.stars[1::3], options.stars[2::3]))
    print(draw(options.program, options.file, stars), end="")


if __name__ == "__main__":
    run(main, __doc__)
