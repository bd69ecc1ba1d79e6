#!/usr/bin/env python3
"""Draws why the children of an inflated prototile dissect it, in four panels, as SVG.

    draw_dissection.py FILE.toml > PICTURE.svg      (Python 3.11 or later)
"""
import os
import sys

sys.dont_write_bytecode = True
TOP = os.path.dirname(os.path.dirname(os.path.abspath(__file__)))
sys.path[1:1] = [os.path.join(TOP, "tools")]
from command_line import Arguments, run  # noqa: E402
from rule_file import box, centre, cross, load, sides  # noqa: E402
from svg import circle, element, label, path, root  # noqa: E402

WIDE, HIGH, HEAD, SIZE = 300, 330, 30, 230
INNER, OUTER, POINT, NEVER = "#1f5fa8", "#e06c3a", "#117a3d", "#c62828"
WORDS = [
    ["Child edges that meet run opposite ways:", "what they count cancels, pair by pair."],
    ["What is left follows one another", "along each inflated edge: its parts."],
    ["About a point: crossings of the line to its right,", "+1 up, −1 down; inner ones add to 0."],
    ["A tile across the boundary would run back", "along the star, as no edge of a star does."],
]


class Panel:
    """A place for the inflated prototile, and what is drawn in it."""

    def __init__(self, number, inflated):
        self.left, self.low, self.right, self.high = box(inflated)
        self.scale = SIZE / max(self.right - self.left, self.high - self.low)
        self.x = number * WIDE + (WIDE - SIZE) / 2
        self.lines = []

    def seen(self, z):
        """The pixel of a point."""
        return complex(self.x + (z.real - self.left) * self.scale, HEAD + (self.high - z.imag) * self.scale)

    def outline(self, polygon, colour, width):
        self.lines.append(path(map(self.seen, polygon), fill="none", stroke=colour, stroke_width=width))

    def arrow(self, start, end, colour, inwards):
        """An arrow along an edge, moved to the left of it by so many pixels."""
        a, b = self.seen(start), self.seen(end)
        along = (b - a) / abs(b - a)
        a, b = a + along * 7 - along * 1j * inwards, b - along * 7 - along * 1j * inwards
        tip = [b, b - along * 8 + along * 3.5j, b - along * 8 - along * 3.5j]
        self.lines += [path([a, b], "", stroke=colour, stroke_width=1.8), path(tip, fill=colour)]

    def words(self, number):
        for row, text in enumerate(WORDS[number]):
            x, y = f"{number * WIDE + WIDE / 2:.1f}", HEAD + SIZE + 30 + 18 * row
            self.lines.append(element("text", text, x=x, y=y))


def meets(edge, edges):
    """Whether another edge runs from its end to its start."""
    return any(abs(edge[0] - b) + abs(edge[1] - a) < 1e-6 for a, b in edges)


def crossed(point, edge):
    """Where the edge crosses the line from the point to the right, and +1 or -1; None where it doesn't."""
    a, b = edge
    up, down = a.imag <= point.imag < b.imag, b.imag <= point.imag < a.imag
    if not (up and cross(b - a, point - a) > 0 or down and cross(b - a, point - a) < 0):
        return None
    part = (point.imag - a.imag) / (b.imag - a.imag)
    return (a + (b - a) * part, 1 if up else -1)


def draw(rule):
    """The lines of the four panels, for the first kind."""
    kind = rule.kinds[0]
    inflated = [rule.factor * vertex for vertex in kind.vertices]
    tiles = []
    for number, turn, shift in kind.children:
        turned, moved = rule.motion(turn, shift)
        tiles.append([turned * vertex + moved for vertex in rule.kinds[number].vertices])
    edges = [edge for tile in tiles for edge in sides(tile)]
    panels = [Panel(number, inflated) for number in range(4)]
    for number, panel in enumerate(panels):
        for tile in tiles:
            panel.outline(tile, "#ccc", 1)
        panel.words(number)
    for edge in edges:
        if meets(edge, edges):
            panels[0].arrow(*edge, INNER, 5)
        else:
            panels[1].arrow(*edge, OUTER, 5)
    for start, end in sides(inflated):
        panels[1].arrow(start, end, "#555", -7)
    cut(panels[2], tiles, inflated, edges)
    star(panels[3], inflated, next(edge for edge in edges if not meets(edge, edges)))
    return [line for panel in panels for line in panel.lines]


def cut(panel, tiles, inflated, edges):
    """A point, the line to its right, and what each edge counts there."""
    panel.outline(inflated, "#555", 2)
    point = centre(tiles[0]) - 0.31 - 0.17j
    a, b = panel.seen(point), panel.seen(complex(panel.right, point.imag))
    panel.lines.append(path([a], f"H{b.real + 14:.1f}", stroke=POINT, stroke_width=1.2, stroke_dasharray="4 3"))
    panel.lines.append(circle(a, 4, fill=POINT))
    for edge in edges:
        found = crossed(point, edge)
        if found:
            at, sign = panel.seen(found[0]), found[1]
            colour = INNER if meets(edge, edges) else OUTER
            panel.lines.append(label(at - 10 * sign - 6j, "+1" if sign > 0 else "−1", fill=colour))


def star(panel, inflated, edge):
    """The fan of the inflated prototile, an edge on its boundary, and the one that can't be across."""
    for vertex in inflated[2:-1]:
        panel.outline([inflated[0], vertex], "#999", 1)
    panel.outline(inflated, "#555", 2)
    panel.lines.append(circle(panel.seen(inflated[0]), 4, fill="#555"))
    panel.arrow(*edge, OUTER, 6)
    panel.arrow(edge[1], edge[0], NEVER, 8)


def main(words):
    arguments = Arguments()
    arguments.add_argument("file")
    lines, wide = draw(load(arguments.parse_args(words).file)), WIDE * 4
    head = root(f"0 0 {wide} {HIGH}", wide, HIGH, font_family="sans-serif", font_size=12, text_anchor="middle")
    title = element("title", "Why the children of an inflated prototile dissect it")
    print("\n".join([head, title, element("rect", width=wide, height=HIGH, fill="white"), *lines, "</svg>"]))


if __name__ == "__main__":
    run(main, __doc__)
