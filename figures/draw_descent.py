#!/usr/bin/env python3
"""Draws how the tiles of a window are found from the top down, in three panels, as SVG.

    draw_descent.py FILE.toml KIND DIGITS HALF_W,HALF_H LEVEL,LEVEL,LEVEL > PICTURE.svg      (Python 3.11 or later)

The frame is that of a tile of KIND with DIGITS, as in 3/0,1/0, the finest first. The window is the box around the tile's
middle with this half-width and half-height. A panel shows the parts of the supertile when the descent has come down to a LEVEL: in grey
those left out, in yellow those taken, and in white those that it looks into further."""
import os
import sys

sys.dont_write_bytecode = True
TOP = os.path.dirname(os.path.dirname(os.path.abspath(__file__)))
sys.path[1:1] = [os.path.join(TOP, "tools")]
from command_line import Trouble, numbers, run  # noqa: E402
from draw_walk import base_motion, frame_arguments, whole_picture  # noqa: E402
from draw_window import meets, window_outline, words_below  # noqa: E402
from rule_file import box, centre, load, sides  # noqa: E402
from svg import path  # noqa: E402

WIDE, HEAD, FOOT = 320, 10, 52
BEYOND, WITHIN, ACROSS = range(3)
FILL = ["#dfe4e9", "#f7e3b0", "white"]
LINE = ["#aab4bd", "#8d7a45", "#e06c3a"]
WORDS = [
    ["Grey parts lie beyond one side:", "none of their tiles meets the window."],
    ["Yellow parts lie within: all their tiles do.", "The others are looked into."],
    ["A tile by itself meets the window where an edge", "of it does, or where it holds the centre."],
]


def standing(polygon, bounds):
    """How a polygon stands to the window, by its vertices."""
    left, low, right, high = bounds
    inside = [(z.real < right - 1e-9, z.real > left + 1e-9, z.imag < high - 1e-9, z.imag > low + 1e-9) for z in polygon]
    if not all(any(side) for side in zip(*inside)):
        return BEYOND
    return WITHIN if all(all(sides) for sides in inside) else ACROSS


def holds(polygon, point):
    """Whether a polygon holds a point that is on no edge of it."""
    return sum((a.imag <= point.imag) != (b.imag <= point.imag) and ((b - a).conjugate() * (point - a)).imag * (b - a).imag > 0 for a, b in sides(polygon)) % 2 == 1


def parts(rule, kind, level, motion, bounds, last):
    """The parts at which the descent stands at a level, each with how it stands."""
    turn, shift = motion
    polygon = [turn * rule.factor**level * vertex + shift for vertex in rule.kinds[kind].vertices]
    how = standing(polygon, bounds)
    if level == 0 and how == ACROSS:
        middle = complex((bounds[0] + bounds[2]) / 2, (bounds[1] + bounds[3]) / 2)
        how = WITHIN if any(meets(edge, *bounds) for edge in sides(polygon)) or holds(polygon, middle) else BEYOND
    if how != ACROSS or level == last:
        yield how, polygon
        return
    for of, more, moved in rule.kinds[kind].children:
        below = turn * rule.zeta**more, shift + turn * rule.factor ** (level - 1) * moved
        yield from parts(rule, of, level - 1, below, bounds, last)


def draw(rule, kind, digits, half, levels):
    """The text of the SVG file."""
    turn, moved = base_motion(rule, digits)
    back = rule.zeta**-turn
    top, depth, motion = digits[-1][1], len(digits), (back, -moved * back)
    middle = centre(rule.kinds[kind].vertices)
    bounds = (middle.real - half[0], middle.imag - half[1], middle.real + half[0], middle.imag + half[1])
    whole = [motion[0] * rule.factor**depth * vertex + motion[1] for vertex in rule.kinds[top].vertices]
    if not holds(whole, middle) or any(meets(edge, *bounds) for edge in sides(whole)):
        raise Trouble("the supertile doesn't hold the window: give more digits")
    left, low, right, high = box(whole)
    unit = (WIDE - 24) / (right - left)
    tall = (high - low) * unit
    body = []
    for number, level in enumerate(levels):
        seen = lambda z, x=number * WIDE + 12: complex(x + (z.real - left) * unit, HEAD + (high - z.imag) * unit)
        shown = sorted(parts(rule, top, depth, motion, bounds, level), key=lambda part: part[0] == ACROSS)
        for how, polygon in shown:
            body.append(path(map(seen, polygon), fill=FILL[how], stroke=LINE[how], stroke_width=0.8))
        body.append(window_outline(bounds, seen))
        body += words_below(WORDS[number], number, tall)
    size, round_lines = (WIDE * 3, f"{HEAD + tall + FOOT:.0f}"), {"stroke_linecap": "round", "stroke_linejoin": "round"}
    title = f"{rule.name}: how the tiles of a window are found from the top down"
    return whole_picture(size, title, body, 12, **round_lines)


def main(words):
    arguments = frame_arguments()
    arguments.add_argument("half", type=numbers(2, float))
    arguments.add_argument("levels", type=numbers(3, int))
    options = arguments.parse_args(words)
    if not options.digits:
        arguments.error("there are no digits")
    try:
        print(draw(load(options.file), options.kind, options.digits, options.half, options.levels), end="")
    except IndexError as fault:
        raise Trouble(f"{options.file} has no such kind or child") from fault


if __name__ == "__main__":
    run(main, __doc__)
