#!/usr/bin/env python3
"""Draws how the tiles of a window are found, in three panels, as SVG.

    draw_window.py FILE.toml KIND DIGITS HALF_W,HALF_H STEPS > PICTURE.svg      (Python 3.11 or later)

The frame is that of a tile of KIND with DIGITS, as in 3/0,1/0, the finest first. The window is the box around the tile's
middle with this half-width and half-height. The panels show the start, the tiles after STEPS steps, and the end. Found tiles are yellow,
open edges orange. The edges around the tiles found that are not open, which avoid the window, are blue."""
import os
import sys

sys.dont_write_bytecode = True
TOP = os.path.dirname(os.path.dirname(os.path.abspath(__file__)))
sys.path[1:1] = [os.path.join(TOP, "tools")]
from command_line import Trouble, count, numbers, run  # noqa: E402
from draw_walk import frame, frame_arguments, whole_picture  # noqa: E402
from rule_file import box, centre, load, sides  # noqa: E402
from svg import label, path  # noqa: E402

WIDE, HEAD, FOOT = 320, 10, 52
FOUND, OPEN, CHAIN, WINDOW, REST = "#f7e3b0", "#e06c3a", "#1f5fa8", "#117a3d", "#f4f6f8"
WORDS = [
    ["The tile that holds the centre,", "and its open edges."],
    ["Each step goes across the first open edge", "and finds one tile more."],
    ["No edge is open: the chain round the tiles", "avoids the window, so they cover it."],
]


def meets(edge, left, low, right, high):
    """Whether an edge has a point in the open box, by cutting it at the box's four lines."""
    (a, b), t0, t1 = edge, 0.0, 1.0
    along = b - a
    for start, way, least, most in ((a.real, along.real, left, right), (a.imag, along.imag, low, high)):
        if abs(way) < 1e-9:
            if not least + 1e-9 < start < most - 1e-9:
                return False
            continue
        near, far = sorted(((least - start) / way, (most - start) / way))
        t0, t1 = max(t0, near), min(t1, far)
    return t1 - t0 > 1e-9


def search(tiles, start, bounds):
    """The states of the search: the numbers of the tiles found so far, with the open edges as (tile, edge)."""
    ends = {}
    for number, (_, polygon) in enumerate(tiles):
        for edge, (a, b) in enumerate(sides(polygon)):
            ends[round(a.real, 4) + 0.0, round(a.imag, 4) + 0.0, round(b.real, 4) + 0.0, round(b.imag, 4) + 0.0] = number, edge
    across = lambda a, b: ends.get((round(b.real, 4) + 0.0, round(b.imag, 4) + 0.0, round(a.real, 4) + 0.0, round(a.imag, 4) + 0.0))
    found, states = [start], []
    while True:
        waiting = []
        for number in found:
            for edge, pair in enumerate(sides(tiles[number][1])):
                other = across(*pair)
                if meets(pair, *bounds) and (other is None or other[0] not in found):
                    waiting.append((number, edge))
        states.append((list(found), waiting))
        if not waiting:
            return states
        number, edge = waiting[0]
        other = across(*sides(tiles[number][1])[edge])
        if other is None:
            raise Trouble("the frame is too small for the window: give more digits")
        found.append(other[0])


def panel(number, tiles, state, bounds, seen):
    found, waiting = state
    look = {"stroke": "#c3ccd4", "stroke_width": 0.7}
    lines = [path(map(seen, polygon), fill=FOUND if i in found else REST, **look) for i, (_, polygon) in enumerate(tiles)]
    edges = {(i, e): pair for i in found for e, pair in enumerate(sides(tiles[i][1]))}
    met = {(round(b.real, 3), round(b.imag, 3), round(a.real, 3), round(a.imag, 3)) for a, b in edges.values()}
    for key, (a, b) in edges.items():
        if key in waiting:
            ink, width = OPEN, 2.6
        elif (round(a.real, 3), round(a.imag, 3), round(b.real, 3), round(b.imag, 3)) not in met:
            ink, width = CHAIN, 2
        else:
            ink, width = "#8d7a45", 0.9
        lines.append(path([seen(a), seen(b)], "", fill="none", stroke=ink, stroke_width=width))
    return [*lines, window_outline(bounds, seen)]


def window_outline(bounds, seen):
    """The sides of a window."""
    left, low, right, high = bounds
    corners = [complex(left, low), complex(right, low), complex(right, high), complex(left, high)]
    return path(map(seen, corners), fill="none", stroke=WINDOW, stroke_width=1.6, stroke_dasharray="5 3")


def words_below(words, number, tall):
    """The lines of text below a panel."""
    for row, text in enumerate(words):
        yield label(complex((number + 0.5) * WIDE, HEAD + tall + 22 + 17 * row), text)


def draw(rule, kind, digits, half, steps):
    """The text of the SVG file."""
    tiles = frame(rule, kind, digits)
    own = [vertex for vertex in rule.kinds[kind].vertices]
    middle = centre(own)
    bounds = (middle.real - half[0], middle.imag - half[1], middle.real + half[0], middle.imag + half[1])
    start = next(i for i, (of, polygon) in enumerate(tiles) if of == kind and abs(centre(polygon) - middle) < 1e-6)
    states = search(tiles, start, bounds)
    shown = [states[0], states[min(steps, len(states) - 1)], states[-1]]
    reach = [z for i in shown[-1][0] for z in tiles[i][1]]
    left, low, right, high = box(reach)
    room = 0.25
    near = [tile for tile in tiles if left - room < centre(tile[1]).real < right + room and low - room < centre(tile[1]).imag < high + room]
    left, low, right, high = box([z for _, polygon in near for z in polygon])
    unit = (WIDE - 24) / (right - left)
    tall = (high - low) * unit
    names = {id(polygon): i for i, (_, polygon) in enumerate(tiles)}
    body = []
    for number, (found, waiting) in enumerate(shown):
        seen = lambda z, x=number * WIDE + 12: complex(x + (z.real - left) * unit, HEAD + (high - z.imag) * unit)
        kept = [names[id(polygon)] for _, polygon in near]
        state = [kept.index(i) for i in found], [(kept.index(i), e) for i, e in waiting]
        body += panel(number, near, state, bounds, seen)
        body += words_below(WORDS[number], number, tall)
    size, round_lines = (WIDE * 3, f"{HEAD + tall + FOOT:.0f}"), {"stroke_linecap": "round", "stroke_linejoin": "round"}
    return whole_picture(size, f"{rule.name}: how the tiles of a window are found", body, 12, **round_lines)


def main(words):
    arguments = frame_arguments()
    arguments.add_argument("half", type=numbers(2, float))
    arguments.add_argument("steps", type=count)
    options = arguments.parse_args(words)
    try:
        print(draw(load(options.file), options.kind, options.digits, options.half, options.steps), end="")
    except IndexError as fault:
        raise Trouble(f"{options.file} has no such kind, child or edge") from fault


if __name__ == "__main__":
    run(main, __doc__)
