#!/usr/bin/env python3
"""Draws the steps 1, ζ, ζ², ζ³ of some orders, and how a point is reached by them, as SVG.

    draw_steps.py ORDER .. > PICTURE.svg      each ORDER 4, 6, 8 or 10
"""
import cmath
import os
import sys

sys.dont_write_bytecode = True
TOP = os.path.dirname(os.path.dirname(os.path.abspath(__file__)))
sys.path[1:1] = [os.path.join(TOP, "tools")]
from command_line import Arguments, run  # noqa: E402
from svg import arrow_head, circle, element, label, path, root  # noqa: E402

UNIT, CELL, HEAD = 60, 270, 34
NAMES = ["1", "ζ", "ζ²", "ζ³"]
POINTS = {"4": [2, 1, 0, 0], "6": [1, 1, 0, 0], "8": [1, 1, 0, -1], "10": [1, 0, 1, -1]}  # by the order


def arrow(a, b, colour, width):
    """An arrow from a to b, in pixels."""
    along = (b - a) / abs(b - a)
    shaft = path([a, b - along * 6], "", stroke=colour, stroke_width=width)
    return [shaft, path(arrow_head(b, along, 9, 0.4), fill=colour)]


def term(a, name):
    """A step, so many times, as in -ζ³ or 2."""
    if name == "1":
        return str(a)
    return ("-" if a == -1 else "" if a == 1 else str(a)) + name


def panel(order, point, x):
    """The steps of an order on the circle, and a path to a point: a step after another."""
    zeta = cmath.exp(2j * cmath.pi / order)
    middle = complex(x + 0.36 * CELL, HEAD + 100)
    seen = lambda z: middle + z.conjugate() * UNIT
    across = f"{x + CELL / 2:.1f}"
    lines = [element("text", f"order {order}", x=across, y=20, font_size=14, font_weight="bold")]
    lines.append(circle(middle, UNIT, fill="none", stroke="#ccc"))
    for k in range(order):
        lines.append(circle(seen(zeta**k), 2, fill="#999"))
    for k in range(2 if order in (4, 6) else 4):
        lines += arrow(seen(0), seen(zeta**k), "#1f5fa8", 1.6)
        at = seen(zeta**k * 1.24) + 4j if k else seen(0.8) + 16j
        lines.append(label(at, NAMES[k], fill="#1f5fa8"))
    at = 0
    for k, a in enumerate(point):
        for _ in range(abs(a)):
            step = zeta**k * (1 if a > 0 else -1)
            lines += arrow(seen(at), seen(at + step), "#e06c3a", 2.4)
            at += step
    words = " + ".join(term(a, NAMES[k]) for k, a in enumerate(point) if a).replace("+ -", "- ")
    what = f"{','.join(map(str, point))}: {words}"
    lines.append(circle(seen(at), 4, fill="#e06c3a"))
    place = f"x = {round(at.real, 3) + 0.0:.3f}, y = {round(at.imag, 3) + 0.0:.3f}"
    below = ((HEAD + 192, what), (HEAD + 210, place))
    return lines + [element("text", text, x=across, y=y, fill="#b04a1c") for y, text in below]


def main(words):
    arguments = Arguments()
    arguments.add_argument("orders", nargs="+", choices=POINTS)
    orders = arguments.parse_args(words).orders
    wide, high = CELL * len(orders), HEAD + 222
    body = [line for i, order in enumerate(orders) for line in panel(int(order), POINTS[order], i * CELL)]
    head = root(f"0 0 {wide} {high}", wide, high, font_family="sans-serif", font_size=13, text_anchor="middle")
    title = element("title", "The steps of each order, and a point reached by them")
    print("\n".join([head, title, element("rect", width=wide, height=high, fill="white"), *body, "</svg>"]))


if __name__ == "__main__":
    run(main, __doc__)
