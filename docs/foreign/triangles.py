"""Prints Penrose's rhombs by decimals: halves of rhombs, each cut again and again, as many programs make them.

    python3 docs/foreign/triangles.py TIMES

It begins with half a thick rhomb. A line has the name of a half, its colour (0 thin, 1 thick), and the x and y of its
apex and of the two ends of its base. A name is `h` and behind it, from the first cut to the last, which piece it is of the
half before. The sides at the apex are 1 long at the end. It knows nothing of `tiling`.
"""
import cmath
import signal
import sys

GOLDEN = (1 + 5**0.5) / 2


def pieces(colour, a, b, c):
    if colour == 0:
        p = a + (b - a) / GOLDEN
        return [(0, c, p, b), (1, p, c, a)]
    q, r = b + (a - b) / GOLDEN, b + (c - b) / GOLDEN
    return [(1, r, c, a), (1, q, r, b), (0, r, q, a)]


def main(times):
    side = GOLDEN**times
    halves = [("h", (1, 0, side, cmath.rect(side, cmath.pi * 3 / 5)))]
    for _ in range(times):
        halves = [(f"{name}{n}", piece) for name, half in halves for n, piece in enumerate(pieces(*half))]
    for name, (colour, *corners) in halves:
        print(name, colour, *(f"{c.real:.6f} {c.imag:.6f}" for c in corners))


if __name__ == "__main__":
    if len(sys.argv) != 2 or not sys.argv[1].isdecimal():
        sys.exit(__doc__)
    signal.signal(signal.SIGPIPE, signal.SIG_DFL)
    main(int(sys.argv[1]))
