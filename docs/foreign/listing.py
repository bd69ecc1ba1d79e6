"""Brings the halves of rhombs of triangles.py into the form that `tiling verify rule=p3` reads.

    python3 docs/foreign/triangles.py TIMES | python3 docs/foreign/listing.py NAME WIDTH HEIGHT

The half of this name is the base, and the window stands round its apex: half its width is WIDTH and half its height
HEIGHT, as `half=WIDTH,HEIGHT` says. It prints the listing of the halves that meet the window; and to standard error the words
to be typed behind `tiling`.

A kind is a colour and a hand. A name becomes an address by writing its pieces from the last to the first, each with the
kind that it is a piece of. Decimals become coefficients by going along sides from apex to apex: each side at an apex is one
step in one of ten directions. It takes nothing from `tiling` but what its documents say.
"""
import cmath
import signal
import sys

STEP = cmath.pi / 5
# the kind that each piece of a kind is: kinds 0 and 2 have apex, first and second end of the base counterclockwise
PIECES = [[0, 2], [1, 3], [2, 3, 1], [3, 2, 0]]
TOP = 2


def read(line):
    name, colour, *numbers = line.split()
    x = [float(number) for number in numbers]
    a, b, c = (complex(*x[i : i + 2]) for i in (0, 2, 4))
    clockwise = ((b - a).conjugate() * (c - a)).imag < 0
    return name, 2 * int(colour) + clockwise, (a, c, b) if clockwise else (a, b, c)


def address(name):
    kind, digits = TOP, []
    for piece in map(int, name[1:]):
        digits.insert(0, f"{piece}/{kind}")
        kind = PIECES[kind][piece]
    return f"{kind}:{','.join(digits)}"


def power(k):
    """The coefficients of ζ^k, where ζ^4 is -1 + ζ - ζ² + ζ³."""
    z = [1, 0, 0, 0]
    for _ in range(k % 10):
        z = [-z[3], z[0] + z[3], z[1] - z[3], z[2] + z[3]]
    return z


def plus(p, q, sign=1):
    return [a + sign * b for a, b in zip(p, q)]


def turned(p, k):
    """ζ^k times a point."""
    sum_of = [0, 0, 0, 0]
    for i, a in enumerate(p):
        sum_of = plus(sum_of, [a * b for b in power(k + i)])
    return sum_of


def place(corner):
    """A corner by rounded decimals: the same for all halves that have it."""
    return round(corner.real, 3) + 0.0, round(corner.imag, 3) + 0.0


def direction(start, end):
    return round(cmath.phase(end - start) / STEP) % 10


def coefficients(halves, base):
    """The coefficients of every corner, where the base's apex has zeros."""
    known, left = {place(base[0]): [0, 0, 0, 0]}, [place(base[0])]
    sides = {}
    for _, _, (a, *ends) in halves:
        for end in ends:
            sides.setdefault(place(a), []).append((place(end), power(direction(a, end))))
            sides.setdefault(place(end), []).append((place(a), power(direction(end, a))))
    while left:
        corner = left.pop()
        for other, step in sides[corner]:
            if other not in known:
                known[other] = plus(known[corner], step)
                left.append(other)
    return known


def meets(corners, width, height):
    """Whether a triangle and the open box round 0 overlap: no line along a side of either keeps them apart."""
    box = [complex(x, y) for x in (-width, width) for y in (-height, height)]
    sides = [b - a for a, b in zip(corners, corners[1:] + corners[:1])]
    for normal in [1, 1j, *(1j * side for side in sides)]:
        one, other = ([(p * normal.conjugate()).real for p in points] for points in (corners, box))
        if max(one) < min(other) + 1e-4 or max(other) < min(one) + 1e-4:
            return False
    return True


def main(name, width, height):
    halves = [read(line) for line in sys.stdin]
    base = next((corners for own, _, corners in halves if own == name), None)
    if base is None:
        sys.exit(f"listing.py: there is no half of the name {name}")
    known, back = coefficients(halves, base), direction(base[0], base[1])
    window = width / 2, height * cmath.sin(STEP).real
    for own, kind, corners in halves:
        moved = [(corner - base[0]) * cmath.rect(1, -back * STEP) for corner in corners]
        if meets(moved, *window):
            turn = (direction(corners[0], corners[1]) - back) % 10
            shift = turned(known[place(corners[0])], -back)
            print(kind, turn, ",".join(map(str, shift)), address(own))
    print(f"verify rule=p3 addr={address(name)} at=0,0,0,0 half={width},{height}", file=sys.stderr)


if __name__ == "__main__":
    if len(sys.argv) != 4 or not all(word.isdecimal() for word in sys.argv[2:]):
        sys.exit(__doc__)
    signal.signal(signal.SIGPIPE, signal.SIG_DFL)
    main(sys.argv[1], int(sys.argv[2]), int(sys.argv[3]))
