"""Laws of the geometry and of windows, for numbers that hypothesis chooses."""
import math
from fractions import Fraction

import numpy as np
import pytest
from pagnetuf import BadWords, CoordLimit, DepthLimit, Ring
from pagnetuf.geometry import ORDERS, unique_points

hypothesis = pytest.importorskip("hypothesis")
from hypothesis import HealthCheck, given, settings  # noqa: E402
from hypothesis import strategies as some  # noqa: E402

QUICK = settings(max_examples=60, deadline=None, suppress_health_check=list(HealthCheck))
RINGS = {order: Ring(order) for order in ORDERS}
ROOTS = {4: Fraction(0), 6: Fraction(0), 8: Fraction(math.isqrt(2 << 400), 1 << 200)}
ROOTS[10] = (1 + Fraction(math.isqrt(5 << 400), 1 << 200)) / 2
LARGE = some.integers(-(1 << 27), 1 << 27)


@some.composite
def ring_and_points(draw, count):
    """A ring, and points of it with coefficients up to 2^27."""
    order = draw(some.sampled_from(ORDERS))
    width = 2 if order in (4, 6) else 4
    rows = [[draw(LARGE) for _ in range(width)] + [0] * (4 - width) for _ in range(count)]
    return RINGS[order], [np.array(row, np.int64) for row in rows]


def exact(ring, number):
    """A number p + q surd as a fraction, to 200 binary digits."""
    p, q = (int(it) for it in number)
    return p + q * ROOTS[ring.order]


@QUICK
@given(ring_and_points(2))
def test_crossings_are_exact_and_antisymmetric(drawn):
    ring, (a, b) = drawn
    there, back = ring.crossings(a, b), ring.crossings(b, a)
    (ax, ay), (bx, by) = ring.scaled(a), ring.scaled(b)
    found = exact(ring, there)
    wanted = exact(ring, ax) * exact(ring, by) - exact(ring, bx) * exact(ring, ay)
    assert abs(found - wanted) < Fraction(1, 1 << 100) and (there == -back).all()
    assert not ring.crossings(a, a).any()


@QUICK
@given(ring_and_points(2), some.integers(-20, 20))
def test_turns_are_motions(drawn, turn):
    """They keep sums, lengths and crossings, and the order-th is the identity."""
    ring, (a, b) = drawn
    assert (ring.turn(a + b, turn) == ring.turn(a, turn) + ring.turn(b, turn)).all()
    assert (ring.turn(ring.turn(a, turn), ring.order - turn) == a).all()
    assert np.hypot(*ring.xy(ring.turn(a, turn))) == pytest.approx(np.hypot(*ring.xy(a)), rel=1e-6, abs=1e-3)
    assert (ring.crossings(ring.turn(a, turn) >> 2, ring.turn(b, turn) >> 2).shape) == (2,)


@QUICK
@given(some.sampled_from(ORDERS), some.integers(-(1 << 29), 1 << 29), some.integers(-(1 << 29), 1 << 29))
def test_signs_are_exact(order, p, q):
    ring = RINGS[order]
    value = exact(ring, (p, q if order in (8, 10) else 0))
    assert int(ring.signs(np.array([p, q if order in (8, 10) else 0]))) == (value > 0) - (value < 0)


@QUICK
@given(some.sampled_from((8, 10)), some.integers(1, 1 << 28))
def test_signs_of_the_nearest_numbers(order, q):
    """p + q surd with the p for which it is nearest to 0, where floats know no sign."""
    ring = RINGS[order]
    for p in (-math.floor(q * ROOTS[order]), -math.floor(q * ROOTS[order]) - 1):
        value = exact(ring, (p, q))
        assert int(ring.signs(np.array([p, q]))) == (value > 0) - (value < 0)
        assert int(ring.signs(np.array([-p, -q]))) == (value < 0) - (value > 0)


@QUICK
@given(
    some.integers(1, 62), some.lists(some.lists(some.integers(-9, 9), min_size=4, max_size=4), max_size=30)
)
def test_points_are_found_again(shift, rows):
    """Also where their coefficients are far apart."""
    points = np.array(
        [[*row[:3], row[3] << shift - 4 if shift > 4 else row[3]] for row in rows], np.int64
    ).reshape(-1, 4)
    unique, numbers = unique_points(points)
    assert (unique[numbers] == points).all() and len({tuple(it) for it in points.tolist()}) == len(unique)
    far = np.concatenate([points, points * (1 << 14) + (1 << 17)])
    unique, numbers = unique_points(far)
    assert (unique[numbers] == far).all() and len({tuple(it) for it in far.tolist()}) == len(unique)
    assert unique.tolist() == sorted(unique.tolist())


@settings(max_examples=40, deadline=None, suppress_health_check=list(HealthCheck))
@given(
    some.sampled_from(("p3", "p2", "ab", "chair", "halfhex", "sphinx.toml")),
    some.floats(-20_000, 20_000),
    some.floats(-20_000, 20_000),
    some.tuples(some.integers(1, 14), some.integers(1, 14)),
    some.integers(0, (1 << 64) - 1),
)
def test_windows(tiling, name, x, y, half, seed):
    """A window is the tiles of a larger one that meet it; its tiles are a disc, cover its box, and overlap
    nowhere."""
    t = tiling(name)
    at = t.ring.near(x, y).tolist()
    try:
        window, larger = t.window(at, half, seed), t.window(at, (half[0] + 3, half[1] + 2), seed)
    except (CoordLimit, DepthLimit, BadWords):
        return
    rows = {
        tuple(it)
        for it in zip(larger.kinds.tolist(), larger.turns.tolist(), map(tuple, larger.shifts.tolist()))
    }
    mine = list(zip(window.kinds.tolist(), window.turns.tolist(), map(tuple, window.shifts.tolist())))
    assert set(mine) <= rows and len(set(mine)) == len(mine)
    assert len(window.vertices()) - len(window.edges()) + len(window) == 1 and len(window.rim()) == 1
    (loop,) = window.rim()
    (a, b), (c, d) = window.points()[loop].T, window.points()[np.roll(loop, -1)].T
    assert (a @ d - b @ c) / 2 == pytest.approx(window.area)
    low, high = np.array(window.bounds[:2]), np.array(window.bounds[2:])
    middle, sides = t.ring.xy(np.array(at)), np.array([half[0] / 2, half[1] * t.ring.sine])
    assert (low <= middle - sides + 1e-6).all() and (high >= middle + sides - 1e-6).all()
    for colour in (window.whole(), window):
        near, backs = colour.neighbours(), colour.backs()
        for tile, edge in zip(*np.nonzero(near >= 0)):
            assert near[near[tile, edge], backs[tile, edge]] == tile
