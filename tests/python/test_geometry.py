"""The rings against docs/COORDINATES.md's tables, complex numbers and exact fractions."""
import cmath
import math
import random

import numpy as np
import pytest
from pagnetuf.geometry import ORDERS, Ring, unique_points

random.seed(7)


def some_points(order, count=200, most=1000):
    width = 2 if order in (4, 6) else 4
    return np.array(
        [[random.randint(-most, most) for _ in range(width)] + [0] * (4 - width) for _ in range(count)],
        np.int64,
    )


def complex_of(order, point, power=1):
    zeta = cmath.exp(2j * cmath.pi * power / order)
    return sum(a * zeta**i for i, a in enumerate(point.tolist()))


@pytest.mark.parametrize("order", ORDERS)
def test_places_are_those_of_complex_numbers(order):
    ring, points = Ring(order), some_points(order)
    for point, (x, y) in zip(points, ring.xy(points)):
        assert abs(complex(x, y) - complex_of(order, point)) < 1e-8
    general = np.array([[3, -1, 4, 1], [5, 9, -2, 6]], np.int64)
    for point, (x, y) in zip(general, ring.xy(general)):
        assert abs(complex(x, y) - complex_of(order, point)) < 1e-8


@pytest.mark.parametrize("order", ORDERS)
def test_turns_and_products(order):
    ring, points = Ring(order), some_points(order)
    zeta = cmath.exp(2j * cmath.pi / order)
    for turn in range(-1, order + 1):
        for point, turned in zip(points[:20], ring.turn(points[:20], turn)):
            assert abs(complex_of(order, turned) - complex_of(order, point) * zeta**turn) < 1e-8
    factor = some_points(order, 1, 5)[0]
    for point, product in zip(points[:20], ring.times(points[:20], factor)):
        assert abs(complex_of(order, product) - complex_of(order, point) * complex_of(order, factor)) < 1e-6


@pytest.mark.parametrize(
    "order, point, x, y",
    [  # docs/COORDINATES.md, "From coefficients to x and y"
        (10, (1, 1, 0, 0), 1.809017, 0.587785),
        (6, (0, 4, 0, 0), 2, 3.464102),
        (4, (7, 1, 0, 0), 7, 1),
        (8, (0, 1, 0, -1), math.sqrt(2), 0),
        (10, (1, 0, 1, -1), (1 + math.sqrt(5)) / 2, 0),
    ],
)
def test_rows_of_the_document(order, point, x, y):
    assert np.allclose(Ring(order).xy(np.array(point)), (x, y), atol=1e-6)


# powers of the golden ratio's conjugate and of the silver mean's: below a float's rounding, of either sign
@pytest.mark.parametrize("order", (8, 10))
def test_signs_are_exact_for_tiny_numbers(order):
    ring, (p, q), wanted = Ring(order), ((1, -1) if order == 10 else (-1, 1)), -1 if order == 10 else 1
    while max(abs(p), abs(q)) < 1 << 27:
        assert ring.signs(np.array([p, q])) == wanted, (p, q)
        assert ring.signs(np.array([-p, -q])) == -wanted
        p, q = (q, p - q) if order == 10 else (-p + 2 * q, p - q)
        wanted = -wanted if order == 10 else wanted


@pytest.mark.parametrize("order", ORDERS)
def test_signs_of_all_small_numbers(order):
    ring = Ring(order)
    pairs = np.array([(p, q) for p in range(-40, 41) for q in range(-40, 41)])
    if order in (4, 6):
        pairs[:, 1] = 0
    wanted = [0 if (p, q) == (0, 0) else math.copysign(1, p + q * ring.surd) for p, q in pairs.tolist()]
    assert ring.signs(pairs).tolist() == [
        int(w) if p or q else 0 for w, (p, q) in zip(wanted, pairs.tolist())
    ]


def test_sign_of_a_number_that_is_too_large():
    with pytest.raises(OverflowError):
        Ring(10).signs(np.array([1 << 40, 1]))


@pytest.mark.parametrize("order", (8, 10))
def test_perpendicular_space_has_the_cube_of_zeta(order):
    ring, points = Ring(order), some_points(order)
    for point, (x, y) in zip(points, ring.perpendicular(points)):
        assert abs(complex(x, y) - complex_of(order, point, 3)) < 1e-8
    with pytest.raises(ValueError):
        Ring(6).perpendicular(points)


@pytest.mark.parametrize("order", ORDERS)
def test_near_is_near(order):
    ring = Ring(order)
    for _ in range(50):
        x, y = random.uniform(-900, 900), random.uniform(-900, 900)
        there = ring.xy(ring.near(x, y))
        assert abs(there[0] - x) < 0.5001 and abs(there[1] - y) < 0.5001


@pytest.mark.parametrize("far", [1 << 40, (1 << 62) + 1])
def test_unique_points_of_far_coefficients(far):
    points = np.array([[far, 0, 0, 0], [0, far, -1, 0], [far, 0, 0, 0], [-far, 0, 1, 0]], np.int64)
    unique, numbers = unique_points(points)
    assert (unique[numbers] == points).all() and len(unique) == 3
    assert unique.tolist() == sorted(unique.tolist())
