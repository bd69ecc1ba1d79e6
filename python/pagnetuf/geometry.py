"""Exact plane geometry in the rings Z[zeta] of the orders 4, 6, 8 and 10: zeta is one step in the direction
360°/order.

A point is four integers a0, a1, a2, a3, for a0 + a1 zeta + a2 zeta^2 + a3 zeta^3, in the last axis of an
int64 array; in the orders 4 and 6 the last two are 0. Its scaled coordinates X = 2 x and Y = y /
sin(360°/order) are numbers p + q s of integers, where s is 0, sqrt 2 or the golden ratio: the *surd* of the
order. They, products and signs are exact; only `xy` and `perpendicular` end in floats. docs/COORDINATES.md
has the same in words."""
from __future__ import annotations

import math
from typing import Any, Tuple

import numpy as np

from .arguments import frozen, rows_of

ORDERS = (4, 6, 8, 10)
# zeta^2 (orders 4 and 6) or zeta^4 (8 and 10) in the lower powers
_TOP = {4: (-1, 0), 6: (-1, 1), 8: (-1, 0, 0, 0), 10: (-1, 1, -1, 1)}
# X and Y as rows (coefficient, part): the parts are the integer and that of the surd
_X = {
    4: ((2, 0), (0, 0), (-2, 0), (0, 0)),
    6: ((2, 0), (1, 0), (-1, 0), (-2, 0)),
    8: ((2, 0), (0, 1), (0, 0), (0, -1)),
    10: ((2, 0), (0, 1), (-1, 1), (1, -1)),
}
_Y = {
    4: ((0, 0), (1, 0), (0, 0), (-1, 0)),
    6: ((0, 0), (1, 0), (1, 0), (0, 0)),
    8: ((0, 0), (1, 0), (0, 1), (1, 0)),
    10: ((0, 0), (1, 0), (0, 1), (0, 1)),
}
# surd^2 = u + v surd
_SQUARE = {4: (0, 0), 6: (0, 0), 8: (2, 0), 10: (1, 1)}
GOLDEN = (1 + math.sqrt(5)) / 2
_SURD = {4: 0.0, 6: 0.0, 8: math.sqrt(2), 10: GOLDEN}
SIGN_LIMIT = 1 << 29  # of p and q of a number p + q s, for an exact sign in 64 bits
FACTOR_LIMIT = (
    1 << 30
)  # of p and q of each of two numbers, for an exact product of them, and the difference of two
POINT_LIMIT = 1 << 60  # of a coefficient, for exact coordinates


class Ring:
    """The ring Z[zeta] of one order. All its arrays are int64, and none is changed in place."""

    def __init__(self, order: int):
        if order not in ORDERS:
            raise ValueError(f"the order is 4, 6, 8 or 10, and not {order!r}")
        self.order = order
        self.surd = _SURD[order]
        self.sine = math.sin(2 * math.pi / order)
        self.powers = self._powers()
        self._x, self._y = np.array(_X[order]), np.array(_Y[order])
        # X and Y of the four steps 1, zeta, zeta^2 and zeta^3, as floats: (2, 4)
        self.steps = np.stack([self.value(self._x), self.value(self._y)])

    def _powers(self) -> np.ndarray:
        """The matrices of multiplication by zeta^k, for rows of coefficients: (order, 4, 4)."""
        top = _TOP[self.order]
        step = np.zeros((4, 4), np.int64)
        for power in range(len(top) - 1):
            step[power, power + 1] = 1
        step[len(top) - 1, : len(top)] = top
        rows = [np.eye(4, dtype=np.int64)]
        if len(top) == 2:
            # what stands for zeta^2 and zeta^3 is brought into the first two
            rows[0][2:] = 0
            rows[0][2, :2] = top
            rows[0][3] = rows[0][2] @ step
        while len(rows) < self.order:
            rows.append(rows[-1] @ step)
        return frozen(np.array(rows))

    def turn(self, points: np.ndarray, turns: Any) -> np.ndarray:
        """The points times zeta^turn.

        Parameters
        ----------
        points : int (.., 4)
            Coefficients of points.
        turns : int or int (..)
            By how many steps of 360°/order: one number, or one for each point.

        Returns
        -------
        int64 (.., 4)
            The turned points.
        """
        steps = np.asarray(turns)
        if steps.dtype.kind not in "iu":
            raise TypeError(f"turns are whole numbers, and not {turns!r}")
        return np.einsum("...i,...ij->...j", rows_of("points", points, 4), self.powers[steps % self.order])

    def times(self, points: np.ndarray, factor: Any) -> np.ndarray:
        """The products of points with one number of the ring.

        Parameters
        ----------
        points : int (.., 4)
            Coefficients of points.
        factor : 4 int
            The number.

        Returns
        -------
        int64 (.., 4)
            The products.
        """
        matrix = np.tensordot(rows_of("factor", factor, 4), self.powers[[0, 1, 2, 3]], 1)
        return rows_of("points", points, 4) @ matrix

    def scaled(self, points: np.ndarray) -> Tuple[np.ndarray, np.ndarray]:
        """X and Y of points, exactly.

        Parameters
        ----------
        points : int (.., 4)
            Coefficients of points.

        Returns
        -------
        X, Y : int64 (.., 2)
            Pairs p, q for p + q surd.

        Raises
        ------
        OverflowError
            A coefficient is above 2^60.
        """
        points = rows_of("points", points, 4)
        _within(POINT_LIMIT, points)
        return points @ self._x, points @ self._y

    def signs(self, numbers: np.ndarray) -> np.ndarray:
        """The signs of numbers p + q surd, exactly.

        Parameters
        ----------
        numbers : int (.., 2)
            Pairs p, q.

        Returns
        -------
        int64 (..)
            -1, 0 or 1.

        Raises
        ------
        OverflowError
            One is above 2^29.
        """
        numbers = rows_of("numbers", numbers, 2)
        _within(SIGN_LIMIT, numbers)
        p, q = numbers[..., 0], numbers[..., 1]
        if self.order in (4, 6):
            return np.sign(p)
        if self.order == 10:  # 2 (p + q phi) = (2 p + q) + q sqrt 5
            p, q, square = 2 * p + q, q, 5
        else:
            square = 2
        alike = np.sign(p) * np.sign(q) >= 0
        larger = np.sign(p * p - square * q * q)  # whether p or q sqrt decides where their signs differ
        return np.where(alike, np.sign(np.sign(p) + np.sign(q)), np.sign(p) * larger)

    def product(self, a: np.ndarray, b: np.ndarray) -> np.ndarray:
        """The products of numbers p + q surd, exactly.

        Parameters
        ----------
        a, b : int64 (.., 2)
            Pairs p, q.

        Returns
        -------
        int64 (.., 2)
            The products, as pairs.

        Raises
        ------
        OverflowError
            One is above 2^30.
        """
        _within(FACTOR_LIMIT, a, b)
        u, v = _SQUARE[self.order]
        both = a[..., 1] * b[..., 1]
        return np.stack(
            [a[..., 0] * b[..., 0] + u * both, a[..., 0] * b[..., 1] + a[..., 1] * b[..., 0] + v * both], -1
        )

    def crossings(self, a: np.ndarray, b: np.ndarray) -> np.ndarray:
        """X(a) Y(b) - X(b) Y(a), exactly: positive where b lies to the left of a.

        Parameters
        ----------
        a, b : int (.., 4)
            Coefficients of points.

        Returns
        -------
        int64 (.., 2)
            Pairs p, q for p + q surd.

        Raises
        ------
        OverflowError
            A coordinate is above 2^30.
        """
        (ax, ay), (bx, by) = self.scaled(a), self.scaled(b)
        return self.product(ax, by) - self.product(bx, ay)

    def value(self, numbers: np.ndarray) -> np.ndarray:
        """Numbers p + q surd as floats.

        Parameters
        ----------
        numbers : int (.., 2)
            Pairs p, q.

        Returns
        -------
        float64 (..)
            Their values.
        """
        numbers = np.asarray(numbers)
        return numbers[..., 0] + self.surd * numbers[..., 1]

    def xy(self, points: np.ndarray) -> np.ndarray:
        """x and y of points, in lengths.

        Parameters
        ----------
        points : int (.., 4)
            Coefficients of points.

        Returns
        -------
        float64 (.., 2)
            Their places.
        """
        x, y = self.scaled(points)
        return np.stack([self.value(x) / 2, self.value(y) * self.sine], -1)

    def conjugate(self, points: np.ndarray) -> np.ndarray:
        """The points with zeta^3 for zeta, exactly.

        Parameters
        ----------
        points : int (.., 4)
            Coefficients of points.

        Returns
        -------
        int64 (.., 4)
            Their conjugates.

        Raises
        ------
        ValueError
            The order is 4 or 6.
        """
        if self.order in (4, 6):
            raise ValueError("perpendicular space exists only in orders 8 and 10")
        rows = self.powers[[0, 3, 6, 9 % self.order], 0]
        return rows_of("points", points, 4) @ rows

    def perpendicular(self, points: np.ndarray) -> np.ndarray:
        """The places of points in perpendicular space (de Bruijn 1981; Beenker 1982).

        Parameters
        ----------
        points : int (.., 4)
            Coefficients of points.

        Returns
        -------
        float64 (.., 2)
            x and y there, in lengths.

        Raises
        ------
        ValueError
            The order is 4 or 6.
        """
        return self.xy(self.conjugate(points))

    def near(self, x: float, y: float) -> np.ndarray:
        """A point of the ring near a place.

        Parameters
        ----------
        x, y : float
            The place, in lengths.

        Returns
        -------
        int64 (4,)
            A point within half a length in x, and half of the sine in y.
        """
        if self.order == 8:
            return np.array([round(x), 0, round(y), 0], np.int64)
        up = round(y / self.sine)
        return np.array([round(x - up * math.cos(2 * math.pi / self.order)), up, 0, 0], np.int64)


def _within(limit: int, *arrays: np.ndarray) -> None:
    """OverflowError where a number of an array is above a limit in absolute value."""
    for array in arrays:
        if array.size and not -limit <= int(array.min()) <= int(array.max()) <= limit:
            raise OverflowError("a number is too large to be exact in 64 bits")


def unique_points(points: np.ndarray) -> Tuple[np.ndarray, np.ndarray]:
    """The different points among (n, 4), in the order of their coefficients, and the number of each: (V, 4)
    and (n,)."""
    if not len(points):
        return points.reshape(0, 4), np.zeros(0, np.int64)
    least = points.min(0)
    # (differences may need more than 64 bits)
    spans = [high - low + 1 for low, high in zip(least.tolist(), points.max(0).tolist())]
    if math.prod(spans) >= 1 << 62:
        unique, numbers = np.unique(points, axis=0, return_inverse=True)
        return unique, numbers.reshape(-1)
    keys = np.zeros(len(points), np.int64)
    for axis, span in enumerate(spans):
        keys = keys * span + (points[:, axis] - least[axis])
    _, first, numbers = np.unique(keys, return_index=True, return_inverse=True)
    return points[first], numbers.reshape(-1)
