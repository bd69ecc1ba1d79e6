"""What is computed of one window of a sheet: the tiles that it owns, or the vertices or edges that lie in
it."""
from __future__ import annotations

from typing import Any, Callable, List, NamedTuple, Optional, Sequence

import numpy as np

from .engine import ADDRESS, TILE, Box, Found, Frame, Machine, taken
from .patch import Patch, named, whole_patch
from .rule import Rule

NEAR = 0.01


class Task(NamedTuple):
    """A window of a sheet: what is computed of it, with the earlier windows beside it."""

    machine: Machine
    frame: Frame
    box: Box
    earlier: Sequence[Box]
    whole: bool
    addresses: bool
    of: str = "tiles"


class Packed(NamedTuple):
    """Tiles of a window on their way between two processes: all that differs among them.

    motions    uint8 (n, 2)        the kind and the turn of each
    shifts     int32 (n, 4)        (no coefficient is above 2^24)
    addresses  uint8 (n, 2 + 2 d)  the bytes of the addresses up to the greatest depth; or None
    whole      int64 (n,)          or None
    """

    motions: np.ndarray
    shifts: np.ndarray
    addresses: Optional[np.ndarray]
    whole: Optional[np.ndarray]

    @classmethod
    def of(cls, found: Found) -> "Packed":
        tiles, named_by = found.tiles, None
        if found.addresses is not None:
            used = 2 + 2 * int(found.addresses["depth"].max(initial=0))
            named_by = found.addresses.view(np.uint8).reshape(len(tiles), -1)[:, :used].copy()
        motions = np.stack([tiles["kind"], tiles["turn"]], 1)
        return cls(motions, tiles["shift"].astype(np.int32), named_by, found.whole)

    def unpacked(self) -> Found:
        tiles, addresses = np.zeros(len(self.motions), TILE), None
        tiles["kind"], tiles["turn"], tiles["shift"] = *self.motions.T, self.shifts
        if self.addresses is not None:
            addresses = np.zeros(len(tiles), ADDRESS)
            whole_bytes = addresses.view(np.uint8).reshape(len(tiles), -1)
            whole_bytes[:, : self.addresses.shape[1]] = self.addresses
        return Found(tiles, addresses, self.whole)


def packed(task: Task) -> Packed:
    """The tiles that a window of a sheet owns, for another process."""
    return Packed.of(owned(task))


def made(each: Optional[Callable[[Any], Any]], task: Task) -> Any:
    """What a function makes of a piece; without one, the piece."""
    piece = piece_of(task)
    return piece if each is None else each(piece)


def piece_of(task: Task) -> Any:
    """The patch of a window, or its vertices or edges."""
    if task.of == "tiles":
        return patch_of(task.machine, owned(task))
    found = task.machine.cover(task.frame, task.box, task.whole, False)
    patch = patch_of(task.machine, found if task.whole else found._replace(whole=None))
    points = patch.vertices()
    if task.of == "vertices":
        return points[lying_in(patch.rule, points, task.box)]
    ends = points[patch.edges()]
    (a, b, c, d), (wide, high) = task.box
    doubled = Box((2 * a, 2 * b, 2 * c, 2 * d), (2 * wide, 2 * high))
    return ends[lying_in(patch.rule, ends.sum(1), doubled)]


def lying_in(rule: Rule, points: np.ndarray, box: Box) -> np.ndarray:
    """Which points (n, 4) lie in a window with its left and its lower side, exactly: bool (n,)."""
    inside = np.ones(len(points), bool)
    for along, half in zip(rule.ring.scaled(points - np.array(box.at)), box.half):
        from_left, from_right = along.copy(), along.copy()
        from_left[:, 0] += half
        from_right[:, 0] -= half
        inside &= (rule.ring.signs(from_left) >= 0) & (rule.ring.signs(from_right) < 0)
    return inside


def owned(task: Task) -> Found:
    """The tiles of a window that meet none of the earlier ones, which have no inner point in common with it.
    With `whole`, the halves of whole tiles; without, `Found.whole` is None."""
    found = task.machine.cover(task.frame, task.box, task.whole, task.addresses)
    old = old_tiles(task.machine, found.tiles, task.box, task.earlier)
    if not task.whole:
        kept = np.delete(np.arange(len(found.tiles)), old)
        return Found(taken(found.tiles, kept), named(found.addresses, kept), None)
    assert found.whole is not None
    is_kept = np.ones(int(found.whole[-1]) + 1 if len(found.whole) else 0, bool)
    is_kept[found.whole[old]] = False
    kept = np.flatnonzero(is_kept[found.whole])
    numbers = (np.cumsum(is_kept) - 1)[found.whole[kept]]
    return Found(taken(found.tiles, kept), named(found.addresses, kept), numbers)


def old_tiles(machine: Machine, tiles: np.ndarray, box: Box, earlier: Sequence[Box]) -> np.ndarray:
    """The numbers of the tiles of a window that meet an earlier one: int64 (k,), ascending."""
    if not earlier:
        return np.zeros(0, np.int64)
    rim = beyond(machine.rule, tiles["shift"], box)
    return rim[machine.meeting(taken(tiles, rim), earlier)]


def beyond(rule: Rule, shifts: np.ndarray, box: Box) -> np.ndarray:
    """The numbers of the tiles that may reach out of a window, by their shifts (n, 4): int64 (k,), ascending.
    All others lie inside, and so meet no window beside it."""
    is_beyond = np.zeros(len(shifts), bool)
    middles_of = rule.ring.steps @ box.at
    for along, middle, half, reach in zip(scaled_places(rule, shifts), middles_of, box.half, rule.reach):
        is_beyond |= abs(along - middle) > half - reach - NEAR
    return np.flatnonzero(is_beyond)


def scaled_places(rule: Rule, points: np.ndarray) -> List[np.ndarray]:
    """X and Y of points (n, 4) as floats, which are right to far less than NEAR."""
    columns = np.ascontiguousarray(points.T, np.float64)
    return [sum(step * column for step, column in zip(row, columns) if step) for row in rule.ring.steps]


def patch_of(machine: Machine, found: Found) -> Patch:
    """The tiles, or the whole tiles of halves if they are numbered."""
    if found.whole is None:
        return Patch(machine.rule, found.tiles, found.addresses)
    return whole_patch(machine.rule, found.tiles, found.addresses, found.whole)
