"""A connected patch that grows around a point: of the nearest tiles, or with a smooth rim."""
from __future__ import annotations

import heapq
from typing import TYPE_CHECKING, Dict, List, Sequence, Set, Tuple

import numpy as np

if TYPE_CHECKING:
    from .patch import Patch

SIDES = (4.0, 3.0)  # of a rectangle


def nearest_connected(patch: "Patch", count: int, centre: Sequence[float]) -> np.ndarray:
    """The numbers of `count` tiles, sorted: see `Patch.connected`. ValueError if the patch has fewer
    connected tiles."""
    middles = patch.middles() - np.asarray(centre, float)
    # (rounded, so that tiles at one distance come in the order of the patch)
    far = np.round((middles**2).sum(1), 9).tolist()
    near = patch.neighbours().tolist()
    start = nearest_tile(far)
    chosen: List[int] = []
    waiting, seen = [(far[start], start)], {start}
    while waiting and len(chosen) < count:
        _, tile = heapq.heappop(waiting)
        chosen.append(tile)
        for other in near[tile]:
            if other >= 0 and other not in seen:
                seen.add(other)
                heapq.heappush(waiting, (far[other], other))
    return enough(chosen, count)


def nearest_tile(far: List[float]) -> int:
    """The tile from which a patch grows."""
    if not far:
        raise ValueError("there are no tiles")
    return min(range(len(far)), key=far.__getitem__)


def enough(chosen: Sequence[int], count: int) -> np.ndarray:
    if len(chosen) < count:
        raise ValueError(f"only {len(chosen)} tiles are connected here")
    return np.array(sorted(chosen))


def grown(patch: "Patch", count: int, centre: Sequence[float], shape: str) -> np.ndarray:
    """The numbers of `count` tiles, sorted, of a patch with a smooth rim: see `Patch.connected`."""
    growth = Growth(patch, reach_of(patch, centre, shape))
    while len(growth.inside) < count and growth.grow():
        pass
    for _ in range(count):  # (each exchange leaves one tile less that shares just one edge)
        if not growth.exchange():
            break
    return enough(list(growth.inside), count)


def reach_of(patch: "Patch", centre: Sequence[float], shape: str) -> List[float]:
    """How far out each tile reaches, by the corner farthest from a point."""
    away = patch.xy() - np.asarray(centre, float)
    if shape == "rectangle":
        return np.round(np.nanmax(abs(away) / SIDES, (1, 2)), 9).tolist()
    return np.round(np.nanmax((away**2).sum(-1), 1), 9).tolist()


class Growth:
    """A patch without holes that grows by a tile at a time."""

    def __init__(self, patch: "Patch", reach: List[float]):
        counts = patch.counts.tolist()
        cut = [row[:size] for row, size in zip(patch.neighbours().tolist(), counts)]
        self.near, self.reach = cut, reach
        self.corners = [row[:size] for row, size in zip(patch.corners().tolist(), counts)]
        self.inside: Set[int] = set()
        self.touched: Dict[int, int] = {}  # how many tiles inside each vertex has
        self.waiting: List[Tuple[float, int]] = []
        self.add(nearest_tile(reach))

    def shared(self, tile: int) -> int:
        """How many edges a tile shares with the patch."""
        return sum(other in self.inside for other in self.near[tile])

    def is_disc(self, tile: int) -> bool:
        """Whether a tile, which isn't counted as inside, meets the patch along one line, or all around."""
        sides = [other in self.inside for other in self.near[tile]]
        runs = sum(side and not before for side, before in zip(sides, sides[-1:] + sides[:-1]))
        touching = sum(self.touched.get(corner, 0) > 0 for corner in self.corners[tile])
        return all(sides) or (runs == 1 and touching == sum(sides) + 1)

    def add(self, tile: int) -> None:
        self.inside.add(tile)
        for corner in self.corners[tile]:
            self.touched[corner] = self.touched.get(corner, 0) + 1
        for other in self.near[tile]:
            if other >= 0 and other not in self.inside:
                heapq.heappush(self.waiting, (self.key(other), other))

    def remove(self, tile: int) -> None:
        self.inside.discard(tile)
        for corner in self.corners[tile]:
            self.touched[corner] -= 1

    def key(self, tile: int) -> float:
        """Which tile comes next: one in a notch, with at most one edge free, else that which reaches least
        far."""
        return self.reach[tile] - (1e6 if len(self.near[tile]) - self.shared(tile) < 2 else 0)

    def grow(self) -> bool:
        """Adds the next tile, if there is one."""
        kept: List[Tuple[float, int]] = []
        while self.waiting:
            key, tile = heapq.heappop(self.waiting)
            if tile in self.inside or key != self.key(tile):
                continue  # (it is there again with its present key)
            if self.is_disc(tile):
                self.restore(kept)
                self.add(tile)
                return True
            kept.append((key, tile))
        if not kept:
            return False
        self.restore(kept[1:])
        self.add(kept[0][1])
        return True

    def restore(self, kept: List[Tuple[float, int]]) -> None:
        for entry in kept:
            heapq.heappush(self.waiting, entry)

    def exchange(self) -> bool:
        """Takes away a tile that shares just one edge, for one that shares more."""
        thorns = sorted(
            (tile for tile in self.inside if self.shared(tile) < 2), key=lambda it: -self.reach[it]
        )
        for thorn in thorns:
            self.remove(thorn)
            spots = {other for tile in self.inside for other in self.near[tile]} - self.inside - {-1, thorn}
            better = [tile for tile in spots if self.shared(tile) > 1 and self.is_disc(tile)]
            if self.is_disc(thorn) and better:
                self.add(min(better, key=lambda it: (self.reach[it], it)))
                return True
            self.add(thorn)
        return False
