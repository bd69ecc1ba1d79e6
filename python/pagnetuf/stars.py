"""The vertex stars of a patch: which tiles stand around a vertex, up to turns."""
from __future__ import annotations

from collections import Counter
from typing import TYPE_CHECKING, Dict, List, Tuple

import numpy as np

from .arguments import frozen

if TYPE_CHECKING:
    from .patch import Patch

Star = Tuple[Tuple[int, int], ...]  # the pair (kind, corner) of each tile, counterclockwise, from the least


def stars_of(patch: "Patch") -> Tuple[List[Star], np.ndarray]:
    """The stars, from the permutation that leads from a corner to the next tile's corner at the same vertex:
    across the edge that ends there."""
    most = patch.outlines().shape[1]
    flat = patch.corners().ravel()
    real = np.flatnonzero(flat >= 0)
    into = np.where(real % most == 0, real + patch.counts[real // most] - 1, real - 1)
    onward = np.full(len(flat), -1, np.int64)
    onward[real] = patch._across[into]
    degrees = np.bincount(flat[real], minlength=len(patch.vertices()))
    first = np.zeros(len(degrees), np.int64)
    first[flat[real[::-1]]] = real[::-1]
    found: Dict[int, Star] = {}
    for degree in np.unique(degrees[degrees > 0]).tolist():
        found.update(_stars_of_degree(patch, np.flatnonzero(degrees == degree), first, onward, degree))
    tally = Counter(found.values())
    names = [star for star, _ in sorted(tally.items(), key=lambda item: (-item[1], item[0]))]
    number = {star: i for i, star in enumerate(names)}
    labels = np.full(len(degrees), -1, np.int32)
    labels[list(found)] = [number[star] for star in found.values()]
    return names, frozen(labels)


def _stars_of_degree(
    patch: "Patch", vertices: np.ndarray, first: np.ndarray, onward: np.ndarray, degree: int
) -> Dict[int, Star]:
    """The stars of those of these vertices that have `degree` corners: `first` is one corner of each vertex,
    and `onward` leads from a corner to the next around its vertex, or to -1 at the rim. Around an inner
    vertex the corners close up: after `degree` steps, and no earlier, one is back at the first."""
    most = patch.outlines().shape[1]
    rows, closed, now = (
        np.zeros((len(vertices), degree), np.int64),
        np.ones(len(vertices), bool),
        first[vertices],
    )
    for step in range(degree):
        rows[:, step] = now
        now = np.where(now >= 0, onward[now], -1)
        closed &= (now >= 0) & ((now == rows[:, 0]) == (step == degree - 1))
    labels = patch.kinds[rows // most].astype(np.int64) * most + rows % most
    kinds, which = np.unique(labels[closed], axis=0, return_inverse=True)
    stars = []
    for row in kinds.tolist():
        turned = min(row[i:] + row[:i] for i in range(degree))
        stars.append(tuple((label // most, label % most) for label in turned))
    return {vertex: stars[i] for vertex, i in zip(vertices[closed].tolist(), which.reshape(-1).tolist())}
