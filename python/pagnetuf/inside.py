"""Exact tests of points, tiles and boxes against each other. A tile is a fan of triangles round its first
corner."""
from __future__ import annotations

from typing import TYPE_CHECKING, Tuple

import numpy as np

if TYPE_CHECKING:
    from .patch import Patch


def fan(patch: "Patch", tiles: np.ndarray) -> Tuple[np.ndarray, np.ndarray]:
    """The triangles of some tiles: int64 (n, M - 2, 3, 4), and which of them are there (the others have no
    area)."""
    corners, counts = patch.outlines()[tiles], patch.counts[tiles]
    first = np.broadcast_to(corners[:, :1], corners[:, 2:].shape)
    triangles = np.stack([first, corners[:, 1:-1], corners[:, 2:]], 2)
    real = np.arange(triangles.shape[1]) < counts[:, None] - 2
    ring = patch.rule.ring
    area = ring.signs(
        ring.crossings(triangles[:, :, 1] - triangles[:, :, 0], triangles[:, :, 2] - triangles[:, :, 0])
    )
    return triangles, real & (area > 0)


def holding(patch: "Patch", point: np.ndarray) -> np.ndarray:
    """Which tiles of a patch hold a point, inside or on an edge: bool (n,)."""
    triangles, real = fan(patch, np.arange(len(patch)))
    ring = patch.rule.ring
    inside = real.copy()
    for corner in range(3):
        along = triangles[:, :, (corner + 1) % 3] - triangles[:, :, corner]
        inside &= ring.signs(ring.crossings(along, point - triangles[:, :, corner])) >= 0
    return inside.any(1)


def around(patch: "Patch", xy: Tuple[float, float], margin: float = 1e-9) -> np.ndarray:
    """Which tiles of a patch hold a place in lengths, or lie at most `margin` from it, with floats: bool
    (n,)."""
    triangles, real = fan(patch, np.arange(len(patch)))
    corners = patch.rule.ring.xy(triangles) - np.array(xy)
    inside = real.copy()
    for corner in range(3):
        start, end = corners[:, :, corner], corners[:, :, (corner + 1) % 3]
        along = end - start
        left = along[..., 1] * start[..., 0] - along[..., 0] * start[..., 1]
        inside &= left >= -margin * np.hypot(along[..., 0], along[..., 1])
    return inside.any(1)
