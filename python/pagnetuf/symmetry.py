"""Places around which a turn takes a tiling to itself, exactly and arbitrarily far.

If a turn by 1/m of a full turn keeps a vertex star, tile by tile, it also keeps the inflated star: cutting
into children goes with each tile. So around the k times inflated vertex the tiling is kept in a circle
|factor|^k times as large as the star's. Each step may bring another star into the centre: of Penrose's
tilings, two take turns."""
from __future__ import annotations

from itertools import islice
from typing import Iterator, List, NamedTuple, Optional, Tuple

import numpy as np

from .arguments import Point
from .engine import Frame
from .patch import Patch
from .stars import Star
from .texts import address_text
from .tiling import Tiling, Window


class Place(NamedTuple):
    """A vertex of a base tile, and the radius, in lengths, of the circle around it that is certainly
    kept."""

    frame: Frame
    at: Point
    radius: float


class NoPlace(Exception):
    """There is no such place; the message says why."""


def kept_stars(patch: Patch, fold: int) -> Iterator[int]:
    """The numbers of the vertex stars of a patch that a turn by 1/fold keeps."""
    names, _ = patch.star_labels()
    for number, star in enumerate(names):
        step, rest = divmod(len(star), fold)
        if not rest and star == star[step:] + star[:step]:
            yield number


def folds(patch: Patch) -> List[int]:
    """The folds of symmetry that vertex stars of a patch have, the greatest first."""
    order = patch.rule.order
    found = (fold for fold in range(order, 1, -1) if order % fold == 0)
    return [fold for fold in found if list(kept_stars(patch, fold))]


def symmetric_place(
    tiling: Tiling,
    fold: int,
    which: int,
    radius: float,
    frame: Frame,
    at: Point,
    half: Tuple[int, int] = (40, 34),
) -> Place:
    """A place that a turn keeps at least so far.

    Parameters
    ----------
    tiling : Tiling
        Whose place it is.
    fold : int
        The turn is by 1/fold.
    which : int
        The number of the vertex star in the centre, among those of the window that the turn keeps and that
        come again when they are inflated, the most frequent first.
    radius : float
        How far it is kept at least, in lengths.
    frame : Frame
        Where stars are looked for.
    at : 4 int
        Near which point.
    half : 2 int
        In which window around it.

    Returns
    -------
    Place
        A vertex of a base tile, and how far the turn certainly keeps the tiling around it.

    Raises
    ------
    NoPlace
        There is none; the message says why.
    """
    if fold < 2 or tiling.order % fold:
        raise NoPlace(f"turns of this tiling are by 1/{tiling.order}, so none by 1/{fold} can keep it")
    window = tiling.window(at, half, frame.seed, frame.base)
    stars = list(lasting_stars(tiling, frame.seed, window, fold, at))
    if which >= len(stars):
        others = ", ".join(f"1/{other}" for other in folds(window) if other != fold)
        kinds = "kind of vertex star is" if len(stars) == 1 else "kinds of vertex stars are"
        raise NoPlace(
            f"within half={half[0]},{half[1]} of the point, {len(stars) or 'no'} {kinds} kept by a turn by "
            f"1/{fold}" + (f"; some are by {others}" if others else "")
        )
    vertex, wanted = nearest_vertex(window, stars[which], at), window.star_labels()[0][stars[which]]
    for place in inflated(tiling, frame.seed, window, vertex):
        if place.radius >= radius and star_at(tiling, place) == wanted:
            return place
    raise NoPlace(f"no address of 60 digits keeps star {which} within {radius:g} lengths: take a smaller one")


def lasting_stars(tiling: Tiling, seed: int, window: Window, fold: int, at: Point) -> Iterator[int]:
    """Those of `kept_stars` that come again when they are inflated."""
    names, stars = window.star_labels()[0], list(kept_stars(window, fold))
    for star in stars:
        later = islice(inflated(tiling, seed, window, nearest_vertex(window, star, at)), 1, len(stars) + 1)
        if any(star_at(tiling, place) == names[star] for place in later):
            yield star


def nearest_vertex(window: Window, star: int, at: Point) -> int:
    """The vertex with a star that is nearest to a point."""
    vertices = np.flatnonzero(window.star_labels()[1] == star)
    far = (window.rule.ring.xy(window.vertices()[vertices] - np.array(at)) ** 2).sum(1)
    return int(vertices[np.argmin(far)])


def inflated(tiling: Tiling, seed: int, window: Window, vertex: int) -> Iterator[Place]:
    """A vertex of a window, and the vertex inflated again and again, until the address has 60 digits: each
    step goes down to a child there."""
    tile, corner = (int(it[0]) for it in np.nonzero(window.corners() == vertex))
    kind_text, _, digits_text = address_text(window.addresses[tile]).partition(":")
    kind, digits = int(kind_text), [digit for digit in digits_text.split(",") if digit]
    reach, growth = star_radius(window, vertex), float(np.hypot(*tiling.ring.xy(tiling.rule.factor)))
    while len(digits) <= 60:
        a, b, c, d = tiling.rule.kinds[kind].vertices[corner].tolist()
        yield Place(Frame(f"{kind}:" + ",".join(digits), seed), (a, b, c, d), reach)
        child, child_kind, corner = tiling.rule.child_at(kind, corner)
        digits.insert(0, f"{child}/{kind}")
        kind, reach = child_kind, reach * growth


def star_at(tiling: Tiling, place: Place) -> Optional[Star]:
    """The vertex star in the centre of a place."""
    window = tiling.window(place.at, (1, 1), place.frame.seed, place.frame.base)
    names, labels = window.star_labels()
    (label,) = labels[(window.vertices() == np.array(place.at)).all(1)].tolist()
    return names[label] if label >= 0 else None


def star_radius(patch: Patch, vertex: int) -> float:
    """How far the tiles around a vertex reach at least: the least distance to one of their edges that does
    not end there."""
    tiles = np.flatnonzero((patch.corners() == vertex).any(1))
    here, least = complex(*patch.rule.ring.xy(patch.vertices()[vertex])), np.inf
    for tile in tiles:
        numbers = patch.corners()[tile][: patch.counts[tile]].tolist()
        places = [complex(*it) - here for it in patch.xy()[tile][: len(numbers)].tolist()]
        for i, (a, b) in enumerate(zip(places, places[1:] + places[:1])):
            if vertex not in (numbers[i], numbers[(i + 1) % len(numbers)]):
                least = min(least, distance(a, b))
    return float(least)


def distance(a: complex, b: complex) -> float:
    """The distance of the segment from a to b from 0."""
    along = b - a
    part = min(1.0, max(0.0, -(a * along.conjugate()).real / abs(along) ** 2))
    return abs(a + part * along)


def kept_radius(patch: Patch, at: Point, fold: int) -> float:
    """The radius around a point up to which a turn by 1/fold takes each tile of a patch, exactly, to one of
    its tiles of the same kind. It is never greater than the distance to the patch's nearest rim."""
    ring, centre = patch.rule.ring, np.array(at, np.int64)
    far = np.hypot(*np.moveaxis(ring.xy(patch.vertices() - centre), -1, 0))
    corners, real = patch.corners(), patch.corners() >= 0
    turned = ring.turn(patch.vertices() - centre, patch.rule.order // fold) + centre
    rows = {tuple(row): i for i, row in enumerate(patch.vertices().tolist())}
    image = np.array([rows.get(tuple(row), -1) for row in turned.tolist()] + [-1])
    sets = {tuple(sorted(row[row >= 0].tolist())): int(kind) for row, kind in zip(corners, patch.kinds)}
    nearest = np.where(real, far[corners], np.inf).min(1)
    open_rim = (patch.neighbours() < 0) & real
    rim = far[corners[open_rim]].min(initial=np.inf)
    for tile in np.argsort(nearest):
        if nearest[tile] >= rim:
            break
        moved = tuple(sorted(image[corners[tile][real[tile]]].tolist()))
        if sets.get(moved) != int(patch.kinds[tile]):
            return float(nearest[tile])
    return float(rim)
