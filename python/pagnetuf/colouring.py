"""Proper colourings: no two tiles that share an edge are alike.

The rhombs of Penrose, and all tilings by parallelograms, can be coloured with three colours (T. Sibley and
S. Wagon, Rhombic Penrose tilings can be 3-colored, 2000): each part of one has a tile with at most two
neighbours in it, so tiles are taken away one by one, and coloured in the opposite order. Kites and darts can
be as well (R. Babilon, 3-colourability of Penrose kite-and-dart tilings, 2001). Any tiling can be with
four."""
from __future__ import annotations

from typing import Dict, List, Set, Tuple

import numpy as np

LONGEST, LONGEST_SEARCH = 400, 20_000
RADII = (2, 3, 4, 6, 8)


def taken_away(near: List[List[int]]) -> List[int]:
    """The tiles in an order in which each has as few neighbours as possible among those that are left."""
    degrees = [len(others) for others in near]
    most = max(degrees, default=0)
    waiting: List[List[int]] = [[] for _ in range(most + 1)]
    for tile in range(len(near) - 1, -1, -1):
        waiting[degrees[tile]].append(tile)
    order: List[int] = []
    least = 0
    while len(order) < len(near):
        while not waiting[least]:
            least += 1
        tile = waiting[least].pop()
        if degrees[tile] != least:
            continue
        degrees[tile] = -1
        order.append(tile)
        for other in near[tile]:
            if degrees[other] > 0:
                degrees[other] -= 1
                waiting[degrees[other]].append(other)
        least = max(0, least - 1)
    return order


def greedy(near: List[List[int]]) -> List[int]:
    """A colour of each tile, from 0: the least that no neighbour coloured before it has."""
    colours = [-1] * len(near)
    for tile in reversed(taken_away(near)):
        used = {colours[other] for other in near[tile]}
        colours[tile] = next(colour for colour in range(len(used) + 1) if colour not in used)
    return colours


def chain(near: List[List[int]], colours: List[int], start: int, other: int) -> List[int]:
    """The tiles of the colour of `start` and of another colour that hang together with it (A. Kempe), or
    those up to LONGEST of them."""
    pair, found, seen = (colours[start], other), [start], {start}
    for tile in found:
        if len(found) > LONGEST:
            break
        for beside in near[tile]:
            if beside not in seen and colours[beside] in pair:
                seen.add(beside)
                found.append(beside)
    return found


def freed(near: List[List[int]], colours: List[int], tile: int, count: int) -> bool:
    """Gives a tile one of `count` colours, by exchanging two colours along chains at its neighbours, if that
    can be."""
    for colour in range(count):
        for other in range(count):
            if other == colour or exchanged(near, colours, tile, colour, other):
                if all(colours[beside] != colour for beside in near[tile]):
                    colours[tile] = colour
                    return True
    return False


def exchanged(near: List[List[int]], colours: List[int], tile: int, colour: int, other: int) -> bool:
    """Exchanges two colours along the chains at the neighbours of one colour, unless a chain comes back to
    the tile with the other colour."""
    chains = []
    for beside in near[tile]:
        if colours[beside] == colour:
            found = chain(near, colours, beside, other)
            if len(found) > LONGEST or any(colours[it] == other and it in found for it in near[tile]):
                return False
            chains.append(found)
    for it in {it for found in chains for it in found}:
        colours[it] = other if colours[it] == colour else colour
    return True


def solved(near: List[List[int]], colours: List[int], tile: int, count: int, radius: int) -> bool:
    """Colours the tiles up to some steps from a tile anew, with `count` colours, the others as they are, if a
    search of at most LONGEST_SEARCH steps finds how."""
    inside = tiles_around(near, tile, radius)
    members = set(inside)
    open_to = {
        it: set(range(count)) - {colours[other] for other in near[it] if other not in members}
        for it in inside
    }
    found = searched(near, open_to)
    for it, colour in found.items():
        colours[it] = colour
    return bool(found)


def tiles_around(near: List[List[int]], tile: int, radius: int) -> List[int]:
    """The tiles up to some steps from a tile, the nearest first."""
    inside, layer = [tile], {tile}
    for _ in range(radius):
        layer = {other for it in layer for other in near[it]} - set(inside)
        inside += sorted(layer)
    return inside


def searched(near: List[List[int]], open_to: Dict[int, Set[int]]) -> Dict[int, int]:
    """Colours of tiles, each one of those that are open to it, or nothing if none are found. The tile with
    the fewest open colours is next; where none is left, the last tile takes its next colour."""
    found: Dict[int, int] = {}
    trail: List[Tuple[int, List[int], List[int]]] = []
    for _ in range(LONGEST_SEARCH):
        if len(found) == len(open_to):
            return found
        spot = min((it for it in open_to if it not in found), key=lambda it: (len(open_to[it]), it))
        choices = sorted(open_to[spot])
        while not choices:
            if not trail:
                return {}
            spot, choices, closed = trail.pop()
            colour = found.pop(spot)
            for it in closed:
                open_to[it].add(colour)
        colour = found[spot] = choices.pop(0)
        closed = [it for it in near[spot] if it not in found and colour in open_to.get(it, ())]
        for it in closed:
            open_to[it].discard(colour)
        trail.append((spot, choices, closed))
    return found if len(found) == len(open_to) else {}


def with_fewer(near: List[List[int]], colours: List[int], count: int) -> bool:
    """Changes a colouring into one with `count` colours, if that can be found."""
    for tile in [it for it, colour in enumerate(colours) if colour >= count]:
        if colours[tile] >= count and not freed(near, colours, tile, count):
            if not any(solved(near, colours, tile, count, radius) for radius in RADII):
                return False
    return True


def proper_colouring(neighbours: np.ndarray) -> Tuple[np.ndarray, int]:
    """A colour of each tile, from 0, uint8 (n,), and how many there are: three if that many are found to be
    enough, else four, else five. `neighbours` is that of a patch. The same patch has the same colours."""
    near = [sorted({other for other in row if other >= 0}) for row in neighbours.tolist()]
    colours = greedy(near)
    for count in (4, 3):
        fewer = list(colours)
        if max(colours, default=0) < count or not with_fewer(near, fewer, count):
            continue
        colours = fewer
    return np.array(colours, np.uint8), max(colours, default=-1) + 1
