"""The numbers of a rule, as tiling_rule fills them into one struct."""
from __future__ import annotations

import ctypes
from typing import TYPE_CHECKING

import numpy as np

from .engine import TILE
from .rule import Kind, Rule

if TYPE_CHECKING:
    from .library import Library

OUTLINE = np.dtype([("corners", "<i8", (12, 4)), ("count", "u1"), ("rest", "u1", 7)])
KIND = np.dtype(
    [
        ("prototile", OUTLINE),
        ("children", TILE, 16),
        ("edges", "u1", 12),
        ("child_count", "u1"),
        ("rest", "u1", 3),
    ]
)
EDGE_TYPE = np.dtype([("mate", "u1"), ("count", "u1"), ("parts", "u1", 8)])
NUMBERS = np.dtype(
    [
        *(("factor", "<i8", 4), ("kinds", KIND, 16), ("types", EDGE_TYPE, 32), ("glue", "u1", 16)),
        *((name, "u1") for name in ("format", "order", "kind_count", "type_count", "glue_count")),
        ("rest", "u1", 3),
    ]
)


def rule_of(library: "Library", handle: ctypes.c_void_p) -> Rule:
    """The rule of a machine."""
    numbers = np.zeros((), NUMBERS)
    library.rule(handle, numbers.ctypes.data)
    mates = numbers["types"]["mate"].tolist()
    given = numbers["glue"][: int(numbers["glue_count"])].tolist()
    glue = {it for one in given for it in (one, mates[one])}
    kinds, types = [], []
    for kind in numbers["kinds"][: int(numbers["kind_count"])]:
        count, children = int(kind["prototile"]["count"]), kind["children"][: int(kind["child_count"])]
        edges = kind["edges"][:count].tolist()
        edge = next((i for i, type_of in enumerate(edges) if type_of in glue), -1)
        motions = np.column_stack([children["kind"], children["turn"], children["shift"]])
        kinds.append(Kind(kind["prototile"]["corners"][:count], motions, edge))
        types.append(edges[edge] if edge >= 0 else None)
    # (the first half of a whole tile is that of the lesser kind)
    wholes = [i for i, type_of in enumerate(types) if type_of is None or mates[type_of] in types[i:]]
    return Rule(int(numbers["order"]), numbers["factor"].tolist(), kinds, wholes)
