"""The numbers of a rule: see docs/FORMATS.md, "The rule file"."""
from __future__ import annotations

import json
import math
from functools import cached_property
from typing import Any, Sequence, Tuple

import numpy as np

from .arguments import frozen, rows_of, whole_array
from .geometry import Ring


class Kind:
    """A prototile: `vertices` is int64 (m, 4), `children` int64 (c, 6): kind, turn, shift. `glue_edge` is the
    edge along which two halves are one whole tile, or -1."""

    def __init__(self, vertices: Any, children: Any, glue_edge: int = -1):
        self.vertices = frozen(np.array(vertices, np.int64).reshape(-1, 4))
        self.children = frozen(np.array(children, np.int64).reshape(-1, 6))
        self.glue_edge = int(glue_edge)


class Rule:
    """A rule's order, inflation factor and prototiles, and what geometry needs of them. `whole_kinds` are the
    kinds that whole tiles may have: those without a glue edge, and those of first halves."""

    def __init__(self, order: int, factor: Sequence[int], kinds: Sequence[Kind], whole_kinds: Sequence[int]):
        self.order, self.ring, self.kinds = order, Ring(order), list(kinds)
        self.factor = frozen(np.array(factor, np.int64))
        self.whole_kinds = [int(kind) for kind in whole_kinds]
        self.glue_edges = frozen(np.array([kind.glue_edge for kind in self.kinds]))
        self.glue = bool((self.glue_edges >= 0).any())
        self.corner_counts = frozen(np.array([len(kind.vertices) for kind in self.kinds]))
        self.corner_table = frozen(self._corner_table())

    def __repr__(self) -> str:
        return f"<Rule: order {self.order}, {len(self.kinds)} kinds>"

    def __eq__(self, other: object) -> bool:
        """Whether all numbers are equal."""
        return self is other or (isinstance(other, Rule) and self.to_text() == other.to_text())

    def __hash__(self) -> int:
        return hash(self.to_text())

    def to_text(self) -> str:
        """The numbers of the rule as a text of JSON, from which `from_text` makes it again."""
        kinds = [
            {
                "vertices": kind.vertices.tolist(),
                "children": kind.children.tolist(),
                "glue_edge": kind.glue_edge,
            }
            for kind in self.kinds
        ]
        numbers = {"order": self.order, "factor": self.factor.tolist(), "whole_kinds": self.whole_kinds}
        return json.dumps({**numbers, "kinds": kinds})

    @classmethod
    def from_text(cls, text: str) -> "Rule":
        """The rule of the text that `to_text` made.

        Parameters
        ----------
        text : str
            The text.

        Returns
        -------
        Rule
            The rule.

        Raises
        ------
        ValueError
            It is another text.
        """
        try:
            numbers = json.loads(text)
            kinds = [Kind(**kind) for kind in numbers.pop("kinds")]
            return cls(kinds=kinds, **numbers)
        except (TypeError, KeyError, AttributeError) as fault:
            raise ValueError("the text isn't one that Rule.to_text made") from fault

    def _corner_table(self) -> np.ndarray:
        """The corners of each kind in each turn: int64 (kinds, order, M, 4), the last corner again up to M,
        the most."""
        most = int(self.corner_counts.max())
        table = np.zeros((len(self.kinds), self.order, most, 4), np.int64)
        for number, kind in enumerate(self.kinds):
            padded = np.concatenate(
                [kind.vertices, np.repeat(kind.vertices[-1:], most - len(kind.vertices), 0)]
            )
            for turn in range(self.order):
                table[number, turn] = self.ring.turn(padded, turn)
        return table

    def corners(self, kinds: np.ndarray, turns: np.ndarray, shifts: np.ndarray) -> np.ndarray:
        """The corners of placed tiles, exactly.

        Parameters
        ----------
        kinds, turns : int (n,)
            The kind and the turn of each tile.
        shifts : int (n, 4)
            Its shift.

        Returns
        -------
        int64 (n, M, 4)
            The corners, counterclockwise; the last again up to M, the most that a kind has.
        """
        table = self.corner_table[whole_array("kinds", kinds), whole_array("turns", turns)]
        return table + rows_of("shifts", shifts, 4)[:, None, :]

    @cached_property
    def extent(self) -> Tuple[float, float]:
        """How far a tile reaches in X and Y at most, from one end to the other."""
        wide, high = (np.ptp(self.ring.value(it), -1).max() for it in self.ring.scaled(self.corner_table))
        return float(wide), float(high)

    @cached_property
    def reach(self) -> Tuple[float, float]:
        """How far the corners of a tile lie in X and Y at most from the place to which its shift leads."""
        wide, high = (abs(self.ring.value(it)).max() for it in self.ring.scaled(self.corner_table))
        return float(wide), float(high)

    @cached_property
    def _least_area(self) -> float:
        return min(abs(self.area(kind)) for kind in self.kinds)

    def least_area(self) -> float:
        """The area of the smallest prototile in X and Y."""
        return self._least_area

    def greatest_area(self) -> float:
        """The area of the largest prototile in X and Y."""
        return max(abs(self.area(kind)) for kind in self.kinds)

    def most_tiles(self, half: Tuple[int, int]) -> int:
        """More tiles than any window of a size has.

        Parameters
        ----------
        half : 2 int
            The half-width and the half-height.

        Returns
        -------
        int
            The bound.
        """
        # (they lie in the window and within their extent around it)
        wide, tall = (2 * side + 2 * more for side, more in zip(half, self.extent))
        return math.ceil(wide * tall / self.least_area()) + 1

    def area(self, kind: Kind) -> float:
        """The area of a prototile in X and Y: that in lengths, times 2 / sin(360°/order).

        Parameters
        ----------
        kind : Kind
            One of `kinds`.

        Returns
        -------
        float
            The area.
        """
        after = np.roll(kind.vertices, -1, 0)
        return float(self.ring.value(self.ring.crossings(kind.vertices, after)).sum()) / 2

    def child_at(self, kind: int, vertex: int) -> Tuple[int, int, int]:
        """A child of a kind with a vertex where the inflated prototile has one.

        Parameters
        ----------
        kind : int
            The number of the kind.
        vertex : int
            The number of its vertex.

        Returns
        -------
        child, kind, vertex : int
            The number of the child, its kind, and its own number for the vertex.

        Raises
        ------
        ValueError
            No child has it: the rule is not accepted.
        """
        wanted = self.ring.times(self.kinds[kind].vertices[vertex], self.factor)
        for number, child in enumerate(self.kinds[kind].children):
            corners = self.corner_table[child[0], child[1]][: self.corner_counts[child[0]]] + child[2:]
            found = np.flatnonzero((corners == wanted).all(1))
            if len(found):
                return number, int(child[0]), int(found[0])
        raise ValueError("no child has this vertex: the rule isn't accepted")
