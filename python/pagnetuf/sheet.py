"""A region of any size, cut into windows side by side, each tile in exactly one of them.

The region is the points whose X and Y differ from those of the point `at` by less than `half`, two integers
of any size; each centre of a window has coefficients up to 2^20. It is cut into columns and rows of windows
without gaps or overlaps.

A tile belongs to the first window that it meets: rows from below, each from the left. The engine lists
exactly the tiles that meet a window. Whether one of them meets an earlier window too is decided by exact
signs; only tiles at the rim of a window can meet another. So the pieces have together exactly the tiles that
meet the region, each exactly once. A whole tile counts as its halves do.

A vertex belongs to the window in which it lies, and an edge to that in which its middle lies, where a window
has its left and its lower side and not the others. So the pieces have each vertex of the region exactly once,
and each edge.

    for piece in Tiling("p3").sheet((2000, 1500), executor=ProcessPoolExecutor()):
        ...  # a Patch

`executor` is any of concurrent.futures, or that of a Dask cluster, `distributed.Client(..).get_executor()`;
pieces come in order. A process hands back the arrays of a piece, packed to about a third of their bytes, or
what `each` makes of the piece there:

    sum(Tiling("p3").sheet((20000, 15000), executor=executor, each=len))"""
from __future__ import annotations

import math
from typing import TYPE_CHECKING, Any, Callable, Iterator, List, Optional, Sequence, Tuple

import numpy as np

from .arguments import Point
from .engine import FARTHEST, MOST_HALF, MOST_TILES, Box, Frame, raw
from .patch import Patch, WholePatch
from .piece import Task
from .pieces import Pieces
from .refusals import TooManyTiles
from .rule import Rule

if TYPE_CHECKING:
    from .tiling import Tiling

# up to how many tiles a window has, in a region with up to MANY_TILES, and in a larger one
USUAL_TILES, LARGER_TILES, MANY_TILES = 50_000, 100_000, 20_000_000
# what added to a point adds 2 to X and leaves Y, and what adds 2 to Y and leaves X
RIGHT = (1, 0, 0, 0)
UP = {4: (0, 2, 0, 0), 6: (-1, 2, 0, 0), 8: (0, 1, 0, 1), 10: (-1, 2, -1, 1)}


class Sheet:
    """A region, its windows, and the tiles of each, with their addresses or without. `piece` is the most that
    a window's `half` may be; `whole` joins halves; `part` and `of` are as for `Tiling.sheet`. ValueError for
    a region that reaches beyond the points that a window may have as its centre."""

    def __init__(
        self,
        tiling: "Tiling",
        half: Tuple[int, int],
        at: Point,
        frame: Frame,
        piece: Optional[Tuple[int, int]] = None,
        whole: bool = False,
        addresses: bool = True,
        part: Tuple[int, int] = (0, 1),
        of: str = "tiles",
    ):
        self.machine, self.frame, self.at = tiling.machine, frame, np.array(at, np.int64)
        self.whole, self.addresses, self.part = whole, addresses and of == "tiles", part
        self.of: str = of
        if not 0 <= part[0] < part[1]:
            raise ValueError(f"part is (i, n) with 0 <= i < n, and not {part!r}")
        widest = tile_extent(tiling.rule)
        most = piece or usual_piece(tiling.rule, widest, half)
        self.columns, self.rows = (split(side, size) for side, size in zip(half, most))
        for sizes, extent in zip((self.columns, self.rows), widest):
            if len(sizes) > 1 and 2 * min(sizes) < extent:
                raise ValueError(f"a piece has to be at least as large as a tile, whose extent is {extent}")
        self._rights, self._ups = window_middles(self.columns), window_middles(self.rows)
        self._check_reach()
        self._check_piece(tiling.rule)

    def _check_reach(self) -> None:
        """ValueError unless the centre of each window is within the limit; the corners have the greatest."""
        up, right = np.array(UP[self.machine.rule.order]), np.array(RIGHT)
        for across in (self._rights[0], self._rights[-1]):
            for along in (self._ups[0], self._ups[-1]):
                if abs(self.at + right * across + up * along).max() > FARTHEST:
                    raise ValueError(
                        f"the region reaches beyond coefficients of {FARTHEST}: use a smaller one"
                    )

    def _check_piece(self, rule: Rule) -> None:
        """TooManyTiles if the largest window is sure to have too many. (Its tiles cover it.)"""
        wide, high = max(self.columns), max(self.rows)
        if max(wide, high) > MOST_HALF:
            raise ValueError(f"piece is at most {MOST_HALF} in each direction, and not {wide, high}")
        if 4 * wide * high > MOST_TILES * rule.greatest_area():
            told = f"piece: a window of half={wide, high} has more than {MOST_TILES:,} tiles"
            raise TooManyTiles(f"{told}; use a smaller piece, or leave it out")

    def __len__(self) -> int:
        """How many pieces this part has."""
        first, step = self.part
        return len(range(first, len(self.rows), step)) * len(self.columns)

    def boxes(self, row: int) -> List[Box]:
        """The windows of a row, from the left. The rows are numbered from below."""
        up, right = np.array(UP[self.machine.rule.order]), np.array(RIGHT)
        middle = self.at + up * self._ups[row]
        places_of = [(middle + right * place).tolist() for place in self._rights]
        return [
            Box((a, b, c, d), (wide, self.rows[row])) for (a, b, c, d), wide in zip(places_of, self.columns)
        ]

    def tasks(self) -> Iterator[Task]:
        """For each window of this part what `owned` needs."""
        first, step = self.part
        for row in range(first, len(self.rows), step):
            below, line = self.boxes(row - 1) if row else [], self.boxes(row)
            for column, box in enumerate(line):
                left = max(0, column - 1)
                earlier = [*below[left : column + 2], *line[left:column]]
                yield Task(self.machine, self.frame, box, earlier, self.whole, self.addresses, self.of)

    def pieces(
        self,
        executor: Any = None,
        ahead: int = 16,
        each: Optional[Callable[[Any], Any]] = None,
        start: int = 0,
        progress: bool = False,
    ) -> "Pieces":
        """The patches, in order, or what `each` makes of them: see `Tiling.sheet`."""
        return Pieces(self, executor, ahead, each, start, progress)


def gathered(pieces: Sequence[Patch]) -> Patch:
    """One patch of several."""
    rule = pieces[0].rule
    wholes = [it for it in pieces if isinstance(it, WholePatch)]
    if not wholes:
        tiles = _one_of([it.tiles for it in pieces])
        return Patch(rule, tiles, _one_or_none([it._addresses for it in pieces]))
    starts = np.cumsum(np.array([0, *(len(it.half_tiles) for it in wholes)]))
    halves = [np.where(it.halves < 0, -1, it.halves + start) for it, start in zip(wholes, starts)]
    addresses = _one_or_none([it._half_addresses for it in wholes])
    return WholePatch(rule, _one_of([it.half_tiles for it in wholes]), addresses, np.concatenate(halves))


def _one_of(arrays: Sequence[np.ndarray]) -> np.ndarray:
    """One structured array of several."""
    return np.concatenate([raw(it) for it in arrays]).view(arrays[0].dtype)


def _one_or_none(arrays: Sequence[Optional[np.ndarray]]) -> Optional[np.ndarray]:
    """One structured array of several, or None where one is missing."""
    known = [it for it in arrays if it is not None]
    return _one_of(known) if len(known) == len(arrays) else None


def split(half: int, most: int) -> List[int]:
    """Half widths of side by side windows that fill `half`, each at most `most`, all odd or all even as
    `half` is, so that each centre lies an even number from that of the whole."""
    if half < 1 or most < 1:
        raise ValueError("half and piece are at least 1 in each direction")
    odd = half % 2
    steps, size = (half - odd) // 2, (most - odd) // 2
    if size < 1 and half > most:
        raise ValueError("a piece must be larger")
    count = 1 if half <= most else -(-half // (2 * size + odd))
    count += odd and count % 2 == 0
    whole = (half - odd * count) // 2 if odd else steps
    return [2 * (whole * (i + 1) // count - whole * i // count) + odd for i in range(count)]


def window_middles(sizes: List[int]) -> List[int]:
    """Half the distances of the windows' centres from that of the whole."""
    ends = np.cumsum([0, *sizes]) * 2 - sum(sizes)
    return ((ends[:-1] + ends[1:]) // 4).tolist()


def tile_extent(rule: Rule) -> Tuple[int, int]:
    """How far a tile reaches in X and Y at most, rounded up."""
    wide, high = rule.extent
    return math.ceil(wide - 1e-9), math.ceil(high - 1e-9)


def usual_piece(rule: Rule, widest: Tuple[int, int], region: Tuple[int, int]) -> Tuple[int, int]:
    """The half-width and half-height of a window with tens of thousands of tiles, and never more than the
    engine lists, for a region of this half-width and half-height."""
    is_large = 4 * region[0] * region[1] > MANY_TILES * rule.least_area()
    for tiles in (LARGER_TILES, USUAL_TILES)[not is_large :]:
        side = math.isqrt(int(tiles * rule.least_area())) // 2
        half = min(4096, max(side, widest[0] + 1)), min(4096, max(side, widest[1] + 1))
        room = (2 * half[0] + 2 * widest[0]) * (2 * half[1] + 2 * widest[1]) / rule.least_area()
        if room <= MOST_TILES:
            return half
    raise ValueError("the tiles of this rule are too large for windows side by side; give `piece`")
