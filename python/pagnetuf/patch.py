"""Tiles of a window as exact arrays: corners, vertices, edges, neighbours, stars.

What other libraries take, as graphs, tables, matrices and files, is made in `exports`, and pictures in
`picture`."""
from __future__ import annotations

from functools import cached_property
from typing import (
    TYPE_CHECKING,
    Any,
    Dict,
    Iterator,
    List,
    NamedTuple,
    Optional,
    Sequence,
    Tuple,
    TypeVar,
    Union,
    overload,
)

import numpy as np

from .arguments import colour_texts, floats, frozen, integer, numbers_of_tiles, one_of
from .engine import taken
from .geometry import unique_points
from .rule import Rule
from .texts import address_text, address_texts


if TYPE_CHECKING:  # (each is asked for when its call is made)
    import matplotlib.axes
    import networkx
    import pandas
    import scipy.sparse

    from .stars import Star
    from .tiling import Tiling

AnyPatch = TypeVar("AnyPatch", bound="Patch")
Tiles = Union[int, slice, Sequence[int], np.ndarray]  # one number, numbers, a slice or a mask
SHOWN = 5000  # up to so many tiles a notebook shows a patch as a picture


class Tile(NamedTuple):
    """A tile of a patch: the motion z -> zeta^turn z + shift takes the prototile of its kind there. `address`
    is None where the patch has none."""

    kind: int
    turn: int
    shift: Tuple[int, int, int, int]
    address: Optional[str]


class Patch:
    """Placed tiles of one plane: a sequence of them, and their geometry as arrays.

    All arrays are read only, and have an entry for each of the n tiles, in order.

    kinds, turns   uint8 (n,)       the motion is z -> zeta^turn z + shift; a whole tile has its first half's
    shifts         int64 (n, 4)
    addresses      ADDRESS (n,)     see `pagnetuf.engine`; `address(i)` is the text

    A patch that was asked for without addresses has none: they and their texts are a ValueError. `centre` is
    the point, in lengths, from which `connected` grows: the `at` of the window from which the tiles are, or
    0, 0.

    Two patches are equal, by `==`, if the rule, the tiles in their order, their addresses (or that there are
    none) and the centre are. So a window equals the patch that `from_npz` reads again. Its seed and its box
    don't count. Whole tiles equal whole tiles alone. Equal patches have one hash, so that a patch can be a
    key.
    """

    centre: Tuple[float, float] = (0.0, 0.0)

    def __init__(self, rule: Rule, tiles: np.ndarray, addresses: Optional[np.ndarray]):
        self.rule, self.tiles = rule, read_only(tiles)
        self._addresses = None if addresses is None else read_only(addresses)
        self.kinds, self.turns, self.shifts = (self.tiles[name] for name in ("kind", "turn", "shift"))

    def __reduce__(self) -> Tuple[Any, ...]:  # (without what was computed, and read only again)
        return Patch, (self.rule, self.tiles, self._addresses), {"centre": self.centre}

    def _within(self, patch: AnyPatch) -> AnyPatch:
        """Another patch of the same window."""
        patch.centre = self.centre
        return patch

    @property
    def has_addresses(self) -> bool:
        """Whether the tiles were asked for with their addresses."""
        return self._addresses is not None

    @property
    def addresses(self) -> np.ndarray:
        """The address of each tile: ADDRESS (n,)."""
        if self._addresses is None:
            raise ValueError("these tiles were asked for without addresses")
        return self._addresses

    def __len__(self) -> int:
        return len(self.tiles)

    def __eq__(self, other: object) -> bool:
        """Whether the rule, the tiles in their order, their addresses and the centre are equal."""
        if self is other:
            return True
        if not isinstance(other, Patch):
            return NotImplemented
        mine, theirs = self._compared(), other._compared()
        if self.centre != other.centre or [*mine] != [*theirs] or self.rule != other.rule:
            return False
        return all(np.array_equal(mine[name], theirs[name]) for name in mine)

    def __hash__(self) -> int:
        return hash((self.kinds.tobytes(), self.turns.tobytes(), self.shifts.tobytes()))

    def _compared(self) -> Dict[str, np.ndarray]:
        """What two equal patches have alike, by names."""
        found = {"kinds": self.kinds, "turns": self.turns, "shifts": self.shifts}
        return found if self._addresses is None else {**found, "addresses": used_bytes(self._addresses)}

    def __repr__(self) -> str:
        return f"<{type(self).__name__}: {len(self)} tiles>"

    def __iter__(self) -> Iterator[Tile]:
        addresses: List[Optional[str]] = [*self.address_texts()] if self.has_addresses else [None] * len(self)
        rows = zip(self.kinds.tolist(), self.turns.tolist(), self.shifts.tolist(), addresses)
        return (Tile(kind, turn, (a, b, c, d), address) for kind, turn, (a, b, c, d), address in rows)

    @overload
    def __getitem__(self, tiles: int) -> Tile:
        ...

    @overload
    def __getitem__(self, tiles: Union[slice, Sequence[int], np.ndarray]) -> "Patch":
        ...

    def __getitem__(self, tiles):
        """One tile by its number; or the patch of a slice, of numbers, or of a mask."""
        if isinstance(tiles, (slice, list, tuple)) or np.ndim(tiles):
            return self.chosen(tiles)
        number = integer("a tile", tiles)
        if not -len(self) <= number < len(self):
            raise IndexError(f"there is no tile {number}; there are {len(self)}")
        address = None if self._addresses is None else self.address(number)
        a, b, c, d = self.shifts[number].tolist()
        return Tile(int(self.kinds[number]), int(self.turns[number]), (a, b, c, d), address)

    def address(self, tile: int) -> str:
        """The address of a tile, as `0:1/0,2/0`; of a whole tile of two halves both, joined by ` + `.

        Parameters
        ----------
        tile : int
            The number of the tile.

        Returns
        -------
        str
            The text.

        Raises
        ------
        ValueError
            The tiles were asked for without addresses.
        """
        return address_text(self.addresses[tile])

    def address_texts(self) -> List[str]:
        """`address` of each tile."""
        return address_texts(self.addresses)

    @cached_property
    def _outlines(self) -> Tuple[np.ndarray, np.ndarray]:
        counts = self.rule.corner_counts[self.kinds]
        return frozen(self.rule.corners(self.kinds, self.turns, self.shifts)), frozen(counts)

    @property
    def counts(self) -> np.ndarray:
        """How many corners each tile has: int64 (n,)."""
        return self._outlines[1]

    def outlines(self) -> np.ndarray:
        """The exact corners of each tile, counterclockwise: int64 (n, M, 4). M is the greatest number of
        corners of a kind. A tile with fewer, as `counts` says, repeats its last corner."""
        return self._outlines[0]

    def xy(self) -> np.ndarray:
        """x and y of the corners, in lengths: float64 (n, M, 2), nan after the last corner of a tile."""
        places = self.rule.ring.xy(self.outlines())
        places[self._is_padding] = np.nan
        return frozen(places)

    def polygons(self) -> List[np.ndarray]:
        """x and y of the corners of each tile, in lengths: float64 (count, 2) each, for matplotlib or
        shapely."""
        xy = self.rule.ring.xy(self.outlines())
        return [frozen(corners[:count]) for corners, count in zip(xy, self.counts.tolist())]

    @cached_property
    def area(self) -> float:
        """The area of all tiles together, in square lengths."""
        ring, outlines = self.rule.ring, self.outlines()
        twice = ring.value(ring.crossings(outlines, np.roll(outlines, -1, 1))).sum()
        return float(twice) * ring.sine / 4  # (X is 2 x, and Y is y / sine)

    @cached_property
    def bounds(self) -> Tuple[float, float, float, float]:
        """The least x and y, and the greatest, in lengths; nan for no tiles."""
        if not len(self):
            return np.nan, np.nan, np.nan, np.nan
        (left, low), (right, high) = self.points().min(0).tolist(), self.points().max(0).tolist()
        return left, low, right, high

    @property
    def _is_padding(self) -> np.ndarray:
        return np.arange(self.outlines().shape[1]) >= self.counts[:, None]

    @cached_property
    def _woven(self) -> Tuple[np.ndarray, np.ndarray]:
        """The vertices, and the number of each corner."""
        outlines = self.outlines()
        points, numbers = unique_points(outlines.reshape(-1, 4))
        corners = numbers.reshape(outlines.shape[:2]).astype(np.int32)
        corners[self._is_padding] = -1
        return frozen(points), frozen(corners)

    def vertices(self) -> np.ndarray:
        """Each vertex exactly once, in the order of their coefficients: int64 (V, 4)."""
        return self._woven[0]

    def sides(self) -> np.ndarray:
        """The tiles beside each edge of `edges`: int32 (E, 4), the tile to the left of its way from the first
        vertex to the second, the tile to the right, and the number that the edge has in each; -1 outside the
        patch.
        """
        most, size = self.outlines().shape[1], len(self.vertices())
        start, end = self.corners().astype(np.int64).ravel(), self._next.astype(np.int64).ravel()
        keys = self.edges().astype(np.int64) @ [size, 1]
        out = np.full((len(keys), 4), -1, np.int32)
        for side, (low, high) in enumerate(((start, end), (end, start))):
            mine = np.flatnonzero((low >= 0) & (low < high))
            spots = np.searchsorted(keys, low[mine] * size + high[mine])
            out[spots, side], out[spots, side + 2] = mine // most, mine % most
        return frozen(out)

    def points(self) -> np.ndarray:
        """x and y of each vertex, in lengths, in the order of `vertices`: float64 (V, 2)."""
        return frozen(self.rule.ring.xy(self.vertices()))

    def corners(self) -> np.ndarray:
        """The number of the vertex at each corner: int32 (n, M), -1 after the last corner of a tile."""
        return self._woven[1]

    @cached_property
    def _next(self) -> np.ndarray:
        """The vertex number at the end of each edge: int32 (n, M)."""
        corners = self.corners()
        after = np.roll(corners, -1, 1)
        last = self.counts - 1
        after[np.arange(len(corners)), last] = corners[:, 0]
        after[self._is_padding] = -1
        return after

    @cached_property
    def _across(self) -> np.ndarray:
        """For each edge the flat number (tile times M plus edge) of that across, or -1: int64 (n M,)."""
        start, end = self.corners().astype(np.int64).ravel(), self._next.astype(np.int64).ravel()
        across = np.full(len(start), -1, np.int64)
        real = np.flatnonzero(start >= 0)
        size = len(self.vertices())
        keys, back = start[real] * size + end[real], end[real] * size + start[real]
        order = np.argsort(keys, kind="stable")
        spot = np.minimum(np.searchsorted(keys[order], back), len(keys) - 1) if len(keys) else keys
        hit = keys[order][spot] == back
        across[real[hit]] = real[order[spot[hit]]]
        return across

    def neighbours(self) -> np.ndarray:
        """The tile across each edge, or -1 at the rim of the patch: int32 (n, M)."""
        most = self.outlines().shape[1]
        tiles = np.where(self._across < 0, -1, self._across // most)
        return frozen(tiles.reshape(-1, most).astype(np.int32))

    def backs(self) -> np.ndarray:
        """For each edge the number that it has in the tile across, or -1 at the rim: int32 (n, M)."""
        most = self.outlines().shape[1]
        edges = np.where(self._across < 0, -1, self._across % most)
        return frozen(edges.reshape(-1, most).astype(np.int32))

    def adjacency(self) -> np.ndarray:
        """Each edge that two tiles share, exactly once: int32 (A, 4), with two tiles, the edge of the
        first, and the edge of the second. The first tile has the lesser number."""
        most = self.outlines().shape[1]
        mine = np.flatnonzero(self._across >= 0)
        theirs = self._across[mine]
        rows = np.stack([mine // most, theirs // most, mine % most, theirs % most], 1)
        return frozen(rows[mine < theirs].astype(np.int32))

    def edges(self) -> np.ndarray:
        """Each edge exactly once, as two vertex numbers, the lesser first: int32 (E, 2), sorted. In a patch
        of halves the cuts between them are edges too."""
        start, end = self.corners().ravel(), self._next.ravel()
        pairs = np.sort(np.stack([start, end], 1)[start >= 0], 1).astype(np.int64)
        keys = np.unique(pairs[:, 0] * len(self.vertices()) + pairs[:, 1])
        return frozen(np.stack(np.divmod(keys, max(1, len(self.vertices()))), 1).astype(np.int32))

    def rim(self) -> List[np.ndarray]:
        """The boundary as closed lines: int32 (k,) each, the numbers of its vertices, without the first once
        more at the end. The patch is to their left, so that a line around it goes counterclockwise, and one
        around a hole clockwise. At a vertex where tiles only touch, the line turns back along the same
        tiles."""
        most, corners, counts = self.outlines().shape[1], self.corners().ravel(), self.counts.tolist()
        across = self._across
        waiting = dict.fromkeys(np.flatnonzero((across < 0) & (corners >= 0)).tolist())
        loops = []
        while waiting:
            edge = next(iter(waiting))
            loop = []
            while edge in waiting:
                del waiting[edge]
                loop.append(edge)
                edge = _edge_after(edge, most, counts)
                while across[edge] >= 0:
                    edge = _edge_after(int(across[edge]), most, counts)
            loops.append(frozen(corners[loop]))
        return loops

    def perpendicular(self) -> np.ndarray:
        """The vertices in perpendicular space: float64 (V, 2). For the orders 8 and 10; ValueError for 4 and
        6."""
        return frozen(self.rule.ring.perpendicular(self.vertices()))

    def star_labels(self) -> Tuple[List[Star], np.ndarray]:
        """The vertex stars that occur, and for each vertex the number of its star, or -1 at the rim: int32
        (V,).

        A star is a tuple with the pair (kind, corner) of each tile around the vertex, counterclockwise,
        from the least pair. The most frequent star is the first."""
        from .stars import stars_of

        return stars_of(self)

    def stars(self) -> Dict[Star, int]:
        """How often each vertex star occurs among the inner vertices, the most frequent first. A key is a
        star as in `star_labels`: a tuple of pairs (kind, corner)."""
        names, numbers = self.star_labels()
        counts = np.bincount(numbers[numbers >= 0], minlength=len(names))
        return {name: int(count) for name, count in zip(names, counts)}

    def middles(self) -> np.ndarray:
        """The mean of each tile's corners, in lengths: float64 (n, 2)."""
        return frozen(np.nanmean(self.xy(), 1))

    def chosen(self, tiles: Tiles) -> "Patch":
        """The patch of some of its tiles.

        Parameters
        ----------
        tiles : int, sequence of int, mask or slice
            Which of them.

        Returns
        -------
        Patch
            Its tiles in the order that is given.

        Raises
        ------
        IndexError
            There is no such tile.
        """
        some = numbers_of_tiles("tiles", tiles, len(self))
        return self._within(Patch(self.rule, taken(self.tiles, some), named(self._addresses, some)))

    def connected(
        self, count: int, centre: Optional[Sequence[float]] = None, shape: str = "nearest"
    ) -> "Patch":
        """A patch that grows from the tile nearest to a point.

        Parameters
        ----------
        count : int
            How many tiles it has; they are connected by edges.
        centre : 2 float, optional
            The point, in lengths; by default the `at` of the window from which the tiles are.
        shape : {"nearest", "round", "rectangle"}
            With "nearest" the next tile is the one nearest to the point that shares an edge with the patch.
            The others (a rectangle is four by three) are smoother: the next tile is the one that reaches
            least far out, tiles in notches come first, the patch has no holes, and no tile at the rim shares
            only one edge, as far as others can take its place.

        Returns
        -------
        Patch
            The tiles.

        Raises
        ------
        ValueError
            Fewer tiles than that are connected here.
        """
        from .growth import grown, nearest_connected

        if integer("count", count) < 1:
            raise ValueError(f"count is at least 1, and not {count}")
        centre = floats("centre", self.centre if centre is None else centre)
        if one_of("shape", shape, ("nearest", "round", "rectangle")) != "nearest":
            return self.chosen(grown(self, count, centre, shape))
        return self.chosen(nearest_connected(self, count, centre))

    def structure_factor(self, waves: np.ndarray, radius: Optional[float] = None) -> np.ndarray:
        """S(k) of the vertices: the squared absolute value of the sum of w exp(i k r), divided by the sum of
        w squared. There is no 2 pi in the exponent.

        Parameters
        ----------
        waves : float (.., 2)
            Wave vectors k, per length.
        radius : float, optional
            Without it each w is 1, so that S(0) is V. With it the vertices count by a smooth edge, which
            leaves no rings around the peaks: w = exp(-3 (r / radius)^2) around the middle of the patch, up to
            `radius`.

        Returns
        -------
        float64 (..)
            S(k). S(k) / S(0) is the intensity that is compared with the transform of a window.

        Raises
        ------
        TypeError
            The waves are no real numbers.
        ValueError
            The last axis of the waves is not 2, or the radius is not above 0.
        """
        from .exports import structure_factor

        return structure_factor(self, waves, radius)

    def to_networkx(self, kind: str = "tiles") -> "networkx.Graph":
        """The tiles as a graph of networkx, or the vertices and edges.

        Parameters
        ----------
        kind : {"tiles", "vertices"}
            What the nodes are.

        Returns
        -------
        Graph
            Its `pos` is the place of each node, for networkx.draw(graph, graph.pos). All attributes are
            numbers and texts, which GraphML takes. A tile has kind, turn, address, and the x and y of its
            middle. An edge between tiles has `edges`, such as "2/0" for edge 2 of the tile with the lesser
            number and edge 0 of the other. A vertex has x, y, a0 to a3, and the number of its star, -1 at the
            rim.

        Raises
        ------
        ImportError
            networkx is not installed.
        """
        from .exports import tile_graph, vertex_graph

        return {"tiles": tile_graph, "vertices": vertex_graph}[one_of("kind", kind, ("tiles", "vertices"))](
            self
        )

    def adjacency_matrix(self, kind: str = "tiles") -> "scipy.sparse.csr_matrix":
        """The symmetric matrix with a 1 for each pair of tiles that share an edge, or of vertices that are
        its ends.

        Where tiles come in halves, call `whole()` before: the cuts between halves are edges too. The matrix
        of vertices has many states of energy 0. So scipy's eigsh needs a sigma such as 1e-3 to find levels
        near 0, as the matrix itself is singular.

        Parameters
        ----------
        kind : {"tiles", "vertices"}
            What the rows are.

        Returns
        -------
        csr_matrix of float64
            In the rows of scipy.

        Raises
        ------
        ImportError
            scipy is not installed.
        """
        from .exports import adjacency_matrix

        return adjacency_matrix(self, one_of("kind", kind, ("tiles", "vertices")))

    def to_frame(self, kind: str = "tiles") -> "pandas.DataFrame":
        """A table of pandas.

        Parameters
        ----------
        kind : {"tiles", "vertices", "edges"}
            What the rows are.

        Returns
        -------
        DataFrame
            One row for each.

        Raises
        ------
        ImportError
            pandas is not installed.
        """
        from .exports import frame

        return frame(self, one_of("kind", kind, ("tiles", "vertices", "edges")))

    @property
    def __geo_interface__(self) -> Dict[str, Any]:
        """The tiles as a FeatureCollection of GeoJSON, which shapely and geopandas take: x and y in
        lengths."""
        from .exports import features

        return features(self)

    def to_geojson(self) -> str:
        """The text of `__geo_interface__`: a polygon for each tile, with its number, kind, turn and
        address."""
        from .exports import geojson

        return geojson(self)

    def to_npz(self, path: Any) -> None:
        """Writes the patch into a file of numpy, from which `from_npz` reads it.

        The file has the rule, the centre, and all that the board of board.schema.json has.

        Parameters
        ----------
        path : path or binary file
            The file. A name is taken as it is: no `.npz` is added.
        """
        from .exports import write_npz

        write_npz(self, path)

    @classmethod
    def from_npz(cls, path: Any) -> "Patch":
        """The patch that `to_npz` or the command `board --to npz` wrote. No engine is needed.

        Parameters
        ----------
        path : path or binary file
            The file, by the name that `to_npz` was given.

        Returns
        -------
        Patch
            The patch, with its rule, equal to the one that was written. Its centre is 0, 0 where the file
            is of a version that kept none.

        Raises
        ------
        OSError
            The file cannot be read.
        ValueError
            It is another file.
        """
        from .exports import read_npz

        return read_npz(path)

    @classmethod
    def from_listing(cls, tiling: "Tiling", text: Union[str, bytes]) -> "Patch":
        """The patch of a list that `draw layers=list` prints, with glue=yes or without.

        Parameters
        ----------
        tiling : Tiling
            Whose tiles they are.
        text : str or bytes
            The list. `Tiling.verify` says whether it is right.

        Returns
        -------
        Patch
            The tiles in their order.

        Raises
        ------
        ValueError
            A line has another form, or a kind or turn that the rule has not; a tile is there twice, or two
            tiles lie on the same side of an edge. Not all that overlap do.
        """
        from .exports import patch_of_listing

        return patch_of_listing(tiling.rule, text)

    def to_svg(
        self,
        width: int = 800,
        colours: Optional[Sequence[str]] = None,
        ids: bool = False,
        by: Optional[str] = None,
        each: Optional[Any] = None,
    ) -> str:
        """A picture as SVG: a polygon of the classes `tile`, kK and tT for each tile.

        Parameters
        ----------
        width : int
            Its width in pixels.
        colours : sequence of str, optional
            Such as "#0b3954" or "red", in order, and again from the first where there are more classes. By
            "neighbours" there are enough: three for Penrose's and Ammann-Beenker's tiles, else four.
        ids : bool
            Whether each tile has its number, address and neighbours.
        by : {"kind", "turn", "child", "neighbours"}, optional
            What a colour stands for. By "neighbours", no two tiles with a common edge are alike. By default
            the kind if there are colours, and else the first of kind, turn and child that tells tiles apart.
        each : sequence of n str, float (n, 3) or (n, 4), or uint8 (n, 3), optional
            The colour of each tile, for any measure of yours, such as the distance of `middles` from a point:
            texts, or red, green and blue, from 0 to 1, or to 255 as uint8. What a colour map of matplotlib
            returns is taken. It stands in place of `colours` and `by`.

        Returns
        -------
        str
            The text.

        Raises
        ------
        TypeError
            The colours are not texts in a sequence.
        ValueError
            One is no colour, they are too few for `by`, or `each` has not one colour for each tile, or
            `colours` has.
        """
        from .picture import own_colours, svg_of

        texts = colour_texts("colours", colours)
        return svg_of(self, width, texts, ids, by, own_colours(self, each, texts))

    def _repr_svg_(self) -> Optional[str]:
        """What a notebook shows, up to 5,000 tiles."""
        return self.to_svg(500) if 0 < len(self) <= SHOWN else None

    def plot(
        self,
        ax: Optional["matplotlib.axes.Axes"] = None,
        by: Optional[str] = "kind",
        colours: Optional[Sequence[str]] = None,
        each: Optional[Any] = None,
        **look: Any,
    ) -> "matplotlib.axes.Axes":
        """Draws the tiles on axes of matplotlib, all lengths alike.

        Parameters
        ----------
        ax : Axes, optional
            By default those of a new figure, without ticks and frame. `.figure.savefig(path)` writes it.
        by, colours, each
            As for `to_svg`, and all colours of matplotlib. A colour for each tile by its distance from 0, 0:
            `each=matplotlib.colormaps["viridis"](numpy.hypot(*patch.middles().T) / 20)`.
        **look
            What PolyCollection takes, such as linewidths=0.2. Without lines, as by linewidths=0, tiles have
            thin edges of their own colours, so that no seams show.

        Returns
        -------
        Axes
            The axes.

        Raises
        ------
        ImportError
            matplotlib is not installed.
        TypeError
            The colours are not texts in a sequence.
        ValueError
            One is no colour, or they are too few for `by`.
        """
        from .picture import own_colours, plotted

        texts = colour_texts("colours", colours)
        return plotted(self, ax, by, texts, own_colours(self, each, texts), look)


class WholePatch(Patch):
    """Whole tiles of one or two halves. `halves` is int64 (n, 2): the places of its halves in `half_tiles`,
    the second -1 where a tile is whole alone. kinds, turns, shifts and addresses are those of the first
    half."""

    def __init__(self, rule: Rule, tiles: np.ndarray, addresses: Optional[np.ndarray], halves: np.ndarray):
        super().__init__(rule, taken(tiles, halves[:, 0]), named(addresses, halves[:, 0]))
        self.half_tiles, self.halves = read_only(tiles), read_only(halves)
        self._half_addresses = None if addresses is None else read_only(addresses)

    def __reduce__(self) -> Tuple[Any, ...]:
        halves = self.rule, self.half_tiles, self._half_addresses, self.halves
        return WholePatch, halves, {"centre": self.centre}

    def _compared(self) -> Dict[str, np.ndarray]:
        is_double = self.halves[:, 1] >= 0
        seconds = self.halves[is_double, 1]
        others = Patch(self.rule, taken(self.half_tiles, seconds), named(self._half_addresses, seconds))
        found = {f"second {name}": values for name, values in others._compared().items()}
        return {**super()._compared(), "is_double": is_double, **found}

    @property
    def half_addresses(self) -> np.ndarray:
        """The address of each half: ADDRESS (h,)."""
        return self.addresses if self._half_addresses is None else self._half_addresses

    def address(self, tile: int) -> str:
        """The address of a tile; of one of two halves both, joined by ` + `.

        Parameters
        ----------
        tile : int
            The number of the tile.

        Returns
        -------
        str
            The text.

        Raises
        ------
        ValueError
            The tiles were asked for without addresses.
        """
        return " + ".join(
            address_text(self.half_addresses[half]) for half in self.halves[tile].tolist() if half >= 0
        )

    def address_texts(self) -> List[str]:
        halves = address_texts(self.half_addresses)
        return [halves[a] if b < 0 else f"{halves[a]} + {halves[b]}" for a, b in self.halves.tolist()]

    def chosen(self, tiles: Tiles) -> "WholePatch":
        halves = self.halves[numbers_of_tiles("tiles", tiles, len(self))]
        used, numbers = np.unique(halves, return_inverse=True)  # (only the halves that it needs)
        numbers = numbers.reshape(halves.shape)
        if len(used) and used[0] < 0:
            used, numbers = used[1:], numbers - 1
        addresses = named(self._half_addresses, used)
        return self._within(WholePatch(self.rule, taken(self.half_tiles, used), addresses, numbers))

    @cached_property
    def _outlines(self) -> Tuple[np.ndarray, np.ndarray]:
        """As `draw` has it: from the end of the first half's glue edge round it, and then round the second
        half."""
        rule, first, second = self.rule, self.halves[:, 0], self.halves[:, 1]
        counts = rule.corner_counts[self.half_tiles["kind"]]
        both = second >= 0
        sizes = np.where(both, counts[first] + counts[np.maximum(second, 0)] - 2, counts[first])
        out = np.zeros((len(first), int(sizes.max(initial=1)), 4), np.int64)
        for column in range(out.shape[1]):
            spot = np.minimum(column, sizes - 1)
            in_second = both & (spot >= counts[first] - 1)
            half = np.where(in_second, np.maximum(second, 0), first)
            kinds = self.half_tiles["kind"][half]
            step = np.where(
                both, rule.glue_edges[kinds] + 1 + spot - np.where(in_second, counts[first] - 1, 0), spot
            )
            corner = step % counts[half]
            out[:, column] = (
                rule.corner_table[kinds, self.half_tiles["turn"][half], corner]
                + self.half_tiles["shift"][half]
            )
        return frozen(out), frozen(sizes)


def _edge_after(edge: int, most: int, counts: List[int]) -> int:
    """The flat number of the next edge of the same tile."""
    tile, spot = divmod(edge, most)
    return tile * most + (spot + 1) % counts[tile]


def read_only(array: np.ndarray) -> np.ndarray:
    """A view that can't be written, so that what was made of it before stays right."""
    return frozen(array.view())


def used_bytes(addresses: np.ndarray) -> np.ndarray:
    """Kind, depth and the digits of each address as uint8 (n, 130), with 0 after the last digit."""
    digits = addresses["digits"] * (np.arange(64)[:, None] < addresses["depth"][:, None, None])
    heads = np.stack([addresses["kind"], addresses["depth"]], 1)
    return np.concatenate([heads, digits.reshape(len(addresses), 128)], 1)


def named(addresses: Optional[np.ndarray], tiles: np.ndarray) -> Optional[np.ndarray]:
    """The addresses of some tiles, where there are any."""
    return None if addresses is None else taken(addresses, tiles)


def whole_patch(
    rule: Rule, tiles: np.ndarray, addresses: Optional[np.ndarray], whole: Optional[np.ndarray]
) -> WholePatch:
    """The whole tiles of the halves that `cover` lists with glue."""
    assert whole is not None  # (each half has the number of its whole tile)
    halves = np.full((int(whole[-1]) + 1 if len(whole) else 0, 2), -1, np.int64)
    is_first = np.diff(whole, prepend=-1) != 0
    halves[:, 0], seconds = np.flatnonzero(is_first), np.flatnonzero(~is_first)
    halves[whole[seconds], 1] = seconds
    return WholePatch(rule, tiles, addresses, halves)
