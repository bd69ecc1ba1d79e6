"""`Tiling`, from which all of the package is reached, and `Window`."""
from __future__ import annotations

from typing import (
    TYPE_CHECKING,
    Any,
    Callable,
    Iterable,
    Iterator,
    List,
    NamedTuple,
    Optional,
    Sequence,
    Tuple,
    Union,
)

import numpy as np

from . import places
from .arguments import (
    Point,
    floats,
    integer,
    listed,
    one_of,
    two_integers,
    four_integers,
    text_of,
    whole_array,
)
from .engine import (
    ADDRESS,
    BUILT_IN,
    FARTHEST,
    MOST_HALF,
    NO_EDGE,
    Addresses,
    Box,
    Engine,
    Found,
    Frame,
    Machine,
    Motion,
    is_room,
)
from .geometry import Ring
from .library import usual_engine
from .patch import Patch, WholePatch, whole_patch
from .refusals import BadWords
from .rule import Rule
from .texts import address_text, common_level, listing_text, read_texts

if TYPE_CHECKING:
    from .pieces import Pieces

Address = Union[str, np.void]  # a text, or one entry of an ADDRESS array


class Placed(NamedTuple):
    """A placed tile: the motion z -> zeta^turn z + shift takes the prototile of its kind to the tile."""

    kind: int
    turn: int
    shift: Point


class Across(NamedTuple):
    """The tile across an edge, and its own edge that leads back."""

    address: str
    edge: int


class StarTile(NamedTuple):
    """A tile around a vertex: its motion, its address, and its own number for the vertex."""

    kind: int
    turn: int
    shift: Point
    address: str
    vertex: int


class WalkTile(NamedTuple):
    """A tile of a walk: its motion, its address, and its edge that leads back; None for the first tile."""

    kind: int
    turn: int
    shift: Point
    address: str
    edge: Optional[int]


class Pairing(NamedTuple):
    """How two tiles lie to each other. `relation` is "same" for one tile, "beside" if they share edges,
    "apart" if they share none, and "strangers" if they have no common supertile. `edges` are the shared ones:
    pairs of an edge of the first tile and one of the second."""

    relation: str
    edges: Tuple[Tuple[int, int], ...] = ()


class Tiling:
    """An aperiodic substitution tiling, exactly: places, neighbours, windows, stars.

        >>> from pagnetuf import Tiling
        >>> t = Tiling("p3")
        >>> t.place("2:1/0,0/0")
        Placed(kind=2, turn=9, shift=(1, 1, 0, 0))
        >>> t.neighbour("2:1/0,0/0", 2)
        Across(address='3:1/2,1/0', edge=0)
        >>> w = t.window(half=(20, 12))
        >>> len(w), w.vertices().shape
        (760, (419, 4))

    The built-in tilings are "chair"; Penrose's kites and darts "p2" and rhombs "p3", and Ammann and Beenker's
    rhombs and squares "ab", each in halves; and "halfhex". The package has rule files of others, such as
    "sphinx". `Tiling.from_file` takes any rule file. The kinds of "p3" are 0 and 1 for halves of thin rhombs,
    2 and 3 for halves of thick ones; of "p2" 0 and 1 for kites, 2 and 3 for darts; of "ab" 0 for rhombs, 1
    and 2 for halves of squares. A whole tile has the lesser kind of the two.

    An *address* is a text such as "0:1/0,2/0": a tile's kind, and from fine to coarse which child it is of a
    parent of which kind. A *point* is four integers, for a0 + a1 zeta + a2 zeta^2 + a3 zeta^3, where zeta is
    a step of length 1 in the direction 360°/order. A *frame* is the plane in which the tile `addr` is in the
    position of its prototile. `seed` chooses how the tiling goes on; the same `addr` and `seed` give the same
    tiling.

    Refusals are exceptions under `pagnetuf.Refusal` with the names that the program uses: BadAddress, NoEdge,
    Outside and so on. docs/PROMISES.md lists what is proved of the program's answers. The package's own
    geometry is exact, and tested.

    Literature: B. Grünbaum and G. C. Shephard, Tilings and Patterns, chapter 10; N. G. de Bruijn, Algebraic
    theory of Penrose's non-periodic tilings of the plane, 1981; F. P. M. Beenker, Algebraic theory of
    non-periodic tilings, 1982; S. Tatham, Combinatorial coordinates for the aperiodic monotile."""

    def __init__(self, name: str, engine: Optional[Engine] = None):
        """A tiling by its name.

        For rule files of your own use `from_file`.

        Parameters
        ----------
        name : str
            "chair", "p2", "p3", "ab" or "halfhex", or the name of a rule file of the package, such as
            "sphinx".
        engine : Engine, optional
            Who answers; the library by default.

        Raises
        ------
        BadWords
            No tiling has this name.
        NoEngine
            There is no library.
        """
        asked, path = engine or usual_engine(), places.rule_path(text_of("a name", name))
        if name in BUILT_IN:
            self._hold(asked.machine(name), name)
        elif path:
            with open(path, "rb") as file:
                self._hold(asked.machine_of(file.read()), name)
        else:
            raise no_tiling(name)

    @classmethod
    def from_bytes(cls, data: bytes, name: str = "-", engine: Optional[Engine] = None) -> "Tiling":
        """The tiling of a rule file's bytes.

        Parameters
        ----------
        data : bytes
            The text of the file, in TOML: docs/FORMATS.md has its keys.
        name : str
            What it is called.
        engine : Engine, optional
            Who answers; the library by default.

        Returns
        -------
        Tiling
            The tiling.

        Raises
        ------
        RuleRefused
            The file has a fault; the fields are the first one.
        RuleTooLong
            It has more than 1,048,576 bytes.
        """
        self = cls.__new__(cls)
        self._hold((engine or usual_engine()).machine_of(data), name)
        return self

    @classmethod
    def from_file(cls, path: Any, engine: Optional[Engine] = None) -> "Tiling":
        """The tiling of a rule file.

        Parameters
        ----------
        path : path
            The file.
        engine : Engine, optional
            Who answers; the library by default.

        Returns
        -------
        Tiling
            The tiling.

        Raises
        ------
        OSError
            The file cannot be read.
        RuleRefused, RuleTooLong
            As for `from_bytes`.
        """
        with open(path, "rb") as file:
            return cls.from_bytes(file.read(), str(path), engine)

    def _hold(self, machine: Machine, name: str) -> None:
        self.machine, self.name = machine, name

    @property
    def rule(self) -> Rule:
        """The numbers of the rule: its prototiles, their children, the factor."""
        return self.machine.rule

    @property
    def order(self) -> int:
        """Turns are by 360°/order: 4, 6, 8 or 10."""
        return self.machine.rule.order

    @property
    def ring(self) -> Ring:
        """The ring of the order, with `xy`, `near` and exact arithmetic for points."""
        return self.machine.rule.ring

    def __repr__(self) -> str:
        return f"Tiling({self.name!r})"

    def __eq__(self, other: object) -> bool:
        """Whether both are of one rule, by its name or by the bytes of its file."""
        return isinstance(other, Tiling) and self.machine.key == other.machine.key

    def __hash__(self) -> int:
        return hash(self.machine.key)

    def place(self, addr: Address) -> Placed:
        """Where a tile lies in its supertile.

        Parameters
        ----------
        addr : str or ADDRESS
            The address of a tile, from fine to coarse, as "2:1/0,0/0", or one entry of an array.

        Returns
        -------
        Placed
            Kind, turn and shift: the motion z -> zeta^turn z + shift takes the prototile there.

        Raises
        ------
        BadAddress
            The address is not one of a tile of this rule.
        CoordLimit
            A coefficient is above 2^24.

        Examples
        --------
        >>> Tiling("p3").place("2:1/0,0/0")
        Placed(kind=2, turn=9, shift=(1, 1, 0, 0))
        """
        return Placed(*self.machine.place(address_of(addr)))

    def neighbour(self, addr: Address, edge: int) -> Across:
        """The tile across an edge, in the same supertile.

        Parameters
        ----------
        addr : str or ADDRESS
            The address of a tile, from fine to coarse, as "2:1/0,0/0", or one entry of an array.
        edge : int
            The number of the edge, from 0: edge i runs from corner i to the next.

        Returns
        -------
        Across
            The address of the tile across, and its edge that leads back.

        Raises
        ------
        BadAddress
            The address is not one of a tile of this rule.
        NoEdge
            The tile has no such edge.
        Outside
            The edge lies on the boundary of the supertile; the fields say where.

        Examples
        --------
        >>> Tiling("p3").neighbour("2:1/0,0/0", 2)
        Across(address='3:1/2,1/0', edge=0)
        """
        return Across(*self.machine.neighbour(address_of(addr), integer("edge", edge)))

    def place_all(self, addresses: Addresses) -> np.ndarray:
        """`place` for many addresses.

        Parameters
        ----------
        addresses : sequence of str, or ADDRESS array (n,)
            The tiles.

        Returns
        -------
        TILE array (n,)
            Each entry with its own `status`: 0, or the number of a refusal.

        Raises
        ------
        TypeError
            One text, which is one address and not many.
        """
        return self.machine.place_all(listed("addresses", addresses))

    def neighbour_all(
        self, addresses: Addresses, edges: Sequence[int], out: Optional[np.ndarray] = None
    ) -> Tuple[Addresses, np.ndarray]:
        """`neighbour` for many addresses.

        Parameters
        ----------
        addresses : sequence of str, or ADDRESS array (n,)
            The tiles.
        edges : sequence of int, or integer array (n,)
            The edge of each. Fastest as uint8, with an ADDRESS array.
        out : ADDRESS array (n,), optional
            Takes the addresses across, and is returned. It may be `addresses` itself, so that many steps of
            many walks need no copy.

        Returns
        -------
        addresses, numbers
            The addresses across, in the form that was given; a refused one is unchanged. And uint8 (n, 2):
            the edge that leads back, and the status, which is 0 or the number of a refusal.

        Raises
        ------
        TypeError
            The edges are no whole numbers.
        ValueError
            There are not as many edges as addresses, or `out` cannot take the addresses.
        """
        addresses, numbers = listed("addresses", addresses), whole_array("edges", edges)
        if numbers.ndim != 1 or len(addresses) != len(numbers):
            raise ValueError(
                f"edges has one entry for each of the {len(addresses)} addresses, not {numbers.shape}"
            )
        if out is not None and not is_room(out, len(addresses)):
            raise ValueError(f"out is an ADDRESS array ({len(addresses)},) that can be written, without gaps")
        return self.machine.neighbour_all(addresses, numbers, out)

    def window(
        self,
        at: Optional[Iterable[int]] = None,
        half: Iterable[int] = (20, 12),
        seed: int = 0,
        addr: Address = "0:",
        addresses: bool = True,
        xy: Optional[Iterable[float]] = None,
    ) -> "Window":
        """Exactly the tiles that meet a window, each exactly once, by shift, turn and kind.

        The window is the points whose X = 2 x and Y = y / sin(360°/order) differ from those of the point
        `at` by less than `half`: it is half[0] lengths wide, and 2 half[1] sin(360°/order) high. So x differs
        by less than half[0] / 2, and y by less than half[1] sin(360°/order), in lengths.

        Penrose's and Ammann and Beenker's tiles come in halves. Where a whole tile is cut, the cut is an edge
        too, in `edges` and in `adjacency_matrix`. Call `whole()` first for graphs and Hamiltonians.

        Parameters
        ----------
        at : 4 int, optional
            The centre, a point with coefficients up to 2^20 in absolute value; 0 by default.
        half : 2 int
            The half-width and half-height, from 1 to 4096.
        seed : int
            Which of the tilings with this base: 0 to 2^64 - 1.
        addr : str or ADDRESS
            The base tile, which stands on its prototile.
        addresses : bool
            Without them it takes less time, and a quarter of the memory.
        xy : 2 float, optional
            In place of `at`, a place in lengths: the centre is then a point of the ring within half a length
            in x and in y. `Patch.centre` says where it is.

        Returns
        -------
        Window
            A patch with the frame and the box.

        Raises
        ------
        TooManyTiles
            More than 200,000 tiles meet the window.
        CoordLimit
            Too far out with this seed; another one usually helps.
        DepthLimit, BadAddress, BadWords
            See `pagnetuf.refusals`.
        TypeError
            A number is not whole.

        Examples
        --------
        >>> w = Tiling("p3").window(half=(20, 12))
        >>> len(w), w.vertices().shape
        (760, (419, 4))
        """
        box = box_of(self.centre(at, xy), half)
        return Window(self.machine, frame_of(addr, seed), box, addresses)

    def centre(self, at: Optional[Iterable[int]] = None, xy: Optional[Iterable[float]] = None) -> Point:
        """The centre of a window, as `window` takes it.

        Parameters
        ----------
        at : 4 int, optional
            A point.
        xy : 2 float, optional
            A place in lengths instead.

        Returns
        -------
        4 int
            The point `at`, or a point of the ring within half a length of `xy`, or 0.

        Raises
        ------
        ValueError
            Both are given.
        """
        if xy is None:
            return four_integers("at", (0, 0, 0, 0) if at is None else at)
        if at is not None:
            raise ValueError("the centre is given by at or by xy, and not by both")
        a, b, c, d = self.ring.near(*floats("xy", xy)).tolist()
        return a, b, c, d

    def star(self, addr: Address, vertex: int, seed: int = 0) -> List[StarTile]:
        """The tiles around a vertex of a tile, counterclockwise, the tile first.

        Parameters
        ----------
        addr : str or ADDRESS
            The address of a tile, from fine to coarse, as "2:1/0,0/0", or one entry of an array.
        vertex : int
            The number of the vertex, from 0.
        seed : int
            Which of the tilings with this base: 0 to 2^64 - 1.

        Returns
        -------
        list of StarTile
            Each with its motion, its address, and its own number for the vertex.

        Raises
        ------
        BadAddress
            The address is not one of a tile of this rule.
        NoVertex
            The tile has no such vertex.
        DepthLimit, StarTooBig
            See `pagnetuf.refusals`.
        """
        found = self.machine.star(frame_of(addr, seed), integer("vertex", vertex))
        return [StarTile(*motion, address, number) for motion, address, number in _told(found)]

    def walk(self, addr: Address, path: Sequence[int], seed: int = 0, grow: int = 0) -> List[WalkTile]:
        """The tiles of a path across edges, the tile first.

        Parameters
        ----------
        addr : str or ADDRESS
            The address of a tile, from fine to coarse, as "2:1/0,0/0", or one entry of an array.
        path : sequence of int
            Up to 1,000 edges, each one of the tile reached.
        seed : int
            Which of the tilings with this base: 0 to 2^64 - 1.
        grow : int
            The frame first grows to so many levels, so that several walks have addresses of the same depth.

        Returns
        -------
        list of WalkTile
            Each with its edge that leads back, None for the first.

        Raises
        ------
        BadAddress
            The address is not one of a tile of this rule.
        NoEdge
            A tile reached has no such edge.
        DepthLimit
            See `pagnetuf.refusals`.
        """
        edges = [integer("each of path", edge) for edge in listed("path", path)]
        found = self.machine.walk(frame_of(addr, seed), edges, integer("grow", grow))
        return [
            WalkTile(*motion, address, None if number == NO_EDGE else number)
            for motion, address, number in _told(found)
        ]

    def pair(self, a: Address, b: Address) -> Pairing:
        """How two tiles lie to each other, and every edge that they share.

        Parameters
        ----------
        a, b : str or ADDRESS
            The two tiles.

        Returns
        -------
        Pairing
            The relation, and the pairs of shared edges.

        Raises
        ------
        BadAddress
            The address is not one of a tile of this rule.
        """
        told = self.machine.pair(address_of(a), address_of(b))
        if told in ("same", "none", "apart"):
            return Pairing("strangers" if told == "none" else told)
        both = (edges.split("/") for edges in told.split())
        return Pairing("beside", tuple((int(mine), int(theirs)) for mine, theirs in both))

    def common(self, a: Address, b: Address) -> Optional[int]:
        """The least level from which on two addresses agree.

        Parameters
        ----------
        a, b : str or ADDRESS
            The two tiles.

        Returns
        -------
        int or None
            The level; None if they agree nowhere.

        Raises
        ------
        BadAddress
            The address is not one of a tile of this rule.
        """
        both = [address_of(a), address_of(b)]
        if self.machine.file is None:
            return self.machine.common(*both)
        self.machine.pair(*both)  # (which refuses what is no address)
        return common_level(*read_texts(both))

    def locate(
        self,
        point: Optional[Iterable[int]] = None,
        seed: int = 0,
        addr: Address = "0:",
        xy: Optional[Iterable[float]] = None,
    ) -> Patch:
        """The tiles of a frame that hold a point.

        Parameters
        ----------
        point : 4 int, optional
            A point, tested by exact signs.
        seed : int
            Which of the tilings with this base: 0 to 2^64 - 1.
        addr : str or ADDRESS
            The base tile, which stands on its prototile.
        xy : 2 float, optional
            A place in lengths instead, tested with floats: a tile holds it if it lies less than 1e-9 lengths
            outside.

        Returns
        -------
        Patch
            One tile if the point is inside it, two or more if it is on an edge or a vertex.

        Raises
        ------
        TypeError
            The point is not four whole numbers.
        """
        from .inside import around, holding

        if point is None and xy is None:
            raise TypeError("locate needs a point, or xy")
        point = None if point is None else four_integers("point", point)
        window = self.window(point, (2, 2), seed, addr, xy=xy)
        if xy is None:
            return window.chosen(holding(window, np.array(window.box.at, np.int64)))
        return window.chosen(around(window, floats("xy", xy)))

    def verify(
        self,
        listing: Union[str, bytes, Patch],
        at: Iterable[int] = (0, 0, 0, 0),
        half: Iterable[int] = (20, 12),
        seed: int = 0,
        addr: Address = "0:",
    ) -> int:
        """The number of tiles of a right list of a window.

        Parameters
        ----------
        listing : str, bytes or Patch
            A text in the form of `Window.listing`, or tiles in any order.
        at, half, seed, addr
            The window, as for `window`.

        Returns
        -------
        int
            How many tiles it has.

        Raises
        ------
        BadListing
            Its fields are the fault, and the line of a text or the tile of a patch, counted from 1.
        BadAddress, BadWords, CoordLimit, DepthLimit
            As for `window`.
        """
        from .listings import judged, verified

        frame, box = frame_of(addr, seed), box_of(four_integers("at", at), half)
        if isinstance(listing, Patch):
            return judged(self, frame, box, Found(listing.tiles, listing.addresses))
        if not isinstance(listing, (str, bytes)):
            raise TypeError(f"listing is a text or a patch, and not {listing!r}")
        data = listing.encode() if isinstance(listing, str) else listing
        if self.machine.file is None:
            return self.machine.verify(frame, box, data)
        return verified(self, frame, box, data)

    def sheet(
        self,
        half: Iterable[int],
        at: Optional[Iterable[int]] = None,
        seed: int = 0,
        addr: Address = "0:",
        executor: Any = None,
        piece: Optional[Iterable[int]] = None,
        whole: bool = False,
        addresses: bool = True,
        each: Optional[Callable[[Any], Any]] = None,
        ahead: int = 16,
        part: Iterable[int] = (0, 1),
        of: str = "tiles",
        xy: Optional[Iterable[float]] = None,
        start: int = 0,
        progress: bool = False,
    ) -> Pieces:
        """The tiles that meet a region of any size, in pieces, each tile in exactly one.

        See `pagnetuf.sheet`. A piece that fails says its number.

        Parameters
        ----------
        half : 2 int
            The half-width and half-height of the region.
        at, xy, seed, addr, addresses
            As for `window`.
        executor : Executor, optional
            Any of concurrent.futures, or that of Dask, computes the pieces; they come in order.
        piece : 2 int, optional
            The most that the half-width and half-height of a window may be.
        whole : bool
            Whether halves are joined to whole tiles.
        each : callable, optional
            A function of a piece. What it returns comes in place of the piece; an executor calls it where it
            computes the piece, so that the tiles themselves need not be sent.
        ahead : int
            At most so many pieces are under way: at least twice the processors.
        part : 2 int
            With (i, n), only the rows i, i + n, i + 2 n, .. from below, so that n machines can share a
            region.
        of : {"tiles", "vertices", "edges"}
            With "vertices" a piece is the vertices that lie in it, int64 (V, 4), each in exactly one piece.
            With "edges" it is the edges whose middles lie in it, as the points of their ends, int64 (E, 2,
            4). `Tiling.ring.xy` turns points into x and y. Without `whole`, the cuts of halves are edges too.
        start : int
            The number of the first piece, where an earlier run ended.
        progress : bool
            Whether a terminal shows how far it is.

        Returns
        -------
        Pieces
            An iterator with a length. Leaving the loop cancels what waits.

        Raises
        ------
        ValueError
            The region reaches beyond the centres that windows may have; `part` or `start` is out of range.
        TooManyTiles
            Each of the largest pieces is sure to have more than 200,000 tiles.
        """
        from .sheet import Sheet

        pieces_of = None if piece is None else two_integers("piece", piece)
        region, parts = two_integers("half", half), two_integers("part", part)
        kind = one_of("of", of, ("tiles", "vertices", "edges"))
        sheet = Sheet(
            self, region, self.centre(at, xy), frame_of(addr, seed), pieces_of, whole, addresses, parts, kind
        )
        return sheet.pieces(executor, integer("ahead", ahead), each, integer("start", start), progress)


class Window(Patch):
    """Exactly the tiles that meet a window: see `Tiling.window` and, for its arrays, `Patch`."""

    def __init__(
        self, machine: Machine, frame: Frame, box: Box, addresses: bool = True, found: Optional[Found] = None
    ):
        self.machine, self.frame, self.box = machine, frame, box
        found = found or machine.cover(frame, box, addresses=addresses)
        super().__init__(machine.rule, found.tiles, found.addresses)
        x, y = machine.rule.ring.xy(np.array(box.at)).tolist()
        self.centre = x, y

    def __repr__(self) -> str:
        return f"<Window {self.machine.name}: {len(self)} tiles, half={self.box.half}>"

    def __reduce__(self) -> Tuple[Any, ...]:
        found = Found(self.tiles, self._addresses)
        return Window, (self.machine, self.frame, self.box, self._addresses is not None, found)

    def whole(self) -> WholePatch:
        """The whole tiles of the window's tiles, by the engine's `glue=yes`: halves are joined, also with
        halves outside the window. If the rule glues none, these are the tiles themselves."""
        found = self.machine.cover(self.frame, self.box, True, self._addresses is not None)
        return self._within(whole_patch(self.rule, found.tiles, found.addresses, found.whole))

    def listing(self, whole: bool = False) -> str:
        """The text of `draw layers=list`, byte for byte.

        Parameters
        ----------
        whole : bool
            Whether it is that with glue=yes.

        Returns
        -------
        str
            A line for each tile.
        """
        return self.machine.listing(self.frame, self.box, whole).decode()

    def words(self, whole: bool = False) -> str:
        """The arguments of `draw` for this window.

        Parameters
        ----------
        whole : bool
            Whether with glue=yes.

        Returns
        -------
        str
            What is typed after `tiling`.
        """
        return words_of(self.machine, self.frame, self.box, whole)


def call(words: Sequence[str], input: bytes = b"", engine: Optional[Engine] = None) -> bytes:
    """What the command prints for these words and this standard input, byte for byte.

        >>> call(["place", "rule=p3", "addr=2:1/0,0/0"])
        b'2 9 1,1,0,0\\n'

    Parameters
    ----------
    words : sequence of str
        The arguments of the command, as docs/FORMATS.md has them.
    input : bytes
        What standard input gives.
    engine : Engine, optional
        Who answers; the library by default.

    Returns
    -------
    bytes
        The text.

    Raises
    ------
    Refusal
        By its name, with its fields.
    NoEngine
        There is no library.
    """
    return (engine or usual_engine()).call(words, input)


def rule_file(name: str) -> str:
    """The path of a rule file of the package.

    Parameters
    ----------
    name : str
        Such as "sphinx".

    Returns
    -------
    str
        The path.

    Raises
    ------
    ValueError
        There is none of this name.
    """
    found = places.rule_path(text_of("a name", name))
    if not found:
        raise ValueError(f"there is no rule file {name!r} in {places.rules_path()}")
    return found


def words_of(machine: Machine, frame: Frame, box: Box, whole: bool = False) -> str:
    at, half = ",".join(map(str, box.at)), ",".join(map(str, box.half))
    glue = " glue=yes" if whole and machine.rule.glue else ""
    place = f"seed={frame.seed} addr={frame.base} at={at} half={half}"
    return f"draw rule={machine.name} {place}{glue} layers=svg,list"


def listing_of(patch: Patch) -> str:
    """The lines `kind turn shift address` of a patch."""
    return listing_text(Found(patch.tiles, patch.addresses))


def _told(found: Found) -> Iterator[Tuple[Motion, str, int]]:
    """Each tile with its address and its number."""
    assert found.addresses is not None
    for tile, address in zip(found.tiles, found.addresses):
        a, b, c, d = tile["shift"].tolist()
        yield (int(tile["kind"]), int(tile["turn"]), (a, b, c, d)), address_text(address), int(tile["number"])


def address_of(addr: Address) -> str:
    """An address as a text, also where one ADDRESS of an array is given."""
    if type(addr) is str:
        return addr
    if isinstance(addr, np.void) and addr.dtype == ADDRESS:
        return address_text(addr)
    return text_of("an address", addr)


def frame_of(addr: Address, seed: int) -> Frame:
    number = integer("seed", seed)
    if not 0 <= number < 1 << 64:
        raise BadWords(f"seed is from 0 to 2^64 - 1, and not {number}")
    return Frame(address_of(addr), number)


def box_of(at: Point, half: Iterable[int]) -> Box:
    """A window. BadWords, which names the argument, for one that the engine refuses."""
    found = Box(at, two_integers("half", half))
    if not all(1 <= side <= MOST_HALF for side in found.half):
        raise BadWords(f"half is two whole numbers from 1 to {MOST_HALF}, and not {found.half}")
    if max(abs(a) for a in at) > FARTHEST:
        raise BadWords(f"at has coefficients up to 2^20 in absolute value, and not {at}")
    return found


def no_tiling(name: str) -> BadWords:
    """Says that no tiling has a name, and which have one like it."""
    from difflib import get_close_matches  # (which most users of the package never need)

    known = [*BUILT_IN, *places.rule_names()]
    near = get_close_matches(name.lower(), known, 3, 0.5)
    asked = f"; is it {' or '.join(near)}?" if near else "."
    names = f"The names are {', '.join(BUILT_IN)}, and those of the files in {places.rules_path()}."
    return BadWords(f"{name!r} is no tiling{asked} {names} Tiling.from_file(PATH) takes a file of your own.")
