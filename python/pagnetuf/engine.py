"""What the package asks of the engine: an interface with texts where people read, and arrays where numbers
are wanted.

The arrays have the form of the C library's structs, byte for byte. `TILE` is a placed tile: the motion z ->
zeta^turn z + shift takes the prototile of its kind there; `number` is an edge or a vertex where a call says
so; `status` is 0, or the number of the refusal in calls on arrays. `ADDRESS` is a kind and `depth` digits
from fine to coarse, each a child's number and its parent's kind."""
from __future__ import annotations

from abc import ABC, abstractmethod
from typing import NamedTuple, Optional, Sequence, Tuple, Union

import numpy as np

from .arguments import Point
from .rule import Rule

TILE = np.dtype(
    [
        ("shift", "<i8", 4),
        ("status", "u1"),
        ("kind", "u1"),
        ("turn", "u1"),
        ("number", "u1"),
        ("rest", "u1", 4),
    ]
)
ADDRESS = np.dtype([("kind", "u1"), ("depth", "u1"), ("digits", "u1", (64, 2))])
MOST_TILES = 200_000
MOST_HALF = 4096  # of a window's half-width and half-height
FARTHEST = 1 << 20  # of a coefficient of a window's centre
NO_EDGE = 255  # where there is no edge, such as that back from the base of a walk
BUILT_IN = ("chair", "p2", "p3", "ab", "halfhex")
Motion = Tuple[int, int, Point]  # kind, turn, shift
# addresses as texts, or as an ADDRESS array
Addresses = Union[Sequence[str], np.ndarray]


def taken(records: np.ndarray, which: np.ndarray) -> np.ndarray:
    """`records[which]` of a structured array, for a mask or numbers. The bytes of each record are copied as
    one, which is faster than field by field."""
    return raw(records)[which].view(records.dtype)


def copied(records: np.ndarray) -> np.ndarray:
    """`records.copy()` of a structured array, as fast as its bytes can be copied."""
    return raw(records).copy().view(records.dtype)


def raw(records: np.ndarray) -> np.ndarray:
    """A view of a structured array without its fields."""
    return records.view(np.dtype((np.void, records.dtype.itemsize)))


def records_of(addresses: Addresses) -> Optional[np.ndarray]:
    """An ADDRESS array, or None for texts. ValueError for an array of another kind."""
    if not isinstance(addresses, np.ndarray) or addresses.dtype.kind in "UO":
        return None
    if addresses.dtype != ADDRESS or addresses.ndim != 1:
        raise ValueError(f"addresses are texts or an ADDRESS array (n,), and not {addresses.dtype}")
    return addresses


def is_room(out: np.ndarray, count: int) -> bool:
    """True if an array can take the ADDRESS of each of `count` tiles."""
    flags = out.flags
    return out.dtype == ADDRESS and out.shape == (count,) and flags.c_contiguous and flags.writeable


class Frame(NamedTuple):
    """A plane of tiles: that in which the tile `base` stands on its prototile, and which grows by `seed`."""

    base: str = "0:"
    seed: int = 0


class Box(NamedTuple):
    """A window: the points whose X and Y differ from those of `at` by less than `half`."""

    at: Point = (0, 0, 0, 0)
    half: Tuple[int, int] = (20, 12)


class Found(NamedTuple):
    """Tiles with their addresses: TILE and ADDRESS arrays (n,); `whole` is the number of the whole tile of
    each, or None. `addresses` is None where they weren't wanted."""

    tiles: np.ndarray
    addresses: Optional[np.ndarray]
    whole: Optional[np.ndarray] = None


class Machine(ABC):
    """One rule, prepared once. Its answers are the engine's; a refusal is raised by its name. It can be
    pickled."""

    engine: "Engine"
    name: str  # what stands for it in the words of the command: a name, or "-"
    file: Optional[bytes] = None  # of a rule that has no name

    @property
    @abstractmethod
    def rule(self) -> Rule:
        """The numbers of the rule."""

    @property
    def key(self) -> Tuple[str, Optional[bytes]]:
        """What is the same for two machines of one rule, over whichever engine."""
        return self.name, self.file

    @abstractmethod
    def place(self, address: str) -> Motion:
        """Where a tile lies in its supertile. BadAddress, CoordLimit."""

    @abstractmethod
    def neighbour(self, address: str, edge: int) -> Tuple[str, int]:
        """The address across an edge, and the edge there that leads back. BadAddress, NoEdge, Outside."""

    @abstractmethod
    def place_all(self, addresses: Addresses) -> np.ndarray:
        """`place` of each: TILE (n,), each with its own status."""

    @abstractmethod
    def neighbour_all(
        self, addresses: Addresses, edges: np.ndarray, out: Optional[np.ndarray] = None
    ) -> Tuple[Addresses, np.ndarray]:
        """`neighbour` of each, with an integer array of edges: the addresses, of the form in which they were
        given, and uint8 (n, 2) of the edges that lead back and the statuses. With `out`, an ADDRESS array
        (n,), the addresses are put there; it may be `addresses` itself."""

    @abstractmethod
    def cover(self, frame: Frame, box: Box, glue: bool = False, addresses: bool = True) -> Found:
        """Exactly the tiles that meet a window, by shift, turn and kind, or with `glue` the halves of its
        whole tiles; with their addresses or without."""

    @abstractmethod
    def meeting(self, tiles: np.ndarray, boxes: Sequence[Box]) -> np.ndarray:
        """Which tiles of an array meet one of some windows: bool (n,)."""

    @abstractmethod
    def listing(self, frame: Frame, box: Box, glue: bool = False) -> bytes:
        """The text of `draw layers=list`."""

    @abstractmethod
    def star(self, frame: Frame, vertex: int) -> Found:
        """The tiles around a vertex of the base, counterclockwise; `number` is the vertex there. NoVertex,
        StarTooBig."""

    @abstractmethod
    def walk(self, frame: Frame, path: Sequence[int], grow: int = 0) -> Found:
        """The tiles of a path across edges, the base first; `number` is the edge that leads back, 255 for the
        base."""

    @abstractmethod
    def pair(self, a: str, b: str) -> str:
        """How two tiles lie to each other, as `pair` of a script prints it."""

    @abstractmethod
    def common(self, a: str, b: str) -> Optional[int]:
        """The least level from which on two addresses agree, or None. BadWords for the rule of a file."""

    @abstractmethod
    def verify(self, frame: Frame, box: Box, listing: bytes) -> int:
        """How many lines a right listing has. BadListing. BadWords for the rule of a file."""

    @abstractmethod
    def verify_tiles(self, frame: Frame, box: Box, found: Found) -> int:
        """`verify` of tiles and their addresses, in any order."""


class Engine(ABC):
    """Makes machines. It can be pickled."""

    @abstractmethod
    def call(self, words: Sequence[str], given: bytes = b"") -> bytes:
        """What the command prints for these words and this standard input. A refusal is raised."""

    @abstractmethod
    def machine(self, name: str) -> Machine:
        """That of a built-in rule: chair, p2, p3, ab or halfhex. BadWords."""

    @abstractmethod
    def machine_of(self, data: bytes) -> Machine:
        """That of a rule file's bytes. RuleTooLong, RuleRefused."""
