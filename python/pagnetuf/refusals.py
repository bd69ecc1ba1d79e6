"""The engine's refusals as exceptions: each has the name of a refusal of the program `tiling`, and its number
as `status`.

docs/FORMATS.md, "Notes and exit codes", says what each means. `fields` are the fields after the name, as
texts. `str()` is a sentence, with the whole line of the program behind it. A refusal is also the exception of
Python that it is by its kind: a BadAddress and a TooManyTiles are each a ValueError, a NoEdge is an
IndexError, and NoMemory is a MemoryError."""
from __future__ import annotations

from typing import Dict, Tuple, Type


class Refusal(Exception):
    """A refusal of the engine. `status` is the exit code, `fields` a tuple of texts, `line` the whole
    line."""

    status = 0

    def __init__(self, *fields):
        super().__init__(*fields)
        self.fields: Tuple[str, ...] = tuple(str(field) for field in fields)

    @property
    def line(self) -> str:
        """The line that the program writes, such as `12 NoEdge 9 8`."""
        return " ".join([str(self.status), type(self).__name__, *self.fields])

    @property
    def sentence(self) -> str:
        """What was wrong, in words, and what to do."""
        return (self.__doc__ or "").split("\n", maxsplit=1)[0].rstrip(".")

    def field(self, spot: int, missing: str = "?") -> str:
        """A field, or another text where the refusal has none."""
        return self.fields[spot] if spot < len(self.fields) else missing

    @property
    def own_sentence(self) -> str:
        """The field of a refusal by the package itself, which is a sentence; nothing for one of the
        engine."""
        return self.field(0) if len(self.fields) == 1 and " " in self.field(0) else ""

    def __str__(self) -> str:
        return self.own_sentence or f"{self.sentence} ({self.line})"

    def __reduce__(self):
        return type(self), self.fields


class BadWords(Refusal, ValueError):
    """A value is malformed or out of range. Its field is the place of the first wrong word of the command, or
    a sentence where the package itself refuses."""

    status = 2

    @property
    def sentence(self) -> str:
        told = "a number is out of range: at: four up to 2^20, half: two from 1 to 4096, seed: below 2^64"
        return self.own_sentence or told


class RuleTooLong(Refusal, ValueError):
    """The rule file has more than 1,048,576 bytes."""

    status = 3


class RuleRefused(Refusal, ValueError):
    """The rule file has a fault; docs/TUTORIAL.md explains each."""

    status = 3
    FAULTS = {
        "NotToml": "the file is not a document of TOML",
        "Missing": "the key {1} is missing",
        "WrongType": "the key {1} has a value of the wrong type",
        "OutOfRange": "a number of the key {1} is out of range",
        "UnknownKey": "there is a further key in {1}",
        "TooMany": "there are too many: {1}",
        "NotStar": "vertex 0 of kind {1} does not see the whole prototile",
        "WrongFactor": "the factor isn't one that a rule can have",
        "BadMate": "the mate of the mate of edge type {1} is another type",
        "BadLength": "edge {2} of kind {1} is not as long as the first edge of its type",
        "BadSubdivision": "the mate of edge type {1} is not cut as it is",
        "ChildEdgeLoose": "edge {3} of child {2} of kind {1} meets no whole edge, and is not on the boundary",
        "BoundaryWrong": "the inflated edge {2} of kind {1} is not cut as its type says, from part {3} on",
        "Unused": "kind {1} is no child of any kind",
        "GlueWrong": "the glue type {1} does not determine the other half",
    }

    @property
    def sentence(self) -> str:
        told = self.FAULTS.get(self.field(0), "the rule has a fault")
        fields = [*self.fields[:1], " ".join(self.fields[1:])] if "{2}" not in told else self.fields
        return told.format(*fields, "?", "?", "?", "?") + "; docs/TUTORIAL.md says what to do"


class BadAddress(Refusal, ValueError):
    """The address is not one of a tile of this rule."""

    status = 4

    @property
    def sentence(self) -> str:
        what, spot = self.field(0), self.field(1)
        told = {
            "BadText": f"the text is no address: it goes wrong after {spot} characters",
            "TooDeep": "an address has at most 64 digits",
            "UnknownKind": f"the rule has no such kind as the address has at level {spot}",
            "WrongChild": f"digit {spot} of the address, counted from 0, names no child of this kind",
        }.get(what, "the address is not one of a tile of this rule")
        return f"{told}; an address is KIND:CHILD/PARENT,.. from fine to coarse, such as 0:1/0,2/0"


class DepthLimit(Refusal, ValueError):
    """At depth 64, an edge that must be crossed is still on the boundary."""

    status = 5

    @property
    def sentence(self) -> str:
        return "at depth 64, an edge that must be crossed is still on the boundary: use another seed"


class CoordLimit(Refusal, ValueError):
    """A coefficient is above 2^24 in absolute value."""

    status = 6

    @property
    def sentence(self) -> str:
        return "too far out, with a coefficient above 2^24: use another seed, a nearer point, or fewer digits"


class TooManyTiles(Refusal, ValueError):
    """More than 200,000 tiles meet the window."""

    status = 7

    @property
    def sentence(self) -> str:
        told = "more than 200,000 tiles meet the window: use a smaller one, or a sheet"
        return self.own_sentence or told


class Outside(Refusal, IndexError):
    """The edge lies on the boundary of the supertile."""

    status = 8

    @property
    def sentence(self) -> str:
        where = f"on edge {self.field(0)} of the supertile, in part {self.field(1)} of it"
        return f"the edge lies {where}: one more digit on the right of the address makes the supertile larger"


class ReadFault(Refusal):
    """Standard input could not be read."""

    status = 9


class WriteFault(Refusal):
    """Standard output could not be written."""

    status = 10


class NoMemory(Refusal, MemoryError):
    """The engine ran out of memory."""

    status = 11


class NoEdge(Refusal, IndexError):
    """The tile has no such edge."""

    status = 12

    @property
    def sentence(self) -> str:
        return f"the tile has no edge {self.field(0)}; it has {self.field(1)}, counted from 0"


class BadScript(Refusal, ValueError):
    """A line of a script of `calc` has a fault."""

    status = 13

    @property
    def sentence(self) -> str:
        told = f"line {self.field(1)} of the script" if self.field(1).isdigit() else "the script"
        return f"{told} has the fault {self.field(0)}"


class NoVertex(Refusal, IndexError):
    """The tile has no such vertex."""

    status = 15

    @property
    def sentence(self) -> str:
        return f"the tile has no vertex {self.field(0)}; it has {self.field(1)}, counted from 0"


class StarTooBig(Refusal, ValueError):
    """More than 64 tiles have the vertex."""

    status = 16


class BadListing(Refusal, ValueError):
    """The listing is not right; the first field names the fault."""

    status = 17
    FAULTS = {
        "BadLine": "line {1} is none of a listing, from field {2} on",
        "BadKind": "the kind of line {1} is not that of its address",
        "Address": "the address of line {1} is not one of a tile of this rule",
        "NotOfFrame": "tile {1} is not of the frame",
        "NoTile": "entry {1} is no tile of the rule",
        "Double": "tile {1} is there twice",
        "Missing": "the tile {1} meets the window, and is missing",
        "WrongPlace": "tile {1} lies elsewhere, at the turn {2} and the shift {3}",
        "Stray": "tile {1} does not meet the window",
        "TooLong": "it has more than 200,000 lines",
    }

    @property
    def sentence(self) -> str:
        told = self.FAULTS.get(self.field(0), "it has a fault").format(*self.fields, "?", "?", "?")
        return f"the listing is not right: {told}"


class NoEngine(Exception):
    """There is no C library, or no program `tiling` where one was asked for, or it did not run."""


BY_NAME: Dict[str, Type[Refusal]] = {kind.__name__: kind for kind in Refusal.__subclasses__()}
BY_STATUS: Dict[int, Type[Refusal]] = {kind.status: kind for kind in BY_NAME.values()}


def refusal_of(line: str) -> Exception:
    """The exception for a line such as `12 NoEdge 9 8`; NoEngine for any other line."""
    words = line.split()
    kind = BY_NAME.get(words[1]) if len(words) > 1 else None
    if kind is None or words[0] != str(kind.status):
        return NoEngine(f"the engine answered {line!r}")
    return kind(*words[2:])
