"""Lists of a window's tiles, tested. The engine judges entries, and reads texts of built-in rules alone; the
lines of a list for the rule of a file are read here, each address by the engine.

What is read, and which fault comes first, is as docs/FORMATS.md says of `verify`."""
from __future__ import annotations

import re
from contextlib import suppress
from typing import TYPE_CHECKING, Iterator, List, Optional, Sequence, Tuple

import numpy as np

from .engine import MOST_TILES, Box, Found, Frame, raw
from .patch import Tile
from .refusals import BadAddress, BadListing, CoordLimit, DepthLimit
from .sheet import Sheet
from .texts import NO_TILES, read_texts, tiles_of

if TYPE_CHECKING:
    from .tiling import Tiling

LONGEST_LISTING, MOST_SHIFT = 1 << 26, 1 << 24
SMALL = re.compile(rb"0|[1-9][0-9]{0,2}")
SIGNED = re.compile(rb"0|-?[1-9][0-9]{0,7}")
DEEPEST = 64


def verified(tiling: "Tiling", frame: Frame, box: Box, text: bytes) -> int:
    """The number of lines of a right list, for the rule of a file. BadListing."""
    # (the window and the base are refused before the list)
    with suppress(BadListing, DepthLimit, CoordLimit):
        tiling.machine.verify_tiles(frame, box, NO_TILES)
    return judged(tiling, frame, box, entries_of(tiling, text))


def judged(tiling: "Tiling", frame: Frame, box: Box, found: Found) -> int:
    """The number of entries of a right list, in any order. BadListing has the number of the entry, from 1."""
    try:
        return tiling.machine.verify_tiles(frame, box, found)
    except BadListing as fault:
        raise BadListing(*fault.fields, *_more_fields(tiling, frame, box, found, fault)) from None


def entries_of(tiling: "Tiling", text: bytes) -> Found:
    """The entries of a list. BadListing with the first line that is wrong. A turn or a shift that no tile has
    becomes one that no tile near a window has."""
    lines = text.split(b"\n")
    lines = lines if lines[-1] else lines[:-1]
    if len(text) > LONGEST_LISTING or len(lines) > MOST_TILES:
        raise BadListing("TooLong")
    fields = [line.split(b" ") for line in lines]
    places = (wrong_field(row) for row in fields)
    end = next((number for number, place in enumerate(places) if place is not None), len(lines))
    found = _entries(tiling, fields[:end])
    if end < len(lines):
        raise BadListing("BadLine", end + 1, wrong_field(fields[end]))
    return found


def wrong_field(fields: Sequence[bytes]) -> Optional[int]:
    """The place of the first field of a line that is malformed, missing or one too many, or None. Whether the
    fourth is an address isn't asked."""
    forms = (is_small, is_small, is_shift, len)
    for place, is_right in enumerate(forms):
        if place == len(fields) or not is_right(fields[place]):
            return place
    return 4 if len(fields) > 4 else None


def is_small(field: bytes) -> bool:
    """True for a number up to 255."""
    return bool(SMALL.fullmatch(field)) and int(field) <= 255


def is_shift(field: bytes) -> bool:
    """True for four coefficients of at most 2^24 in absolute value."""
    parts = field.split(b",")
    return len(parts) == 4 and all(SIGNED.fullmatch(part) and abs(int(part)) <= MOST_SHIFT for part in parts)


def _entries(tiling: "Tiling", fields: List[List[bytes]]) -> Found:
    """The entries of lines of the right form. BadListing where an address is none, or of another kind."""
    if not fields:
        return NO_TILES
    texts = [row[3].decode("latin-1") for row in fields]
    is_wrong = tiling.place_all(texts)["status"] == BadAddress.status
    end = int(np.argmax(is_wrong)) if is_wrong.any() else len(fields)
    numbers = [[int(row[0]), int(row[1]), *map(int, row[2].split(b","))] for row in fields[:end]]
    tiles, addresses = tiles_of(np.array(numbers, np.int64).reshape(-1, 6)), read_texts(texts[:end])
    others = np.flatnonzero(tiles["kind"] != addresses["kind"])
    if len(others):
        raise BadListing("BadKind", others[0] + 1)
    if end < len(fields):
        raise BadListing("Address", end + 1, *_fault_of(tiling, texts[end]))
    nowhere = tiles["turn"] >= tiling.order
    if tiling.order in (4, 6):
        nowhere |= (tiles["shift"][:, 2:] != 0).any(1)
    tiles["turn"][nowhere], tiles["shift"][nowhere] = 0, (MOST_SHIFT, 0, 0, 0)
    return Found(tiles, addresses)


def _fault_of(tiling: "Tiling", address: str) -> Tuple[str, ...]:
    """The fields of the refusal of an address."""
    try:
        tiling.place(address)
    except BadAddress as refused:
        return refused.fields
    return ()


def _more_fields(
    tiling: "Tiling", frame: Frame, box: Box, found: Found, fault: BadListing
) -> Tuple[object, ...]:
    """What the arrays of the engine leave open: the address of a missing tile, or the motion that a tile
    has."""
    assert found.addresses is not None
    tiles = _keyed_tiles(tiling, frame, box)
    if fault.fields == ("Missing",):
        listed = set(keys_of(tiling, frame, found.addresses))
        return next(((tile.address,) for key, tile in tiles if key not in listed), ())
    if fault.field(0) == "WrongPlace" and len(fault.fields) == 2:
        spot = int(fault.field(1)) - 1
        (wanted,) = keys_of(tiling, frame, found.addresses[spot : spot + 1])
        return next(((tile.turn, ",".join(map(str, tile.shift))) for key, tile in tiles if key == wanted), ())
    return ()


def _keyed_tiles(tiling: "Tiling", frame: Frame, box: Box) -> Iterator[Tuple[bytes, Tile]]:
    """The tiles that meet a window, each with its key, even if there are more than the engine lists at
    once."""
    for piece in Sheet(tiling, box.half, box.at, frame).pieces():
        yield from zip(keys_of(tiling, frame, piece.addresses), piece)


def keys_of(tiling: "Tiling", frame: Frame, addresses: np.ndarray) -> List[bytes]:
    """The same bytes for the same tile of a frame, whatever number of digits its address has."""
    top = tiling.machine.walk(frame, [], DEEPEST).addresses
    assert top is not None
    deep = addresses.copy()
    is_more = np.arange(DEEPEST) >= addresses["depth"][:, None]
    deep["digits"] = np.where(is_more[:, :, None], top["digits"], addresses["digits"])
    deep["depth"] = DEEPEST
    return raw(deep).tolist()
