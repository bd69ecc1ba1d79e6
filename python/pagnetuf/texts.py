"""Addresses and lists as texts, and as arrays: what the command prints, read and written in bulk by numpy."""
from __future__ import annotations

import re
from typing import List, Optional, Sequence, Tuple, Union

import numpy as np

from .engine import ADDRESS, TILE, Found


NO_TILES = Found(np.zeros(0, TILE), np.zeros(0, ADDRESS), np.zeros(0, np.int64))


def numbers_of(text: bytes) -> np.ndarray:
    """All numbers of a text, in order, as int64; one with a minus in front is negative."""
    line = np.frombuffer(text + b"\n ", np.uint8)
    is_digit = (line >= ord("0")) & (line <= ord("9"))
    starts = np.flatnonzero(is_digit[1:] & ~is_digit[:-1]) + 1
    if len(line) and is_digit[0]:
        starts = np.concatenate([[0], starts])
    values = line[starts].astype(np.int64) - ord("0")
    longer, spots = np.arange(len(starts)), starts + 1
    while len(longer := longer[is_digit[spots]]):
        spots = spots[is_digit[spots]]
        values[longer] = values[longer] * 10 + (line[spots] - ord("0"))
        spots = spots + 1
    return np.where((starts > 0) & (line[starts - 1] == ord("-")), -values, values)


def parsed_motions(text: bytes) -> np.ndarray:
    """Lines `kind turn shift` as TILE (n,)."""
    return tiles_of(numbers_of(text).reshape(-1, 6))


def tiles_of(numbers: np.ndarray) -> np.ndarray:
    tiles = np.zeros(len(numbers), TILE)
    tiles["kind"], tiles["turn"], tiles["shift"] = numbers[:, 0], numbers[:, 1], numbers[:, 2:6]
    return tiles


def parsed_listing(text: bytes, has_number: bool = False) -> Found:
    """Lines `kind turn shift address`, with a number behind it or without, or those of whole tiles, as
    arrays.

    All addresses of such a text have the same number of digits."""
    line = np.frombuffer(text.replace(b" + ", b"+"), np.uint8)
    ends = np.flatnonzero((line == ord("\n")) | (line == ord("+")))
    if not len(ends):
        return NO_TILES
    spaces = np.flatnonzero(line == ord(" ")).reshape(len(ends), -1)
    begins = np.concatenate([[0], ends[:-1] + 1])
    tiles = tiles_of(numbers_of(cut_out(line, begins, spaces[:, 2])).reshape(-1, 6))
    addresses = addresses_of(line, spaces[:, 2] + 1, spaces[:, 3] if has_number else ends)
    if has_number:
        tiles["number"] = numbers_of(cut_out(line, spaces[:, 3], ends))
    is_last = line[ends] == ord("\n")
    return Found(tiles, addresses, np.cumsum(is_last) - is_last)


SMALL = rb"(?:\d{1,2}|1\d\d|2[0-4]\d|25[0-5])"
HALF = rb"BYTE BYTE -?\d{1,9}(?:,-?\d{1,9}){3} BYTE:(?:BYTE/BYTE(?:,BYTE/BYTE){0,63})?"
HALF = HALF.replace(b"BYTE", SMALL)
WHOLE_LINE = HALF + rb"(?: \+ " + HALF + rb")?"


def parsed_lines(text: bytes) -> Found:
    """A list of anyone's, as `parsed_listing`; its addresses may have different numbers of digits. ValueError
    for a line of another form."""
    lines = text.splitlines()
    for number, line in enumerate(lines, 1):
        if not re.fullmatch(WHOLE_LINE, line):
            raise ValueError(f"line {number} is no line `kind turn shift address` of a list: {line[:80]!r}")
    halves = [line.split(b" + ") for line in lines]
    rows = [half.split() for both in halves for half in both]
    if len({row[3].count(b"/") for row in rows}) < 2:
        return parsed_listing(b"".join(line + b"\n" for line in lines))
    tiles = parsed_motions(b"".join(b" ".join(row[:3]) + b"\n" for row in rows))
    whole = np.repeat(np.arange(len(lines)), [len(both) for both in halves])
    return Found(tiles, read_texts([row[3].decode() for row in rows]), whole)


def cut_out(line: np.ndarray, begins: np.ndarray, ends: np.ndarray) -> bytes:
    """The pieces of a text from each begin to its end, the character there too, as one text."""
    marks = np.zeros(len(line) + 1, np.int8)
    marks[begins] += 1
    marks[ends + 1] -= 1
    return line[np.cumsum(marks[:-1], dtype=np.int8) > 0].tobytes()


def addresses_of(line: np.ndarray, begins: np.ndarray, ends: np.ndarray) -> np.ndarray:
    """The addresses from each begin to its end, all of one depth, as ADDRESS (n,)."""
    addresses = np.zeros(len(begins), ADDRESS)
    depth = int((line[begins[0] : ends[0]] == ord("/")).sum())
    addresses["depth"] = depth
    if (ends - begins == max(2, 4 * depth + 1)).all():  # each number has one digit
        columns = np.stack([2 + 4 * np.arange(depth), 4 + 4 * np.arange(depth)], 1)
        addresses["kind"] = line[begins] - ord("0")
        addresses["digits"][:, :depth] = line[begins[:, None, None] + columns] - ord("0")
        return addresses
    numbers = numbers_of(cut_out(line, begins, ends)).reshape(len(begins), 1 + 2 * depth)
    addresses["kind"], addresses["digits"][:, :depth] = numbers[:, 0], numbers[:, 1:].reshape(-1, depth, 2)
    return addresses


def read_alike(texts: Sequence[str]) -> Tuple[np.ndarray, np.ndarray]:
    """Addresses in bulk, as ADDRESS (n,), and which are read: bool (n,). Those are read that are as long as
    the first and have the form of an address with numbers of one digit."""
    addresses, is_read = np.zeros(len(texts), ADDRESS), np.zeros(len(texts), bool)
    size = len(texts[0]) if len(texts) else 0
    depth = size // 4
    if size not in (2, 4 * depth + 1) or not 2 <= size <= 4 * 64 + 1:
        return addresses, is_read
    is_alike = [isinstance(text, str) and len(text) == size and text.isascii() for text in texts]
    alike = texts if all(is_alike) else [text for text, is_one in zip(texts, is_alike) if is_one]
    form = form_of(depth)[:-1]
    # (a character below that of the form wraps round to a large number)
    above = np.frombuffer("".join(alike).encode(), np.uint8).reshape(-1, size) - form
    has_form = (above <= np.where(form == ord("0"), np.uint8(9), np.uint8(0))).all(1)
    is_read[is_alike] = has_form
    rows, read = addresses.view(np.uint8).reshape(len(texts), -1), above[has_form]
    rows[is_read, 0], rows[is_read, 1] = read[:, 0], depth
    rows[is_read, 2 : 2 + 2 * depth] = read[:, 2::2]
    return addresses, is_read


def read_texts(texts: Sequence[str]) -> np.ndarray:
    """The addresses of the program's own texts as ADDRESS (n,)."""
    addresses, is_read = read_alike(texts)
    for i in np.flatnonzero(~is_read).tolist():
        kind, _, digits = texts[i].partition(":")
        numbers = [number.split("/") for number in digits.split(",")] if digits else []
        addresses["kind"][i], addresses["depth"][i] = int(kind), len(numbers)
        addresses["digits"][i, : len(numbers)] = np.array(numbers, np.uint8).reshape(-1, 2)
    return addresses


def address_text(address: Union[np.ndarray, np.void]) -> str:
    """The text of one ADDRESS, as `0:1/0,2/0`."""
    depth = int(address["depth"])
    return f"{int(address['kind'])}:" + ",".join(
        f"{child}/{parent}" for child, parent in address["digits"][:depth].tolist()
    )


def common_level(a: np.void, b: np.void) -> Optional[int]:
    """The least level from which on the kinds and the digits of two addresses agree, or None if their numbers
    of digits differ or no level agrees."""
    depth = int(a["depth"])
    kinds = [[int(it["kind"]), *it["digits"][:depth, 1].tolist()] for it in (a, b)]
    if b["depth"] != depth or kinds[0][-1] != kinds[1][-1]:
        return None
    others = np.flatnonzero((a["digits"][:depth] != b["digits"][:depth]).any(1))
    return int(others.max(initial=-1)) + 1


def listing_text(found: Found) -> str:
    """The lines `kind turn shift address` of tiles."""
    tiles = found.tiles
    shifts = (",".join(map(str, shift)) for shift in tiles["shift"].tolist())
    addresses = [] if found.addresses is None else address_texts(found.addresses)
    rows = zip(tiles["kind"].tolist(), tiles["turn"].tolist(), shifts, addresses)
    return "".join(f"{kind} {turn} {shift} {address}\n" for kind, turn, shift, address in rows)


def address_texts(addresses: np.ndarray) -> List[str]:
    """The text of each ADDRESS of an array."""
    if not len(addresses):
        return []
    depth = int(addresses["depth"][0])
    digits = addresses["digits"][:, :depth]
    if (addresses["depth"] != depth).any() or max(digits.max(initial=0), addresses["kind"].max()) > 9:
        return [address_text(address) for address in addresses]
    text = np.repeat(form_of(depth)[None], len(addresses), 0)
    text[:, 0] += addresses["kind"]
    text[:, 2:-1:2] += digits.reshape(len(addresses), 2 * depth)
    return text.tobytes().decode().splitlines()


def form_of(depth: int) -> np.ndarray:
    """The line of an address of this depth whose numbers are all 0, as uint8. Their places are 0, 2, 4 and so
    on."""
    return np.frombuffer(("0:" + ",".join(["0/0"] * depth) + "\n").encode(), np.uint8)
