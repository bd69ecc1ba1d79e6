"""The board of a patch: one content, as JSON, as tables of CSV, and as arrays of numpy.

`content` is the whole of it, as plain values; board.schema.json beside this file says what each means. The
other forms have the same under the same names: JSON is the content itself, each table is a file of CSV, and
the arrays are those of `Patch`."""
from __future__ import annotations

import csv
import io
import json
from typing import Any, Dict, Iterator, List, Optional

import numpy as np


from .patch import Patch, WholePatch

FORMAT = 1
TABLES = ("tiles", "vertices", "edges", "rim", "stars")


def head_of(patch: Patch, about: Optional[Dict[str, Any]] = None) -> Dict[str, Any]:
    """What stands before the tables: how the board is made, and the order."""
    return {"format": FORMAT, **(about or {}), "order": patch.rule.order}


def content(patch: Patch, about: Optional[Dict[str, Any]] = None) -> Dict[str, Any]:
    """The board, as plain values: what is made of it is `about`, and then the five tables."""
    return {**head_of(patch, about), **{name: list(rows(patch, name)) for name in TABLES}}


def rows(patch: Patch, table: str) -> Iterator[Any]:
    """The rows of a table."""
    return {"tiles": _tiles, "vertices": _vertices, "edges": _edges, "rim": _rim, "stars": _stars}[table](
        patch
    )


def _ragged(numbers: np.ndarray, counts: np.ndarray) -> List[List[Optional[int]]]:
    """The rows as lists without what is behind their counts, -1 as None."""
    both = zip(numbers.tolist(), counts.tolist())
    return [[None if it < 0 else it for it in row[:count]] for row, count in both]


def _tiles(patch: Patch) -> Iterator[Any]:
    parts = [patch.corners(), patch.neighbours(), patch.backs()]
    corners, near, backs = (_ragged(part, patch.counts) for part in parts)
    rows_of = zip(patch.kinds.tolist(), patch.turns.tolist(), patch.shifts.tolist(), patch.address_texts())
    for i, (kind, turn, shift, address) in enumerate(rows_of):
        place = {"id": i, "kind": kind, "turn": turn, "shift": shift, "address": address}
        yield {**place, "corners": corners[i], "neighbours": near[i], "backs": backs[i]}


def _vertices(patch: Patch) -> Iterator[Any]:
    stars, points = patch.star_labels()[1].tolist(), rounded(patch.points()).tolist()
    for i, ((x, y), exact, star) in enumerate(zip(points, patch.vertices().tolist(), stars)):
        yield {"id": i, "x": x, "y": y, "exact": exact, "star": None if star < 0 else star}


def _edges(patch: Patch) -> Iterator[Any]:
    for i, (ends, sides) in enumerate(zip(patch.edges().tolist(), patch.sides().tolist())):
        both = [None if it < 0 else it for it in sides]
        yield {"id": i, "vertices": ends, "tiles": both[:2], "numbers": both[2:]}


def _rim(patch: Patch) -> Iterator[Any]:
    for i, loop in enumerate(patch.rim()):
        yield {"id": i, "vertices": loop.tolist()}


def _stars(patch: Patch) -> Iterator[Any]:
    for i, star in enumerate(patch.star_labels()[0]):
        yield {"id": i, "tiles": [list(pair) for pair in star]}


def rounded(places: np.ndarray) -> np.ndarray:
    """Lengths to nine digits, and no -0."""
    return np.round(places, 9) + 0.0


def as_json(patch: Patch, about: Optional[Dict[str, Any]] = None) -> Iterator[str]:
    """The text of JSON, in pieces: a line for each row."""
    yield "{\n"
    for name, value in head_of(patch, about).items():
        yield f'"{name}": {json.dumps(value)},\n'
    for spot, name in enumerate(TABLES):
        yield f'"{name}": [\n'
        before = ""
        for row in rows(patch, name):
            yield before + json.dumps(row)
            before = ",\n"
        yield "\n]" + (",\n" if spot + 1 < len(TABLES) else "\n}\n")


def as_csv(patch: Patch, about: Optional[Dict[str, Any]] = None) -> Dict[str, Iterator[str]]:
    """The text of each file of CSV by its name, in pieces: `board`, with the head, and one for each table. In
    a field a list has blanks between its entries, a list of pairs has a/b for each, and nothing is -."""
    head = [{"name": name, "value": json.dumps(value)} for name, value in head_of(patch, about).items()]
    return {"board": _csv(iter(head)), **{name: _csv(rows(patch, name)) for name in TABLES}}


def _csv(found: Iterator[Dict[str, Any]]) -> Iterator[str]:
    line, names = io.StringIO(), None
    writer = csv.writer(line, lineterminator="\n")
    for row in found:
        if names is None:
            names = list(row)
            writer.writerow(names)
        writer.writerow([_field(value) for value in row.values()])
        yield line.getvalue()
        line.seek(0)
        line.truncate()


def _field(value: Any) -> Any:
    """A value as the field of a table."""
    if value is None:
        return "-"
    if not isinstance(value, list):
        return value
    return " ".join("/".join(map(str, it)) if isinstance(it, list) else str(_field(it)) for it in value)


def arrays(patch: Patch, about: Optional[Dict[str, Any]] = None) -> Dict[str, np.ndarray]:
    """The arrays of the board by their names, as `Patch` has them, with what `Patch.from_npz` reads. The head
    is one text of JSON. Lists of different lengths are one array, and the lengths of its parts another."""
    names, stars = patch.star_labels()
    loops = patch.rim()
    pairs = np.array([pair for star in names for pair in star], np.int32).reshape(-1, 2)
    found = {
        "head": np.array(json.dumps(head_of(patch, about))),
        "rule": np.array(patch.rule.to_text()),
        "kinds": patch.kinds,
        "turns": patch.turns,
        "shifts": patch.shifts,
        "counts": patch.counts,
        "corners": patch.corners(),
        "neighbours": patch.neighbours(),
        "backs": patch.backs(),
        "vertices": patch.vertices(),
        "points": rounded(patch.points()),
        "vertex_stars": stars,
        "edges": patch.edges(),
        "sides": patch.sides(),
        "rim": np.concatenate([np.zeros(0, np.int32), *loops]),
        "rim_lengths": np.array([len(loop) for loop in loops], np.int32),
        "stars": pairs,
        "star_lengths": np.array([len(star) for star in names], np.int32),
    }
    if patch.rule.order in (8, 10):
        found["perpendicular"] = patch.perpendicular()
    return {**found, **_halves(patch)}


def _halves(patch: Patch) -> Dict[str, np.ndarray]:
    """The tiles themselves: of whole tiles the halves, and which of them belong together."""
    whole = patch if isinstance(patch, WholePatch) else None
    found = {"half_tiles": _bytes_of(whole.half_tiles if whole is not None else patch.tiles)}
    if patch.has_addresses:
        found["addresses"] = np.array(patch.address_texts())
        found["half_addresses"] = _bytes_of(whole.half_addresses if whole is not None else patch.addresses)
    return {**found, "halves": whole.halves} if whole is not None else found


def _bytes_of(records: np.ndarray) -> np.ndarray:
    """A structured array as uint8 (n, size), which any reader of such files takes."""
    return np.ascontiguousarray(records).view(np.uint8).reshape(len(records), records.dtype.itemsize)
