"""Patches as other libraries take them: graphs, matrices, tables, GeoJSON, files of numpy. numpy alone is
needed; each other library is asked for when its call is made."""
from __future__ import annotations

import importlib
import json
import zipfile
import zlib
from typing import TYPE_CHECKING, Any, Dict, List, Mapping, Optional, Tuple, Union

import numpy as np

from .arguments import floats, real_array
from .engine import ADDRESS, TILE
from .geometry import unique_points
from .patch import Patch, WholePatch, whole_patch
from .rule import Rule
from .texts import parsed_lines

if TYPE_CHECKING:
    import networkx
    import pandas
    import scipy.sparse

SOME = 4_000_000  # so many waves times vertices are added up at once


def needed(module: str, package: str = "") -> Any:
    """A module, or an ImportError that says how to get it."""
    try:
        return importlib.import_module(module)
    except ImportError as missing:
        name = package or module.partition(".")[0]
        raise ImportError(f"this call needs {name}: pip install {name}", name=name) from missing


def structure_factor(patch: Patch, waves: np.ndarray, radius: Optional[float] = None) -> np.ndarray:
    """See `Patch.structure_factor`."""
    waves = real_array("waves", waves)
    if waves.shape[-1:] != (2,):
        raise ValueError(f"waves are wave vectors (.., 2), and not of the shape {waves.shape}")
    if radius is not None and not radius > 0:
        raise ValueError(f"radius is above 0, and not {radius!r}")
    points, weights = patch.points(), np.ones(len(patch.vertices()))
    if radius is not None:
        far = ((points - points.mean(0)) ** 2).sum(1) / radius**2
        points, weights = points[far < 1], np.exp(-3 * far[far < 1])
    flat = waves.reshape(-1, 2)
    sums = np.empty(len(flat), complex)
    step = max(1, SOME // max(1, len(points)))
    for start in range(0, len(flat), step):
        sums[start : start + step] = np.exp(1j * (flat[start : start + step] @ points.T)) @ weights
    return (abs(sums) ** 2 / (weights**2).sum()).reshape(waves.shape[:-1])


def tile_graph(patch: Patch) -> "networkx.Graph":
    graph, middles = placed_graph(), patch.middles().tolist()
    addresses = [""] * len(patch) if not patch.has_addresses else patch.address_texts()
    rows = zip(patch.kinds.tolist(), patch.turns.tolist(), addresses, middles)
    for tile, (kind, turn, address, (x, y)) in enumerate(rows):
        graph.add_node(tile, kind=kind, turn=turn, address=address, x=x, y=y)
    shared: Dict[tuple, List[str]] = {}
    for a, b, mine, theirs in patch.adjacency().tolist():
        shared.setdefault((a, b), []).append(f"{mine}/{theirs}")
    graph.add_edges_from((a, b, {"edges": " ".join(edges)}) for (a, b), edges in shared.items())
    return graph


def vertex_graph(patch: Patch) -> "networkx.Graph":
    graph, stars = placed_graph(), patch.star_labels()[1].tolist()
    rows = zip(patch.points().tolist(), patch.vertices().tolist(), stars)
    for vertex, ((x, y), exact, star) in enumerate(rows):
        names = {f"a{i}": a for i, a in enumerate(exact)}
        graph.add_node(vertex, x=x, y=y, star=star, **names)
    graph.add_edges_from(patch.edges().tolist())
    return graph


def placed_graph() -> Any:
    """An empty graph whose `pos` is the place of each node."""
    Graph: Any = needed("networkx").Graph

    class PlacedGraph(Graph):
        """A graph whose nodes have the attributes x and y."""

        @property
        def pos(self) -> Dict[int, tuple]:
            return {node: (data["x"], data["y"]) for node, data in self.nodes(data=True)}

    return PlacedGraph()


def adjacency_matrix(patch: Patch, kind: str) -> "scipy.sparse.csr_matrix":
    sparse = needed("scipy.sparse", "scipy")
    pairs = np.unique(patch.adjacency()[:, :2], axis=0) if kind == "tiles" else patch.edges()
    count = len(patch) if kind == "tiles" else len(patch.vertices())
    a, b = pairs.T
    both = (np.concatenate([a, b]), np.concatenate([b, a]))
    return sparse.coo_matrix((np.ones(2 * len(pairs)), both), (count, count)).tocsr()


def frame(patch: Patch, kind: str) -> "pandas.DataFrame":
    """A table of the tiles, vertices or edges."""
    return needed("pandas").DataFrame(columns(patch, kind))


def columns(patch: Patch, kind: str) -> Dict[str, Any]:
    """The columns of the table of tiles, vertices or edges, by their names."""
    if kind == "tiles":
        addresses = {} if not patch.has_addresses else {"address": patch.address_texts()}
        x, y = patch.middles().T
        shifts = {f"a{i}": column for i, column in enumerate(patch.shifts.T)}
        return {"kind": patch.kinds, "turn": patch.turns, **shifts, "x": x, "y": y, **addresses}
    if kind == "vertices":
        x, y = patch.points().T
        exact = {f"a{i}": column for i, column in enumerate(patch.vertices().T)}
        return {"x": x, "y": y, **exact, "star": patch.star_labels()[1]}
    ends, sides = patch.edges().T, patch.sides()
    names = ("left", "right", "left_edge", "right_edge")
    return {"start": ends[0], "end": ends[1], **dict(zip(names, sides.T))}


def features(patch: Patch) -> Dict[str, Any]:
    addresses: List[Optional[str]] = [*patch.address_texts()] if patch.has_addresses else [None] * len(patch)
    rows = zip(patch.polygons(), patch.kinds.tolist(), patch.turns.tolist(), addresses)
    found = []
    for number, (corners, kind, turn, address) in enumerate(rows):
        loop = corners.tolist()
        shape = {"type": "Polygon", "coordinates": [[*loop, loop[0]]]}
        named = {"kind": kind, "turn": turn, "address": address}
        found.append({"type": "Feature", "id": number, "geometry": shape, "properties": named})
    return {"type": "FeatureCollection", "features": found}


def geojson(patch: Patch) -> str:
    return json.dumps(features(patch)) + "\n"


def patch_of_listing(rule: Rule, text: Union[str, bytes]) -> Patch:
    """See `Patch.from_listing`."""
    data = text.encode() if isinstance(text, str) else text
    found = parsed_lines(data)
    wrong = np.flatnonzero((found.tiles["kind"] >= len(rule.kinds)) | (found.tiles["turn"] >= rule.order))
    if len(wrong):
        raise ValueError(f"tile {wrong[0] + 1} of the list has a kind or a turn that the rule has not")
    patch = (
        whole_patch(rule, found.tiles, found.addresses, found.whole)
        if b" + " in data
        else Patch(rule, found.tiles, found.addresses)
    )
    refuse_overlaps(patch)
    return patch


def refuse_overlaps(patch: Patch) -> None:
    """ValueError with two tiles that are the same, or lie on the same side of an edge."""
    spots = unique_points(patch.shifts.astype(np.int64))[1]
    same = first_alike((spots * 256 + patch.kinds) * 256 + patch.turns)
    if same:
        raise ValueError(f"tiles {same[0] + 1} and {same[1] + 1} of the list are the same")
    start, end = patch.corners().astype(np.int64), patch._next
    tiles, edges = np.nonzero(start >= 0)
    alike = first_alike((start * len(patch.vertices()) + end)[tiles, edges])
    if alike:
        raise ValueError(f"tiles {tiles[alike[0]] + 1} and {tiles[alike[1]] + 1} of the list overlap")


def first_alike(keys: np.ndarray) -> Optional[Tuple[int, int]]:
    """The places of two numbers that are alike: the earliest second one, behind the first of it. Or None."""
    _, first, numbers = np.unique(keys, return_index=True, return_inverse=True)
    firsts = first[numbers.reshape(-1)]
    again = np.flatnonzero(firsts != np.arange(len(keys)))
    return (int(firsts[again[0]]), int(again[0])) if len(again) else None


def write_npz(patch: Patch, path: Any, **more: Any) -> None:
    """Writes the arrays of a patch, and more of them, into a file of numpy."""
    from .board import arrays

    found = {**arrays(patch), "centre": np.array(patch.centre), **more}
    if hasattr(path, "write"):
        np.savez_compressed(path, **found)
        return
    with open(path, "wb") as file:  # (numpy would add .npz to a name without it)
        np.savez_compressed(file, **found)


def read_npz(path: Any) -> Patch:
    """See `Patch.from_npz`."""
    try:
        file = np.load(path, allow_pickle=False)
        if isinstance(file, np.lib.npyio.NpzFile):
            with file:
                return patch_of_arrays(file)
        raise ValueError("it is no archive of arrays")
    except (ValueError, KeyError, EOFError, zipfile.BadZipFile, zlib.error) as fault:
        raise ValueError(f"{path} isn't a file that Patch.to_npz wrote") from fault


def patch_of_arrays(file: Mapping[str, Any]) -> Patch:
    """The patch of the arrays that `write_npz` wrote. A file of an earlier version has no `centre`."""
    rule = Rule.from_text(str(file["rule"]))
    tiles = np.ascontiguousarray(file["half_tiles"]).view(TILE).reshape(-1)
    addresses = file["half_addresses"].view(ADDRESS).reshape(-1) if "half_addresses" in file else None
    is_whole = "halves" in file
    patch = WholePatch(rule, tiles, addresses, file["halves"]) if is_whole else Patch(rule, tiles, addresses)
    if "centre" in file:
        patch.centre = floats("centre", file["centre"].tolist())
    return patch
