"""Colours of tiles, the same in every picture and page, and pictures of patches as SVG or in matplotlib."""
from __future__ import annotations

from functools import lru_cache
from typing import TYPE_CHECKING, Any, Callable, Dict, Iterator, List, Optional, Sequence, Set, Tuple

import numpy as np

from .arguments import one_of, tile_colours
from .colour_names import is_colour
from .colouring import proper_colouring
from .rule import Rule
from .svg import corner_text, escaped, root

if TYPE_CHECKING:
    from .patch import Patch

# by name, for `--colours`
PALETTES = {
    "sea": ("#0b3954", "#087e8b", "#bfd7ea", "#ff5a5f", "#c81d25"),
    "earth": ("#283618", "#606c38", "#dda15e", "#bc6c25", "#fefae0"),
    "dusk": ("#355070", "#6d597a", "#b56576", "#e56b6f", "#eaac8b"),
    "candy": ("#ef476f", "#ffd166", "#06d6a0", "#118ab2", "#073b4c"),
    "ink": ("#111111", "#555555", "#999999", "#cccccc", "#f5f5f5"),
}
COLOURS_BY = ("kind", "turn", "child", "neighbours")
MOST_CLASSES = 16  # kinds, and more than turns
EDGE_NAMES, WIDTH_NAMES = ("edgecolors", "edgecolor", "ec"), ("linewidths", "linewidth", "lw")
SEAM = 0.5  # the width of an edge in points that covers a seam

# by kind; so many that the sixteen kinds of a rule are all different
COLOURS = (
    "#1f5f7a",
    "#8ecae6",
    "#f2e9d8",
    "#3a9a9c",
    "#f4b860",
    "#8e3b5e",
    "#d9694a",
    "#6b8e4e",
    "#c9a9d0",
    "#2b3a55",
    "#b7d3a8",
    "#e7a1a8",
    "#7a5a3a",
    "#9aa5ad",
    "#5d5aa8",
    "#c8b23c",
)

# by turn, or by number as a child, from the first to the last
STEP_COLOURS = (
    "#3a6378",
    "#2a7f86",
    "#2a9d8f",
    "#8ab17d",
    "#babb74",
    "#e9c46a",
    "#efb366",
    "#f4a261",
    "#ee8959",
    "#e76f51",
)


class Colours:
    """The colours of a rule's tiles: a list by `kind`, one by `turn`, and one by number as a `child`.

    `usual` names the first of them that tells tiles of every large patch apart: whole tiles, or with `whole`
    False the rule's own. The kinds of whole tiles come first in the list by kind."""

    def __init__(self, rule: Rule, whole: bool = True):
        first, kinds = rule.whole_kinds, range(len(rule.kinds))
        order = [*first, *(kind for kind in kinds if kind not in first)]
        found = [{tile for tile in level if tile[0] in first or not whole} for level in deep_levels(rule)]
        self.by = {
            "kind": [COLOURS[order.index(kind) % len(COLOURS)] for kind in kinds],
            "turn": steps_of(rule.order),
            "child": steps_of(max(len(kind.children) for kind in rule.kinds)),
        }
        self.usual = "child"
        for spot, name in ((1, "turn"), (0, "kind")):
            if min(len({tile[spot] for tile in level}) for level in found) > 1:
                self.usual = name


@lru_cache(maxsize=128)
def colours_of(rule: Rule, whole: bool = True) -> Colours:
    """The colours of a rule's tiles, computed once."""
    return Colours(rule, whole)


def deep_levels(rule: Rule) -> Iterator[Set[Tuple[int, int]]]:
    """The pairs of a kind and a turn that the tiles of a supertile have, for each depth from 13 to 24."""
    tiles = {(0, 0)}
    for depth in range(1, 25):
        tiles = {
            (int(child[0]), (turn + int(child[1])) % rule.order)
            for kind, turn in tiles
            for child in rule.kinds[kind].children
        }
        if depth > 12:
            yield tiles


def steps_of(count: int) -> List[str]:
    """So many colours out of those by turn, the first and others at equal distances."""
    most = len(STEP_COLOURS)
    return [STEP_COLOURS[step * most // count % most] for step in range(count)]


def classes_by(patch: "Patch", by: str) -> np.ndarray:
    """The class of each tile, that its colour stands for: the kind, the turn, the number as a child, or a
    proper colouring; a whole tile has its first half's."""
    if by == "neighbours":
        return proper_colouring(patch.neighbours())[0]
    return (
        {"kind": patch.kinds, "turn": patch.turns}[by]
        if by != "child"
        else patch.addresses["digits"][:, 0, 0]
    )


def fills_of(
    patch: "Patch", colours: Optional[Sequence[str]], by: Optional[str]
) -> Tuple[str, np.ndarray, Dict[int, str]]:
    """What the colours are by, the class of each tile, and the colour of each class that occurs. Given
    colours are by kind, unless `by` says otherwise. ValueError if neighbours would be alike."""
    own = colours_of(patch.rule, hasattr(patch, "halves"))
    usual = "turn" if own.usual == "child" and not patch.has_addresses else own.usual
    by = one_of("by", by or ("kind" if colours else usual), COLOURS_BY)
    classes = classes_by(patch, by)
    found = np.unique(classes).tolist()
    if colours:
        if by == "neighbours" and len(set(colours[: len(found)])) < len(found):
            raise ValueError(f"by neighbours needs {len(found)} different colours, and not {list(colours)!r}")
        return by, classes, {name: colours[i % len(colours)] for i, name in enumerate(found)}
    known = own.by.get(by, COLOURS)
    return by, classes, {name: known[name % len(known)] for name in found}


def refuse_others(colours: Optional[Sequence[str]], is_known: Callable[[str], bool]) -> None:
    """ValueError with the first that is no colour."""
    for colour in colours or ():
        if not is_known(colour):
            raise ValueError(f"each of colours is such as '#0b3954' or 'navy', and not {colour!r}")


def svg_of(
    patch: "Patch",
    width: int = 800,
    colours: Optional[Sequence[str]] = None,
    ids: bool = False,
    by: Optional[str] = None,
    each: Optional[Sequence[str]] = None,
) -> str:
    """See `Patch.to_svg`."""
    refuse_others(colours, is_colour)
    xy = patch.xy() * (1, -1)
    low, high = np.zeros(2), np.ones(2)
    if len(patch):
        low, high = np.nanmin(xy, (0, 1)) - 0.1, np.nanmax(xy, (0, 1)) + 0.1
    tall = round(width * float((high - low)[1] / (high - low)[0]))
    by, classes, fills = fills_of(patch, colours, by) if each is None else ("each", patch.kinds, {})
    extra = classes.tolist() if by in ("child", "neighbours") else None
    version = "" if ids else "1.1"  # (attributes such as data-near are of SVG 2)
    out = [
        root((*low, *(high - low)), width, tall, version),
        '<style type="text/css">.tile{stroke:#222;stroke-width:.04;stroke-linejoin:round}',
        *(f".{by[0]}{name}{{fill:{escaped(colour)}}}" for name, colour in fills.items()),
        "</style>",
    ]
    return "\n".join([*out, *polygon_elements(patch, xy, ids, by[0], extra, each), "</svg>", ""])


def polygon_elements(
    patch: "Patch",
    xy: np.ndarray,
    ids: bool,
    letter: str = "",
    extra: Optional[List[int]] = None,
    each: Optional[Sequence[str]] = None,
) -> Iterator[str]:
    """The polygon of each tile; with `extra` also of a class of this letter and that number, and with `each`
    of a colour of its own."""
    near = patch.neighbours().tolist() if ids else []
    addresses = patch.address_texts() if ids else []
    rows = zip(patch.kinds.tolist(), patch.turns.tolist(), xy.tolist(), patch.counts.tolist())
    for tile, (kind, turn, corners, count) in enumerate(rows):
        own = "" if extra is None else f" {letter}{extra[tile]}"
        fill = "" if each is None else f' fill="{escaped(each[tile])}"'
        look = f'class="tile k{kind} t{turn}{own}"{fill} points="{corner_text(corners[:count])}"'
        if not ids:
            yield f"<polygon {look}/>"
            continue
        others = " ".join("-" if other < 0 else str(other) for other in near[tile][:count])
        name = f'id="tile{tile}" data-near="{others}"'
        yield f"<polygon {name} {look}><title>{addresses[tile]}</title></polygon>"


def own_colours(patch: "Patch", each: Any, colours: Optional[Sequence[str]]) -> Optional[Sequence[str]]:
    """The colour of each tile, or None where the colours are by class. So many colours of classes as there
    are tiles, and more than a rule has classes, are meant for tiles."""
    if each is None:
        if colours is not None and len(colours) == len(patch) > MOST_CLASSES:
            raise ValueError(f"colours are those of classes; each= takes one for each of {len(patch)} tiles")
        return None
    if colours is not None:
        raise ValueError("each has the colours of the tiles: leave out colours")
    return tile_colours("each", each, len(patch))


def plotted(
    patch: "Patch",
    ax: Any,
    by: Optional[str],
    colours: Optional[Sequence[str]],
    each: Optional[Sequence[str]],
    look: Dict[str, Any],
) -> Any:
    """See `Patch.plot`."""
    from .exports import needed

    collections = needed("matplotlib.collections", "matplotlib")
    refuse_others(colours, needed("matplotlib.colors", "matplotlib").is_color_like)
    if each is None:
        _, classes, fills = fills_of(patch, colours, by)
        each = [fills[name] for name in classes.tolist()]
    if ax is None:
        _, ax = needed("matplotlib.pyplot", "matplotlib").subplots()
        ax.set_axis_off()
    look = {"edgecolors": "#222222", "linewidths": 0.5, "facecolors": each, **without_seams(look)}
    ax.add_collection(collections.PolyCollection(patch.polygons(), **look))
    ax.set_aspect("equal")
    ax.autoscale_view()
    return ax


def without_seams(look: Dict[str, Any]) -> Dict[str, Any]:
    """What PolyCollection takes, with a thin edge of a tile's own colour where no line is wanted: without one
    what is behind shows between two tiles. Where tiles are translucent, it would show itself."""
    edges = [look.get(name) for name in EDGE_NAMES]
    widths = [look.get(name) for name in WIDTH_NAMES]
    has_none = any(isinstance(it, str) and it.lower() == "none" for it in edges)
    has_no_width = any(np.ndim(it) == 0 and it == 0 for it in widths if it is not None)
    if look.get("alpha") is not None or not (has_none or has_no_width):
        return look
    others = {name: it for name, it in look.items() if name not in (*EDGE_NAMES, *WIDTH_NAMES)}
    return {**others, "edgecolors": "face", "linewidths": SEAM}
