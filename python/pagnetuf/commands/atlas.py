"""A page about a rule: its prototiles, how each is inflated and cut, its vertex stars with their shares, and
a patch.

  pagnetuf atlas p3 --out p3.html
  pagnetuf atlas rules/sphinx.toml > sphinx.html

The page is one file without scripts. Shares of kinds are the limit, from the rule's numbers; those of stars
are counted in a window, of which the page says how large it is."""
from __future__ import annotations

import argparse
import os
from typing import List, Optional, Sequence, Tuple

import numpy as np

from .. import places
from ..patch import Patch
from ..picture import Colours, classes_by, colours_of
from ..svg import attributes, corner_text, element, escaped, number, root
from ..rule import Kind, Rule
from ..tiling import Tiling, Window
from .command_line import add_frame, add_rule, frame_asked, source_of, tiling_of, write_pieces

STYLE = """body{font:16px/1.5 system-ui,sans-serif;color:#1c2a33;
margin:2em auto;max-width:1000px;padding:0 16px}
h1{font-weight:600}h2{margin-top:2em;font-weight:600}
.row{display:grid;gap:8px 24px;margin:1em 0}
.row figure{margin:0 0 12px;display:grid;grid-row:span 2;grid-template-rows:subgrid;align-items:end}
.prototiles{grid-template-columns:repeat(auto-fill,minmax(150px,1fr))}
.inflations{grid-template-columns:repeat(auto-fill,minmax(210px,1fr))}
.stars{grid-template-columns:repeat(auto-fill,minmax(120px,1fr))}
figcaption{font-size:14px;line-height:1.35;align-self:start}
svg{display:block;max-width:100%;height:auto}code{overflow-wrap:anywhere}"""
HEAD = """<!DOCTYPE html>
<html lang="en"><head><meta charset="utf-8">
<meta name="viewport" content="width=device-width,initial-scale=1">"""
LABELS = {
    "text_anchor": "middle",
    "dominant_baseline": "central",
    "stroke": "#fff",
    "paint_order": "stroke",
    "fill": "#111",
}
LINE = 1.3  # pixels


def add_words(parser: argparse.ArgumentParser) -> None:
    add_rule(parser)
    add_frame(parser)
    parser.add_argument("--out", metavar="FILE", help="a file instead of standard output")


def run(options: argparse.Namespace) -> None:
    tiling = tiling_of(options.rule)
    frame = frame_asked(options)
    counted = tiling.window(options.at, (80, 60), frame.seed, frame.base).whole()
    shown = tiling.window(options.at, (28, int(9 / tiling.ring.sine)), frame.seed, frame.base)
    write_pieces([atlas_page(tiling, counted, shown)], options.out)


def atlas_page(tiling: Tiling, counted: Patch, shown: Window) -> str:
    name, rule = escaped(title_of(tiling)), tiling.rule
    colours = colours_of(rule)
    parts = {
        "Prototiles": [prototiles(rule, colours)],
        "Inflation": [
            f"<p>Each prototile, inflated by {factor_text(rule, ' and turned by ')}, is cut into its "
            "children. They have the numbers that addresses call them by. "
            f"Colours are by {colours.usual}.</p>",
            inflations(rule, colours),
        ],
        "A patch": [
            drawn(shown.whole(), colours, 33.5, frame=frame_box(shown)),
            f"<p><code>{places.command()} {escaped(shown.words(True) + source_of(tiling))}</code></p>",
        ],
        "Vertex stars": [stars_section(counted, colours)],
    }
    head = f"{HEAD}<title>{name}</title><style>{STYLE}</style></head><body>"
    body = [line for title, lines in parts.items() for line in (f"<h2>{title}</h2>", *lines)]
    return "\n".join([head, f"<h1>{name}</h1>", f"<p>{summary(rule)}</p>", *body, "</body></html>", ""])


def title_of(tiling: Tiling) -> str:
    name = os.path.basename(tiling.name)
    return name[:-5].replace("_", " ") if name.endswith(".toml") else name


def factor_text(rule: Rule, joint: str) -> str:
    """The factor's absolute value, and behind `joint` its angle where it turns."""
    x, y = rule.ring.xy(rule.factor).tolist()
    turn = np.degrees(np.arctan2(y, x))
    turned = f"{joint}{number(float(turn), 2)}°" if abs(turn) > 1e-9 else ""
    return number(float(np.hypot(x, y)), 6) + turned


def summary(rule: Rule) -> str:
    glue = ", of which halves are joined to whole tiles" if rule.glue else ""
    kinds = (
        f"There are {len(rule.kinds)} kinds of tiles" if len(rule.kinds) > 1 else "There is one kind of tile"
    )
    factor = factor_text(rule, ", turned by ")
    return f"Order {rule.order}: turns by {360 // rule.order}°. Factor {factor}. {kinds}{glue}."


def shares(rule: Rule) -> np.ndarray:
    """The limit of each kind's share, from the matrix of the substitution (O. Perron): its greatest
    eigenvector."""
    matrix = np.zeros((len(rule.kinds), len(rule.kinds)))
    for parent, kind in enumerate(rule.kinds):
        for child in kind.children:
            matrix[int(child[0]), parent] += 1
    share = np.ones(len(rule.kinds)) / len(rule.kinds)
    for _ in range(400):
        share = matrix @ share + share  # (so that a matrix that permutes kinds settles too)
        share /= share.sum()
    return share


def row(name: str, pictures: List[str], captions: List[str]) -> str:
    """Pictures side by side, each with a caption."""
    figures = (
        f"<figure>{picture}<figcaption>{caption}</figcaption></figure>"
        for picture, caption in zip(pictures, captions)
    )
    return f'<div class="row {name}">{"".join(figures)}</div>'


def prototiles(rule: Rule, colours: Colours) -> str:
    alone = [polygon_patch(rule, [(kind, 0, np.zeros(4, np.int64))]) for kind in range(len(rule.kinds))]
    scale = fitting(alone, 140, 80)
    captions = [f"kind {kind}, {100 * share:.2f} % of all tiles" for kind, share in enumerate(shares(rule))]
    return row("prototiles", [drawn(it, colours, scale) for it in alone], captions)


def polygon_patch(rule: Rule, motions: Sequence[Tuple[int, int, np.ndarray]]) -> Patch:
    """A patch of tiles that are named by their motions alone; its addresses number them as children."""
    from ..engine import ADDRESS, TILE

    tiles = np.zeros(len(motions), TILE)
    for i, (kind, turn, shift) in enumerate(motions):
        tiles[i]["kind"], tiles[i]["turn"], tiles[i]["shift"] = kind, turn, shift
    addresses = np.zeros(len(motions), ADDRESS)
    addresses["digits"][:, 0, 0] = np.arange(len(motions))
    return Patch(rule, tiles, addresses)


def inflations(rule: Rule, colours: Colours) -> str:
    cut = [
        polygon_patch(rule, [(int(child[0]), int(child[1]), child[2:]) for child in entry.children])
        for entry in rule.kinds
    ]
    scale = fitting(cut, 205, 80)
    captions = [f"kind {kind} becomes {children_text(entry)}" for kind, entry in enumerate(rule.kinds)]
    return row("inflations", [drawn(it, colours, scale, True) for it in cut], captions)


def children_text(entry: Kind) -> str:
    kinds, counts = np.unique(entry.children[:, 0], return_counts=True)
    parts = [f"{count} of kind {kind}" for kind, count in zip(kinds.tolist(), counts.tolist())]
    return " and ".join([*([", ".join(parts[:-1])] if parts[1:] else []), parts[-1]])


def stars_section(patch: Patch, colours: Colours) -> str:
    """Each vertex star, the most frequent first, with its share. Where two look alike, their tiles' first
    vertices are marked."""
    names, numbers = patch.star_labels()
    total, found, spots, captions = int((numbers >= 0).sum()), [], [], []
    for star in range(min(len(names), 60)):
        mine = np.flatnonzero(numbers == star)
        tiles = np.flatnonzero((patch.corners() == mine[0]).any(1))
        found.append(patch.chosen(tiles))
        spots.append(patch.vertices()[mine[0]])
        captions.append(f"{100 * len(mine) / total:.2f} %, {len(tiles)} tiles")
    scale = fitting(found, 115, 34)
    twins = len({look_of(star, spot, colours) for star, spot in zip(found, spots)}) < len(found)
    pictures = [
        drawn(star, colours, scale, spot=patch.rule.ring.xy(spot), firsts=twins)
        for star, spot in zip(found, spots)
    ]
    more = f" The {len(names) - 60} rarest are left out." if len(names) > 60 else ""
    more += " Some look alike: a white dot marks the first vertex of each tile." if twins else ""
    stars_ = "1 star" if len(names) == 1 else f"{len(names)} stars"
    said = f"<p>Up to turns, {stars_} around {total} vertices of a window.{more}</p>"
    return said + row("stars", pictures, captions)


def look_of(star: Patch, spot: np.ndarray, colours: Colours) -> tuple:
    """What a star looks like, however it is turned: the colours of its tiles, and exactly where they lie."""
    ring, fills = star.rule.ring, tile_fills(star, colours)
    looks = []
    for turn in range(ring.order):
        tiles = ring.turn(star.outlines() - spot, turn).tolist()
        looks.append(sorted((fill, *sorted(map(tuple, tile))) for fill, tile in zip(fills, tiles)))
    return tuple(min(looks))


def tile_fills(patch: Patch, colours: Colours) -> List[str]:
    """The colour of each tile."""
    return [colours.by[colours.usual][it] for it in classes_by(patch, colours.usual).tolist()]


def frame_box(window: Window) -> np.ndarray:
    """The rectangle of a window on its picture, y downwards: its least and its greatest corner."""
    ring, (wide, high) = window.rule.ring, window.box.half
    middle = ring.xy(np.array(window.box.at)) * (1, -1)
    half = np.array([wide / 2, high * ring.sine])
    return np.stack([middle - half, middle + half])


def box_of(patch: Patch) -> np.ndarray:
    """The rectangle round a patch, y downwards."""
    xy = patch.xy() * (1, -1)
    return np.stack([np.nanmin(xy, (0, 1)), np.nanmax(xy, (0, 1))])


def fitting(patches: List[Patch], most: float, scale: float) -> float:
    """One scale for several pictures: the widest has at most so many pixels, a length at most `scale`."""
    return min([scale, *(most / float((box_of(it)[1] - box_of(it)[0])[0]) for it in patches)])


def drawn(
    patch: Patch,
    colours: Colours,
    scale: float,
    marks: bool = False,
    frame: Optional[np.ndarray] = None,
    spot: Optional[np.ndarray] = None,
    firsts: bool = False,
) -> str:
    """A picture with `scale` pixels a length, of the whole patch or cut off at a frame. `marks` numbers tiles
    of several; a dot is at `spot`; `firsts` marks the first vertex of each tile."""
    xy = patch.xy() * (1, -1)
    low, high = box_of(patch) + np.array([[-1], [1]]) * LINE / scale if frame is None else frame
    wide, tall = (high - low).tolist()
    sizes = number(wide * scale, 1), number(tall * scale, 1)
    look = {"stroke": "#22303a", "stroke_width": number(LINE / scale), "stroke_linejoin": "round"}
    out = [root((low[0], low[1], wide, tall), *sizes, **look)]
    for fill, corners, count in zip(tile_fills(patch, colours), xy.tolist(), patch.counts.tolist()):
        out.append(element("polygon", fill=fill, points=corner_text(corners[:count])))
    out += labels(xy, patch.counts.tolist(), scale) if marks and len(patch) > 1 else []
    if firsts:
        out += [dot(place, 1.8 / scale, "#fff", "#22303a") for place in first_places(xy, 8 / scale).tolist()]
    if spot is not None:
        out.append(dot((spot * (1, -1)).tolist(), 2.6 / scale, "#22303a", "#fff"))
    return "".join([*out, "</svg>"])


def dot(place: Sequence[float], radius: float, fill: str, stroke: str) -> str:
    x, y = map(number, place)
    return element("circle", cx=x, cy=y, r=number(radius), fill=fill, stroke=stroke)


def first_places(xy: np.ndarray, far: float) -> np.ndarray:
    """A place in each tile that is so far from its first vertex, or half as far as its middle is."""
    first = xy[:, 0]
    to = np.nanmean(xy, 1) - first
    long = np.hypot(*to.T)[:, None]
    return first + to * np.minimum(0.5, far / long)


def labels(xy: np.ndarray, counts: List[int], scale: float) -> List[str]:
    """The number of each child, in the middle of its widest place and as large as that is."""
    out = ["<g" + attributes(stroke_width=number(3 / scale), **LABELS) + ">"]
    for number_, (corners, count) in enumerate(zip(xy, counts)):
        x, y, room = widest_place(corners[:count])
        size = min(max(room * (1.25 if number_ < 10 else 1), 9 / scale), 17 / scale)
        out.append(element("text", str(number_), x=number(x), y=number(y), font_size=number(size)))
    return [*out, "</g>"]


def widest_place(corners: np.ndarray) -> Tuple[float, float, float]:
    """The middle and the radius of a circle in a polygon, nearly the largest: the best point of a grid, and
    of finer ones about it. Of several that are as good, the one nearest to the mean of the corners."""
    low, high = corners.min(0), corners.max(0)
    middle, half, mean = (low + high) / 2, (high - low) / 2, corners.mean(0)
    for _ in range(3):
        steps = np.linspace(-1, 1, 25)
        points = middle + np.stack(np.meshgrid(steps, steps), -1).reshape(-1, 2) * half
        rooms = room_at(points, corners)
        middle = points[np.argmax(rooms - 1e-3 * np.hypot(*(points - mean).T))]
        half = half / 8
    return float(middle[0]), float(middle[1]), float(room_at(middle[None], corners)[0])


def room_at(points: np.ndarray, corners: np.ndarray) -> np.ndarray:
    """How far each point is from the rim of a polygon, negative outside: float64 (n,)."""
    start, end = corners, np.roll(corners, -1, 0)
    along, to = end - start, points[:, None] - start
    part = np.clip((to * along).sum(-1) / (along**2).sum(-1), 0, 1)
    far = np.hypot(*np.moveaxis(to - part[..., None] * along, -1, 0)).min(1)
    above = (start[:, 1] > points[:, 1:]) != (end[:, 1] > points[:, 1:])
    with np.errstate(divide="ignore", invalid="ignore"):
        crossing = start[:, 0] + (points[:, 1:] - start[:, 1]) / along[:, 1] * along[:, 0]
    inside = (above & (points[:, :1] < crossing)).sum(1) % 2 == 1
    return np.where(inside, far, -far)
