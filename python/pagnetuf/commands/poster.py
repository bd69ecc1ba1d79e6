"""A page in millimetres: a poster, a background, or lines for a cutter.

  pagnetuf poster p3 --size 1000,700 --tile 12 --colours navy,#ff6663 > poster.svg
  pagnetuf poster p3 --size 600,600 --star 5 --by neighbours > star.svg
  pagnetuf poster ab --size 300,200 --cut --to dxf --out cut.dxf

Each colour is a layer of Inkscape, and a group with an id; the layer has the colour, so one change recolours
its tiles. All numbers are millimetres. A page with more tiles than a window may have is put together from
several windows. The command `draw` for the same window is printed on standard error."""
from __future__ import annotations

import argparse
import re
from argparse import ArgumentTypeError
from concurrent.futures import ProcessPoolExecutor
from itertools import chain
from typing import Dict, Iterable, Iterator, List, NamedTuple, Optional, Sequence, Tuple

import numpy as np

from .. import places
from ..arguments import Point, four_integers
from ..colouring import proper_colouring
from ..dxf import Spot, drawing
from ..engine import Box, Frame
from ..patch import Patch
from ..picture import COLOURS, PALETTES, colours_of
from ..refusals import CoordLimit, DepthLimit
from ..sheet import Sheet, gathered
from ..trails import each_stroke, strokes
from ..svg import element, escaped, number, root
from ..symmetry import NoPlace, kept_radius, symmetric_place
from ..tiling import Tiling, words_of
from .command_line import (
    Trouble,
    add_frame,
    add_rule,
    colours,
    frame_asked,
    millimetres,
    refuse_unused,
    source_of,
    tell,
    tiling_of,
    whole_number,
    write_pieces,
)

MOST_ON_PAGE = 4_000_000
INK = "#222222"
# Some readers of XML, such as librsvg's, hold at most ten million characters, and let go of them only now and
# then between elements. So in a large page no element is long.
MOST_TEXT, MOST_CORNERS = 50_000, 2_000
MOST_WHOLE, MOST_PART = 50_000, 2_000  # tiles
ROUND = 'stroke-linejoin="round" stroke-linecap="round"'
CLIP = 'clip-path="url(#page)"'
EPSILON = 1e-9  # mm
LAYERS_BY = ("kind", "turn", "star", "neighbours", "ring")
RINGS = 5


def width_and_ink(text: str) -> Tuple[float, str]:
    """A type of argparse: a width in mm, and perhaps a colour after a comma."""
    width, _, colour = text.partition(",")
    return millimetres(1, 0, 100)(width)[0], colours(colour)[0] if colour else INK


def fold_and_star(text: str) -> Tuple[int, int]:
    """A type of argparse: M, or M,N."""
    if not re.fullmatch(r"[0-9]{1,2}(,[0-9]{1,2})?", text):
        raise ArgumentTypeError(f"{text!r} isn't M or M,N")
    fold, _, which = text.partition(",")
    return int(fold), int(which or 0)


def add_words(parser: argparse.ArgumentParser) -> None:
    add_rule(parser)
    add_look(parser)
    star = (
        "puts a vertex in the centre around which the whole page has M-fold symmetry; N is the number of "
        "its vertex star among those with this symmetry, from 0, which is the default and the most frequent: "
        "of p2, 0 is five kites, and 1 five darts; of p3, both are five thick rhombs"
    )
    parser.add_argument("--star", metavar="M[,N]", type=fold_and_star, help=star)
    add_frame(parser)
    jobs = "so many processes compute the windows of a large page; default 1"
    parser.add_argument("--jobs", metavar="N", type=whole_number(1, 1024), default=1, help=jobs)
    parser.add_argument("--halves", action="store_true", help="half tiles, not joined to whole ones")
    forms = "the format (default svg); dxf is for --cut"
    parser.add_argument("--to", choices=("svg", "dxf"), default="svg", help=forms)
    parser.add_argument("--out", metavar="FILE", help="a file instead of standard output")


def add_look(parser: argparse.ArgumentParser) -> None:
    """The options of the page, its colours and its lines."""
    size, tile = millimetres(2, 1, 20000), millimetres(1, 0.1, 10000)
    by = (
        "what a colour stands for: kind (default), turn, the rarest vertex star at a tile's corners, "
        "neighbours (no two tiles with a common edge are alike), or the ring around the centre. With --star, "
        "kind, turn, star and ring keep the symmetry"
    )
    inks = f"colours of CSS, in the order of the layers, or a palette: {', '.join(PALETTES)}"
    lines = "the width and colour of the lines, 0 for none; default 0.3,#222222; not with --cut"
    joined_ = "one area for each colour, without seams between its tiles"
    cut = (
        "no areas: each edge exactly once, in the fewest strokes, clipped to the page, and a frame. The "
        "kerf, which is what the beam takes away, is set in the software of the laser"
    )
    add = parser.add_argument
    add("--size", metavar="W,H", type=size, default=[1000, 700], help="the page in mm; 1000,700")
    add("--tile", metavar="MM", type=tile, default=[10.0], help="one length in mm; 10")
    add("--by", choices=LAYERS_BY, default="kind", help=by)
    add("--colours", metavar="C,C,..", type=colours, help=inks)
    add("--line", metavar="MM[,C]", type=width_and_ink, help=lines)
    add("--joined", action="store_true", help=joined_)
    add("--cut", action="store_true", help=cut)


def run(options: argparse.Namespace) -> None:
    if options.to == "dxf" and not options.cut:
        raise Trouble("dxf has lines only: add --cut")
    if options.cut:
        by = ("by",) if options.by != "kind" else ()
        refuse_unused(options, ("line", "colours", "joined", *by), "--cut has lines for a cutter only")
    tiling = tiling_of(options.rule)
    page = Page(options.size, options.tile[0])
    frame, at = frame_asked(options), four_integers("at", options.at)
    if options.star:
        frame, at = symmetric(tiling, page, frame, at, options)
    page.centre = np.array(at)
    patch = tiles_of_page(tiling, page, frame, at, options)
    words = words_of(tiling.machine, frame, Box(at, page.half(tiling)), not options.halves)
    on_page = tiles_on(patch, page)
    tell(f"{int(on_page.sum())} tiles; the same window: {places.command()} {words}{source_of(tiling)}")
    write_pieces(
        cut_page(patch, page, options) if options.cut else poster_svg(patch, page, options), options.out
    )


class Page:
    """A page with its size in millimetres, and the size of a length on it."""

    def __init__(self, size: Sequence[float], tile: float):
        self.wide, self.high, self.tile = size[0], size[1], tile
        self.centre = np.zeros(4, np.int64)

    def half(self, tiling: Tiling) -> Tuple[int, int]:
        """The window that contains the page, and a little more: also the tiles around each vertex on the
        page."""
        more = [int(side) + 1 for side in tiling.rule.extent]
        return (
            int(self.wide / self.tile) + more[0],
            int(self.high / self.tile / 2 / tiling.ring.sine) + more[1],
        )

    def places(self, patch: Patch, points: np.ndarray) -> np.ndarray:
        """The positions of points on the page, in mm from its upper left corner: float64 (n, 2)."""
        scaled = patch.rule.ring.xy(points - self.centre) * (self.tile, -self.tile)
        return scaled + (self.wide / 2, self.high / 2)


def symmetric(
    tiling: Tiling, page: Page, frame: Frame, at: Point, options: argparse.Namespace
) -> Tuple[Frame, Point]:
    """The frame and the point of the place that --star asks for. Prints where it is, and how far it is
    symmetric."""
    fold, which = options.star
    radius = float(np.hypot(page.wide, page.high)) / 2 / page.tile + 2
    try:
        place = symmetric_place(tiling, fold, which, radius, frame, at)
        wide, high = page.half(tiling)
        window = tiling.window(place.at, (min(wide, 60), min(high, 60)), place.frame.seed, place.frame.base)
    except NoPlace as none:
        raise Trouble(str(none)) from none
    except (CoordLimit, DepthLimit) as refused:
        raise Trouble(f"{refused.line}: use another --seed") from refused
    seen = kept_radius(window if options.halves else window.whole(), place.at, fold)
    where = f"addr={place.frame.base} seed={place.frame.seed} at={','.join(map(str, place.at))}"
    tell(
        f"{fold}-fold symmetry around {where}, within {place.radius:.1f} lengths: an inflated vertex star. "
        f"Tested tile by tile within {min(seen, place.radius):.1f} lengths"
    )
    return place.frame, place.at


def tiles_of_page(tiling: Tiling, page: Page, frame: Frame, at: Point, options: argparse.Namespace) -> Patch:
    """The tiles of the page, of one window or of several side by side."""
    half = page.half(tiling)
    guess = 4 * half[0] * half[1] / tiling.rule.least_area()
    if guess > 4 * MOST_ON_PAGE:
        raise Trouble(
            f"the page would have up to {guess:.0f} tiles, and may have {MOST_ON_PAGE}: use a larger --tile"
        )
    sheet = Sheet(tiling, half, at, frame, None, not options.halves, False)
    if options.jobs == 1 or len(sheet) == 1:
        return gathered(list(sheet.pieces(progress=True)))
    with ProcessPoolExecutor(options.jobs) as executor:
        return gathered(list(sheet.pieces(executor, 4 * options.jobs, progress=True)))


class Classes(NamedTuple):
    """The class of each tile, and the name of each class."""

    of: np.ndarray
    names: Dict[int, str]


def classes(patch: Patch, page: Page, options: argparse.Namespace) -> Classes:
    """What the colours stand for."""
    by = options.by
    if by == "kind":
        return Classes(
            patch.kinds.astype(int), {int(kind): f"kind {kind}" for kind in np.unique(patch.kinds)}
        )
    if by == "turn":
        # (a turn that keeps the star keeps each class)
        most = patch.rule.order // options.star[0] if options.star else patch.rule.order
        turns = patch.turns.astype(int) % most
        return Classes(turns, {int(turn): f"turn {turn}" for turn in np.unique(turns)})
    if by == "neighbours":
        colouring, count = proper_colouring(patch.neighbours())
        if count > 4:
            tell(f"{count} colours, since no proper colouring with four was found")
        found = colouring.astype(int)
        return Classes(found, {int(it): f"colour {it}" for it in np.unique(found)})
    if by == "ring":
        count = len(options.colours or COLOURS[:RINGS])
        found = rings(patch, page) % count
        return Classes(found, {int(it): f"ring {it} of {count}" for it in np.unique(found)})
    names, numbers = patch.star_labels()
    at_corners = np.where(patch.corners() >= 0, numbers[patch.corners()], -1)
    # (stars come by frequency, so the rarest has the greatest number; no tile on the page is at the rim
    # alone)
    found = np.maximum(at_corners.max(1), 0)
    return Classes(found, {int(it): f"star {it}, of {len(names[it])} tiles" for it in np.unique(found)})


def rings(patch: Patch, page: Page) -> np.ndarray:
    """How many steps across edges each tile is from the tiles at the vertex nearest to the centre of the
    page."""
    far = ((patch.rule.ring.xy(patch.vertices() - page.centre)) ** 2).sum(1)
    near, steps = patch.neighbours(), np.full(len(patch), -1)
    layer = np.flatnonzero((patch.corners() == int(np.argmin(far))).any(1))
    number_of = 0
    while len(layer):
        steps[layer] = number_of
        beside = np.unique(near[layer])
        layer = beside[(beside >= 0) & (steps[beside] < 0)]
        number_of += 1
    return np.maximum(steps, 0)


def hundredths(places_of: np.ndarray) -> List[List[str]]:
    """Millimetres as texts, to two digits."""
    return [[number(x, 2), number(y, 2)] for x, y in places_of.tolist()]


def poster_svg(patch: Patch, page: Page, options: argparse.Namespace) -> Iterator[str]:
    """The picture, layer by layer."""
    spots = page.places(patch, patch.vertices())
    texts = [" ".join(pair) for pair in hundredths(spots)]
    on_page = tiles_on(patch, page)
    of, names = classes(patch, page, options)
    names = {name: label for name, label in names.items() if (of[on_page] == name).any()}
    inks = layer_colours(patch, options, list(names))
    yield from head(page)
    for (name, label), colour in zip(names.items(), inks):
        look = f'fill="{colour}" stroke="{colour}" stroke-width="0.1" stroke-linejoin="round" {CLIP}'
        yield layer(f"{options.by}{name}", label, look)
        areas = areas_joined if options.joined else areas_apart
        yield from lines(areas(patch, np.flatnonzero((of == name) & on_page), texts))
        yield "</g>\n"
    width, ink = options.line or (0.3, INK)
    if width:
        look = f'fill="none" stroke="{ink}" stroke-width="{number(width)}" {ROUND} {CLIP}'
        yield layer("lines", "lines", look)
        trails = each_stroke(edges_on(patch.edges(), spots, page))
        yield from lines(paths("M" + "L".join([texts[v] for v in trail]) for trail in shorter(trails)))
        yield "</g>\n"
    yield "</svg>\n"


def lines(elements: Iterable[str]) -> Iterator[str]:
    """Elements, each in a line, a thousand at a time."""
    some: List[str] = []
    for one in elements:
        some.append(one)
        if len(some) == 1000:
            yield "\n".join([*some, ""])
            some = []
    yield "\n".join([*some, ""]) if some else ""


def shorter(trails: Iterable[List[int]]) -> Iterator[List[int]]:
    """The same lines, with long trails in parts."""
    for trail in trails:
        for start in range(0, max(1, len(trail) - 1), MOST_CORNERS):
            yield trail[start : start + MOST_CORNERS + 1]


def paths(pieces: Iterable[str]) -> Iterator[str]:
    """Pieces of paths put together to few elements, none with a long attribute: see `areas_joined`."""
    some: List[str] = []
    size = 0
    for piece in pieces:
        if some and size + len(piece) > MOST_TEXT:
            yield element("path", d="".join(some))
            some, size = [], 0
        some.append(piece)
        size += len(piece)
    if some:
        yield element("path", d="".join(some))


def layer_colours(patch: Patch, options: argparse.Namespace, names: List[int]) -> List[str]:
    """The colour of each layer: the given ones in order, or the usual one of each kind or turn. A note says
    where some are unused, or stand for several layers."""
    own = colours_of(patch.rule).by.get(options.by)
    if own and not options.colours:
        return [own[name] for name in names]
    given = list(options.colours or COLOURS)
    if options.by == "neighbours" and len(set(given[: len(names)])) < len(names):
        raise Trouble(f"by neighbours this page needs {len(names)} different colours")
    if options.colours and len(given) != len(names):
        others = " or ".join(f"--by {by}" for by in LAYERS_BY if by != options.by)
        told = (
            f"{len(names)} of {len(given)} colours are used" if len(given) > len(names) else "colours repeat"
        )
        tell(f"{told}: by {options.by} this page has {len(names)} layers; try {others}")
    return [given[spot % len(given)] for spot in range(len(names))]


def tiles_on(patch: Patch, page: Page) -> np.ndarray:
    """Which tiles are partly on the page, by their boxes: bool (n,)."""
    spots, corners = page.places(patch, patch.vertices()), patch.corners()
    # (a tile with fewer corners repeats one)
    flat = np.where(corners >= 0, corners, corners[:, :1])
    inside = np.ones(len(patch), bool)
    for axis, most in enumerate((page.wide, page.high)):
        along = spots[:, axis][flat]
        inside &= (along.max(1) > EPSILON) & (along.min(1) < most - EPSILON)
    return inside


def edges_on(edges: np.ndarray, spots: np.ndarray, page: Page) -> np.ndarray:
    """The edges that are partly on the page, by their boxes."""
    start, end = spots[edges[:, 0]], spots[edges[:, 1]]
    low, high = np.minimum(start, end), np.maximum(start, end)
    return edges[(high > 0).all(1) & (low < (page.wide, page.high)).all(1)]


def areas_apart(patch: Patch, tiles: np.ndarray, texts: List[str]) -> Iterator[str]:
    """A path for each tile."""
    columns = (patch.corners()[tiles].tolist(), patch.counts[tiles].tolist(), patch.turns[tiles].tolist())
    for loop, count, turn in zip(*columns):
        yield f'<path class="t{turn}" d="M{"L".join([texts[v] for v in loop[:count]])}Z"/>'


def areas_joined(patch: Patch, tiles: np.ndarray, texts: List[str]) -> Iterator[str]:
    """One path around all of these tiles. If it is long, on a page of very many tiles, one path around each
    block of them."""
    near, inside = patch.neighbours(), np.zeros(len(patch) + 1, bool)
    found = [outline_of(patch, near, inside, tiles, texts)]
    if len(found[0]) > MOST_TEXT and len(patch) > MOST_WHOLE:
        found = [outline_of(patch, near, inside, part, texts) for part in blocks(patch.middles(), tiles)]
    return (element("path", d=text) for text in found)


def blocks(middles: np.ndarray, tiles: np.ndarray) -> List[np.ndarray]:
    """The tiles in blocks of at most MOST_PART, halved across their longer side again and again."""
    if len(tiles) <= MOST_PART:
        return [tiles]
    spots = middles[tiles]
    order = tiles[np.argsort(spots[:, np.argmax(np.ptp(spots, 0))], kind="stable")]
    return [part for half in np.array_split(order, 2) for part in blocks(middles, half)]


def outline_of(
    patch: Patch, near: np.ndarray, inside: np.ndarray, tiles: np.ndarray, texts: List[str]
) -> str:
    """The edges of these tiles across which none of them lies, as closed lines. `near` are the neighbours of
    all tiles, and `inside` has room for a mark of each."""
    inside[tiles] = True
    corners, after = patch.corners()[tiles], patch._next[tiles]
    rim = (corners >= 0) & ~inside[near[tiles]]
    inside[tiles] = False
    onward: Dict[int, List[int]] = {}
    for a, b in zip(corners[rim].tolist(), after[rim].tolist()):
        onward.setdefault(a, []).append(b)
    out = []
    for start in list(onward):
        while onward[start]:
            loop, now = [start], onward[start].pop()
            while now != start:
                loop.append(now)
                now = onward[now].pop()
            out.append("M" + "L".join([texts[v] for v in loop]) + "Z")
    return "".join(out)


def cut_page(patch: Patch, page: Page, options: argparse.Namespace) -> Iterator[str]:
    """The page for a cutter, as SVG or DXF."""
    edges, ends = clipped_edges(patch, page)
    trails = strokes(edges)
    tell(f"{len(edges)} edges in {len(trails)} strokes, each edge exactly once")
    drawn = ([(x, y) for x, y in ends[trail].tolist()] for trail in trails)
    yield from (cut_dxf if options.to == "dxf" else cut_svg)(drawn, page)


def clipped_edges(patch: Patch, page: Page) -> Tuple[np.ndarray, np.ndarray]:
    """Each edge exactly once, clipped to the page: pairs of numbers of ends, (E, 2), and the ends in mm,
    (n, 2)."""
    spots = page.places(patch, patch.vertices())
    edges, size = edges_on(patch.edges(), spots, page), (page.wide, page.high)
    is_inside = ((spots > EPSILON) & (spots < np.array(size) - EPSILON)).all(1)[edges].all(1)
    pairs: List[List[int]] = []
    more: List[Spot] = []
    for a, b in edges[~is_inside].tolist():
        old = [(x, y) for x, y in spots[[a, b]].tolist()]
        part = clipped(old[0], old[1], *size)
        if part is None:
            continue
        pair = [a, b]
        for i in (0, 1):
            if part[i] != old[i]:
                pair[i] = len(spots) + len(more)
                more.append(part[i])
        pairs.append(pair)
    every = np.concatenate([edges[is_inside], np.array(pairs, edges.dtype).reshape(-1, 2)])
    return every, np.concatenate([spots, np.array(more, float).reshape(-1, 2)])


def clipped(a: Spot, b: Spot, wide: float, high: float) -> Optional[Tuple[Spot, Spot]]:
    """The part of a segment that is on the page, or None (Y. Liang and B. Barsky). One along a side of the
    page is left out, as the frame is there."""
    (x, y), dx, dy, low, up = a, b[0] - a[0], b[1] - a[1], 0.0, 1.0
    for step, room in ((-dx, x), (dx, wide - x), (-dy, y), (dy, high - y)):
        if abs(step) < EPSILON:
            if room <= EPSILON:
                return None
        elif step < 0:
            low = max(low, room / step)
        else:
            up = min(up, room / step)
    if low >= up - EPSILON:
        return None

    def at(part: float) -> Spot:
        return x + part * dx, y + part * dy

    return a if low <= 0 else at(low), b if up >= 1 else at(up)


def head(page: Page) -> Iterator[str]:
    wide, high = number(page.wide), number(page.high)
    inkscape = {"xmlns:inkscape": "http://www.inkscape.org/namespaces/inkscape"}
    yield root((0, 0, page.wide, page.high), f"{wide}mm", f"{high}mm", "1.1", **inkscape) + "\n"
    clip = element("clipPath", element("rect", width=wide, height=high), id="page")
    yield element("defs", clip) + "\n"


def layer(name: str, label: str, style: str) -> str:
    return f'<g inkscape:groupmode="layer" inkscape:label="{escaped(label)}" id="{name}" {style}>\n'


def cut_svg(trails: Iterable[List[Spot]], page: Page) -> Iterator[str]:
    texts = ("M" + "L".join(" ".join(pair) for pair in hundredths(np.array(trail))) for trail in trails)
    style = 'fill="none" stroke="{}" stroke-width="0.1" ' + ROUND
    yield from head(page)
    yield layer("cut", "cut", style.format("#ff0000"))
    yield from lines(paths(texts))
    yield "</g>\n" + layer("frame", "frame", style.format("#0000ff"))
    yield element("path", d=f"M0 0H{number(page.wide)}V{number(page.high)}H0Z") + "\n</g>\n</svg>\n"


def cut_dxf(trails: Iterable[List[Spot]], page: Page) -> Iterator[str]:
    """The same as DXF, y upwards."""
    wide, high = page.wide, page.high
    cut = (("CUT", [(x, high - y) for x, y in trail]) for trail in trails)
    frame = [(0.0, 0.0), (wide, 0.0), (wide, high), (0.0, high), (0.0, 0.0)]
    yield from drawing(wide, high, chain(cut, [("FRAME", frame)]))
