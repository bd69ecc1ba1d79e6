"""A patch of a tiling for a game or a program: whole tiles with their corners, edges and neighbours.

  pagnetuf board p3 --tiles 60 > board.json
  pagnetuf board chair --half 3,3 --to csv --out board
  pagnetuf board rules/sphinx.toml --half 12,6 --to svg > board.svg
  pagnetuf board p3 --tiles 60 --to dxf --tile 20 > board.dxf

json  tiles, vertices, edges, the rim, and vertex stars. board.schema.json in the folder
      pagnetuf.__path__[0] says what each value means. Edge i of a tile runs from corner i to the next; x and
      y are in lengths, y upwards
csv   the same, a table a file: --out NAME makes NAME_tiles.csv, NAME_vertices.csv, NAME_edges.csv,
      NAME_rim.csv, NAME_stars.csv, and NAME_board.csv with what stands before the tables. Lists have
      blanks between their entries, and - is nothing
npz   the same as arrays of numpy; pagnetuf.Patch.from_npz reads it
svg   a picture in which each tile has its number as id, and its neighbours
dxf   lines for a cutter, each exactly once: those between tiles in the fewest strokes on the layer CUT, the
      rim on the layer FRAME. The kerf, which is what the beam takes away, is set in the software of the laser

Of whole tiles, p3 has kind 0, the thin rhomb, and 2, the thick one; p2 0, the kite, and 2, the dart; ab 0,
the rhomb, and 1, the square."""
from __future__ import annotations

import argparse
import math
import shlex
from itertools import chain
from typing import Any, Dict, Iterator, Tuple

import numpy as np

from ..arguments import four_integers, two_integers
from ..board import arrays, as_csv, as_json
from ..dxf import drawing
from ..engine import Box, Frame
from ..patch import Patch
from ..picture import COLOURS_BY, PALETTES, svg_of
from ..refusals import TooManyTiles
from ..sheet import Sheet, gathered
from ..tiling import Tiling
from ..trails import strokes
from .command_line import (
    Trouble,
    add_frame,
    add_rule,
    colours,
    frame_asked,
    integers_type,
    millimetres,
    refuse_unused,
    tell,
    tiling_of,
    whole_number,
    write_bytes,
    write_pieces,
)

MOST = 50_000
SHAPES = ("round", "rectangle", "nearest")


def add_words(parser: argparse.ArgumentParser) -> None:
    add_rule(parser)
    size = parser.add_mutually_exclusive_group()
    size.add_argument(
        "--tiles", metavar="N", type=whole_number(1, MOST), help="N connected tiles around the centre"
    )
    size.add_argument(
        "--half",
        metavar="W,H",
        type=integers_type(2, 1, 4096),
        help="all tiles of a window, as in `draw`; default 20,12",
    )
    shapes = (
        "the shape of N tiles: round (default) and rectangle have a smooth rim, nearest has the nearest tiles"
    )
    parser.add_argument("--shape", choices=SHAPES, default="round", help=shapes)
    add_frame(parser)
    parser.add_argument("--halves", action="store_true", help="half tiles, not joined to whole ones")
    add_form(parser)


def add_form(parser: argparse.ArgumentParser) -> None:
    """The options of the format."""
    add = parser.add_argument
    inks = f"of svg: colours of CSS in order, or a palette: {', '.join(PALETTES)}"
    add("--by", choices=COLOURS_BY, help="of svg: what the colours stand for")
    add("--colours", metavar="C,C,..", type=colours, help=inks)
    add("--tile", metavar="MM", type=millimetres(1, 0.1, 10000), help="of dxf: one length in mm; default 10")
    forms = "the format; default json"
    add("--to", choices=("json", "csv", "svg", "npz", "dxf"), default="json", help=forms)
    add("--out", metavar="FILE", help="a file instead of standard output; for csv the files' first word")


def run(options: argparse.Namespace) -> None:
    if options.to != "svg":
        refuse_unused(options, ("by", "colours"), f"{options.to} has no colours")
    if options.to != "dxf":
        refuse_unused(options, ("tile",), f"{options.to} has no millimetres")
    if options.to in ("npz", "csv") and not options.out:
        raise Trouble(f"{options.to} needs --out {'FILE.npz' if options.to == 'npz' else 'NAME'}")
    tiling = tiling_of(options.rule)
    patch, about = board_of(tiling, options), about_of(options)
    if options.to == "json":
        write_pieces(as_json(patch, about), options.out)
    elif options.to == "svg":
        write_pieces([picture(patch, options)], options.out)
    elif options.to == "dxf":
        write_pieces(cut_lines(patch, (options.tile or [10.0])[0]), options.out)
    elif options.to == "csv":
        for name, pieces in as_csv(patch, about).items():
            write_pieces(pieces, f"{options.out}_{name}.csv")
    else:
        write_bytes(lambda file: np.savez_compressed(file, **arrays(patch, about)), options.out)


def picture(patch: Patch, options: argparse.Namespace) -> str:
    """The board as SVG."""
    try:
        return svg_of(patch, 900, options.colours, True, options.by)
    except ValueError as wrong:
        raise Trouble(str(wrong)) from wrong


def cut_lines(patch: Patch, tile: float) -> Iterator[str]:
    """The board as DXF, with a length of so many millimetres. Each edge comes exactly once."""
    points = patch.points() * tile
    points = points - points.min(0)
    inner = patch.edges()[(patch.sides()[:, :2] >= 0).all(1)]
    trails, rim = strokes(inner), [[*loop, loop[0]] for loop in map(np.ndarray.tolist, patch.rim())]
    tell(
        f"{len(inner)} edges in {len(trails)} strokes on the layer CUT, each edge exactly once, and the rim "
        f"in {len(rim)} on the layer FRAME"
    )
    named = chain((("CUT", trail) for trail in trails), (("FRAME", loop) for loop in rim))
    wide, high = points.max(0).tolist()
    yield from drawing(wide, high, ((name, [(x, y) for x, y in points[it].tolist()]) for name, it in named))


def about_of(options: argparse.Namespace) -> Dict[str, Any]:
    """How the board was made."""
    half = {"half": list(options.half or (20, 12))}
    asked = {"tiles": options.tiles, "shape": options.shape} if options.tiles else half
    words = ["pagnetuf", "board", options.rule]
    words += ["--tiles", str(options.tiles), "--shape", options.shape] if options.tiles else []
    words += [] if options.tiles else ["--half", ",".join(map(str, half["half"]))]
    words += ["--at=" + ",".join(map(str, options.at)), "--seed", str(options.seed), "--addr", options.addr]
    words += ["--halves"] if options.halves else []
    made = {"made_by": shlex.join(words), "rule": options.rule, "seed": options.seed, "addr": options.addr}
    return {**made, "at": list(options.at), "asked": asked, "whole": not options.halves}


def board_of(tiling: Tiling, options: argparse.Namespace) -> Patch:
    """The tiles of a window, or so many connected ones."""
    frame, at, whole = frame_asked(options), four_integers("at", options.at), not options.halves
    if not options.tiles:
        return in_window(tiling, frame, Box(at, two_integers("half", options.half or (20, 12))), whole)
    box = Box(at, first_half(tiling, options.tiles))
    while True:
        patch = in_windows(tiling, frame, box, whole)
        if len(patch) >= 2 * options.tiles + 8:
            x, y = tiling.ring.xy(np.array(at)).tolist()
            return patch.connected(options.tiles, (x, y), options.shape)
        box = Box(at, (min(4096, box.half[0] * 3 // 2 + 1), min(4096, box.half[1] * 3 // 2 + 1)))


def in_window(tiling: Tiling, frame: Frame, box: Box, whole: bool) -> Patch:
    """The tiles of a window."""
    window = tiling.window(box.at, box.half, frame.seed, frame.base)
    return window.whole() if whole else window


def in_windows(tiling: Tiling, frame: Frame, box: Box, whole: bool) -> Patch:
    """The tiles of a window, also of one with more than the engine lists."""
    try:
        return in_window(tiling, frame, box, whole)
    except TooManyTiles:
        return gathered(list(Sheet(tiling, box.half, box.at, frame, None, whole).pieces(progress=True)))


def first_half(tiling: Tiling, tiles: int) -> Tuple[int, int]:
    """A window, nearly square in lengths, with some three times as many tiles, as far as their least area
    tells."""
    high = 2 * tiling.ring.sine
    across = math.sqrt(3 * tiles * tiling.rule.least_area() * tiling.ring.sine / 2)
    return max(2, math.ceil(across)), max(2, math.ceil(across / high))
