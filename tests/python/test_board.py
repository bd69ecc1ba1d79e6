"""Boards as lines for a cutter, and in colours of one's own."""
import json
import re
import xml.etree.ElementTree as ElementTree
from collections import Counter

import numpy as np
import pytest
from conftest import SVG

LINES = [
    ("p3", "--tiles", 60),
    ("p2", "--tiles", 40, "--shape", "rectangle", "--at", "3,1,0,0"),
    ("chair", "--half", "3,3", "--seed", 5),
    ("p3", "--half", "6,5", "--halves"),
    ("sphinx", "--tiles", 12),
]


def lines_of(text):
    """The layer, the places and whether it is closed, of each line of a DXF; and the corner of its header."""
    words = text.splitlines()
    pairs, lines = list(zip(words[::2], words[1::2])), []
    for i, pair in enumerate(pairs):
        if pair == ("0", "POLYLINE"):
            lines.append((pairs[i + 1][1], [], pairs[i + 3] == ("70", "1")))
        elif pair == ("0", "VERTEX"):
            lines[-1][1].append((float(pairs[i + 2][1]), float(pairs[i + 3][1])))
    top = pairs.index(("9", "$EXTMAX"))
    return lines, [float(value) for _, value in pairs[top + 1 : top + 3]]


def steps_of(lines, points):
    """How often each pair of vertices is a step of these lines, in either direction."""
    found = Counter()
    for _, places, is_closed in lines:
        far = np.hypot(*np.moveaxis(np.array(places)[:, None] - points, -1, 0))
        assert far.min(1).max() < 1e-3
        numbers = far.argmin(1).tolist()
        numbers += numbers[:1] if is_closed else []
        found.update(tuple(sorted(step)) for step in zip(numbers, numbers[1:]))
    return found


@pytest.mark.parametrize("words", LINES)
def test_the_lines_of_a_board(pagnetuf, words):
    """Each edge of the board exactly once: one between two tiles is on CUT, one at the rim on FRAME."""
    board = json.loads(pagnetuf("board", *words)[1])
    status, text, told = pagnetuf("board", *words, "--to", "dxf", "--tile", "12.5")
    lines, corner = lines_of(text)
    points = np.array([[it["x"], it["y"]] for it in board["vertices"]]) * 12.5
    points -= points.min(0)
    assert status == 0 and np.allclose(corner, points.max(0), atol=1e-6)
    for layer, is_rim in (("CUT", False), ("FRAME", True)):
        edges = [tuple(it["vertices"]) for it in board["edges"] if (None in it["tiles"]) == is_rim]
        assert steps_of([it for it in lines if it[0] == layer], points) == Counter(edges)
    rim = [is_closed for name, _, is_closed in lines if name == "FRAME"]
    assert len(rim) == len(board["rim"]) and all(rim)
    inner, strokes = map(int, re.search(r"(\d+) edges in (\d+) strokes", told).groups())
    assert inner == len(board["edges"]) - sum(None in it["tiles"] for it in board["edges"])
    assert strokes == len(lines) - len(rim)


def test_the_usual_length_of_the_lines(pagnetuf, tmp_path):
    path = tmp_path / "board.dxf"
    assert pagnetuf("board", "p3", "--tiles", 1, "--to", "dxf", "--out", path)[0] == 0
    ((name, places, is_closed),), _ = lines_of(path.read_text())
    sides = np.hypot(*(np.array(places) - np.roll(places, -1, 0)).T)
    assert name == "FRAME" and is_closed and np.allclose(sides, 10, atol=1e-3)


def test_lines_as_ezdxf_reads_them(pagnetuf, tmp_path):
    pytest.importorskip("ezdxf")
    from ezdxf import recover

    path = tmp_path / "board.dxf"
    pagnetuf("board", "p3", "--tiles", 60, "--to", "dxf", "--tile", 20, "--out", path)
    document, auditor = recover.readfile(path)
    (frame,) = document.modelspace().query('POLYLINE[layer=="FRAME"]')
    assert not auditor.errors and not auditor.fixes and frame.is_closed


@pytest.mark.parametrize(
    "words, status, told",
    [
        (("--tile", "20"), 2, "--tile would change nothing: json has no millimetres"),
        (("--tile", "20", "--to", "svg"), 2, "--tile would change nothing: svg has no millimetres"),
        (("--colours", "red", "--to", "dxf"), 2, "--colours would change nothing: dxf has no colours"),
        (("--by", "turn", "--colours", "red"), 2, "--by and --colours would change nothing: json has no"),
        (("--colours", "rde", "--to", "svg"), 2, "'rde' is no colour"),
        (("--tile", "0", "--to", "dxf"), 2, "'0' isn't 1 lengths"),
        (("--by", "neighbours", "--colours", "red,gold", "--to", "svg"), 1, "needs 3 different colours"),
    ],
)
def test_options_that_do_not_go_together(pagnetuf, words, status, told):
    got, out, err = pagnetuf("board", "p3", "--tiles", 60, *words)
    assert got == status and not out and told in err


def test_a_picture_in_colours_of_ones_own(pagnetuf):
    for words, fills in (
        (("--colours", "navy,#ff6663"), {"k0": "navy", "k2": "#ff6663"}),
        (("--colours", "sea"), {"k0": "#0b3954", "k2": "#087e8b"}),
        (("--by", "neighbours", "--colours", "red,gold,navy"), {"n0": "red", "n1": "gold", "n2": "navy"}),
    ):
        status, text, _ = pagnetuf("board", "p3", "--tiles", 60, "--to", "svg", *words)
        assert status == 0 and dict(re.findall(r"\.(\w+){fill:(.*?)}", text)) == fills
        assert len(list(ElementTree.fromstring(text).iter(SVG + "polygon"))) == 60


@pytest.mark.parametrize(
    "rule, kinds",
    [
        ("p3", {0: 0.588, 2: 0.951}),  # the thin rhomb and the thick one
        ("p2", {0: 1.539, 2: 0.951}),  # the kite and the dart
        ("ab", {0: 0.707, 1: 1}),  # the rhomb and the square
    ],
)
def test_the_kinds_that_are_told(pagnetuf, tiling, rule, kinds):
    whole = tiling(rule).window(half=(10, 8)).whole()
    areas = {kind: whole[whole.kinds == kind] for kind in np.unique(whole.kinds).tolist()}
    assert {kind: round(it.area / len(it), 3) for kind, it in areas.items()} == kinds
    assert "p3 has kind 0, the thin rhomb" in pagnetuf("board", "--help")[1]


def test_what_a_seed_does(tiling):
    """The base tile is there for each seed; how the tiling goes on around it is not the same."""
    t, found = tiling("p3"), []
    for seed in range(8):
        found.append({tuple(tile)[:3] for tile in t.window(half=(60, 50), seed=seed)})
    assert all(tuple(t.place("0:")) in tiles for tiles in found) and any(it != found[0] for it in found)
