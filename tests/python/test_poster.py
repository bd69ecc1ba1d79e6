"""Posters and lines for cutters, as they are typed."""
import os
import random
import re
import shutil
import subprocess
import xml.etree.ElementTree as ElementTree
from collections import Counter

import numpy as np
import pytest
from conftest import RULES, SVG, TOP, invalid
from pagnetuf import Tiling
from pagnetuf.engine import Frame
from pagnetuf.picture import Colours
from pagnetuf import strokes
from pagnetuf.symmetry import NoPlace, Place, kept_radius, kept_stars, star_at, symmetric_place

LABEL = "{http://www.inkscape.org/namespaces/inkscape}label"


def paths_of(group):
    """The loops or strokes of a group's paths, as lists of points in mm."""
    return [
        [tuple(map(float, it.split())) for it in piece.rstrip("Z").split("L")]
        for path in group.iter(SVG + "path")
        for piece in path.get("d").split("M")[1:]
    ]


def layers(text):
    root = ElementTree.fromstring(text)
    assert root.get("width").endswith("mm")
    return root, {group.get("id"): group for group in root.iter(SVG + "g")}


def area(loop):
    return sum(a[0] * b[1] - a[1] * b[0] for a, b in zip(loop, loop[1:] + loop[:1])) / -2


def test_the_command_for_the_same_window(pagnetuf):
    """A rule file stands behind its words, also where it was named without its path."""
    for name in ("sphinx", os.path.join(RULES, "sphinx.toml")):
        told = pagnetuf("poster", name, "--size", "60,40")[2]
        path = re.search(r"rule=- .* < (\S+sphinx\.toml)$", told, re.M)[1]
        assert os.path.samefile(os.path.join(TOP, path), os.path.join(RULES, "sphinx.toml"))


@pytest.mark.parametrize("seed", range(20))
def test_strokes_are_as_few_as_can_be(seed):
    chance = random.Random(seed)
    size = chance.randint(2, 30)
    edges = list({tuple(sorted(chance.sample(range(size), 2))) for _ in range(chance.randint(1, 60))})
    trails = strokes(edges)
    walked = [tuple(sorted(step)) for trail in trails for step in zip(trail, trail[1:])]
    assert sorted(walked) == sorted(edges)  # each edge once
    degrees, part = Counter(v for edge in edges for v in edge), {v: v for edge in edges for v in edge}

    def root(v):
        while part[v] != v:
            v = part[v]
        return v

    for a, b in edges:
        part[root(a)] = root(b)
    odd = Counter(root(v) for v, degree in degrees.items() if degree % 2)
    assert len(trails) == sum(max(1, odd[it] // 2) for it in {root(v) for v in part})


def test_a_poster_in_layers(pagnetuf):
    status, text, err = pagnetuf(
        "poster", "p3", "--size", "200,140", "--colours", "#0b3954,#ff6663", "--line", "0.5,#ffffff"
    )
    root, found = layers(text)
    assert status == 0 and "draw rule=p3" in err
    assert (
        root.get("width") == "200mm"
        and root.get("height") == "140mm"
        and root.get("viewBox") == "0 0 200 140"
    )
    assert [(it.get(LABEL), it.get("fill")) for it in found.values()] == [
        ("kind 0", "#0b3954"),
        ("kind 2", "#ff6663"),
        ("lines", "none"),
    ]
    assert found["lines"].get("stroke-width") == "0.5" and found["lines"].get("stroke") == "#ffffff"
    thin = {round(area(loop) / 100, 2) for loop in paths_of(found["kind0"])}
    thick = {round(area(loop) / 100, 2) for loop in paths_of(found["kind2"])}
    assert thin == {0.59} and thick == {0.95}  # sin 36° and sin 72°
    corners = np.array([corner for group in found.values() for loop in paths_of(group) for corner in loop])
    assert corners.min(0).max() < 0 and (corners.max(0) > (200, 140)).all()  # the page is full


@pytest.mark.parametrize(
    "words", [(), ("--joined", "--by", "turn"), ("--by", "star", "--line", "0"), ("--cut",), ("--star", "5")]
)
def test_it_is_valid(pagnetuf, words):
    _, text, _ = pagnetuf("poster", "p3", "--size", "150,100", *words)
    assert text.startswith("<svg ") and not invalid(text)


def test_a_picture_is_valid(tiling):
    """Without ids it is SVG 1.1; with them it has attributes of SVG 2, and doesn't say 1.1."""
    for rule in ("p3", "chair", "square_four.toml"):
        patch = tiling(rule).window(half=(8, 6)).whole()
        assert not invalid(patch.to_svg()) and 'version="1.1"' not in patch.to_svg(ids=True)


def test_the_usual_colours(pagnetuf, tiling):
    """Without --colours a poster has the colours of atlases and of the page to pan."""
    for by in ("kind", "turn"):
        _, text, _ = pagnetuf("poster", "p3", "--size", "200,140", "--by", by, "--line", "0")
        palette = Colours(tiling("p3").rule).by[by]
        found = {name: group.get("fill") for name, group in layers(text)[1].items()}
        assert len(found) > 1 and all(palette[int(name[4:])] == fill for name, fill in found.items())


def test_joined_areas_are_those_of_the_tiles(pagnetuf):
    _, apart, _ = pagnetuf("poster", "p3", "--size", "200,140", "--line", "0")
    _, joined, _ = pagnetuf("poster", "p3", "--size", "200,140", "--line", "0", "--joined")
    (_, one), (_, other) = layers(apart), layers(joined)
    assert one.keys() == other.keys() == {"kind0", "kind2"}
    for name in one:
        assert len(list(other[name].iter(SVG + "path"))) == 1
        assert sum(map(area, paths_of(one[name]))) == pytest.approx(
            sum(map(area, paths_of(other[name]))), abs=0.5
        )


@pytest.mark.parametrize("rule", ["p3", "ab", "chair", os.path.join(RULES, "sphinx.toml")])
def test_cut_lines_are_on_the_page_and_come_once(pagnetuf, rule):
    _, text, err = pagnetuf("poster", rule, "--size", "150,100", "--cut")
    _, found = layers(text)
    assert list(found) == ["cut", "frame"]
    lines = paths_of(found["cut"])
    steps = [tuple(sorted(step)) for trail in lines for step in zip(trail, trail[1:])]
    assert len(set(steps)) == len(steps) == int(re.search(r"(\d+) edges", err)[1]) and len(lines) == int(
        re.search(r"(\d+) strokes", err)[1]
    )
    corners = np.array([corner for trail in lines for corner in trail])
    assert corners.min() >= 0 and (corners.max(0) <= (150, 100)).all()
    ends = Counter(v for step in steps for v in step)
    assert len(lines) == sum(count % 2 for count in ends.values()) // 2


def test_dxf_has_the_same_lines(pagnetuf, tmp_path):
    _, text, _ = pagnetuf("poster", "ab", "--size", "150,100", "--cut")
    status, out, _ = pagnetuf(
        "poster", "ab", "--size", "150,100", "--cut", "--to", "dxf", "--out", tmp_path / "cut.dxf"
    )
    assert status == 0 and not out
    words = (tmp_path / "cut.dxf").read_text().splitlines()
    pairs = list(zip(words[::2], words[1::2]))
    assert pairs[-1] == ("0", "EOF") and ("1", "AC1009") in pairs
    trails, now = [], None
    for i, pair in enumerate(pairs):
        if pair == ("0", "POLYLINE"):
            now = (pairs[i + 1][1], [])
            trails.append(now)
        elif pair == ("0", "VERTEX"):
            now[1].append((float(pairs[i + 2][1]), 100 - float(pairs[i + 3][1])))
    lines = paths_of(layers(text)[1]["cut"])
    assert [name for name, _ in trails] == ["CUT"] * len(lines) + ["FRAME"]
    for line, (_, trail) in zip(lines, trails):
        assert np.allclose(line[: len(trail)], trail, atol=0.006)  # (a closed one ends where it begins)


def test_dxf_as_ezdxf_reads_it(pagnetuf, tmp_path):
    """No fault and no fix; the layers are in their table, the frame is closed, and the lines are the
    page's."""
    ezdxf = pytest.importorskip("ezdxf")
    from ezdxf import recover

    path = tmp_path / "cut.dxf"
    _, _, err = pagnetuf("poster", "p3", "--size", "150,100", "--cut", "--to", "dxf", "--out", path)
    document, auditor = recover.readfile(path)
    assert not auditor.errors and not auditor.fixes and not ezdxf.readfile(path).audit().errors
    assert document.layers.get("CUT").color == 1 and document.layers.get("FRAME").color == 5
    assert document.header["$INSUNITS"] == 4
    space = document.modelspace()
    (frame,) = space.query('POLYLINE[layer=="FRAME"]')
    corners = [tuple(it.dxf.location)[:2] for it in frame.vertices]
    assert frame.is_closed and sorted(corners) == [(0, 0), (0, 100), (150, 0), (150, 100)]
    cut = space.query('POLYLINE[layer=="CUT"]')
    steps = []
    for line in cut:
        spots = [tuple(it.dxf.location)[:2] for it in line.vertices]
        spots += spots[:1] if line.is_closed else []
        steps += [frozenset(step) for step in zip(spots, spots[1:])]
    assert len(cut) == int(re.search(r"(\d+) strokes", err)[1])
    assert len(steps) == len(set(steps)) == int(re.search(r"(\d+) edges", err)[1])


def test_edges_along_the_frame_are_not_cut(pagnetuf):
    """Squares whose edges lie on the sides of the page: the frame has them."""
    for tile in ("10", "0.7"):
        side = float(tile)
        size = f"{4 * side:g},{6 * side:g}"
        _, text, err = pagnetuf("poster", "square_four", "--size", size, "--tile", tile, "--cut")
        found = layers(text)[1]
        spots = np.array([corner for trail in paths_of(found["cut"]) for corner in trail])
        for trail in paths_of(found["cut"]):
            for a, b in zip(trail, trail[1:]):
                for axis, most in ((0, 4 * side), (1, 6 * side)):
                    assert not (a[axis] == b[axis] and (a[axis] < 0.01 or a[axis] > most - 0.01))
        assert spots.min() >= 0 and int(re.search(r"(\d+) edges", err)[1]) == 3 * 6 + 5 * 4


@pytest.mark.parametrize("rule, fold", [("p3", 5), ("p2", 5), ("ab", 8), ("chair", 4)])
def test_places_of_symmetry(tiling, rule, fold):
    """The circle that is kept for certain is compared tile by tile, and a place moved by a step is kept
    nowhere."""
    t = tiling(rule)
    place = symmetric_place(t, fold, 0, 30, Frame(), (0, 0, 0, 0))
    assert place.radius >= 30
    window = t.window(place.at, (44, 30), place.frame.seed, place.frame.base)
    for patch in (window, window.whole()):
        assert kept_radius(patch, place.at, fold) > 15
        assert kept_radius(patch, tuple(np.array(place.at) + (1, 0, 0, 0)), fold) < 5


def test_the_star_in_the_centre(pagnetuf):
    status, text, err = pagnetuf("poster", "p3", "--size", "400,300", "--star", "5", "--line", "0")
    assert status == 0
    certain, compared = (
        float(it) for it in re.search(r"within ([\d.]+) lengths.*within ([\d.]+) lengths", err).groups()
    )
    assert certain > 25 and compared > 14
    loops = [loop for group in layers(text)[1].values() for loop in paths_of(group)]
    middles = np.array([np.mean(loop, 0) for loop in loops]) - (200, 150)
    inner = middles[np.hypot(*middles.T) < 140]
    turned = inner @ np.array(
        [[np.cos(2 * np.pi / 5), np.sin(2 * np.pi / 5)], [-np.sin(2 * np.pi / 5), np.cos(2 * np.pi / 5)]]
    )
    assert len(inner) > 400 and all(np.hypot(*(middles - it).T).min() < 0.02 for it in turned)


@pytest.mark.parametrize("rule", ["p2", "p3"])
def test_the_number_chooses_the_star(pagnetuf, tiling, rule):
    """On pages of each size: of P2, five kites are more frequent than five darts. Both stars of P3 are five
    thick rhombs, and their halves differ."""
    t, found = tiling(rule), {}
    for side in (60, 100, 150, 200, 300, 500):
        pages = []
        for which in (0, 1):
            _, text, err = pagnetuf("poster", rule, "--size", f"{side},{side}", "--star", f"5,{which}")
            base, at = re.search(r"around addr=(\S+) seed=0 at=(\S+),", err).groups()
            place = Place(Frame(base), tuple(int(it) for it in at.split(",")), 0)
            found.setdefault(which, set()).add(star_at(t, place))
            groups = {name: paths_of(group) for name, group in layers(text)[1].items() if name != "lines"}
            near = {name for name, loops in groups.items() for loop in loops if is_at(loop, side / 2)}
            assert near == {{"p2": ("kind0", "kind2"), "p3": ("kind2", "kind2")}[rule][which]}
            pages.append(text)
        assert pages[0] != pages[1]
    assert [len(stars) for stars in found.values()] == [1, 1] and found[0] != found[1]


def is_at(loop, middle):
    """Whether a tile has a corner in the middle of a page."""
    return any(np.hypot(x - middle, y - middle) < 0.02 for x, y in loop)


def test_a_star_that_becomes_another_one(tiling):
    """Of chairs, a turn by 1/2 keeps two stars. One of them becomes the other when it is inflated, so only
    the other has a number, and is in the centre wherever stars are looked for."""
    t, found = tiling("chair"), set()
    for at in ((0, 0, 0, 0), (37, 91, 0, 0), (-100, 182, 0, 0), (210, -60, 0, 0)):
        window = t.window(at, (40, 34))
        assert len(list(kept_stars(window, 2))) == 2 and len(list(kept_stars(window, 4))) == 1
        place = symmetric_place(t, 2, 0, 30, Frame(), at)
        found.add(star_at(t, place))
        with pytest.raises(NoPlace, match="1 kind of vertex star is kept by a turn by 1/2; some are by 1/4"):
            symmetric_place(t, 2, 1, 30, Frame(), at)
    assert found == {((0, 4),) * 4}


def test_a_star_that_cannot_be_inflated_so_far(tiling):
    with pytest.raises(NoPlace, match="keeps star 0 within 1e\\+30 lengths"):
        symmetric_place(tiling("p3"), 5, 0, 1e30, Frame(), (0, 0, 0, 0))


def test_long_paths_come_in_parts(tiling, monkeypatch):
    """Some readers of XML keep no more than ten million characters between two elements."""
    from pagnetuf.commands import poster

    t = tiling("p3")
    page = poster.Page((200, 140), 5)
    patch = t.window(half=page.half(t)).whole()
    words = ("poster", "p3", "--size", "200,140", "--tile", "5", "--joined")
    options = poster_options(words)
    texts = ["".join(poster.poster_svg(patch, page, options))]
    for name, most in (("MOST_TEXT", 2000), ("MOST_CORNERS", 5), ("MOST_WHOLE", 100), ("MOST_PART", 90)):
        monkeypatch.setattr(poster, name, most)
    texts.append("".join(poster.poster_svg(patch, page, options)))
    whole, parts = map(paths_by_layer, texts)
    assert {name: len(found) for name, found in whole.items()} == {"kind0": 1, "kind2": 1, "lines": 1}
    for name, found in parts.items():
        assert len(found) > 1 and max(map(len, found)) <= (2100 if name == "lines" else 8000)
    both = [steps_of(lines["lines"]) for lines in (whole, parts)]
    assert both[0] == both[1]
    for name in ("kind0", "kind2"):  # the blocks of a colour fill the same area
        one, several = (sum(map(area, paths_of(layers(text)[1][name]))) for text in texts)
        assert one > 1000 and several == pytest.approx(one, rel=1e-9)


def poster_options(words):
    from pagnetuf.commands.command_line import parser, with_values

    return parser().parse_args(with_values(list(words)))


def paths_by_layer(text):
    return {
        name: [path.get("d") for path in group.iter(SVG + "path")] for name, group in layers(text)[1].items()
    }


def steps_of(texts):
    """The steps of the lines of some paths, in either direction."""
    lines = [piece.split("L") for text in texts for piece in text.split("M")[1:]]
    return Counter(tuple(sorted(step)) for line in lines for step in zip(line, line[1:]))


@pytest.mark.parametrize(
    "words, told",
    [
        (("p3", "--star", "7"), "1/10"),
        (("p3", "--star", "5,9"), "kinds of vertex stars"),
        (("p3", "--star", "10"), "no kinds of vertex stars are kept by a turn by 1/10; some are by 1/5\n"),
        (("ab", "--star", "8,9"), "1 kind of vertex star is kept by a turn by 1/8; some are by 1/4, 1/2\n"),
        (("p3", "--to", "dxf"), "--cut"),
        (("p3", "--size", "10"), "10"),
        (("p3", "--colours", "rde"), "'rde' is no colour"),
        (("p3", "--line", "-1"), "line"),
        (("p3", "--cut", "--line", "0.5"), "--line would change nothing: --cut has lines for a cutter only"),
        (("p3", "--cut", "--colours", "red", "--joined"), "--colours and --joined would change nothing"),
        (("p3", "--cut", "--by", "turn"), "--by would change nothing"),
        (("p3", "--by", "neighbours", "--colours", "red,gold"), "needs 3 different colours"),
        (("p3", "--size", "20000,20000", "--tile", "0.5"), "larger --tile"),
    ],
)
def test_troubles_are_told(pagnetuf, words, told):
    status, out, err = pagnetuf("poster", *words)
    assert status in (1, 2) and not out and told in err


def test_more_tiles_than_a_window(pagnetuf, tmp_path):
    status, out, err = pagnetuf(
        "poster",
        "chair",
        "--size",
        "1000,800",
        "--tile",
        "1.1",
        "--line",
        "0",
        "--joined",
        "--out",
        tmp_path / "a.svg",
    )
    tiles = int(re.findall(r"^(\d+) tiles;", err, re.M)[0])
    assert status == 0 and not out and tiles > 200_000
    _, found = layers((tmp_path / "a.svg").read_text())
    (rim,) = [it for group in found.values() for it in paths_of(group)]
    assert area(rim) / 1.1**2 / 3 == pytest.approx(tiles, rel=0.01)  # three squares a chair, without a gap


@pytest.mark.parametrize(
    "tool, words",
    [
        ("rsvg-convert", ["-f", "pdf", "-o", "OUT", "IN"]),
        ("inkscape", ["--export-type=pdf", "--export-filename=OUT", "IN"]),
        ("chromium", ["--headless=new", "--no-sandbox", "--disable-gpu", "--print-to-pdf=OUT", "IN"]),
    ],
)
def test_programs_open_and_print_it(pagnetuf, tmp_path, tool, words):
    if not shutil.which(tool):
        pytest.skip(f"there is no {tool}")
    source, sink = str(tmp_path / "a.svg"), str(tmp_path / "a.pdf")
    pagnetuf("poster", "p3", "--size", "200,140", "--out", source)
    subprocess.run(
        [tool, *(word.replace("OUT", sink).replace("IN", source) for word in words)],
        capture_output=True,
        timeout=120,
        check=True,
    )
    with open(sink, "rb") as file:
        data = file.read()
    assert data.startswith(b"%PDF")
    if tool != "chromium" and (
        box := re.search(rb"/MediaBox \[ ?0 0 ([\d.]+) ([\d.]+)", data)
    ):  # (chromium prints on its own paper)
        assert np.allclose([float(it) / 72 * 25.4 for it in box.groups()], (200, 140), atol=0.5)


def test_the_tiles_of_a_page_are_those_of_a_window(tiling):
    """Windows side by side and one window give the same page."""
    from pagnetuf.commands.poster import Page, gathered

    t = tiling("p3")
    page = Page((300, 200), 5)
    whole = t.window(half=page.half(t)).whole()
    pieces = gathered(list(t.sheet(page.half(t), piece=(15, 12), whole=True)))
    assert sorted(map(tuple, pieces.shifts.tolist())) == sorted(map(tuple, whole.shifts.tolist()))
    assert isinstance(t, Tiling) and (np.sort(pieces.vertices(), 0) == np.sort(whole.vertices(), 0)).all()
    assert len(pieces.edges()) == len(whole.edges())


@pytest.mark.parametrize("rule, most", [("p3", 3), ("p2", 3), ("chair", 4), ("sphinx", 4)])
def test_no_neighbours_are_alike(pagnetuf, rule, most):
    """On the whole page, across the seams of windows too; and the same call gives the same colours."""
    words = (
        "poster",
        rule,
        "--size",
        "500,400",
        "--by",
        "neighbours",
        "--line",
        "0",
        "--colours",
        "red,gold,navy,teal",
    )
    _, text, err = pagnetuf(*words)
    assert pagnetuf(*words)[1] == text
    sides, count = {}, 0
    for name, group in layers(text)[1].items():
        for loop in paths_of(group):
            count += 1
            for a, b in zip(loop, loop[1:] + loop[:1]):
                sides.setdefault(frozenset((a, b)), []).append(name)
    used = {name for both in sides.values() for name in both}
    assert len(used) <= most and all(len(both) < 2 or both[0] != both[1] for both in sides.values())
    assert max(map(len, sides.values())) == 2 and int(re.search(r"(\d+) tiles; ", err)[1]) == count
    assert len(used) == 4 or f"{len(used)} of 4 colours are used" in err


def test_a_colouring_over_the_seams_of_windows(tiling, monkeypatch):
    from pagnetuf.commands import poster

    t, page = tiling("p3"), poster.Page((300, 200), 5)
    patch = poster.gathered(list(t.sheet(page.half(t), piece=(9, 8), whole=True, addresses=False)))
    options = poster_options(("poster", "p3", "--by", "neighbours"))
    found = poster.classes(patch, page, options).of
    a, b = patch.adjacency()[:, :2].T
    assert (found[a] != found[b]).all() and found.max() == 2


@pytest.mark.parametrize("by", ["kind", "turn", "star", "ring"])
def test_colours_that_keep_the_star(pagnetuf, by):
    """A turn by 72° about the centre takes each tile to one of the same layer."""
    words = ("--size", "300,300", "--star", "5", "--by", by, "--line", "0", "--colours", "red,gold,navy,teal")
    _, text, _ = pagnetuf("poster", "p3", *words)
    spots = {
        name: np.array([np.mean(loop, 0) for loop in paths_of(group)])
        for name, group in layers(text)[1].items()
    }
    spots = {name: it - (150, 150) for name, it in spots.items() if len(it)}
    angle, tried = 2 * np.pi / 5, 0
    for name, here in spots.items():
        inner = here[np.hypot(*here.T) < 130]
        turned = inner @ np.array([[np.cos(angle), np.sin(angle)], [-np.sin(angle), np.cos(angle)]])
        tried += len(turned)
        assert all(np.hypot(*(here - it).T).min() < 0.02 for it in turned), name
    assert tried > 300 and "rim" not in "".join(spots)


def test_notes_about_colours(pagnetuf):
    for words, told in (
        (
            ("p3", "--colours", "red,gold,navy,teal"),
            "2 of 4 colours are used: by kind this page has 2 layers; try --by turn",
        ),
        (("penrose_p1", "--colours", "red,gold"), "colours repeat"),
        (("p3", "--colours", "red,gold"), None),
        (("p3",), None),
    ):
        status, text, err = pagnetuf("poster", *words, "--size", "150,100")
        assert status == 0 and (told in err if told else "colours" not in err)
    _, text, _ = pagnetuf("poster", "p3", "--size", "100,80", "--colours", "sea", "--by", "star")
    assert 'fill="#0b3954"' in text


def test_the_rarest_star_at_a_corner(tiling):
    """--by star: of the stars at its corners, a tile has the rarest."""
    from pagnetuf.commands import poster

    t, page = tiling("p3"), poster.Page((200, 140), 5)
    patch = t.window(half=page.half(t)).whole()
    found = poster.classes(patch, page, poster_options(("poster", "p3", "--by", "star")))
    names, labels = patch.star_labels()
    shares = [patch.stars()[name] for name in names]
    for tile in np.flatnonzero(poster.tiles_on(patch, page)).tolist():
        stars = [labels[v] for v in patch.corners()[tile, : patch.counts[tile]] if labels[v] >= 0]
        assert (
            stars
            and found.of[tile] == max(stars)
            and shares[found.of[tile]] == min(shares[it] for it in stars)
        )


@pytest.mark.parametrize("rule, fold", [("p3", 5), ("ab", 8)])
def test_the_certain_radius_is_kept(tiling, rule, fold):
    """The promise of --star, tile by tile, in a window that is larger than the circle."""
    t = tiling(rule)
    for radius in (4, 9, 20):
        place = symmetric_place(t, fold, 0, radius, Frame(), (0, 0, 0, 0))
        side = int(2 * place.radius) + 6
        window = t.window(place.at, (side, side), place.frame.seed, place.frame.base)
        assert radius <= place.radius <= kept_radius(window, place.at, fold) + 1e-9


def test_a_star_reaches_to_its_nearest_outer_edge(tiling):
    """The radius of a star, against points along its outer edges."""
    from pagnetuf.symmetry import star_radius

    window = tiling("p3").window(half=(12, 10))
    inner = np.flatnonzero(window.star_labels()[1] >= 0)
    for vertex in inner[:40].tolist():
        here, least = window.points()[vertex], np.inf
        for tile in np.flatnonzero((window.corners() == vertex).any(1)):
            loop = window.polygons()[tile]
            for start, end in zip(loop, np.roll(loop, -1, 0)):
                if np.hypot(*(start - here)) > 1e-9 and np.hypot(*(end - here)) > 1e-9:
                    steps = start + np.linspace(0, 1, 2001)[:, None] * (end - start)
                    least = min(least, np.hypot(*(steps - here).T).min())
        assert star_radius(window, vertex) == pytest.approx(least, abs=1e-4)


def test_several_processes_make_the_same_page(pagnetuf):
    words = ("poster", "p3", "--size", "900,700", "--tile", "3", "--line", "0")
    assert pagnetuf(*words)[1] == pagnetuf(*words, "--jobs", "2")[1]
