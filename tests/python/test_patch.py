"""A patch as a container, and as other libraries take it, each judged by that library."""
import io
import json
import math
import pickle
import xml.etree.ElementTree as ElementTree

import numpy as np
import pytest
from conftest import RULES
from pagnetuf import Patch, Tile, Tiling, WholePatch

SVG = "{http://www.w3.org/2000/svg}"
PHI = (1 + math.sqrt(5)) / 2


@pytest.fixture(params=["p3", "ab", "chair", "penrose_p1.toml"])
def patches(request, tiling):
    """A window, its whole tiles, and some of them with a hole."""
    window = tiling(request.param).window(half=(8, 7), seed=2)
    whole = window.whole()
    middle = np.argsort((whole.middles() ** 2).sum(1))[:1]
    holed = whole.connected(40)[np.arange(40) != 0] if len(whole) > 40 else whole
    return window, whole, whole[np.setdiff1d(np.arange(len(whole)), middle)], holed


def test_a_patch_is_a_sequence_of_tiles(patches):
    for patch in patches:
        tiles = list(patch)
        assert len(tiles) == len(patch) and all(isinstance(it, Tile) for it in tiles)
        rows = zip(
            patch.kinds.tolist(),
            patch.turns.tolist(),
            map(tuple, patch.shifts.tolist()),
            patch.address_texts(),
        )
        assert (
            tiles == list(rows)
            and patch[0] == tiles[0]
            and patch[-1] == tiles[-1] == patch[np.int64(len(patch) - 1)]
        )
        for some in (slice(2, 9, 3), [2, 5, 8], np.arange(len(patch)) % 3 == 2, np.array([1])):
            wanted = np.arange(len(patch))[some].tolist()
            assert list(patch[some]) == [tiles[i] for i in wanted] and isinstance(patch[some], Patch)
        for wrong, error in (
            (len(patch), IndexError),
            (-len(patch) - 1, IndexError),
            (0.5, TypeError),
            ("0", TypeError),
        ):
            with pytest.raises(error):
                patch[wrong]
    bare = patches[0].rule
    assert [it.address for it in Patch(bare, patches[0].tiles, None)] == [None] * len(patches[0])


def test_a_board_grows_from_where_the_window_is(tiling):
    t = tiling("p3")
    window = t.window(at=(100, 0, 0, 0), half=(8, 7))
    assert window.centre == (100.0, 0.0) and t.window().centre == (0.0, 0.0)
    whole = window.whole()
    for patch in (window, whole, window[2:], whole[1:], pickle.loads(pickle.dumps(whole))):
        assert patch.centre == window.centre
        board = patch.connected(12)
        assert abs(board.middles() - window.centre).max() < 4
        assert (board.shifts == patch.connected(12, (100.0, 0.0)).shifts).all()
    with pytest.raises(ValueError, match="connected"):
        window.connected(400)


def test_what_is_printed(tiling):
    t = tiling("p3")
    window = t.window(half=(4, 3))
    assert repr(window) == f"<Window p3: {len(window)} tiles, half=(4, 3)>"
    assert repr(window.whole()) == f"<WholePatch: {len(window.whole())} tiles>" and repr(t) == "Tiling('p3')"
    assert repr(window[:3]) == "<Patch: 3 tiles>" and repr(t.rule) == "<Rule: order 10, 4 kinds>"


def test_equal_tilings(tiling):
    other = Tiling.from_file(f"{RULES}/sphinx.toml")
    assert tiling("p3") == Tiling("p3") != tiling("p2") and hash(tiling("p3")) == hash(Tiling("p3"))
    assert tiling("sphinx.toml") == other != tiling("chair.toml") and tiling("p3") != "p3"


def test_area_and_bounds(patches):
    """Against the shoelace formula of floats, and the corners."""
    for patch in patches:
        total = 0
        for corners in patch.polygons():
            x, y = corners.T
            total += abs(x @ np.roll(y, -1) - y @ np.roll(x, -1)) / 2
        assert patch.area == pytest.approx(total)
        every = np.concatenate(patch.polygons())
        assert np.allclose(patch.bounds, [*every.min(0), *every.max(0)])
    assert np.isnan(patches[0][[]].bounds).all() and patches[0][[]].area == 0


def test_middles(patches):
    for patch in patches:
        assert np.allclose(patch.middles(), [corners.mean(0) for corners in patch.polygons()])


def test_stars_come_by_frequency(patches):
    for patch in patches:
        names, labels = patch.star_labels()
        counts = np.bincount(labels[labels >= 0], minlength=len(names)).tolist()
        assert counts == sorted(counts, reverse=True) and patch.stars() == dict(zip(names, counts))


def test_the_rim(patches):
    """Its lines are the edges with one tile, with the tiles to their left: the area that they enclose is that
    of the tiles."""
    for patch in patches:
        points, steps, total = patch.points(), set(), 0
        for loop in patch.rim():
            after = np.roll(loop, -1)
            steps |= {tuple(step) for step in zip(loop.tolist(), after.tolist())}
            (x, y), (u, v) = points[loop].T, points[after].T
            total += (x @ v - y @ u) / 2
        ends, sides = patch.edges(), patch.sides()
        wanted = {
            (a, b) if left >= 0 else (b, a)
            for (a, b), (left, right, *_) in zip(ends.tolist(), sides.tolist())
            if min(left, right) < 0
        }
        assert steps == wanted and total == pytest.approx(patch.area)
        assert len(patch.vertices()) - len(patch.edges()) + len(patch) == 2 - len(patch.rim())


def test_the_sides_of_edges(patches):
    for patch in patches:
        corners, counts = patch.corners(), patch.counts
        for (a, b), (left, right, mine, theirs) in zip(patch.edges().tolist(), patch.sides().tolist()):
            for tile, edge, start, end in ((left, mine, a, b), (right, theirs, b, a)):
                assert (tile < 0) == (edge < 0)
                if tile >= 0:
                    assert (corners[tile, edge], corners[tile, (edge + 1) % counts[tile]]) == (start, end)


def test_polygons_for_shapely_and_matplotlib(patches):
    geometry = pytest.importorskip("shapely.geometry")
    union = pytest.importorskip("shapely.ops").unary_union
    for patch in patches:
        shapes = [geometry.Polygon(corners) for corners in patch.polygons()]
        assert all(shape.is_valid for shape in shapes)
        assert union(shapes).area == pytest.approx(patch.area)
        features = patch.__geo_interface__["features"]
        assert json.loads(patch.to_geojson())["features"] == json.loads(json.dumps(features))
        for shape, feature in zip(shapes, features):
            assert geometry.shape(feature["geometry"]).equals(shape)
        assert [it["properties"]["address"] for it in features] == patch.address_texts()


def test_a_plot(patches):
    matplotlib = pytest.importorskip("matplotlib")
    matplotlib.use("Agg")
    from matplotlib import pyplot

    for patch in patches:
        ax = patch.plot()
        (drawn,) = ax.collections
        assert len(drawn.get_paths()) == len(patch)
        for path, corners in zip(drawn.get_paths(), patch.polygons()):
            assert np.allclose(path.vertices[: len(corners)], corners)
        figure, other = pyplot.subplots()
        assert (
            patch.plot(other, by="neighbours", colours=["red", "gold", "navy", "teal"], linewidths=0) is other
        )
        colours = other.collections[0].get_facecolors()
        assert all((colours[a] != colours[b]).any() for a, b, *_ in patch.adjacency().tolist())
        figure.savefig(io.BytesIO(), format="png")
        pyplot.close("all")


def test_a_plot_of_its_own_has_no_axes(patches):
    """It has equal lengths; axes that are given keep their ticks."""
    matplotlib = pytest.importorskip("matplotlib")
    matplotlib.use("Agg")
    from matplotlib import pyplot

    ax = patches[0].plot()
    assert not ax.axison and ax.get_aspect() in (1, "equal")
    _, other = pyplot.subplots()
    assert patches[0].plot(other).axison
    pyplot.close("all")


@pytest.mark.parametrize(
    "look", [{"linewidths": 0}, {"lw": 0}, {"edgecolors": "none"}, {"edgecolor": "None"}]
)
def test_a_plot_without_lines_has_no_seams(tiling, look):
    matplotlib = pytest.importorskip("matplotlib")
    matplotlib.use("Agg")
    from matplotlib import image, pyplot

    patch = tiling("p3").window(half=(8, 6)).whole()
    ax = patch.plot(each=["black"] * len(patch), **look)
    ax.set_xlim(-3, 3)
    ax.set_ylim(-2, 2)
    file = io.BytesIO()
    ax.figure.savefig(file, dpi=100)
    pyplot.close("all")
    file.seek(0)
    pixels = image.imread(file)[..., :3]
    high, wide = len(pixels) // 3, len(pixels[0]) // 3
    assert pixels[high : 2 * high, wide : 2 * wide].max() < 0.1 < pixels.max()


def test_a_plot_with_lines_keeps_them(patches):
    matplotlib = pytest.importorskip("matplotlib")
    matplotlib.use("Agg")
    from matplotlib import colors, pyplot

    for look in ({}, {"linewidths": 2}, {"edgecolors": "#222222"}, {"linewidths": [0, 2]}):
        (drawn,) = patches[0].plot(**look).collections
        assert (drawn.get_edgecolors() == colors.to_rgba("#222222")).all()
    (drawn,) = patches[0].plot(alpha=0.5, linewidths=0).collections  # (seams of its own colour would show)
    assert (np.array(drawn.get_linewidths()) == 0).all()
    pyplot.close("all")


def fills(text):
    return [polygon.get("fill") for polygon in ElementTree.fromstring(text).iter(SVG + "polygon")]


def test_a_colour_for_each_tile(patches):
    """Texts, and red, green and blue by floats or bytes, in both pictures."""
    for patch in patches:
        far = np.hypot(*patch.middles().T)
        grey = np.round(far / far.max() * 255).astype(np.uint8)
        names = [f"#{it:02x}{it:02x}{it:02x}" for it in grey.tolist()]
        rows = np.stack([grey] * 3, 1)
        opaque = np.insert(rows / 255, 3, 1, axis=1)
        for each in (names, np.array(names), rows, rows / 255, opaque, opaque.tolist()):
            assert fills(patch.to_svg(each=each)) == names
        assert ".k0{" not in patch.to_svg(each=names) and fills(patch.to_svg(each=names, ids=True)) == names
    assert set(fills(patches[0].to_svg())) == {None}
    assert fills(patches[0][:2].to_svg(each=["a<", "navy"]))[0] == "a<"


def test_a_plot_with_a_colour_for_each_tile(patches):
    matplotlib = pytest.importorskip("matplotlib")
    matplotlib.use("Agg")
    from matplotlib import colormaps, pyplot

    for patch in patches:
        wanted = colormaps["viridis"](np.hypot(*patch.middles().T) / 20)
        (drawn,) = patch.plot(each=wanted).collections
        assert np.allclose(drawn.get_facecolors(), wanted, atol=1 / 255)
    pyplot.close("all")


@pytest.mark.parametrize(
    "words, error, told",
    [
        ({"each": ["red"]}, ValueError, "each has a colour for each of 40 tiles, and not 1"),
        ({"each": "red"}, TypeError, "each is a sequence"),
        ({"each": ["red"] * 39 + [3]}, TypeError, "each of the colours in each is a text, and not 3"),
        ({"each": np.ones((40, 2))}, ValueError, "each has rows of red, green and blue"),
        ({"each": np.ones(40)}, ValueError, "each has rows of red, green and blue"),
        ({"each": np.full((40, 3), 2.0)}, ValueError, "each has numbers from 0 to 1"),
        ({"each": np.full((40, 3), np.nan)}, ValueError, "each has numbers from 0 to 1"),
        ({"each": np.full((40, 4), 0.5)}, ValueError, "each has opaque colours"),
        ({"each": ["red"] * 40, "colours": ["red"]}, ValueError, "leave out colours"),
        ({"colours": ["red"] * 40}, ValueError, "each= takes one for each of 40 tiles"),
    ],
)
def test_wrong_colours_for_tiles(tiling, words, error, told):
    patch = tiling("p3").window(half=(12, 8)).whole()[:40]
    for picture in (patch.to_svg, patch.plot):
        with pytest.raises(error, match=told):
            picture(**words)


def test_pictures(patches):
    """A corner of the picture is that of the tile, y downwards, and no number is -0."""
    for patch in patches:
        for words in (
            {},
            {"by": "turn"},
            {"by": "neighbours", "colours": ["red", "blue", "#fff", "#123456"]},
        ):
            text = patch.to_svg(**words)
            assert "-0," not in text.replace("-0.", "") and "-0 " not in text.replace("-0.", "")
            drawn = list(ElementTree.fromstring(text).iter(SVG + "polygon"))
            for polygon, corners in zip(drawn, patch.polygons()):
                found = [tuple(map(float, corner.split(","))) for corner in polygon.get("points").split()]
                assert np.allclose(found, corners * (1, -1), atol=1e-4)
        assert ElementTree.fromstring(patch._repr_svg_()).get("width") == "500"
    for words in ({"colours": "red"}, {"colours": np.array([1, 2])}, {"colours": [3]}):
        with pytest.raises(TypeError, match="colours"):
            patches[0].to_svg(**words)
    for words in ({"colours": []}, {"by": "size"}):
        with pytest.raises(ValueError):
            patches[0].to_svg(**words)


def refusals_of_colours(picture):
    """A colour that is none is named, and neighbours are never alike without a word."""
    for colours in (["rde"], ["red", "#12345"], ["red", "gold", "navy", "notacolour"]):
        with pytest.raises(ValueError, match=f"each of colours is such as .* and not '{colours[-1]}'"):
            picture(colours=colours)
    for colours in (["red"], ["red", "gold"], ["red", "gold", "red"]):
        with pytest.raises(ValueError, match="by neighbours needs 3 different colours"):
            picture(colours=colours, by="neighbours")


@pytest.mark.parametrize("name", ["p3", "p2", "ab"])
def test_colours_that_are_refused(tiling, name):
    patch = tiling(name).window(half=(8, 6)).whole()
    refusals_of_colours(patch.to_svg)
    assert ".n2{fill:#00f}" in patch.to_svg(colours=["red", "Gold", "#00f"], by="neighbours")


def test_colours_that_a_plot_refuses(tiling):
    pytest.importorskip("matplotlib").use("Agg")
    from matplotlib import pyplot

    patch = tiling("p3").window(half=(8, 6)).whole()
    refusals_of_colours(patch.plot)
    assert not pyplot.get_fignums() and patch.plot(colours=["C0", "tab:red"])
    pyplot.close("all")


def test_graphs(patches):
    networkx = pytest.importorskip("networkx")
    for patch in patches:
        graph, near = patch.to_networkx(), patch.neighbours()
        assert sorted(graph) == list(range(len(patch)))
        assert {frozenset(edge) for edge in graph.edges} == {
            frozenset((tile, other)) for tile, row in enumerate(near.tolist()) for other in row if other >= 0
        }
        for a, b, data in graph.edges(data=True):
            low, high = sorted((a, b))
            for mine, theirs in (map(int, pair.split("/")) for pair in data["edges"].split()):
                assert (
                    near[low, mine] == high
                    and near[high, theirs] == low
                    and patch.backs()[low, mine] == theirs
                )
        for tile, data in graph.nodes(data=True):
            assert (data["kind"], data["turn"], data["address"]) == (
                patch.kinds[tile],
                patch.turns[tile],
                patch.address(tile),
            )
            assert np.allclose(graph.pos[tile], patch.middles()[tile])
        vertices = patch.to_networkx("vertices")
        assert {tuple(sorted(edge)) for edge in vertices.edges} == set(map(tuple, patch.edges().tolist()))
        assert np.allclose([vertices.pos[i] for i in range(len(vertices))], patch.points())
        stars = patch.star_labels()[1].tolist()
        assert [vertices.nodes[i]["star"] for i in range(len(vertices))] == stars
        for made in (graph, vertices):
            for write, read in (
                (networkx.write_graphml, networkx.read_graphml),
                (networkx.write_gexf, networkx.read_gexf),
            ):
                file = io.BytesIO()
                write(made, file)
                file.seek(0)
                assert read(file).number_of_edges() == made.number_of_edges()


def test_matrices(patches):
    pytest.importorskip("scipy.sparse")
    for patch in patches:
        matrix, near = patch.adjacency_matrix().toarray(), patch.neighbours()
        for tile, row in enumerate(near.tolist()):
            assert set(np.flatnonzero(matrix[tile]).tolist()) == {other for other in row if other >= 0}
        assert set(np.unique(matrix)) <= {0.0, 1.0}
        matrix = patch.adjacency_matrix("vertices").toarray()
        assert {tuple(it) for it in np.argwhere(np.triu(matrix)).tolist()} == set(
            map(tuple, patch.edges().tolist())
        )
        assert (matrix == matrix.T).all() and not matrix.diagonal().any()


def test_tables(patches):
    pytest.importorskip("pandas")
    for patch in patches:
        tiles, vertices, edges = (patch.to_frame(kind) for kind in ("tiles", "vertices", "edges"))
        assert (len(tiles), len(vertices), len(edges)) == (
            len(patch),
            len(patch.vertices()),
            len(patch.edges()),
        )
        assert (
            tiles["address"].tolist() == patch.address_texts()
            and tiles["turn"].tolist() == patch.turns.tolist()
        )
        assert np.allclose(vertices[["x", "y"]], patch.points()) and np.allclose(
            tiles[["x", "y"]], patch.middles()
        )
        assert vertices[["a0", "a1", "a2", "a3"]].values.tolist() == patch.vertices().tolist()
        assert edges[["left", "right", "left_edge", "right_edge"]].values.tolist() == patch.sides().tolist()
        with pytest.raises(ValueError, match="kind is one of"):
            patch.to_frame("corners")


def test_a_library_that_is_missing_is_named(patches, monkeypatch):
    import sys

    for module, call in (
        ("networkx", "to_networkx"),
        ("pandas", "to_frame"),
        ("matplotlib.collections", "plot"),
    ):
        monkeypatch.setitem(sys.modules, module, None)
        with pytest.raises(ImportError, match=f"needs {module.partition('.')[0]}: pip install"):
            getattr(patches[0], call)()


def test_files_of_numpy(patches, tmp_path):
    for patch in (*patches, patches[0][[]], Patch(patches[0].rule, patches[0].tiles, None)):
        patch.to_npz(tmp_path / "patch.npz")
        again = Patch.from_npz(tmp_path / "patch.npz")
        assert isinstance(again, WholePatch) == isinstance(patch, WholePatch)
        assert again.tiles.tobytes() == patch.tiles.tobytes() and again.has_addresses == patch.has_addresses
        assert (again.outlines() == patch.outlines()).all() and again.stars() == patch.stars()
        assert not patch.has_addresses or again.address_texts() == patch.address_texts()
        assert again.rule.to_text() == patch.rule.to_text() and again == patch
    np.savez(tmp_path / "other.npz", x=np.zeros(3))
    with pytest.raises(ValueError, match="to_npz"):
        Patch.from_npz(tmp_path / "other.npz")


@pytest.mark.parametrize("name", ["noext", "patch.npz", "patch.v2"])
def test_a_file_of_numpy_keeps_its_name_and_the_centre(tiling, tmp_path, name):
    window = tiling("p3").window(at=(200, 100, 0, 0), half=(8, 7))
    for patch in (window, window.whole(), window[2:9]):
        patch.to_npz(str(tmp_path / name))
        again = Patch.from_npz(str(tmp_path / name))
        assert [it.name for it in tmp_path.iterdir()] == [name]
        assert again == patch and again.centre == window.centre != (0.0, 0.0)
    stream = io.BytesIO()
    window.to_npz(stream)
    stream.seek(0)
    assert Patch.from_npz(stream) == window


def test_a_file_of_numpy_without_a_centre(tiling, tmp_path):
    """As earlier versions wrote it."""
    from pagnetuf.board import arrays

    window = tiling("p3").window(at=(200, 100, 0, 0), half=(8, 7))
    np.savez(tmp_path / "old.npz", **{name: it for name, it in arrays(window).items() if name != "centre"})
    again = Patch.from_npz(tmp_path / "old.npz")
    assert again.centre == (0.0, 0.0) and again.address_texts() == window.address_texts()


def test_a_file_of_another_kind_is_told(tiling, tmp_path):
    tiling("p3").window(half=(8, 7)).to_npz(tmp_path / "whole.npz")
    data = (tmp_path / "whole.npz").read_bytes()
    array = io.BytesIO()
    np.save(array, np.zeros(3))
    for wrong in (b"", b"hello", b"PK\3\4", data[:-40], data[: len(data) // 2], array.getvalue()):
        (tmp_path / "wrong").write_bytes(wrong)
        with pytest.raises(ValueError, match="wrong isn't a file that Patch.to_npz wrote$"):
            Patch.from_npz(tmp_path / "wrong")
    with pytest.raises(FileNotFoundError):
        Patch.from_npz(tmp_path / "missing")


def test_equal_patches(tiling):
    t = tiling("p3")
    window, words = t.window(half=(8, 7)), {"half": (8, 7)}
    whole = window.whole()
    for one, other in (
        (window, t.window(**words)),
        (whole, t.window(**words).whole()),
        (window, window[:]),
        (whole[[3, 1, 2]], whole[1:4][[2, 0, 1]]),
        (whole, pickle.loads(pickle.dumps(whole))),
        (t.window(**words, addresses=False), t.window(**words, addresses=False)),
        (window[[]], window[[]]),
    ):
        assert one == other and not one != other and hash(one) == hash(other) and {one: 1}[other] == 1
    moved = window[:]
    moved.centre = 1.0, 0.0
    others = [window[1:], window[::-1], whole, moved, t.window(**words, addresses=False)]
    others += [t.window((1, 0, 0, 0), **words), Patch(tiling("p2").rule, window.tiles, window.addresses)]
    for other in (*others, 3, None):
        assert window != other and not window == other
    assert whole != Patch(whole.rule, whole.tiles, whole.addresses)  # (the first halves alone)
    single = WholePatch(whole.rule, whole.half_tiles, whole.half_addresses, whole.halves * [1, 0] - [0, 1])
    assert (single.tiles == whole.tiles).all() and single != whole


def test_equal_patches_of_either_engine(tiling, program):
    from pagnetuf import ProgramEngine

    asked = Tiling("p3", ProgramEngine(program))
    one, other = (it.window(half=(4, 3), seed=5) for it in (tiling("p3"), asked))
    assert one == other and one.whole() == other.whole() and hash(one) == hash(other)


def test_lists(tiling):
    for name in ("p3", "ab", "chair"):
        t = tiling(name)
        window = t.window(half=(6, 5), seed=4)
        for whole, patch in ((False, window), (True, window.whole())):
            again = Patch.from_listing(t, window.listing(whole))
            assert (
                again.tiles.tobytes() == patch.tiles.tobytes()
                and again.address_texts() == patch.address_texts()
            )
            assert (again.outlines() == patch.outlines()).all()
    t = tiling("chair")
    mixed = "0 0 0,0,0,0 0:3/0\n0 1 3,1,0,0 0:\n"
    assert [it.address for it in Patch.from_listing(t, mixed)] == ["0:3/0", "0:"]
    assert (
        t.verify(
            Patch.from_listing(t, t.window((1, 1, 0, 0), (2, 1), 42).listing()), (1, 1, 0, 0), (2, 1), 42
        )
        > 0
    )
    for wrong in (
        "0 0 0,0,0 0:\n",
        "0 4 0,0,0,0 0:\n",
        "1 0 0,0,0,0 1:\n",
        "0 0 0,0,0,0 x\n",
        "0 0 0,0,0,0 0:300/0\n",
    ):
        with pytest.raises(ValueError):
            Patch.from_listing(t, wrong)


@pytest.mark.parametrize("name", ["p3", "p2", "ab", "chair", "sphinx.toml", "penrose_p1.toml"])
def test_a_list_with_tiles_that_overlap(tiling, name):
    t = tiling(name)
    window = t.window(half=(6, 5), seed=4)
    for whole in (False, True):
        lines = window.listing(whole).splitlines()
        with pytest.raises(ValueError, match=f"tiles 3 and {len(lines) + 1} of the list are the same"):
            Patch.from_listing(t, "\n".join([*lines, lines[2]]))
    lines = window.listing().splitlines()
    with pytest.raises(ValueError, match=rf"tiles \d+ and {len(lines) + 1} of the list overlap"):
        Patch.from_listing(t, "\n".join([*lines, on_the_first(window)]))
    assert not len(Patch.from_listing(t, ""))


def on_the_first(window):
    """A line with another tile on the side of an edge where the first tile lies."""
    ways = np.roll(window.outlines(), -1, 1) - window.outlines()
    for tile in range(1, len(window)):
        for here, there in np.argwhere((ways[0][:, None] == ways[tile]).all(-1)).tolist():
            step = window.outlines()[0, here] - window.outlines()[tile, there]
            is_there = not ways[0, here].any() or (window.shifts == window.shifts[tile] + step).all(1).any()
            if not is_there:
                place = ",".join(map(str, (window.shifts[tile] + step).tolist()))
                return f"{window.kinds[tile]} {window.turns[tile]} {place} {window.address(tile)}"
    raise AssertionError("all tiles are alike")


@pytest.mark.parametrize("name", ["p3", "p2", "ab", "chair", "sphinx.toml", "penrose_p1.toml"])
def test_a_proper_colouring(tiling, name):
    """No two neighbours are alike; three colours for rhombs (Sibley and Wagon 2000) and for kites and darts
    (Babilon 2001), four for any."""
    from pagnetuf.colouring import proper_colouring

    patch = tiling(name).window(half=(34, 30), seed=1).whole()
    colours, count = proper_colouring(patch.neighbours())
    a, b = patch.adjacency()[:, :2].T
    assert (colours[a] != colours[b]).all() and colours.max() + 1 == count == len(np.unique(colours))
    assert count <= (3 if name in ("p3", "p2", "ab") else 4)
    assert (proper_colouring(patch.neighbours())[0] == colours).all()
    assert (
        proper_colouring(patch[:1].neighbours())[1] == 1 and proper_colouring(patch[[]].neighbours())[1] == 0
    )


def test_the_structure_factor(tiling):
    """Ammann-Beenker: the intensity of a peak is the square of the octagon's transform at the wave vector in
    perpendicular space (F. P. M. Beenker 1982; the window is a regular octagon 1 + sqrt 2 wide)."""
    t = tiling("ab")
    patch = t.window(half=(150, 110), addresses=False).whole()
    # four integers name a wave vector: 2 pi times them in the dual lattice, and its conjugate
    steps = t.ring.xy(np.eye(4, dtype=np.int64)), t.ring.perpendicular(np.eye(4, dtype=np.int64))
    both = np.concatenate([steps[0], steps[1]], 1)
    dual = 2 * np.pi * np.linalg.inv(both)
    octagon = (1 + math.sqrt(2)) / 2 / math.cos(np.pi / 8) * np.exp(1j * np.pi * (np.arange(8) + 0.5) / 4)
    grid = np.linspace(-1.5, 1.5, 601)
    x, y = np.meshgrid(grid, grid)
    inside = np.ones_like(x, bool)
    for corner, after in zip(octagon, np.roll(octagon, -1)):
        inside &= ((after - corner).conjugate() * (x + 1j * y - corner)).imag >= 0
    for numbers in ((1, 1, 0, -1), (2, 1, 0, -1), (1, 2, 1, 0), (2, 2, 0, -2)):
        wave = dual @ numbers
        along, across = wave[:2], wave[2:]
        if np.hypot(*along) < 1:
            continue
        wanted = abs(np.exp(1j * (x[inside] * across[0] + y[inside] * across[1])).mean()) ** 2
        found = patch.structure_factor(np.array([along, (0, 0)]), radius=48)
        assert found[0] / found[1] == pytest.approx(wanted, abs=0.01)
    assert patch.structure_factor((0.0, 0.0)) == pytest.approx(len(patch.vertices()))
    with pytest.raises(ValueError, match="wave vectors"):
        patch.structure_factor([1.0, 2.0, 3.0])
