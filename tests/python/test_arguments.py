"""What callers pass: whole numbers are whole, each refused argument is named, and arrays can't be written."""
import pickle
import types

import numpy as np
import pagnetuf
import pytest
from pagnetuf import Ring

# each call, and the argument that its refusal names
FRACTIONS = {
    "locate": (lambda t: t.locate((0.5, 0.2, 0, 0)), "point"),
    "whole floats": (lambda t: t.locate((0.0, 0.0, 0.0, 0.0)), "point"),
    "at": (lambda t: t.window(at=(0.9, 0.9, 0, 0)), "at"),
    "half": (lambda t: t.window(half=(20.9, 12.9)), "half"),
    "seed": (lambda t: t.window(seed=1.9), "seed"),
    "at as a text": (lambda t: t.window(at="0000"), "at"),
    "edges": (lambda t: t.neighbour_all(["0:0/0"], np.full(1, 1.7)), "edges"),
    "edges in a list": (lambda t: t.neighbour_all(["0:0/0"], [1.0]), "edges"),
    "edges as truth": (lambda t: t.neighbour_all(["0:0/0"], np.ones(1, bool)), "edges"),
    "seed of a star": (lambda t: t.star("0:", 0, seed=1.5), "seed"),
    "vertex": (lambda t: t.star("0:", 0.0), "vertex"),
    "edge": (lambda t: t.neighbour("0:0/0", 2.0), "edge"),
    "edge as truth": (lambda t: t.neighbour("0:0/0", True), "edge"),
    "path": (lambda t: t.walk("0:", "01"), "path"),
    "each of path": (lambda t: t.walk("0:", [0, 1.5]), "path"),
    "grow": (lambda t: t.walk("0:", [0], grow=1.5), "grow"),
    "one address for many": (lambda t: t.place_all("0:0/0"), "addresses"),
    "address": (lambda t: t.place(3), "address"),
    "sheet": (lambda t: t.sheet((60.5, 60.2)), "half"),
    "piece": (lambda t: t.sheet((60, 60), piece=(20.5, 20)), "piece"),
    "part": (lambda t: t.sheet((60, 60), part=(0.5, 2)), "part"),
    "xy": (lambda t: t.window(xy=3.5), "xy"),
    "listing": (lambda t: t.verify(3), "listing"),
    "points of a ring": (lambda t: t.ring.xy((0.5, 0, 0, 0)), "points"),
    "points to turn": (lambda t: t.ring.turn(np.full((2, 4), 0.5), 1), "points"),
    "turns": (lambda t: t.ring.turn((1, 0, 0, 0), 1.5), "turns"),
    "factor": (lambda t: t.ring.times((1, 0, 0, 0), (1.5, 0, 0, 0)), "factor"),
    "numbers": (lambda t: t.ring.signs(np.array([0.5, 1])), "numbers"),
    "shifts": (lambda t: t.rule.corners(np.zeros(1, int), np.zeros(1, int), np.zeros((1, 4))), "shifts"),
    "waves": (lambda t: t.window().structure_factor("x"), "waves"),
    "complex waves": (lambda t: t.window().structure_factor(np.array([1j, 0])), "waves"),
    "edges of strokes": (lambda t: pagnetuf.strokes([(0.5, 1)]), "edges"),
}


@pytest.mark.parametrize("name", FRACTIONS)
def test_nothing_is_cut_off(tiling, name):
    ask, argument = FRACTIONS[name]
    with pytest.raises(TypeError, match=argument):
        ask(tiling("p3"))


@pytest.mark.parametrize(
    "told, ask",
    [
        ("at has 4 whole numbers, and not 2", lambda t: t.window((1, 2))),
        ("by at or by xy", lambda t: t.window((0, 0, 0, 0), xy=(1, 2))),
        ("xy is finite", lambda t: t.window(xy=(float("nan"), 0))),
        ("count is at least 1", lambda t: t.window().connected(0)),
        ("one entry for each", lambda t: t.neighbour_all(["0:"], [[0]])),
        ("points have the shape", lambda t: t.ring.xy((1, 2, 3))),
        ("radius is above 0", lambda t: t.window().structure_factor((0, 1), radius=0)),
        ("waves are wave vectors", lambda t: t.window().structure_factor((0, 1, 2))),
    ],
)
def test_values_that_are_refused(tiling, told, ask):
    with pytest.raises(ValueError, match=told):
        ask(tiling("p3"))


@pytest.mark.parametrize(
    "told, ask",
    [
        (r"^half is two whole numbers from 1 to 4096, and not \(0, 12\)$", lambda t: t.window(half=(0, 12))),
        (r"^half .* not \(5, 4097\)$", lambda t: t.window(half=(5, 4097))),
        (r"^half .* not \(0, 1\)$", lambda t: t.verify("", half=(0, 1))),
        (r"^at has .* up to 2\^20 .* not \(0, -1048577, 0, 0\)$", lambda t: t.window((0, -1048577, 0, 0))),
        (r"^seed is from 0 to 2\^64 - 1, and not -1$", lambda t: t.window(seed=-1)),
        (r"^seed .* not 18446744073709551616$", lambda t: t.window(seed=1 << 64)),
        (r"^seed .* not -1$", lambda t: t.star("0:", 0, seed=-1)),
        (r"^seed .* not -1$", lambda t: t.walk("0:", [0], seed=-1)),
        (r"^seed .* not -1$", lambda t: t.sheet((60, 60), seed=-1)),
        (r"^seed .* not -1$", lambda t: t.locate((0, 0, 0, 0), seed=-1)),
    ],
)
def test_a_number_out_of_range_is_named(tiling, told, ask):
    with pytest.raises(pagnetuf.BadWords, match=told):
        ask(tiling("p3"))


@pytest.mark.parametrize(
    "name, told",
    [
        ("penrose", "is it penrose_p"),
        ("P3", r"is it p3 or p2\?"),
        ("spinx", r"is it sphinx\b"),
        ("zzzzz", r"'zzzzz' is no tiling\. The names are chair, .* and those of the files in "),
    ],
)
def test_a_name_of_no_tiling_is_told_with_those_like_it(library, name, told):
    with pytest.raises(pagnetuf.BadWords, match=told):
        pagnetuf.Tiling(name)


def test_whole_numbers_of_each_kind_are_taken(tiling):
    t = tiling("p3")
    wanted = t.window((1, 2, 0, 0), (6, 5), 3).tiles.tobytes()
    point, half = np.array([1, 2, 0, 0], np.int16), np.array([6, 5], np.uint8)
    assert t.window(point, half, np.uint64(3)).tiles.tobytes() == wanted
    assert t.window(iter([1, 2, 0, 0]), iter([6, 5]), 3).tiles.tobytes() == wanted
    texts = t.window(half=(4, 3)).address_texts()
    edges = np.zeros(len(texts), np.int16)
    assert t.place_all(iter(texts)).tobytes() == t.place_all(texts).tobytes()
    assert t.neighbour_all(iter(texts), edges)[0] == t.neighbour_all(texts, edges.tolist())[0]


def test_single_calls_take_what_calls_on_arrays_take(tiling):
    t = tiling("p3")
    window = t.window(half=(4, 3))
    one, text = window.addresses[3], window.address(3)
    assert t.place(one) == t.place(text) and t.neighbour(one, 0) == t.neighbour(text, 0)
    assert t.star(one, 0) == t.star(text, 0) and t.pair(one, text).relation == "same"


def test_places_in_lengths(tiling):
    """A place in lengths, and the point of the ring there, have the same tiles."""
    t = tiling("p3")
    for point in ((0, 0, 0, 0), (1, 0, 0, 0), (3, -2, 1, 4), (0, 1, -1, 0)):
        x, y = t.ring.xy(np.array(point))
        exact, near = t.locate(point), t.locate(xy=(x, y))
        assert exact.tiles.tobytes() == near.tiles.tobytes() and len(exact) >= 1
    chance = np.random.default_rng(5)
    for x, y in chance.uniform(-300, 300, (20, 2)):
        found = t.locate(xy=(x, y))
        assert len(found) == 1
        window = t.window(xy=(x, y))
        assert (abs(t.ring.xy(np.array(window.box.at)) - (x, y)) < 0.5001).all()


def test_arrays_are_read_only(tiling):
    window = tiling("p3").window(half=(6, 5))
    for patch in (window, window.whole(), window.chosen([0, 1]), window.whole().chosen([2, 0])):
        names = "kinds turns shifts addresses tiles counts".split()
        calls = "outlines xy vertices corners neighbours adjacency edges perpendicular middles".split()
        arrays = [getattr(patch, name) for name in names] + [getattr(patch, name)() for name in calls]
        for array in [*arrays, patch.star_labels()[1]]:
            assert not array.flags.writeable
            with pytest.raises(ValueError, match="read-only"):
                array[...] = 0
    assert not tiling("p3").ring.powers.flags.writeable


def test_what_a_patch_was_made_of_can_be_written(tiling):
    """A patch takes a view; the caller's own array stays as it is."""
    window = tiling("p3").window(half=(6, 5))
    tiles = window.tiles.copy()
    assert not pagnetuf.Patch(window.rule, tiles, None).tiles.flags.writeable and tiles.flags.writeable


@pytest.mark.parametrize("whole", [False, True])
def test_chosen_tiles(tiling, whole):
    window = tiling("p3").window(half=(6, 5))
    patch = window.whole() if whole else window
    mask = np.arange(len(patch)) % 3 == 1
    for tiles in (mask, np.flatnonzero(mask), np.flatnonzero(mask).tolist(), slice(1, None, 3)):
        some = patch.chosen(tiles)
        assert some.address_texts() == patch.address_texts()[1::3]
        assert (some.outlines() == patch.outlines()[1::3]).all()
    assert len(patch.chosen([])) == 0 == len(patch.chosen(np.array([])))
    assert patch.chosen(-1).address_texts() == [patch.address(len(patch) - 1)]
    for wrong, error in (
        ([0.5], TypeError),
        ([len(patch)], IndexError),
        ([True], IndexError),
        ([[0]], TypeError),
    ):
        with pytest.raises(error):
            patch.chosen(wrong)


def test_chosen_whole_tiles_keep_only_their_halves(tiling):
    whole = tiling("p3").window(half=(60, 50)).whole()
    few = whole.connected(60)
    assert len(few.half_tiles) <= 120 and len(pickle.dumps(few)) < 40_000
    again = pickle.loads(pickle.dumps(few))
    assert again.address_texts() == few.address_texts() and (again.outlines() == few.outlines()).all()


def test_a_star_import_brings_no_module():
    """And every public name is there."""
    assert len(set(pagnetuf.__all__)) == len(pagnetuf.__all__)
    for name in pagnetuf.__all__:
        assert not isinstance(getattr(pagnetuf, name), types.ModuleType), name
    assert {"Sheet", "symmetric_place", "strokes", "Tiling", "Patch"} <= set(pagnetuf.__all__)
    public = {name for name, value in vars(pagnetuf).items() if not name.startswith("_")}
    left = {
        name
        for name in public - set(pagnetuf.__all__)
        if not isinstance(getattr(pagnetuf, name), types.ModuleType)
    }
    assert not left


def test_numbers_that_are_too_large_are_told():
    ring = Ring(10)
    for call in (
        lambda: ring.crossings(np.array([1 << 32, 0, 0, 0]), np.array([0, 1 << 32, 0, 0])),
        lambda: ring.signs(np.array([1 << 30, 1])),
        lambda: ring.signs(np.array([-(1 << 63), 1])),
        lambda: ring.scaled(np.array([1 << 62, 0, 0, 0])),
        lambda: ring.product(np.array([1 << 31, 0]), np.array([1, 1])),
    ):
        with pytest.raises(OverflowError):
            call()


@pytest.mark.parametrize("order", (4, 6, 8, 10))
def test_the_largest_crossings_are_exact(order):
    ring, most = Ring(order), (1 << 28) - 1
    chance = np.random.default_rng(order)
    width = 2 if order < 8 else 4
    for _ in range(50):
        a, b = (np.zeros(4, np.int64) for _ in range(2))
        a[:width], b[:width] = chance.integers(-most, most, width), chance.integers(-most, most, width)
        (ax, ay), (bx, by) = ([it.tolist() for it in ring.scaled(point)] for point in (a, b))
        u, v = {4: (0, 0), 6: (0, 0), 8: (2, 0), 10: (1, 1)}[order]

        def times(p, q):
            return p[0] * q[0] + u * p[1] * q[1], p[0] * q[1] + p[1] * q[0] + v * p[1] * q[1]

        wanted = [one - other for one, other in zip(times(ax, by), times(bx, ay))]
        assert ring.crossings(a, b).tolist() == wanted
