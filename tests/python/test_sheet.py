"""Windows side by side have exactly the tiles of a window as large, each once."""
import math
import time
from concurrent.futures import ProcessPoolExecutor, ThreadPoolExecutor

import numpy as np
import pytest
from conftest import BUILT_IN, rule_files
from pagnetuf import TooManyTiles
from pagnetuf.engine import Box, Frame
from pagnetuf.piece import beyond
from pagnetuf.sheet import RIGHT, UP, gathered, split, window_middles


def lines(patch):
    return sorted(zip(patch.kinds.tolist(), patch.turns.tolist(), map(tuple, patch.shifts.tolist())))


@pytest.mark.parametrize("half, most", [(h, m) for h in (1, 2, 7, 10, 31, 64) for m in (3, 4, 7, 10)])
def test_a_side_is_split_without_gaps(half, most):
    sizes = split(half, most)
    assert sum(sizes) == half and max(sizes) <= most and min(sizes) >= 1
    start = -half
    for size, middle in zip(sizes, window_middles(sizes)):
        assert (start, start + 2 * size) == (2 * middle - size, 2 * middle + size)
        start += 2 * size
    assert start == half


@pytest.mark.parametrize("name", [*BUILT_IN, *rule_files()])
@pytest.mark.parametrize("half, piece", [((26, 19), (10, 7)), ((15, 16), (8, 8))])
def test_pieces_are_the_window(tiling, name, half, piece):
    t, at = tiling(name), (31, -17, 0, 0)
    extra = 8 if name == "fibonacci_rhombs.toml" or "pentomino" in name or "silver" in name else 0
    half, piece = (half[0] + 3 * extra, half[1] + 3 * extra), (piece[0] + extra, piece[1] + extra)
    whole = t.window(at, half, 3)
    pieces = list(t.sheet(half, at, 3, piece=piece))
    assert len(pieces) > 3
    assert sorted(line for it in pieces for line in lines(it)) == lines(whole)
    pieces = list(t.sheet(half, at, 3, piece=piece, whole=True))
    assert sorted(line for it in pieces for line in lines(it)) == lines(whole.whole())


@pytest.mark.parametrize("name", [*BUILT_IN, *rule_files()])
def test_the_exact_test_agrees_with_the_program(tiling, name):
    t = tiling(name)
    wide = t.window(half=(16, 14))
    for at, half in (((1, 0, 0, 0), (3, 2)), ((0, 0, 0, 0), (1, 1)), ((-2, 1, 0, 0), (4, 5))):
        assert lines(wide.chosen(t.machine.meeting(wide.tiles, [Box(at, half)]))) == lines(t.window(at, half))


def test_executors(tiling):
    t = tiling("p3")
    alone = [it.shifts.tolist() for it in t.sheet((60, 40), piece=(20, 20))]
    for kind in (ThreadPoolExecutor, ProcessPoolExecutor):
        with kind(2) as executor:
            assert [
                it.shifts.tolist() for it in t.sheet((60, 40), piece=(20, 20), executor=executor)
            ] == alone


@pytest.mark.parametrize("name", ["p3", "chair", "sphinx.toml"])
@pytest.mark.parametrize("whole", [False, True])
def test_what_a_pool_hands_back(tiling, name, whole):
    """The same tiles and addresses to the byte; without addresses none; and what `each` makes of a piece."""
    t, words = tiling(name), {"half": (41, 37), "seed": 5, "piece": (20, 20), "whole": whole}
    alone = list(t.sheet(**words))
    with ProcessPoolExecutor(2) as executor:
        sent = list(t.sheet(**words, executor=executor))
        bare = list(t.sheet(**words, executor=executor, addresses=False, ahead=3))
        counts = list(t.sheet(**words, executor=executor, each=len))
        vertices = list(t.sheet(**words, executor=executor, each=type(alone[0]).vertices, addresses=False))
    assert counts == [len(it) for it in alone] == list(t.sheet(**words, each=len))
    for patches in zip(alone, sent, bare, vertices):
        one, other, plain, points = patches
        assert one.tiles.tobytes() == other.tiles.tobytes() == plain.tiles.tobytes()
        assert one.addresses.tobytes() == other.addresses.tobytes()
        assert one.address_texts() == other.address_texts()
        assert one.outlines().tobytes() == plain.outlines().tobytes()
        assert one.vertices().tobytes() == points.tobytes()
        with pytest.raises(ValueError, match="without addresses"):
            plain.address(0)
    assert gathered(sent).address_texts() == [text for it in alone for text in it.address_texts()]
    assert gathered(bare).outlines().tobytes() == gathered(alone).outlines().tobytes()


@pytest.mark.parametrize("whole", [False, True])
def test_parts_of_a_sheet_have_each_tile_once(tiling, whole):
    t, words = tiling("p3"), {"half": (46, 61), "piece": (20, 15), "whole": whole}
    alone = [it.tiles.tobytes() for it in t.sheet(**words)]
    parts = [[it.tiles.tobytes() for it in t.sheet(**words, part=(i, 3))] for i in range(3)]
    assert all(parts) and sorted(it for part in parts for it in part) == sorted(alone)
    assert list(t.sheet(**words, part=(77, 78))) == []
    for part in ((1, 1), (-1, 2), (0, 0)):
        with pytest.raises(ValueError, match="part is"):
            t.sheet(**words, part=part)


def test_a_dask_cluster(tiling):
    distributed = pytest.importorskip("distributed")
    t, words = tiling("p3"), {"half": (50, 40), "piece": (20, 20)}
    alone = list(t.sheet(**words))
    with distributed.LocalCluster(
        n_workers=2, threads_per_worker=1, dashboard_address=None
    ) as cluster, distributed.Client(cluster) as client:
        executor = client.get_executor()
        sent = list(t.sheet(**words, executor=executor))
        counts = t.sheet(**words, executor=executor, each=len)
        assert [it.tiles.tobytes() for it in sent] == [it.tiles.tobytes() for it in alone]
        assert [it.address_texts() for it in sent] == [it.address_texts() for it in alone]
        assert list(counts) == [len(it) for it in alone]


@pytest.mark.parametrize("name", [*BUILT_IN, *rule_files()])
def test_only_tiles_at_the_rim_meet_another_window(tiling, name):
    """Those that count as inside a window meet none beside it. No window has more tiles than its bound."""
    t = tiling(name)
    half = tuple(math.ceil(2 * side) + 3 for side in t.rule.extent)
    for box in (Box((0, 0, 0, 0), half), Box((1, 2, 0, 0), half)):
        window = t.window(box.at, half, 3)
        assert len(window) <= t.rule.most_tiles(half)
        beside = [
            Box(tuple((np.array(box.at) + side * np.array(way)).tolist()), half)
            for step, way in zip(half, (RIGHT, UP[t.order]))
            for side in (step, -step)
        ]
        rim = beyond(t.rule, window.shifts, box)
        inside = np.setdiff1d(np.arange(len(window)), rim)
        assert len(inside) and len(rim)
        assert not t.machine.meeting(window.chosen(inside).tiles, beside).any()
    for small in ((1, 1), (1, 40), (7, 2)):
        assert len(t.window((5, -3, 0, 0), small, 1)) <= t.rule.most_tiles(small)


def test_few_windows_are_under_way(tiling):
    """Of a large sheet no more than `ahead` windows are asked for before their tiles are taken."""
    asked = []

    class Counting(ThreadPoolExecutor):
        def submit(self, *words):
            asked.append(words)
            return super().submit(*words)

    t, taken = tiling("chair"), []
    alone = [it.shifts.tolist() for it in t.sheet((70, 70), piece=(10, 10))]
    with Counting(2) as executor:
        for piece in t.sheet((70, 70), piece=(10, 10), executor=executor):
            assert len(asked) - len(taken) <= 16
            taken.append(piece.shifts.tolist())
    assert len(asked) == len(taken) == 49 and taken == alone


def test_pieces_smaller_than_tiles(tiling):
    with pytest.raises(ValueError):
        list(tiling("sphinx.toml").sheet((30, 30), piece=(2, 2)))


def test_usual_pieces_are_within_the_limit(tiling):
    for name in ("p3", "ab", "sphinx.toml", "p_pentomino_four.toml"):
        t = tiling(name)
        piece = next(t.sheet((5000, 5000)))
        assert 1000 < len(piece) < 200_000, name
        assert isinstance(piece.shifts, np.ndarray)


def test_what_is_inside_reaches_nowhere_out(tiling):
    """Each point whose tile could reach out of a window counts as at its rim, however little it does."""
    for name in ("p3", "ab", "sphinx.toml"):
        t, box = tiling(name), Box((3, -1, 0, 0), (9, 8))
        width = 2 if t.order in (4, 6) else 4
        shifts = np.zeros((200_000, 4), np.int64)
        shifts[:, :width] = np.random.default_rng(1).integers(-12, 13, (len(shifts), width))
        away = np.abs(t.ring.steps @ (shifts - np.array(box.at)).T)
        out = (away > (np.array(box.half) - t.rule.reach)[:, None]).any(0)
        inside = np.setdiff1d(np.arange(len(shifts)), beyond(t.rule, shifts, box))
        assert not out[inside].any() and 100 < len(inside)
        near = out & (away < (np.array(box.half) - t.rule.reach)[:, None] + 0.01).all(0)
        assert near.any() or name != "p3"


def test_far_out_in_a_pool(tiling):
    """Nothing is cut off on the way between processes."""
    t, words = tiling("chair"), {
        "half": (30, 30),
        "at": (1_000_000, -1_000_000, 0, 0),
        "piece": (20, 20),
        "seed": 3,
    }
    alone = [it.tiles.tobytes() for it in t.sheet(**words)]
    with ProcessPoolExecutor(2) as executor:
        assert [it.tiles.tobytes() for it in t.sheet(**words, executor=executor)] == alone


@pytest.mark.parametrize("name", ["p3", "ab", "chair", "sphinx.toml", "penrose_p1.toml"])
@pytest.mark.parametrize("whole", [False, True])
def test_each_vertex_and_edge_of_a_region_once(tiling, name, whole):
    """They are those of a larger window that lie in the region, with its left and its lower side."""
    t, at, half, piece = tiling(name), (3, -2, 0, 0), (26, 22), (11, 9)
    large = t.window(at, (40, 36), 5)
    large = large.whole() if whole else large
    words = {"half": half, "at": at, "seed": 5, "piece": piece, "whole": whole}

    def lie_inside(points, scale):
        inside = np.ones(len(points), bool)
        for along, side in zip(t.ring.scaled(points - scale * np.array(at)), half):
            for row in (inside_side(t.ring, along, scale * side),):
                inside &= row
        return inside

    vertices = [tuple(it) for part in t.sheet(**words, of="vertices") for it in part.tolist()]
    wanted = large.vertices()[lie_inside(large.vertices(), 1)]
    assert len(set(vertices)) == len(vertices) and set(vertices) == set(map(tuple, wanted.tolist()))
    edges = [frozenset(map(tuple, it)) for part in t.sheet(**words, of="edges") for it in part.tolist()]
    ends = large.vertices()[large.edges()]
    ends = ends[lie_inside(ends.sum(1), 2)]
    assert len(set(edges)) == len(edges) and set(edges) == {frozenset(map(tuple, it)) for it in ends.tolist()}


def inside_side(ring, along, side):
    """Which numbers are from -side up to side, by fractions."""
    found = []
    for p, q in along.tolist():
        value = p + q * ring.surd
        assert abs(abs(value) - side) > 1e-9 or q == 0 or abs(value - round(value)) > 1e-12
        found.append(-side <= value < side if q else -side <= p < side)
    return np.array(found, bool)


def test_the_length_of_a_sheet_and_where_it_begins(tiling):
    t, words = tiling("p3"), {"half": (46, 61), "piece": (20, 15)}
    alone = [it.tiles.tobytes() for it in t.sheet(**words)]
    assert len(t.sheet(**words)) == len(alone) == sum(len(t.sheet(**words, part=(i, 2))) for i in (0, 1))
    for start in (0, 1, len(alone) - 1, len(alone)):
        pieces = t.sheet(**words, start=start)
        assert len(pieces) == len(alone) - start and [it.tiles.tobytes() for it in pieces] == alone[start:]
        assert pieces.done == len(alone) - start
    for start in (-1, len(alone) + 1):
        with pytest.raises(ValueError, match="start is from 0"):
            t.sheet(**words, start=start)


class Failed(Exception):
    """What `each` raises here."""


def failing(piece):
    if len(piece) % 7 == 3:
        raise Failed("no")
    return len(piece)


def test_a_piece_that_fails_is_named(tiling):
    t, words = tiling("p3"), {"half": (46, 61), "piece": (20, 15)}
    bad = next(i for i, it in enumerate(t.sheet(**words)) if len(it) % 7 == 3)
    with ProcessPoolExecutor(2) as executor:
        for pool in (None, executor):
            pieces = t.sheet(**words, executor=pool, each=failing)
            with pytest.raises(Failed) as fault:
                list(pieces)
            told = " ".join(getattr(fault.value, "__notes__", map(str, fault.value.args)))
            assert f"in piece {bad}" in told and f"start={bad}" in told and pieces.done == bad


def test_stopping_cancels_what_waits(tiling):
    """After a loop is left, nothing more is begun."""
    t, begun = tiling("p3"), []

    def each(piece):
        begun.append(len(piece))
        time.sleep(0.05)
        return len(piece)

    with ThreadPoolExecutor(1) as executor:
        pieces = t.sheet((200, 160), piece=(20, 20), executor=executor, each=each, ahead=30)
        next(pieces)
        start = time.monotonic()
        pieces.close()
    assert time.monotonic() - start < 1 and len(begun) <= 4


def test_a_region_beyond_reach_is_refused_at_the_call(tiling):
    for half, at in (
        ((1 << 22, 10), (0, 0, 0, 0)),
        ((10, 1 << 22), (0, 0, 0, 0)),
        ((4000, 10), ((1 << 20) - 10, 0, 0, 0)),
    ):
        with pytest.raises(ValueError, match="beyond"):
            tiling("p3").sheet(half, at)
    assert len(tiling("p3").sheet((10, 10), (1 << 20, 0, 0, 0))) == 1


@pytest.mark.parametrize("name", ["p3", "ab", "chair", "sphinx.toml"])
def test_a_piece_that_is_too_large_is_refused_at_the_call(tiling, name):
    """What is refused there, the engine refuses too."""
    t = tiling(name)
    sure = math.isqrt(int(200_000 * t.rule.greatest_area()) // 4) + 1
    sure += sure % 2
    for words in ({}, {"whole": True}, {"of": "edges"}):
        with pytest.raises(TooManyTiles, match="^piece: a window of half="):
            t.sheet((3 * sure, sure), piece=(sure, sure), **words)
        assert len(t.sheet((4, 4), piece=(sure, sure), **words)) == 1
    for glue in (False, True):
        with pytest.raises(TooManyTiles, match="meet the window"):
            t.machine.cover(Frame(), Box((0, 0, 0, 0), (sure, sure)), glue, False)
    with pytest.raises(ValueError, match=r"piece is at most 4096 .* not \(5000, 1\)"):
        t.sheet((5000, 1), piece=(5000, 1))


def test_progress_of_a_sheet(tiling, capsys, monkeypatch):
    """On a terminal only; a line a second without tqdm."""
    from pagnetuf import progress

    t, words = tiling("p3"), {"half": (46, 61), "piece": (20, 15), "progress": True}
    count = len(list(t.sheet(**words)))
    assert not capsys.readouterr().err
    monkeypatch.setattr(progress.sys.stderr, "isatty", lambda: True)
    monkeypatch.setattr(progress, "tqdm_bar", lambda *_: None)
    list(t.sheet(**words))
    assert f"{count} of {count} windows" in capsys.readouterr().err
