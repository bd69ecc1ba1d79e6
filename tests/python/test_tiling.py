"""The package against the program's own bytes, and against the literature."""
import doctest
import math
import os
import pickle
import random
import re
import subprocess
import sys

import numpy as np
import pytest
from conftest import BUILT_IN, RULES, TOP, rule_files
from pagnetuf import (
    BadAddress,
    BadListing,
    BadScript,
    BadWords,
    CoordLimit,
    DepthLimit,
    NoEdge,
    NoEngine,
    NoVertex,
    Outside,
    ProgramEngine,
    Refusal,
    Ring,
    RuleRefused,
    RuleTooLong,
    StarTooBig,
    Tiling,
    TooManyTiles,
    find_program,
)
from pagnetuf.refusals import BY_NAME, refusal_of
from pagnetuf.tiling import listing_of

PHI, DELTA = (1 + math.sqrt(5)) / 2, 1 + math.sqrt(2)
EVERY = [*BUILT_IN, *rule_files()]


def command(program, name, *words):
    file = b"" if name in BUILT_IN else open(os.path.join(RULES, name), "rb").read()
    rule = name if name in BUILT_IN else "-"
    return subprocess.run(
        [program, words[0], f"rule={rule}", *words[1:]], input=file, capture_output=True, check=False
    )


def numbers_of(name):
    """The document of a rule file, by Python's own reader."""
    tomllib = pytest.importorskip("tomllib")
    with open(os.path.join(RULES, BUILT_IN.get(name, name).replace(".toml", "") + ".toml"), "rb") as file:
        return tomllib.load(file)


@pytest.mark.parametrize("name", EVERY)
def test_the_numbers_of_a_rule_are_those_of_its_file(tiling, name):
    document, rule = numbers_of(name), tiling(name).rule
    assert (rule.order, rule.factor.tolist()) == (document["order"], document["lambda"])
    mates = [entry["mate"] for entry in document["type"]]
    glue = {kind for given in document["glue"] for kind in (given, mates[given])}
    types = []
    for kind, entry in zip(rule.kinds, document["kind"]):
        assert kind.vertices.tolist() == entry["vertices"] and kind.children.tolist() == entry["children"]
        edges = [edge for edge, type_of in enumerate(entry["edges"]) if type_of in glue]
        assert kind.glue_edge == (edges[0] if edges else -1)
        types.append(entry["edges"][edges[0]] if edges else None)
    assert len(rule.kinds) == len(document["kind"]) and rule.glue == bool(glue)
    # (whole tiles: those that are no halves, and those of first halves, whose mate has the same kind or a
    # later one)
    assert rule.whole_kinds == [i for i, it in enumerate(types) if it is None or mates[it] in types[i:]]
    assert rule.from_text(rule.to_text()).to_text() == rule.to_text()


def test_a_rule_file_of_toml_1_1(program, tmp_path):
    """A byte order mark, and inline tables over several lines with a comma at the end: the program takes
    them, and so does the package."""
    with open(os.path.join(RULES, "square_four.toml"), encoding="utf-8") as file:
        head, _, rest = file.read().partition("[[type]]")
        kind = "[[kind]]" + rest.partition("[[kind]]")[2]
    entry = "type = [{\n  mate = 0, # its own\n  parts = [0, 0],\n}]\n"
    path = tmp_path / "square.toml"
    path.write_bytes(b"\xef\xbb\xbf" + (head + entry + kind).encode())
    known = Tiling.from_file(os.path.join(RULES, "square_four.toml"))
    assert Tiling.from_file(path).window(half=(6, 4)).listing() == known.window(half=(6, 4)).listing()


@pytest.mark.parametrize("name", EVERY)
def test_a_window_is_the_list(tiling, program, name):
    chance = random.Random(name)
    t = tiling(name)
    for seed in (0, 5):
        at = t.ring.near(chance.uniform(-500, 500), chance.uniform(-500, 500)).tolist()
        half = chance.randint(1, 14), chance.randint(1, 14)
        words = [
            "draw",
            f"seed={seed}",
            "addr=0:",
            "at=" + ",".join(map(str, at)),
            f"half={half[0]},{half[1]}",
            "layers=list",
        ]
        try:
            window = t.window(at, half, seed)
        except Refusal as refused:
            assert command(program, name, *words).stderr.decode().strip() == refused.line
            continue
        wanted = command(program, name, *words).stdout.decode()
        assert window.listing() == wanted == listing_of(window)
        whole = window.whole()
        text = command(program, name, *words, "glue=yes").stdout.decode()
        assert [whole.address(i) for i in range(len(whole))] == [
            " + ".join(half.split()[3] for half in line.split(" + ")) for line in text.splitlines()
        ]
        assert window.listing(True) == text


@pytest.mark.parametrize("name", EVERY)
def test_outlines_are_those_of_the_picture(tiling, program, name):
    """The numbers of the picture are X and Y of each corner, less those of the centre, in thousandths,
    rounded down."""
    t = tiling(name)
    for whole in (False, True):
        words = ["draw", "addr=0:", "at=0,0,0,0", "half=9,8", "layers=svg"] + (["glue=yes"] if whole else [])
        text = command(program, name, *words).stdout.decode()
        drawn = [
            [tuple(map(int, corner.split())) for corner in line.split('d="M')[1].split("Z")[0].split("L")]
            for line in text.splitlines()
            if line.startswith("<path")
        ]
        window = t.window(half=(9, 8))
        patch = window.whole() if whole else window
        x, y = t.ring.scaled(patch.outlines())
        places = np.stack([t.ring.value(x), t.ring.value(y)], -1) * 1000
        for row, corners, count in zip(drawn, places, patch.counts):
            assert len(row) == count
            gap = corners[:count] - row
            assert (gap > -1e-6).all() and (gap < 1 + 1e-6).all()


@pytest.mark.parametrize("name", EVERY)
def test_a_patch_is_a_disc_whose_neighbours_agree(tiling, name):
    window = tiling(name).window(half=(12, 9))
    for patch in (window, window.whole()):
        assert len(patch.vertices()) - len(patch.edges()) + len(patch) == 1
        corners, near, rows = patch.corners(), patch.neighbours(), patch.adjacency()
        for a, b, mine, theirs in rows.tolist():
            assert near[a, mine] == b and near[b, theirs] == a
            here = corners[a, mine], corners[a, (mine + 1) % patch.counts[a]]
            there = corners[b, theirs], corners[b, (theirs + 1) % patch.counts[b]]
            assert here == there[::-1]
        assert 2 * len(rows) + (near < 0).sum() - (corners < 0).sum() == (corners >= 0).sum()
        assert not (patch.vertices()[corners[corners >= 0]] - patch.outlines()[corners >= 0]).any()


@pytest.mark.parametrize("name", EVERY)
def test_neighbours_are_those_of_the_program(tiling, name):
    t, random_tiles = tiling(name), random.Random(name)
    window = t.window(half=(8, 6), seed=3)
    rows = random_tiles.sample(window.adjacency().tolist(), 8)
    for a, b, mine, theirs in rows:
        assert t.neighbour(window.address(a), mine) == (window.address(b), theirs)
    there, numbers = t.neighbour_all([window.address(row[0]) for row in rows], [row[2] for row in rows])
    assert there == [window.address(row[1]) for row in rows]
    assert numbers.tolist() == [[row[3], 0] for row in rows]


@pytest.mark.parametrize("name", EVERY)
def test_stars_are_those_of_the_program(tiling, name):
    """`star` and the window's own neighbours lead round an inner vertex alike."""
    t = tiling(name)
    window = t.window(half=(8, 6), seed=1)
    labels, numbers = window.star_labels()
    inner = [
        (tile, corner)
        for tile in range(len(window))
        for corner in range(window.counts[tile])
        if numbers[window.corners()[tile, corner]] >= 0
    ]
    for tile, corner in random.Random(name).sample(inner, 5):
        ring = [(it.kind, it.vertex) for it in t.star(window.address(tile), corner, seed=1)]
        assert (
            min(tuple(ring[i:] + ring[:i]) for i in range(len(ring)))
            == labels[numbers[window.corners()[tile, corner]]]
        )


# de Bruijn 1981; Grünbaum and Shephard, chapter 10; docs/MATHEMATICS.md, "The tiles around a vertex"
RHOMBS = {
    (2, 1): PHI**-2,
    (3, 2): PHI**-3,
    (1, 2): PHI**-4,
    (3, 1): PHI**-5,
    (3, 4): PHI**-6,
    (4, 2): PHI**-7,
}


def test_the_eight_stars_of_penrose_rhombs(tiling):
    stars = tiling("p3").window(half=(130, 130)).whole().stars()
    total = sum(stars.values())
    found = {}
    for star, count in stars.items():
        thick = sum(kind == 2 for kind, _ in star)
        found.setdefault((thick, len(star) - thick), []).append(count / total)
    fives = sorted(found.pop((5, 0)))
    assert {key: len(shares) for key, shares in found.items()} == {key: 1 for key in RHOMBS}
    for key, share in RHOMBS.items():
        assert abs(found[key][0] - share) < 0.004
    assert (
        abs(fives[1] - PHI**-5 / math.sqrt(5)) < 0.003 and abs(fives[0] - PHI**-7 / math.sqrt(5)) < 0.003
    )


def test_the_seven_stars_of_kites_and_darts(tiling):
    stars = tiling("p2").window(half=(130, 130)).whole().stars()
    shares = sorted((count / sum(stars.values()) for count in stars.values()), reverse=True)
    wanted = [
        PHI**-2,
        PHI**-3,
        PHI**-4,
        PHI**-5,
        PHI**-4 / math.sqrt(5),
        PHI**-6,
        PHI**-6 / math.sqrt(5),
    ]
    assert np.allclose(shares, sorted(wanted, reverse=True), atol=0.004)


def test_perpendicular_space_of_penrose_rhombs(tiling):
    """De Bruijn's four pentagons: radii 1, phi, phi, 1, one for each class that occurs."""
    patch = tiling("p3").window(half=(130, 130))
    points, places = patch.vertices(), patch.perpendicular()
    classes = (points @ [1, -1, 1, -1]) % 5
    radii = []
    for number in np.unique(classes):
        some = places[classes == number]
        turned = np.stack([some @ (math.cos(a), math.sin(a)) for a in np.arange(10) * math.pi / 5])
        radii.append((turned.max(1) - turned.min(1)).max() / (1 + math.cos(math.pi / 5)))
    assert len(radii) == 4
    assert np.allclose(sorted(radii), [1, 1, PHI, PHI], atol=0.05)


def test_perpendicular_space_of_ammann_beenker(tiling):
    """Beenker's octagon, 1 + sqrt 2 wide."""
    places = tiling("ab").window(half=(120, 120)).whole().perpendicular()
    for angle in np.arange(8) * math.pi / 4:
        along = places @ (math.cos(angle), math.sin(angle))
        assert DELTA - 0.06 < along.max() - along.min() < DELTA


def test_shares_of_tiles(tiling):
    """Thick to thin, and kites to darts, as phi to 1; rhombs to squares as sqrt 2 to 1."""
    for name, first, share in (("p3", 0, PHI**-2), ("p2", 0, PHI**-1), ("ab", 0, None)):
        kinds = tiling(name).window(half=(120, 120)).whole().kinds
        part = (kinds == first).mean()
        wanted = [share, 1 - share] if share else [math.sqrt(2) - 1, 2 - math.sqrt(2)]
        assert min(abs(part - it) for it in wanted) < 0.005


def test_refusals_by_name_and_number(tiling, program):
    t = tiling("chair")
    for error, status, fields, ask in [
        (BadAddress, 4, ("BadText", "0"), lambda: t.place("x")),
        (BadAddress, 4, ("UnknownKind", "0"), lambda: t.place("1:")),
        (NoEdge, 12, ("9", "8"), lambda: t.neighbour("0:0/0", 9)),
        (Outside, 8, ("4", "0"), lambda: t.neighbour("0:0/0", 4)),
        (NoVertex, 15, ("8", "8"), lambda: t.star("0:", 8)),
        (TooManyTiles, 7, (), lambda: t.window(half=(4000, 4000))),
        (BadWords, 2, ("4",), lambda: t.window(half=(0, 1))),
        (BadListing, 17, ("Missing", "0:1/0"), lambda: t.verify("", (1, 1, 0, 0), (2, 1), 42)),
        (BadAddress, 4, ("BadText", "0"), lambda: t.pair("x", "0:")),
    ]:
        with pytest.raises(error) as caught:
            ask()
        assert caught.value.status == status and (caught.value.fields == fields or error is BadWords)
    with pytest.raises(BadWords, match="'penrose' is no tiling; .* names are chair.*from_file") as caught:
        Tiling("penrose")
    assert caught.value.status == 2
    assert Tiling("sphinx").rule.order == 6 and Tiling("sphinx") == tiling("sphinx.toml")
    with pytest.raises(RuleRefused) as caught:
        Tiling.from_bytes(b"")
    assert caught.value.line == "3 RuleRefused Missing format"
    with pytest.raises(RuleTooLong):
        Tiling.from_bytes(b"#" * ((1 << 20) + 1))
    assert isinstance(refusal_of("killed"), NoEngine)


def test_each_refusal_has_the_number_of_the_document():
    """The names and numbers of docs/FORMATS.md, "Notes and exit codes". The program lacks no layer."""
    with open(os.path.join(TOP, "docs", "FORMATS.md"), encoding="utf-8") as file:
        rows = re.findall(r"^\| (\d+) \| `(\d+) (\w+)", file.read(), re.M)
    assert len(rows) > 15 and all(code == number for code, number, _ in rows)
    assert {name: int(code) for code, _, name in rows} == {
        **{name: kind.status for name, kind in BY_NAME.items()},
        "NoLayer": 14,
    }
    for name, kind in BY_NAME.items():
        line = f"{kind.status} {name} 4 a,b"
        assert type(refusal_of(line)) is kind and refusal_of(line).line == line
        assert pickle.loads(pickle.dumps(refusal_of(line))).line == line
        assert isinstance(refusal_of(f"{kind.status + 30} {name}"), NoEngine)


def test_refusals_at_the_limits(tiling, program):
    """The examples of docs/FORMATS.md, "Each refusal by example"."""
    t, deep = tiling("chair"), ",".join(["0/0"] * 64)
    far, script = (1000000, 1000000, 0, 0), ["calc", "rule=chair"]
    for error, fields, ask in [
        (CoordLimit, ("26843544,13421772,0,0",), lambda: t.place("0:" + ",".join(["2/0"] * 40))),
        (CoordLimit, ("-16468338,-26972202,0,0",), lambda: t.window(far, (20, 10), 10)),
        (DepthLimit, (f"0:{deep}", "3"), lambda: t.window(half=(2, 1), addr=f"0:{deep}")),
        (DepthLimit, (f"0:{deep}", "3"), lambda: t.star(f"0:{deep}", 4)),
        (BadAddress, ("TooDeep",), lambda: t.place(f"0:{deep},0/0")),
        (BadAddress, ("WrongChild", "0"), lambda: t.walk("0:4/0", [0])),
        (NoEdge, ("9", "8"), lambda: t.walk("0:", [9])),
        (BadScript, ("UnknownName", "1"), lambda: ProgramEngine(program).call(script, b"show a\n")),
    ]:
        with pytest.raises(error) as caught:
            ask()
        assert caught.value.fields == fields


def test_what_the_package_itself_refuses(tiling, program):
    t = tiling("p3")
    window = t.window(half=(4, 3))
    apart = window.chosen(np.flatnonzero((window.middles() ** 2).sum(1) > 3))
    far = apart.chosen([0, len(apart) - 1])
    for error, told, ask in [
        (ValueError, "4, 6, 8 or 10", lambda: Ring(5)),
        (ValueError, "one entry for each", lambda: t.neighbour_all(["0:0/0"], [])),
        (ValueError, "only 1 tiles are connected", lambda: far.connected(2)),
        (ValueError, "there are no tiles", lambda: window.chosen([]).connected(1)),
        (ValueError, "at least 1", lambda: t.sheet((0, 5))),
        (ValueError, "at has 4 whole numbers, and not 3", lambda: t.window((1, 2, 3))),
        (ValueError, "half has 2 whole numbers, and not 3", lambda: t.window(half=(1, 2, 3))),
        (BadWords, "2 BadWords 1", lambda: ProgramEngine(program).machine("penrose")),
        (NoEngine, "can't be run", lambda: Tiling("p3", ProgramEngine(RULES)).place("0:")),
        (NoEngine, "can't be run", lambda: Tiling("p3", ProgramEngine(program + ".none")).place("0:")),
        (OSError, "No such file", lambda: Tiling.from_file("none.toml")),
    ]:
        with pytest.raises(error, match=told):
            ask()
    assert repr(t) == "Tiling('p3')"


def test_no_program(monkeypatch, tmp_path):
    monkeypatch.setenv("TILING_PROGRAM", str(tmp_path / "none"))
    with pytest.raises(NoEngine, match="TILING_PROGRAM.*--build"):
        find_program()
    (tmp_path / "none").write_text("")  # (a file that can't be executed)
    with pytest.raises(NoEngine):
        find_program()


@pytest.mark.parametrize("count", [64, 65])
def test_a_star_of_very_many_tiles(program, count):
    """tools/fan_rule.py makes a rule that puts so many tiles around a vertex; a star has at most 64."""
    script = os.path.join(TOP, "tools", "fan_rule.py")
    rule = subprocess.run([sys.executable, script, str(count)], capture_output=True, check=True).stdout
    t = Tiling.from_bytes(rule)
    if count > 64:
        with pytest.raises(StarTooBig):
            t.star("3:0/1,6/0,0/0", 1)
    else:
        assert len(t.star("3:0/1,6/0,0/0", 1)) == 64


def test_questions_in_bulk_are_those_asked_alone(tiling):
    for name in ("p3", "sphinx.toml"):
        t = tiling(name)
        asked = ["0:0/0", "9:", "", "0:0/0\nshow b", "0:1/0,1/0", "x"]
        for address, tile in zip(asked, t.place_all(asked)):
            try:
                placed, status = t.place(address), 0
            except Refusal as refused:
                placed, status = None, refused.status
            assert tile["status"] == status
            assert placed is None or placed == (tile["kind"], tile["turn"], tuple(tile["shift"].tolist()))
        for address, there, (edge, status) in zip(asked, *t.neighbour_all(asked, [0] * 6)):
            try:
                assert t.neighbour(address, 0) == (there, edge) and status == 0
            except Refusal as refused:
                assert (there, status) == (address, refused.status)


def test_pairs_walks_and_common_levels(tiling):
    t = tiling("chair")  # docs/FORMATS.md, "Scripts" and "Star"
    assert t.pair("0:0/0,1/0", "0:1/0,0/0") == ("beside", ((3, 0), (4, 7)))
    assert t.common("0:0/0,1/0", "0:1/0,0/0") == 2
    assert t.pair("0:", "0:").relation == "same" and t.pair("0:", "0:0/0") == ("strangers", ())
    assert [(it.address, it.vertex) for it in t.star("0:", 0, 42)] == [("0:3/0", 0), ("0:1/0", 2)]
    walk = tiling("p3").walk("0:", [0, 1])
    assert walk[0].edge is None and len(walk) == 3


def test_locate_finds_the_tiles_that_hold_a_point(tiling):
    for name in EVERY[:12]:
        t = tiling(name)
        window = t.window(half=(6, 5))
        labels, numbers = window.star_labels()
        degrees = np.bincount(window.corners()[window.corners() >= 0], minlength=len(numbers))
        for vertex in np.flatnonzero(numbers >= 0)[:4]:
            found = t.locate(window.vertices()[vertex])
            assert len(found) == degrees[vertex]
            assert all((corners == window.vertices()[vertex]).all(1).any() for corners in found.outlines())


def motions(patch):
    return sorted(zip(patch.kinds.tolist(), patch.turns.tolist(), map(tuple, patch.shifts.tolist())))


def turns_around(loop, z):
    """How often a polygon goes around a point, in floats, or None if the point is on it."""
    steps = np.angle((np.roll(loop, -1) - z) / (loop - z)) if abs(loop - z).min() > 1e-6 else [math.pi]
    return round(sum(steps) / (2 * math.pi)) if max(map(abs, steps)) < math.pi - 1e-6 else None


@pytest.mark.parametrize("name", ["p3", "p2", "ab", "silver_mean_squares.toml", "penrose_p1.toml"])
def test_locate_finds_the_tile_around_a_point(tiling, name):
    """Points of the ring lie densely, so some are inside tiles, where floats say the same."""
    t, chance, tried = tiling(name), random.Random(name), 0
    window = t.window(half=(16, 14))
    corners = [row[:count] @ (1, 1j) for row, count in zip(window.xy(), window.counts)]
    while tried < 15:
        point = np.array([chance.randint(-3, 3) for _ in range(4)])
        z = complex(*t.ring.xy(point))
        around = [turns_around(loop, z) for loop in corners]
        if abs(z) < 6 and None not in around:
            tried += 1
            wanted = window.chosen(np.flatnonzero(around))
            assert len(wanted) == 1 and motions(t.locate(point)) == motions(wanted)


def test_locate_finds_the_two_tiles_of_an_edge(tiling):
    """An edge of length phi of kites and darts, a step from its start."""
    t = tiling("p2")
    window, tried = t.window(half=(9, 8)), 0
    for a, b, edge, _ in window.adjacency().tolist():
        start, end = window.outlines()[a][[edge, (edge + 1) % 3]]
        along = complex(*t.ring.xy(end - start))
        if abs(along) > 1.5:
            step = t.ring.powers[round(np.angle(along) / (math.pi / 5)) % 10, 0]
            assert motions(t.locate(start + step)) == motions(window.chosen([a, b]))
            tried += 1
    assert tried > 50


def test_a_tiling_goes_through_a_pickle(tiling):
    for name in ("ab", "sphinx.toml"):
        t = tiling(name)
        again = pickle.loads(pickle.dumps(t))
        assert again.window(half=(5, 5)).listing() == t.window(half=(5, 5)).listing()


def test_the_examples_of_the_help(program):
    import pagnetuf.tiling

    failed, tried = doctest.testmod(pagnetuf.tiling)
    assert not failed and tried > 4


def test_networkx_graph(tiling):
    pytest.importorskip("networkx")
    patch = tiling("p3").window(half=(6, 5)).whole()
    graph = patch.to_networkx()
    assert len(graph) == len(patch) and graph.number_of_edges() == len(patch.adjacency())
