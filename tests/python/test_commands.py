"""The commands as they are typed."""
import json
import os
import re
import shlex
import subprocess
import sys
import xml.etree.ElementTree as ElementTree

import numpy as np
import pytest
from conftest import BUILT_IN, RULES, SVG, TOP, environment_of, rule_files
from pagnetuf import Patch
from pagnetuf.commands.command_line import COMMANDS
from pagnetuf.commands.rules import FILES, title_of


@pytest.mark.parametrize("name", COMMANDS)
def test_help_and_wrong_words(pagnetuf, name):
    status, out, err = pagnetuf(name, "--help")
    assert status == 0 and f"pagnetuf {name}" in out and not err
    status, out, err = pagnetuf(name, "--nonsense")
    assert status == 2 and not out and "usage" in err


def test_no_words_print_the_usage(pagnetuf):
    status, out, err = pagnetuf()
    assert status == 2 and not out and all(name in err for name in COMMANDS)


def test_the_version(pagnetuf):
    """It stands in one place: that of the package."""
    with open(os.path.join(TOP, "python", "pagnetuf", "__init__.py"), encoding="utf-8") as file:
        version = re.search(r'^__version__ = "(.*)"$', file.read(), re.M)[1]
    with open(os.path.join(TOP, "python", "pyproject.toml"), encoding="utf-8") as file:
        assert version not in file.read()
    assert pagnetuf("--version") == (0, f"pagnetuf {version}\n", "")


def test_the_rules(pagnetuf):
    """Each is a line: the built-in ones, and all rule files of the package. A command takes each name."""
    status, out, err = pagnetuf("rules")
    titles = dict(re.fullmatch(r"(\w+) +(\S.*)", line).groups() for line in out.splitlines())
    assert status == 0 and not err and max(map(len, out.splitlines())) < 130
    assert set(titles) == {*BUILT_IN, *(name[: -len(".toml")] for name in rule_files())}
    assert len(titles) == out.count("\n")
    assert [*titles][: len(BUILT_IN)] == ["p3", "p2", "ab", "chair", "halfhex"]
    assert titles["p2"] == "Penrose's kites and darts"
    assert titles["penrose_p1"].startswith("R. Penrose's first tiling, by pentagons")
    for name in ("halfhex", "half_hex", "sphinx"):
        assert pagnetuf("board", name, "--tiles", 1)[0] == 0
    assert "rules" in pagnetuf("--help")[1]


def test_the_files_of_the_built_in_rules_are_the_same():
    for name, same in FILES.items():
        assert BUILT_IN[same] == name


def test_the_rules_where_letters_are_few(library):
    ran = subprocess.run(
        [sys.executable, "-m", "pagnetuf", "rules"],
        capture_output=True,
        check=False,
        env=environment_of(PYTHONIOENCODING="ascii"),
    )
    assert ran.returncode == 0 and b"sides ?2 and 1" in ran.stdout and not ran.stderr


def test_titles_of_rule_files(tmp_path):
    path = tmp_path / "it.toml"
    long = "It is long: " + "and so on " * 10
    for text, title in (
        ("# One, by\n# R. Penrose. Two.\n", "One, by R. Penrose"),
        (f"# {long}\n", "It is long"),
        ("order = 4\n# No title\n", ""),
        ("", ""),
    ):
        path.write_text(text)
        assert title_of(path) == title


@pytest.mark.parametrize("name", ["board", "poster", "atlas"])
def test_a_file_that_cannot_be_written(pagnetuf, tmp_path, name):
    for path, cause in (
        (tmp_path, "Is a directory"),
        (tmp_path / "none" / "it", "No such file or directory"),
        ("/dev/full", "No space left on device"),
    ):
        status, out, err = pagnetuf(name, "p3", "--out", path)
        assert status == 1 and not out and cause in err.splitlines()[-1]


@pytest.mark.parametrize("name", ["board", "poster", "atlas"])
@pytest.mark.parametrize(
    "end, cause", [("> /dev/full", "standard output can't be written"), (">&-", "standard output is closed")]
)
def test_an_output_that_takes_nothing(library, name, end, cause):
    line = f'exec "{sys.executable}" -m pagnetuf {name} p3 {end}'
    ran = subprocess.run(
        ["sh", "-c", line], stderr=subprocess.PIPE, text=True, check=False, env=environment_of()
    )
    assert ran.returncode == 1 and cause in ran.stderr.splitlines()[-1] and "Traceback" not in ran.stderr


def test_a_closed_pipe_ends_without_a_word(library):
    for words in (
        ["board", "p3", "--half", "100,80"],
        ["poster", "p3"],
        ["atlas", "p3"],
        ["board", "--help"],
    ):
        reader, writer = os.pipe()
        os.close(reader)
        ran = subprocess.run(
            [sys.executable, "-m", "pagnetuf", *words],
            stdout=writer,
            stderr=subprocess.PIPE,
            check=False,
            env=environment_of(),
        )
        os.close(writer)
        told = ran.stderr.decode().splitlines()
        told = [line for line in told if " tiles; the same window: ./tiling draw " not in line]
        assert not told and ran.returncode > 0


@pytest.mark.parametrize(
    "words, status, told",
    [
        (("board", "nosuch"), 1, "there is no tiling nosuch"),
        (("board", "nosuch"), 1, "python3 -m pagnetuf rules lists the names"),
        (("board", "p3", "--addr", "9:"), 4, "4 BadAddress UnknownKind 0"),
        (("board", "p3", "--half", "4000,4000"), 7, "7 TooManyTiles"),
        (("board", "p3", "--half", "0,1"), 2, "0,1"),
        (("board", "p3", "--to", "npz"), 1, "--out"),
        (("board", "p3", "--to", "csv"), 1, "--out"),
        (("board", os.path.join(RULES, "README.md")), 3, "3 RuleRefused"),
    ],
)
def test_troubles_are_told(pagnetuf, words, status, told):
    got, out, err = pagnetuf(*words)
    assert got == status and not out and told in err


@pytest.mark.parametrize(
    "rule", [*BUILT_IN, os.path.join(RULES, "sphinx.toml"), os.path.join(RULES, "tuebingen_triangles.toml")]
)
@pytest.mark.parametrize("count", [1, 60])
def test_a_board_of_so_many_tiles(pagnetuf, rule, count):
    status, out, _ = pagnetuf("board", rule, "--tiles", count, "--at", "-3,1,0,0")
    board = json.loads(out)
    tiles, vertices = board["tiles"], board["vertices"]
    assert status == 0 and len(tiles) == count and [it["id"] for it in tiles] == list(range(count))
    reached, edge = {0}, [0]
    while edge:
        for other in tiles[edge.pop()]["neighbours"]:
            if other is not None and other not in reached:
                reached.add(other)
                edge.append(other)
    assert len(reached) == count
    sides = {}
    for tile in tiles:
        for i, start in enumerate(tile["corners"]):
            sides[start, tile["corners"][(i + 1) % len(tile["corners"])]] = tile["id"]
    for tile in tiles:
        for i, near in enumerate(tile["neighbours"]):
            start, end = tile["corners"][i], tile["corners"][(i + 1) % len(tile["corners"])]
            assert sides.get((end, start)) == near
    assert len(vertices) - len({frozenset(side) for side in sides}) + count == 1
    assert {corner for tile in tiles for corner in tile["corners"]} == set(range(len(vertices)))


@pytest.mark.parametrize("words", [(), ("--halves",)])
def test_a_board_of_more_tiles_than_a_window(pagnetuf, monkeypatch, tiling, words):
    """The program lists no more than 200,000 tiles of a window; then the board is of windows side by side."""
    from pagnetuf.commands import board
    from pagnetuf.engine import Box, Frame
    from pagnetuf.refusals import TooManyTiles

    t, frame, box = tiling("p3"), Frame(), Box((0, 0, 0, 0), (50, 40))
    one = board.in_windows(t, frame, box, not words)

    def refused(*_):
        raise TooManyTiles

    monkeypatch.setattr(board, "in_window", refused)
    several = board.in_windows(t, frame, box, not words)
    motions = [sorted(zip(it.kinds, it.turns, map(tuple, it.shifts.tolist()))) for it in (one, several)]
    assert motions[0] == motions[1]
    status, out, _ = pagnetuf("board", "p3", "--tiles", "50000", "--shape", "nearest", *words)
    assert status == 0 and len(json.loads(out)["tiles"]) == 50_000


SCHEMA = os.path.join(TOP, "python", "pagnetuf", "board.schema.json")
BOARDS = [
    ("p3", "--tiles", 60),
    ("p3", "--half", "6,5", "--halves"),
    ("chair", "--tiles", 12, "--shape", "rectangle"),
    (os.path.join(RULES, "penrose_p1.toml"), "--tiles", 30, "--at", "-3,1,0,0", "--seed", 7),
    ("ab", "--half", "1,1", "--addr", "1:"),
]


@pytest.mark.parametrize("words", BOARDS)
def test_a_board_keeps_its_schema(pagnetuf, words):
    """And the command that it names makes it again."""
    jsonschema = pytest.importorskip("jsonschema")
    with open(SCHEMA, encoding="utf-8") as file:
        schema = json.load(file)
    jsonschema.Draft7Validator.check_schema(schema)
    status, out, _ = pagnetuf("board", *words)
    board = json.loads(out)
    jsonschema.validate(board, schema)
    first, *again = shlex.split(board["made_by"])
    assert status == 0 and first == "pagnetuf" and pagnetuf(*again)[1] == out
    for spoilt in ({"format": 2}, {"order": 5}, {"tiles": [{}]}, {"more": 1}):
        with pytest.raises(jsonschema.ValidationError):
            jsonschema.validate({**board, **spoilt}, schema)


def board_of_csv(folder):
    """The content of the six files, as JSON has it."""
    pandas = pytest.importorskip("pandas")
    read = {
        name: pandas.read_csv(folder / f"b_{name}.csv", dtype=str, keep_default_na=False).to_dict("records")
        for name in ("board", "tiles", "vertices", "edges", "rim", "stars")
    }
    board = {row["name"]: json.loads(row["value"]) for row in read.pop("board")}
    lists = {"shift", "corners", "neighbours", "backs", "exact", "vertices", "tiles", "numbers"}

    def value(name, text):
        if name in lists:
            return [value("", it) for it in text.split()]
        if "/" in text and name != "address":
            return [int(it) for it in text.split("/")]
        return (
            None
            if text == "-"
            else float(text)
            if name in "xy" and name
            else text
            if name == "address"
            else int(text)
        )

    rows = {
        name: [{key: value(key, it) for key, it in row.items()} for row in table]
        for name, table in read.items()
    }
    return {**board, **rows}


def board_of_arrays(path):
    """The content of the arrays, as JSON has it."""
    found = np.load(path)
    board = json.loads(str(found["head"]))

    def cut(name, lengths, ending=None):
        return (
            [part.tolist() for part in np.split(found[name], np.cumsum(found[lengths])[:-1])]
            if len(found[lengths])
            else []
        )

    def known(numbers):
        return [None if it < 0 else it for it in numbers]

    counts = found["counts"].tolist()
    columns = [found[name].tolist() for name in ("corners", "neighbours", "backs")]
    named = ("kind", "turn", "shift", "address", "corners", "neighbours", "backs")
    tiles = [
        dict(
            zip(
                ("id", *named),
                (i, kind, turn, shift, address, *(known(part[i][: counts[i]]) for part in columns)),
            )
        )
        for i, (kind, turn, shift, address) in enumerate(
            zip(*(found[name].tolist() for name in ("kinds", "turns", "shifts", "addresses")))
        )
    ]
    vertices = [
        {"id": i, "x": x, "y": y, "exact": exact, "star": star if star >= 0 else None}
        for i, ((x, y), exact, star) in enumerate(
            zip(*(found[name].tolist() for name in ("points", "vertices", "vertex_stars")))
        )
    ]
    edges = [
        {"id": i, "vertices": ends, "tiles": known(sides[:2]), "numbers": known(sides[2:])}
        for i, (ends, sides) in enumerate(zip(found["edges"].tolist(), found["sides"].tolist()))
    ]
    rim = [{"id": i, "vertices": loop} for i, loop in enumerate(cut("rim", "rim_lengths"))]
    stars = [{"id": i, "tiles": star} for i, star in enumerate(cut("stars", "star_lengths"))]
    return {**board, "tiles": tiles, "vertices": vertices, "edges": edges, "rim": rim, "stars": stars}


@pytest.mark.parametrize("words", BOARDS)
def test_json_csv_and_arrays_hold_the_same(pagnetuf, tmp_path, words):
    board = json.loads(pagnetuf("board", *words)[1])
    assert pagnetuf("board", *words, "--to", "csv", "--out", tmp_path / "b")[0] == 0
    assert pagnetuf("board", *words, "--to", "npz", "--out", tmp_path / "b.npz")[0] == 0
    assert board_of_csv(tmp_path) == board == board_of_arrays(tmp_path / "b.npz")
    names = sorted(os.listdir(tmp_path))
    assert names == [
        "b.npz",
        *(f"b_{name}.csv" for name in ("board", "edges", "rim", "stars", "tiles", "vertices")),
    ]


@pytest.mark.parametrize("words", BOARDS)
def test_a_board_is_the_patch(pagnetuf, tmp_path, words):
    """Each number of it, against the patch that the arrays make."""
    board = json.loads(pagnetuf("board", *words)[1])
    pagnetuf("board", *words, "--to", "npz", "--out", tmp_path / "b.npz")
    patch = Patch.from_npz(tmp_path / "b.npz")
    names, numbers = patch.star_labels()
    assert [[tuple(pair) for pair in star["tiles"]] for star in board["stars"]] == [
        list(star) for star in names
    ]
    assert [-1 if it["star"] is None else it["star"] for it in board["vertices"]] == numbers.tolist()
    assert np.allclose([[it["x"], it["y"]] for it in board["vertices"]], patch.rule.ring.xy(patch.vertices()))
    assert [it["exact"] for it in board["vertices"]] == patch.vertices().tolist()
    assert [it["address"] for it in board["tiles"]] == patch.address_texts()
    tiles, sides = board["tiles"], {}
    for tile in tiles:
        for i, start in enumerate(tile["corners"]):
            sides[start, tile["corners"][(i + 1) % len(tile["corners"])]] = tile["id"], i
    for tile in tiles:
        for i, (near, back) in enumerate(zip(tile["neighbours"], tile["backs"])):
            start, end = tile["corners"][i], tile["corners"][(i + 1) % len(tile["corners"])]
            assert sides.get((end, start), (None, None)) == (near, back)
    assert len(board["edges"]) == len({frozenset(side) for side in sides})
    for edge in board["edges"]:
        a, b = edge["vertices"]
        assert a < b
        both = [sides.get(side, (None, None)) for side in ((a, b), (b, a))]
        assert [edge["tiles"], edge["numbers"]] == [list(it) for it in zip(*both)]
    rim = {
        step
        for loop in board["rim"]
        for step in zip(loop["vertices"], loop["vertices"][1:] + loop["vertices"][:1])
    }
    assert rim == {side for side in sides if side[::-1] not in sides}


@pytest.mark.parametrize("name", ["p3", "p2", "ab", "chair", "halfhex"])
@pytest.mark.parametrize("shape", ["round", "rectangle"])
def test_a_smooth_board_has_no_thorns(pagnetuf, name, shape):
    """Each tile shares two edges or more."""
    for count in (12, 60):
        board = json.loads(pagnetuf("board", name, "--tiles", count, "--shape", shape)[1])
        assert len(board["tiles"]) == count and len(board["rim"]) == 1
        shared = [sum(near is not None for near in tile["neighbours"]) for tile in board["tiles"]]
        assert min(shared) > 1


def test_a_board_as_a_picture(pagnetuf):
    status, picture, _ = pagnetuf("board", "p3", "--half", "6,5", "--to", "svg", "--by", "neighbours")
    tiles = list(ElementTree.fromstring(picture).iter(SVG + "polygon"))
    assert status == 0 and [it.get("id") for it in tiles] == [f"tile{i}" for i in range(68)]
    near = [[int(it) for it in tile.get("data-near").split() if it != "-"] for tile in tiles]
    looks = [tile.get("class").split()[-1] for tile in tiles]
    assert len(set(looks)) == 3 and all(looks[i] != looks[j] for i, row in enumerate(near) for j in row)


def test_a_file_is_there_only_when_it_is_whole(pagnetuf, tmp_path):
    path = tmp_path / "board.json"
    path.write_text("old")
    assert pagnetuf("board", "p3", "--addr", "9:", "--out", path)[0] == 4
    assert path.read_text() == "old" and os.listdir(tmp_path) == ["board.json"]
    assert pagnetuf("board", "p3", "--tiles", 3, "--out", path)[0] == 0
    assert len(json.loads(path.read_text())["tiles"]) == 3 and os.listdir(tmp_path) == ["board.json"]


def test_a_rule_of_the_library_by_its_name(pagnetuf, tmp_path):
    told = [pagnetuf("board", name, "--tiles", 12) for name in ("sphinx", os.path.join(RULES, "sphinx.toml"))]
    assert told[0][0] == 0 and json.loads(told[0][1])["tiles"] == json.loads(told[1][1])["tiles"]
    assert pagnetuf("board", "../rules/sphinx")[0] == 1
