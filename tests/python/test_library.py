"""The engine over the C library against that over the program, byte for byte."""
import os
import pickle
import random
import subprocess
from concurrent.futures import ProcessPoolExecutor, ThreadPoolExecutor

import numpy as np
import pytest
from conftest import BUILT_IN, RULES, TOP
from pagnetuf import (
    BadAddress,
    BadListing,
    BadWords,
    LibraryEngine,
    NoEdge,
    NoEngine,
    NoVertex,
    Outside,
    Patch,
    ProgramEngine,
    Refusal,
    Tiling,
    TooManyTiles,
    call,
    places,
    usual_engine,
)
from pagnetuf.engine import ADDRESS, TILE, Box, Frame
from pagnetuf.library import FRAME, WINDOW
from pagnetuf.rule_numbers import NUMBERS
from pagnetuf.texts import address_texts as theirs_texts

ADDRESSES = (
    "",
    "0",
    "0:",
    "9:",
    "0:0/0",
    "2:1/0,0/0",
    "0:1/0,2/0",
    "00:",
    "0:1/0,",
    "0:1/9",
    "0:9/0",
    "0:1,2",
    "256:",
    " 0:",
    "0:\n",
    "0:\0",
    "é:",
    "0:" + ",".join(["0/0"] * 64),
    "0:" + ",".join(["0/0"] * 65),
    "0:" + ",".join(["1/0"] * 40),
)


@pytest.fixture(params=BUILT_IN)
def both(request, library, program):
    """A rule over the library and over the program."""
    return Tiling(request.param, library), Tiling(request.param, ProgramEngine(program))


def answer(call, *words):
    """What a call answers, or the line of its refusal."""
    try:
        return call(*words)
    except Refusal as refused:
        return refused.line


def same(one, other):
    """True if two answers are the same bytes."""
    if isinstance(one, tuple) and len(one) == 3 and isinstance(one[0], np.ndarray):
        return all(a.dtype == b.dtype and a.tobytes() == b.tobytes() for a, b in zip(one, other))
    return one == other


def test_the_layout_is_the_headers():
    assert (TILE.itemsize, ADDRESS.itemsize, FRAME.itemsize, WINDOW.itemsize) == (40, 130, 144, 40)
    assert NUMBERS.itemsize == 17144


def test_windows(both):
    ours, theirs = (t.machine for t in both)
    chance = random.Random(both[0].name)
    for _ in range(60):
        far = chance.choice((0, 30, 3000, 300_000))
        at = both[0].ring.near(chance.uniform(-far, far), chance.uniform(-far, far)).tolist()
        box = Box(tuple(at), (chance.randint(1, 30), chance.randint(1, 30)))
        kinds = len(both[0].rule.kinds)
        seed = chance.choice((0, 1, 42, (1 << 64) - 1, chance.getrandbits(64)))
        frame = Frame(f"{chance.randrange(kinds)}:", seed)
        for glue in (False, True):
            assert same(answer(ours.cover, frame, box, glue), answer(theirs.cover, frame, box, glue))


def test_bases_with_digits(both):
    ours, theirs = (t.machine for t in both)
    tiles = both[1].window(half=(40, 30), seed=9)
    chance = random.Random(both[0].name)
    for _ in range(20):
        base = tiles.address(chance.randrange(len(tiles))).rpartition(",")[0] or "0:"
        frame, box = Frame(base, chance.randrange(100)), Box((1, 2, 0, 0), (9, 7))
        for glue in (False, True):
            assert same(answer(ours.cover, frame, box, glue), answer(theirs.cover, frame, box, glue))


def test_a_large_window(both):
    ours, theirs = (t.machine for t in both)
    box = Box((70, -30, 0, 0), (150, 120))
    for glue in (False, True):
        assert same(ours.cover(Frame(), box, glue), theirs.cover(Frame(), box, glue))


@pytest.mark.parametrize(
    "frame, box",
    [
        (Frame("9:"), Box()),
        (Frame("0:1/9"), Box()),
        (Frame("0:", 1 << 64), Box()),
        (Frame("0:", -1), Box()),
        (Frame(), Box((0, 0, 0, 1 << 20))),
        (Frame(), Box((0, 0, 0, (1 << 20) + 1))),
        (Frame(), Box((0, 0, 0, 1 << 70))),
        (Frame(), Box((0, 0, 0, 0), (0, 1))),
        (Frame(), Box((0, 0, 0, 0), (4097, 1))),
        (Frame(), Box((0, 0, 0, 0), (1, 1 << 16))),
        (Frame(), Box((0, 0, 0, 0), (4096, 4096))),
        (Frame("0:", 3), Box((1 << 20, -(1 << 20), 0, 0), (2, 2))),
    ],
)
def test_refusals_of_windows(both, frame, box):
    ours, theirs = (t.machine for t in both)
    for glue in (False, True):
        assert same(answer(ours.cover, frame, box, glue), answer(theirs.cover, frame, box, glue))


def test_places_and_neighbours(both):
    ours, theirs = both
    found = theirs.window(half=(25, 20), seed=4)
    chance = random.Random(ours.name)
    addresses = [*ADDRESSES, *(found.address(chance.randrange(len(found))) for _ in range(60))]
    addresses += [f"{kind}:" for kind in range(5)]
    assert (ours.place_all(addresses) == theirs.place_all(addresses)).all()
    questions = [(address, edge) for address in addresses for edge in (0, 1, 2, 3, 7, 8, 255)]
    mine, yours = ours.neighbour_all(*zip(*questions)), theirs.neighbour_all(*zip(*questions))
    assert mine[0] == yours[0] and (mine[1] == yours[1]).all()
    for address in addresses[:30]:
        assert answer(ours.place, address) == answer(theirs.place, address)
        for edge in (0, 2, 9, 255, 256, -1):
            assert answer(ours.neighbour, address, edge) == answer(theirs.neighbour, address, edge)


def test_arrays_of_addresses(both):
    ours, theirs = both
    found = theirs.window(half=(25, 20), seed=4)
    addresses = found.addresses[:500].copy()
    addresses["depth"][::7] = 2  # (shorter ones, some of which are refused)
    edges = np.arange(len(addresses)) % 9
    placed = [t.place_all(addresses) for t in both]
    assert placed[0].tobytes() == placed[1].tobytes()
    there, numbers = ours.neighbour_all(addresses, edges)
    texts, wanted = theirs.neighbour_all(theirs_texts(addresses), edges)
    assert theirs_texts(there) == texts and (numbers == wanted).all()
    assert 0 < (wanted[:, 1] == 0).sum() < len(edges)
    assert theirs_texts(theirs.neighbour_all(addresses, edges)[0]) == texts
    again, numbers = ours.neighbour_all(there, numbers[:, 0])
    back = wanted[:, 1] == 0
    assert theirs_texts(again[back]) == theirs_texts(addresses[back])  # across the edge that leads back


def test_the_addresses_of_a_window_are_asked_as_they_are(both):
    """As an array and as texts, with edges of each kind, in another array and in place."""
    ours, theirs = both
    window, wanted = ours.window(half=(30, 22), seed=11), theirs.window(half=(30, 22), seed=11)
    texts = window.address_texts()
    edges = np.arange(len(window)) % 10
    there, numbers = theirs.neighbour_all(texts, edges.tolist())
    assert 0 < (numbers[:, 1] == 0).sum() < len(edges)
    for given in (edges, edges.tolist(), edges.astype(np.uint8), np.repeat(edges.astype(np.uint8), 2)[::2]):
        across, mine = ours.neighbour_all(window.addresses, given)
        assert theirs_texts(across) == there and (mine == numbers).all() and mine.dtype == np.uint8
    assert window.addresses.tobytes() == wanted.addresses.tobytes()  # (nothing was written there)
    assert ours.place_all(window.addresses).tobytes() == theirs.place_all(texts).tobytes()
    for form in (texts, tuple(texts), np.array(texts), np.array(texts, object)):
        across, mine = ours.neighbour_all(form, edges)
        assert across == there and (mine == numbers).all()
        assert ours.place_all(form).tobytes() == ours.place_all(window.addresses).tobytes()
    out, some = np.zeros(len(window), ADDRESS), slice(None, None, 3)
    for t in both:
        assert t.neighbour_all(texts, edges, out=out)[0] is out and theirs_texts(out) == there
        out[:] = window.addresses
        across, mine = t.neighbour_all(out, edges, out=out)
        assert across is out and theirs_texts(out) == there and (mine == numbers).all()
    across, mine = ours.neighbour_all(window.addresses[some], edges[some])
    assert theirs_texts(across) == there[some] and (mine == numbers[some]).all()
    assert ours.place_all(window.addresses[some]).tobytes() == ours.place_all(texts[some]).tobytes()


def test_edges_out_of_range_change_nothing(both):
    ours, theirs = both
    window = ours.window(half=(9, 8), seed=2)
    edges = [(0, 256, -1, 255, 1, 1 << 40)[i % 6] for i in range(len(window))]
    across, numbers = ours.neighbour_all(window.addresses, edges)
    there, wanted = theirs.neighbour_all(window.address_texts(), edges)
    assert theirs_texts(across) == there and (numbers == wanted).all()
    refused = numbers[:, 1] != 0
    assert across[refused].tobytes() == window.addresses[refused].tobytes()


def test_texts_of_many_forms_at_once(both):
    """One that isn't read in bulk is read by itself, and the answers keep their order."""
    ours, theirs = both
    window = theirs.window(half=(6, 5), seed=8)
    texts = [*ADDRESSES, *window.address_texts(), "0:/1/0", "0:1/0,2-0", "0:1/0:2/0"]
    for given in (texts, texts[::-1], [""] * 3, ["0:"] * 3, ["0:1/0", "0:1x0", "0:1/0"], []):
        edges = [i % 3 for i in range(len(given))]
        assert ours.place_all(given).tobytes() == theirs.place_all(given).tobytes()
        mine, yours = ours.neighbour_all(given, edges), theirs.neighbour_all(given, edges)
        assert mine[0] == yours[0] and (mine[1] == yours[1]).all()


@pytest.mark.parametrize("number", [0, 1])
def test_arrays_that_cannot_be_addresses(both, number):
    t = both[number]
    addresses = t.window(half=(3, 3)).addresses
    edges, count = np.zeros(len(addresses), np.uint8), len(addresses)
    locked = addresses.copy()
    locked.flags.writeable = False
    shorter, gaps = np.zeros(count - 1, ADDRESS), np.zeros(2 * count, ADDRESS)[::2]
    for out in (shorter, gaps, np.zeros(count, TILE), locked):
        with pytest.raises(ValueError):
            t.neighbour_all(addresses, edges, out=out)
    for wrong in (np.zeros(count), np.zeros(count, TILE), np.zeros((count, 1), ADDRESS)):
        with pytest.raises(ValueError):
            t.neighbour_all(wrong, edges)
        with pytest.raises(ValueError):
            t.place_all(wrong)


def test_windows_without_addresses(both):
    for t in both:
        for seed in (0, 5):
            window, named = (t.window(half=(14, 11), seed=seed, addresses=it) for it in (False, True))
            assert window.tiles.tobytes() == named.tiles.tobytes()
            assert window.listing() == named.listing()
            whole = window.whole()
            assert whole.outlines().tobytes() == named.whole().outlines().tobytes()
            assert window.connected(5).tiles.tobytes() == named.connected(5).tiles.tobytes()
            for patch in (window, whole, whole.chosen([0, 1]), window.chosen([0])):
                with pytest.raises(ValueError, match="without addresses"):
                    print(patch.addresses)
                with pytest.raises(ValueError, match="without addresses"):
                    patch.address(0)
                with pytest.raises(ValueError, match="without addresses"):
                    patch.address_texts()


def test_sheets_are_those_over_the_program(both):
    for whole in (False, True):
        mine, yours = (list(t.sheet((31, 30), seed=6, piece=(9, 11), whole=whole)) for t in both)
        assert len(mine) == len(yours) > 6
        for one, other in zip(mine, yours):
            assert one.tiles.tobytes() == other.tiles.tobytes()
            assert one.address_texts() == other.address_texts()


def test_stars_walks_and_pairs(both):
    ours, theirs = (t.machine for t in both)
    tiles = both[1].window(half=(12, 9), seed=5)
    chance = random.Random(both[0].name)
    bases = [tiles.address(chance.randrange(len(tiles))) for _ in range(12)]
    for base in (*bases, "0:", "9:", "0:1/9", "0:" + ",".join(["0/0"] * 64)):
        frame = Frame(base, chance.getrandbits(64))
        for vertex in (0, 1, 2, 7, 8, 255, 256):
            assert same(answer(ours.star, frame, vertex), answer(theirs.star, frame, vertex))
        for length in (0, 1, 9, 40):
            path, grow = [chance.randrange(3) for _ in range(length)], chance.choice((0, 5, 64))
            assert same(answer(ours.walk, frame, path, grow), answer(theirs.walk, frame, path, grow))
        for other in (*bases, base, "0:", "9:"):
            assert answer(ours.pair, base, other) == answer(theirs.pair, base, other)
    for path, grow in (([0, 9], 0), ([0, 256], 0), ([0, -1], 0), ([0], 65), ([0] * 1001, 0)):
        assert answer(ours.walk, Frame(), path, grow) == answer(theirs.walk, Frame(), path, grow)


def test_the_rest_is_the_same(both):
    ours, theirs = both
    base = theirs.window(half=(6, 6)).address(3)
    for ask in (
        lambda t: t.star(base, 0, 7),
        lambda t: t.walk(base, [0, 1, 0, 2], 7),
        lambda t: t.pair(base, base),
        lambda t: t.common(base, base),
        lambda t: t.window(half=(5, 4)).listing(True),
        lambda t: t.verify(t.window(half=(5, 4)), half=(5, 4)),
        lambda t: t.locate((1, 1, 0, 0)).address_texts(),
        lambda t: [piece.address_texts() for piece in t.sheet((30, 30), piece=(9, 11), whole=True)],
    ):
        assert answer(ask, ours) == answer(ask, theirs)


def test_more_questions_than_one_script_of_the_program_has(program, library):
    """The program takes scripts of a mebibyte; 60,000 questions are several."""
    ours, theirs = Tiling("chair", library), Tiling("chair", ProgramEngine(program))
    texts = ours.window(half=(60, 60)).address_texts()
    texts = (texts * (60_000 // len(texts) + 1))[:60_000]
    edges = np.arange(len(texts)) % 9
    mine, yours = ours.neighbour_all(texts, edges), theirs.neighbour_all(texts[:300], edges[:300])
    assert mine[0][:300] == yours[0] and (mine[1][:300] == yours[1]).all()
    inside = np.flatnonzero(mine[1][:, 1] == 0)
    some = [texts[i] for i in inside]
    calls, ask = [], theirs.machine.engine.call

    def few_calls(*words):
        calls.append(words)
        assert len(calls) < 9
        return ask(*words)

    theirs.machine.engine.call = few_calls
    there, numbers = theirs.neighbour_all(some, edges[inside])
    assert there == [mine[0][i] for i in inside] and not numbers[:, 1].any() and len(calls) > 1


def test_lists_of_tiles_of_any_rule_in_any_order(library):
    t = Tiling.from_file(os.path.join(RULES, "sphinx.toml"), library)
    window = t.window((3, 1, 0, 0), (6, 5), 42)
    asked = dict(at=(3, 1, 0, 0), half=(6, 5), seed=42)
    shuffled = np.random.default_rng(7).permutation(len(window))

    def patch(tiles, addresses):
        return Patch(t.rule, tiles, addresses)

    assert t.verify(window, **asked) == len(window)
    assert t.verify(patch(window.tiles[shuffled], window.addresses[shuffled]), **asked) == len(window)
    turned, doubled = window.tiles.copy(), window.addresses.copy()
    turned["turn"][2] = (turned["turn"][2] + 1) % t.rule.order
    doubled[4] = doubled[3]
    alike = window.tiles.copy()
    alike[4] = alike[3]
    none = window.tiles.copy()
    none["turn"][5] = t.rule.order
    for tiles, addresses, fields in (
        (turned, window.addresses, ("WrongPlace", "3", *window.listing().splitlines()[2].split()[1:3])),
        (alike, doubled, ("Double", "5")),
        (none, window.addresses, ("NoTile", "6")),
        (window.tiles[:-1], window.addresses[:-1], ("Missing", window.address(len(window) - 1))),
    ):
        with pytest.raises(BadListing) as refused:
            t.verify(patch(tiles, addresses), **asked)
        assert refused.value.fields == fields
    with pytest.raises(BadListing) as refused:
        t.verify(window, (3, 1, 0, 0), (3, 2), 42)
    assert refused.value.fields[0] == "Stray"


@pytest.mark.parametrize("name", ["sphinx", "equithirds", "tuebingen_triangles"])
def test_rule_files(library, program, name):
    path = os.path.join(RULES, name + ".toml")
    ours, theirs = (Tiling.from_file(path, engine) for engine in (library, ProgramEngine(program)))
    for glue in (False, True):
        window = Frame("0:", 7), Box((3, 1, 0, 0), (20, 8)), glue
        assert same(answer(ours.machine.cover, *window), answer(theirs.machine.cover, *window))
    base = theirs.window(half=(6, 6), seed=7).address(3)
    for ask in (
        lambda t: t.place(base),
        lambda t: t.neighbour(base, 0),
        lambda t: t.neighbour(base, 99),
        lambda t: t.star(base, 0, 7),
        lambda t: t.walk(base, [0, 1, 0, 2], 7),
        lambda t: pickle.loads(pickle.dumps(t)).place("0:"),
    ):
        assert answer(ask, ours) == answer(ask, theirs)
    assert ours.pair(base, base).relation == "same"  # (the program pairs tiles of built-in rules alone)


@pytest.mark.parametrize(
    "data",
    [b"", b"format =", b"format = 2\n", b"format = 2\0", b"\xff", bytes(1 << 20), bytes((1 << 20) + 1)],
    ids=["empty", "no_value", "no_order", "zero_byte", "no_text", "longest", "too_long"],
)
def test_refused_rule_files(library, program, data):
    ours, theirs = (
        answer(lambda engine: Tiling.from_bytes(data, engine=engine), engine)
        for engine in (library, ProgramEngine(program))
    )
    assert ours == theirs and isinstance(ours, str)


def test_it_can_be_pickled_and_used_by_many(library):
    tiling = Tiling("p3", library)
    again = pickle.loads(pickle.dumps(tiling))
    assert again.machine.library.path == library.library.path and again == tiling
    wanted = len(tiling.window(half=(90, 70)))
    for kind in (ThreadPoolExecutor, ProcessPoolExecutor):
        with kind(3) as executor:
            assert sum(map(len, tiling.sheet((90, 70), piece=(31, 29), executor=executor))) == wanted


def test_a_pickle_is_opened_once(library):
    for tiling in (Tiling("p3", library), Tiling.from_file(os.path.join(RULES, "sphinx.toml"), library)):
        one, other = (pickle.loads(pickle.dumps(tiling.machine)) for _ in range(2))
        assert one is other and one.handle.value


def test_one_machine_for_many_threads(library):
    tiling = Tiling("ab", library)
    wanted = tiling.window(half=(30, 20)).tiles.tobytes()
    with ThreadPoolExecutor(8) as executor:
        found = set(executor.map(lambda _: tiling.window(half=(30, 20)).tiles.tobytes(), range(64)))
    assert found == {wanted}


def test_without_a_program(library, monkeypatch, tmp_path):
    """The package talks to the library alone: no process is started, and refusals have their fields."""
    monkeypatch.setenv("TILING_PROGRAM", str(tmp_path / "none"))
    monkeypatch.setattr(subprocess, "run", None)
    monkeypatch.setattr(subprocess, "Popen", None)
    tiling = Tiling("p3", library)
    window = tiling.window(half=(20, 12))
    assert len(window) == 760 and tiling.place("2:1/0,0/0").turn == 9 and len(tiling.star("0:", 0)) > 1
    assert tiling.common("0:", "0:") == 0 and tiling.verify(window.listing(), half=(20, 12)) == 760
    assert Tiling.from_file(os.path.join(RULES, "sphinx.toml")).window().whole().stars()
    for error, fields, ask in (
        (BadAddress, ("UnknownKind", "0"), lambda: tiling.place("9:")),
        (NoEdge, ("9", "3"), lambda: tiling.neighbour("2:1/0,0/0", 9)),
        (Outside, ("1", "0"), lambda: tiling.neighbour("2:1/0,0/0", 1)),
        (NoVertex, ("3", "3"), lambda: tiling.star("0:", 3)),
        (TooManyTiles, (), lambda: tiling.window(half=(4000, 4000))),
        (BadAddress, ("BadText", "0"), lambda: tiling.pair("x", "0:")),
        (BadAddress, ("UnknownKind", "0"), lambda: tiling.verify(window, addr="9:")),
        (BadWords, ("4",), lambda: tiling.window(half=(0, 1))),
    ):
        with pytest.raises(error) as refused:
            ask()
        assert refused.value.fields == fields or error is BadWords


def test_which_library(library, monkeypatch, tmp_path):
    path = library.library.path
    monkeypatch.setenv("TILING_LIBRARY", path)
    assert usual_engine().library.path == path
    monkeypatch.setenv("TILING_LIBRARY", "")
    monkeypatch.setattr(places, "LIBRARIES", ("none.so",))
    for ask in (usual_engine, lambda: Tiling("p3"), lambda: call(["check", "rule=p3"])):
        with pytest.raises(NoEngine, match="wheel.*--build.*TILING_LIBRARY"):
            ask()
    monkeypatch.setenv("TILING_LIBRARY", str(tmp_path / "none.so"))
    with pytest.raises(NoEngine):
        usual_engine()
    with pytest.raises(NoEngine):
        LibraryEngine(os.path.join(TOP, "README.md"))
    with pytest.raises(BadWords):
        LibraryEngine(path).machine("nonsense")


CALLS = (
    (["place", "rule=p3", "addr=2:1/0,0/0"], b""),
    (["neighbour", "rule=p3", "addr=2:1/0,0/0", "edge=2"], b""),
    (["draw", "rule=ab", "addr=0:", "at=0,0,0,0", "half=9,9", "layers=svg,list,census", "glue=yes"], b""),
    (["calc", "rule=chair"], b"let a 0:0/0\nacross a 0 b\npair a b\n"),
    (["check", "rule=-"], open(os.path.join(RULES, "sphinx.toml"), "rb").read()),
    (["check", "rule=-"], b"format = 2"),
    (["verify", "rule=chair", "addr=0:", "seed=42", "at=1,1,0,0", "half=2,1"], b"0 0 0,0,0,0 0:3/0\n"),
    (["calc", "rule=chair"], b"let a"),
    (["neighbour", "rule=chair", "addr=0:0/0", "edge=8"], b""),
    (["place", "rule=chair", "addr=0:\n"], b""),
    (["place", "rule=chair", "addr=0:é"], b""),
    (["place rule=chair"], b""),
    ([""], b""),
    ([], b""),
)


@pytest.mark.parametrize("words, given", CALLS)
def test_the_command_is_called_in_the_process(library, program, words, given):
    assert answer(library.call, words, given) == answer(ProgramEngine(program).call, words, given)


def test_a_call_prints_what_the_command_prints(library):
    assert call(["place", "rule=p3", "addr=2:1/0,0/0"], engine=library) == b"2 9 1,1,0,0\n"
