"""Lists and levels for rules of files: as the engine answers for the same rules by their names."""
import os
import random

import numpy as np
import pytest
from conftest import BUILT_IN, RULES
from pagnetuf import BadAddress, BadListing, BadWords, Patch, ProgramEngine, Refusal, Tiling
from pagnetuf.engine import Box, Frame
from pagnetuf.listings import entries_of, keys_of, wrong_field
from pagnetuf.texts import read_texts

WINDOW = {"at": (3, 1, 0, 0), "half": (5, 4), "seed": 42}
FRAME, BOX = Frame("0:", 42), Box((3, 1, 0, 0), (5, 4))


@pytest.fixture(params=BUILT_IN)
def both(request, library):
    """A rule by its name, whose lists the engine reads, and by its file, whose lists the package reads."""
    return Tiling(request.param, library), Tiling.from_file(
        os.path.join(RULES, f"{BUILT_IN[request.param]}.toml"), library
    )


def answer(tiling, text, **window):
    """How many tiles a list has, or the line of its refusal. Of a missing tile, the tile and not its text."""
    try:
        return tiling.verify(text, **{**WINDOW, **window})
    except Refusal as refused:
        if refused.fields[:1] != ("Missing",):
            return refused.line
        return "Missing", keys_of(tiling, FRAME, read_texts(refused.fields[1:]))


FIELDS = (b"", b"00", b"7", b"-1", b"255", b"256", b"x", b"0,0,0,0", b"1,0,-0,0", b"16777216,0,0,0")
FIELDS += (b"16777217,0,0,0",)
FIELDS += (b"0,0,0", b"0,0,0,0,0", b"0:", b"9:", b"0:9/0", b"\xff", b"0:1/0\r", b"0,0,1,0", b"12")


def changed(lines, chance):
    """A list with one change, or a few."""
    lines = list(lines)
    for _ in range(chance.choice((1, 1, 1, 2, 3))):
        spot = chance.randrange(len(lines))
        fields = lines[spot].split(b" ")
        what = chance.randrange(9)
        if what == 0:
            del lines[spot]
        elif what == 1:
            lines.insert(chance.randrange(len(lines)), lines[spot])
        elif what == 2:
            lines.insert(spot, b"")
        elif what == 3:
            lines[spot] = b" ".join(fields[: chance.randrange(1, 4)])
        elif what == 4:
            lines[spot] += b" " + chance.choice(FIELDS)
        elif what in (5, 6):
            fields[chance.randrange(len(fields))] = chance.choice(FIELDS)
            lines[spot] = b" ".join(fields)
        elif what == 7:
            other = lines[chance.randrange(len(lines))].split(b" ")
            lines[spot] = b" ".join([*fields[:2], *other[2:]])
        else:
            chance.shuffle(lines)
        lines = lines or [b""]
    return b"\n".join(lines) + chance.choice((b"\n", b""))


def test_lists_of_all_kinds(both):
    by_name, by_file = both
    lines = by_name.window(**WINDOW).listing().encode().splitlines()
    assert answer(by_file, b"\n".join(lines)) == len(lines)
    chance, faults = random.Random(by_name.name), set()
    for _ in range(400):
        text = changed(lines, chance)
        mine, theirs = answer(by_file, text), answer(by_name, text)
        names = [fault_of(it) for it in (mine, theirs)]
        # (of several faults that one walk finds, which comes is not promised)
        if not set(names) <= {"Missing", "WrongPlace"} or lines_left(lines, text) < 2:
            assert mine == theirs, text
        else:
            assert not isinstance(mine, int)
        faults.add(names[0])
    assert {"BadLine", "Address", "BadKind", "Double", "Missing", "WrongPlace"} <= faults


def fault_of(told):
    """The name of a fault, or how many tiles a right list has."""
    if isinstance(told, int):
        return told
    return told[0] if isinstance(told, tuple) else told.split()[2]


def lines_left(lines, text):
    """How many lines of a right list a text has not."""
    return len(set(lines) - set(text.split(b"\n")))


def test_short_and_long_addresses(both):
    """Those of the supertile around the base are appended, up to any depth."""
    by_name, by_file = both
    window = by_name.window(**WINDOW)
    deep = by_name.walk("0:", [], 42, grow=30)[0].address.split(",")
    lines = []
    for i, (line, address) in enumerate(zip(window.listing().splitlines(), window.address_texts())):
        digits = address.split(",")
        if i % 3 == 1:
            digits += deep[len(digits) :]
        if i % 3 == 2 and len(digits) > 1:
            while len(digits) > 1 and digits[-1] == deep[len(digits) - 1]:
                digits.pop()
        lines.append(line[: line.rindex(" ") + 1] + ",".join(digits))
    for t in both:
        assert answer(t, "\n".join(lines)) == len(lines)
    if len(by_name.rule.kinds) > 1:
        for t in both:
            assert answer(t, "\n".join([*lines, "1 0 0,0,0,0 1:"])) == f"17 BadListing NotOfFrame {len(lines) + 1}"


def test_what_comes_before_the_list(both):
    for window in (
        {"half": (0, 1)},
        {"half": (5000, 1)},
        {"half": (1, 1 << 20)},
        {"at": (0, 0, 0, (1 << 20) + 1)},
        {"at": (0, 0, 0, 1 << 70)},
        {"seed": 1 << 64},
        {"seed": -1},
        {"addr": "9:"},
        {"addr": "x"},
        {"addr": "0:1/9"},
    ):
        lines = [answer(t, b"no list", **window) for t in both]
        assert lines[0] == lines[1] and lines[0][:1] in "24"


def test_a_list_that_is_too_long(both):
    assert [answer(t, b"0 0 0,0,0,0 0:\n" * 200_001) for t in both] == ["17 BadListing TooLong"] * 2
    assert [answer(t, b" " * ((1 << 26) + 1)) for t in both] == ["17 BadListing TooLong"] * 2


def test_the_fields_of_each_fault(library):
    """For a rule that the engine has by no name, of a text and of a patch."""
    t = Tiling("sphinx", library)
    window = t.window(**WINDOW)
    lines = window.listing().splitlines()
    turned = lines[2].split()
    turned[1] = str((int(turned[1]) + 1) % 6)
    for text, fields in (
        (lines[:-1], ("Missing", window.address(len(window) - 1))),
        ([*lines, lines[3]], ("Double", str(len(lines) + 1))),
        ([*lines[:2], " ".join(turned), *lines[3:]], ("WrongPlace", "3", *lines[2].split()[1:3])),
        ([*lines, "0 0 0,0,0,0 0:3/9"], ("Address", str(len(lines) + 1), "UnknownKind", "1")),
        ([*lines, "1 0 0,0,0,0 0:"], ("BadKind", str(len(lines) + 1))),
        ([*lines, "1 0 0,0,0,0"], ("BadLine", str(len(lines) + 1), "3")),
    ):
        with pytest.raises(BadListing) as refused:
            t.verify("\n".join(text), **WINDOW)
        assert refused.value.fields == fields and "?" not in str(refused.value)
    some = np.arange(len(window)) != 1
    with pytest.raises(BadListing) as refused:
        t.verify(Patch(t.rule, window.tiles[some], window.addresses[some]), **WINDOW)
    assert refused.value.fields == ("Missing", window.address(1))
    assert t.verify("\n".join(lines[::-1]), **WINDOW) == t.verify(window, **WINDOW) == len(lines)


def test_a_missing_tile_of_a_window_with_too_many(library):
    t = Tiling("sphinx", library)
    with pytest.raises(BadListing) as refused:
        t.verify(t.window(half=(3, 3)), half=(1500, 1500))
    name, address = refused.value.fields
    assert name == "Missing" and t.place(address).kind == 0


def test_levels(both):
    """The least level from which on two addresses agree."""
    by_name, by_file = both
    window, chance = by_name.window(half=(9, 8), seed=5), random.Random(by_name.name)
    texts = [*window.address_texts(), *(f"{kind}:" for kind in range(len(by_name.rule.kinds)))]
    texts += [text.rpartition(",")[0] for text in texts[:20]]
    levels = set()
    for _ in range(300):
        a, b = (chance.choice(texts) for _ in "ab")
        assert by_file.common(a, b) == by_name.common(a, b)
        levels.add(by_name.common(a, b))
    assert len(levels) > 4 and None in levels and by_file.common(texts[0], texts[0]) == 0
    for wrong in (("x", "0:"), ("0:", "9:")):
        lines = []
        for t in both:
            with pytest.raises(BadAddress) as refused:
                t.common(*wrong)
            lines.append(refused.value.line)
        assert lines[0] == lines[1]


def test_rules_of_files_over_the_program(library, program):
    """Pairs, levels and lists of a rule's file are the same over the program."""
    path = os.path.join(RULES, "chair.toml")
    mine, yours = Tiling.from_file(path, library), Tiling.from_file(path, ProgramEngine(program))
    for ask in (
        lambda t: t.pair("0:0/0,1/0", "0:1/0,0/0"),
        lambda t: t.common("0:0/0,1/0", "0:1/0,0/0"),
        lambda t: t.verify("0 1 3,1,0,0 0:1/0\n0 0 0,0,0,0 0:\n", (1, 1, 0, 0), (2, 1), 42),
    ):
        assert ask(mine) == ask(yours)
    with pytest.raises(BadWords):  # (the command reads no such list)
        mine.machine.verify(FRAME, BOX, b"")


def test_the_forms_of_lines():
    for line, place in (
        (b"", 0),
        (b"0", 1),
        (b"0 1 0,0,0,0", 3),
        (b"0 1 0,0,0,0 ", 3),
        (b"0 1 0,0,0,0  0:", 3),
        (b"0 1 0,0,0,0 x y", 4),
        (b"01 1 0,0,0,0 0:", 0),
        (b"0 256 0,0,0,0 0:", 1),
        (b"0 1 0,0,0 0:", 2),
        (b"0 1 0,-0,0,0 0:", 2),
        (b"0 1 0,-16777216,0,0 0:", None),
        (b"0 1 0,-16777217,0,0 0:", 2),
    ):
        assert wrong_field(line.split(b" ")) == place, line


def test_an_entry_with_a_motion_that_no_tile_has(library):
    """Its line is at the wrong place, as for a built-in rule."""
    t = Tiling.from_file(os.path.join(RULES, "chair.toml"), library)
    found = entries_of(t, b"0 4 0,0,0,0 0:\n0 0 0,0,1,0 0:\n0 3 1,2,0,0 0:\n")
    assert found.tiles["turn"].tolist() == [0, 0, 3]
    assert found.tiles["shift"][:, 0].tolist() == [1 << 24, 1 << 24, 1]
