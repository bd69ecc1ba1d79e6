"""Refusals: their numbers are those of the document, and each says a sentence and fits an `except`."""
import os
import pickle
import re

import pytest
from conftest import TOP
from pagnetuf import (
    BadAddress,
    BadListing,
    BadWords,
    NoEdge,
    NoMemory,
    NoVertex,
    Outside,
    Refusal,
    RuleRefused,
    TooManyTiles,
)
from pagnetuf.refusals import BY_NAME, refusal_of

KINDS = {
    ValueError: (
        *("BadWords", "BadAddress", "RuleRefused", "RuleTooLong", "BadScript", "BadListing"),
        *("TooManyTiles", "CoordLimit", "DepthLimit", "StarTooBig"),
    ),
    IndexError: ("NoEdge", "NoVertex", "Outside"),
    MemoryError: ("NoMemory",),
}


@pytest.mark.parametrize("kind", KINDS)
def test_a_refusal_is_the_exception_of_python_that_it_is(kind):
    for name in KINDS[kind]:
        assert issubclass(BY_NAME[name], kind)
        again = pickle.loads(pickle.dumps(BY_NAME[name]("a", 1)))
        assert type(again) is BY_NAME[name] and again.fields == ("a", "1")


@pytest.mark.parametrize(
    "refusal, told",
    [
        (NoEdge(9, 3), "the tile has no edge 9; it has 3, counted from 0 (12 NoEdge 9 3)"),
        (NoVertex(8, 8), "the tile has no vertex 8; it has 8, counted from 0 (15 NoVertex 8 8)"),
        (NoMemory(), "The engine ran out of memory (11 NoMemory)"),
        (BadWords(5), "a number is out of range"),
        (Outside(1, 0), "on edge 1 of the supertile"),
        (BadAddress("BadText", 3), "goes wrong after 3 characters"),
        (BadAddress(), "not one of a tile"),
        (RuleRefused("Missing", "order"), "the key order is missing"),
        (RuleRefused("Missing", "mate", 3), "the key mate 3 is missing"),
        (RuleRefused("ChildEdgeLoose", 0, 1, 2), "edge 2 of child 1 of kind 0 meets"),
        (RuleRefused("NotToml"), "not a document of TOML"),
        (RuleRefused(), "the rule has a fault"),
        (BadListing("Stray", 3), "tile 3 does not meet"),
        (BadListing("Missing", "0:1/0"), "the tile 0:1/0 meets the window, and is missing"),
        (BadListing("WrongPlace", 3, 2, "1,0,0,0"), "tile 3 lies elsewhere, at the turn 2 and the shift 1,0,0,0"),
    ],
)
def test_a_refusal_says_a_sentence(refusal, told):
    assert told in str(refusal) and str(refusal).endswith(f"({refusal.line})")


def test_a_refusal_of_the_package_itself_is_its_sentence():
    for kind in (BadWords, TooManyTiles):
        assert str(kind("no such rule")) == kind("no such rule").sentence == "no such rule"
        assert "no such rule" == str(pickle.loads(pickle.dumps(kind("no such rule"))))


def test_each_fault_of_a_rule_file_has_a_sentence():
    """The faults of docs/FORMATS.md, after `3 RuleRefused`."""
    with open(os.path.join(TOP, "docs", "FORMATS.md"), encoding="utf-8") as file:
        text = file.read()
    table = text[text.index("The fields after `3 RuleRefused`") :]
    rows = re.findall(r"^\| (`[^|]*`) \|", table[: table.index("A `key` is")], re.M)
    faults = [it for row in rows for it in re.findall(r"`([A-Z]\w+)([^`]*)`", row)]
    assert len(faults) == len(RuleRefused.FAULTS) == 15
    for name, fields in faults:
        told = RuleRefused(name, *fields.split()).sentence
        assert "the rule has a fault" not in told and "?" not in told
        assert all(field in told for field in fields.split())


def test_the_line_is_that_of_the_program():
    for name, kind in BY_NAME.items():
        line = f"{kind.status} {name} 4 a,b"
        found = refusal_of(line)
        assert type(found) is kind and isinstance(found, Refusal) and found.line == line
