"""The page about a rule, for each rule of rules/."""
import math
import os
import re
import xml.etree.ElementTree as ElementTree

import numpy as np
import pytest
from browser import browser
from conftest import BUILT_IN, RULES, SVG, rule_files
from pagnetuf.commands.atlas import atlas_page, shares, stars_section
from pagnetuf.picture import Colours
from pagnetuf.rule import Kind, Rule

PHI = (1 + math.sqrt(5)) / 2


@pytest.mark.parametrize("name", [*BUILT_IN, *rule_files()])
def test_the_page_of_each_rule(tiling, name):
    t = tiling(name)
    window = t.window(half=(24, 16))
    text = atlas_page(t, window.whole(), window)
    pictures = [ElementTree.fromstring(it) for it in re.findall(r"<svg.*?</svg>", text, re.S)]
    count = len(window.whole().stars())
    assert len(pictures) == 2 * len(t.rule.kinds) + 1 + min(60, count)
    assert len(list(pictures[2 * len(t.rule.kinds)].iter(SVG + "polygon"))) == len(window.whole())
    numbers = [float(it) for it in re.findall(r"([\d.]+) % of all tiles", text)]
    assert sum(numbers) == pytest.approx(100, abs=0.1)
    assert text.count("<figure>") == text.count("</figure>") == len(pictures) - 1 and "<script" not in text


def test_shares_are_those_of_the_literature(tiling):
    """P3: thick to thin as phi to 1; P2: kites to darts as phi to 1."""
    for name, first in (("p3", 1 / PHI**2), ("p2", 1 / PHI)):
        share = shares(tiling(name).rule)
        assert min(abs(share[:2].sum() - it) for it in (first, 1 - first)) < 1e-9


@pytest.mark.parametrize("name", [*BUILT_IN, *rule_files()])
def test_shares_are_kept_by_the_matrix(tiling, name):
    """Also where it permutes classes of kinds, so that its powers have no limit."""
    rule = tiling(name).rule
    share = shares(rule)
    after = sum(
        part * np.bincount(kind.children[:, 0], minlength=len(share)) for part, kind in zip(share, rule.kinds)
    )
    assert np.allclose(after / after.sum(), share, atol=1e-9) and (share > 0).all()


def test_shares_where_the_matrix_has_a_period():
    """Squares of three kinds: the first is cut into the others, and they into the first."""
    square, places = [[0, 0, 0, 0], [1, 0, 0, 0], [1, 1, 0, 0], [0, 1, 0, 0]], [
        (0, 0),
        (1, 0),
        (0, 1),
        (1, 1),
    ]
    kinds = [
        [[kind, 0, x, y, 0, 0] for kind, (x, y) in zip(row, places)]
        for row in ((1, 1, 1, 2), [0] * 4, [0] * 4)
    ]
    rule = Rule(4, [2, 0, 0, 0], [Kind(square, children) for children in kinds], [0, 1, 2])
    assert np.allclose(shares(rule), [1 / 2, 3 / 8, 1 / 8], atol=1e-9)


def test_shares_of_stars_are_those_of_inner_vertices(tiling):
    window = tiling("p3").window(half=(40, 30)).whole()
    text = stars_section(window, Colours(window.rule))
    counts = window.stars()
    told = [float(it) for it in re.findall(r"([\d.]+) %, \d+ tiles", text)]
    assert told == pytest.approx([100 * it / sum(counts.values()) for it in counts.values()], abs=0.006)
    assert f"around {sum(counts.values())} vertices" in text


def test_an_inflated_prototile_is_its_children(tiling):
    """The areas of the children add up to the factor's squared length times the area of the prototile."""
    for name in [*BUILT_IN, *rule_files()]:
        rule = tiling(name).rule
        growth = float((rule.ring.xy(rule.factor) ** 2).sum())
        for kind in rule.kinds:
            parts = sum(rule.area(rule.kinds[child[0]]) for child in kind.children)
            assert parts == pytest.approx(growth * rule.area(kind))


@pytest.mark.parametrize("name", [*BUILT_IN, *rule_files()])
def test_no_two_stars_look_alike(tiling, name):
    t = tiling(name)
    text = stars_section(t.window(half=(80, 60)).whole(), Colours(t.rule))
    pictures = re.findall(r"<svg.*?</svg>", text, re.S)
    assert len(pictures) == len(set(pictures))


def test_the_two_stars_of_five_thick_rhombs(tiling):
    """De Bruijn's S and S5 differ in the directions of their arrows alone, so the page marks first vertices:
    in the middle of one, and at the tips of the other. The seven stars of kites and darts all look
    different."""
    pages = {}
    for name in ("p3", "p2"):
        t = tiling(name)
        pages[name] = stars_section(t.window(half=(80, 60)).whole(), Colours(t.rule))
    assert "8 stars" in pages["p3"] and "Some look alike" in pages["p3"]
    assert "7 stars" in pages["p2"] and "Some look alike" not in pages["p2"]
    far = []
    for text in re.findall(r"<svg.*?</svg>", pages["p3"], re.S):
        picture = ElementTree.fromstring(text)
        if len({tile.get("fill") for tile in picture.iter(SVG + "polygon")}) == 1:
            dots = picture.iter(SVG + "circle")
            *firsts, spot = ([float(dot.get(it)) for it in ("cx", "cy")] for dot in dots)
            far.append([math.dist(first, spot) for first in firsts])
    assert [len(it) for it in far] == [5, 5] and max(min(far)) < 0.3 and min(max(far)) > 1


FAULTS = """const box = it => it.getBoundingClientRect(), all = it => [...document.querySelectorAll(it)];
const found = [], wide = arguments[0]; // (a telephone's window grows with what sticks out)
if (document.documentElement.scrollWidth > wide) found.push("the page is too wide");
for (const it of all("svg, figcaption, p, h1, h2, code"))
  if (box(it).left < -.5 || box(it).right > wide + .5) found.push(it.tagName + " sticks out");
const parts = all("figure > *").map(box), across = (a, b) => a.left < b.right - 1 && b.left < a.right - 1;
const meet = (a, b) => across(a, b) && a.top < b.bottom - 1 && b.top < a.bottom - 1;
parts.forEach((a, i) => { if (parts.slice(0, i).some(b => meet(a, b))) found.push("overlap") });
for (const it of all("figure svg"))
  if (it.width.baseVal.value > 1.02 * box(it).width) found.push("a picture of another scale");
return found"""


@pytest.mark.parametrize("wide", [320, 390, 915, 1400])
def test_nothing_overlaps(tiling, tmp_path, wide):
    """In a browser, from a small telephone to a desk: many kinds, many children, many stars, long names."""
    driver = browser(wide, 844)
    try:
        for name in ("rudin_shapiro_squares", "penrose_p1", "sphinx_nine", "tuebingen_triangles"):
            t = tiling(f"{name}.toml")
            window = t.window(half=(24, 16))
            (tmp_path / "atlas.html").write_text(atlas_page(t, window.whole(), window), encoding="utf-8")
            driver.get(f"file://{tmp_path}/atlas.html")
            assert driver.execute_script(FAULTS, wide) == [], name
    finally:
        driver.quit()


def test_the_command(pagnetuf, tmp_path):
    status, out, _ = pagnetuf("atlas", os.path.join(RULES, "chair.toml"))
    assert status == 0 and "<h1>chair</h1>" in out and "rules/chair.toml" in out
    status, out, _ = pagnetuf("atlas", "p3", "--out", tmp_path / "p3.html")
    assert status == 0 and not out and "8 stars" in (tmp_path / "p3.html").read_text()
