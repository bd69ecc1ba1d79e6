"""What docs/explore.html shows and does in a browser, held against the program: see explore.sh. Called
with the top and the program."""
import cmath
import glob
import json
import os
import re
import shutil
import subprocess
import sys
import time
import xml.etree.ElementTree as ElementTree

sys.dont_write_bytecode = True
TOP, PROGRAM = os.path.abspath(sys.argv[1]), os.path.abspath(sys.argv[2])
sys.path[:0] = [os.path.join(TOP, "tools")]
import rule_file  # noqa: E402
from browsers import Chromium, Firefox, Trouble  # noqa: E402

PAGE = "file://" + os.path.join(TOP, "docs", "explore.html")
with open(os.path.join(TOP, "tests", "page", "explore.js"), encoding="utf-8") as helpers:
    HELPERS = helpers.read()
BUILT_IN = {
    "penrose_p3": "p3",
    "penrose_p2": "p2",
    "ammann_beenker": "ab",
    "chair": "chair",
    "half_hex": "halfhex",
}
RULES = sorted(name[:-5] for name in os.listdir(os.path.join(TOP, "rules")) if name.endswith(".toml"))
DESK, PHONE = (1280, 800), (390, 844)
PLACES = (
    ("penrose_p3", "whole", "0", (0, 0, 0, 0)),
    ("penrose_p3", "halves", "5", (1000, -700, 3, 9)),
    ("penrose_p2", "whole", "7", (-300000, 90000, 0, 0)),
    ("ammann_beenker", "whole", "18446744073709551615", (3, 0, 1, 0)),
    ("chair", "whole", "42", (1000000, -300000, 0, 0)),
    ("half_hex", "whole", "2", (77, 5, 0, 0)),
    ("sphinx", "whole", "3", (9, 9, 0, 0)),
    ("penrose_p1", "whole", "1", (40, -20, 0, 0)),
)
# the colours that pictures of the package have: python/pagnetuf/picture.py
LAKE = {"penrose_p3": {0: "#1f5f7a", 2: "#8ecae6"}, "ammann_beenker": {0: "#1f5f7a", 1: "#8ecae6"}}
# the vertex stars of the literature: N. G. de Bruijn's eight of the rhombs, the seven of kites and darts
STARS = {"penrose_p3": 8, "penrose_p2": 7}


# ---- the program ----------------------------------------------------------------------------------
def rule_words(name):
    """What a call names the rule by, and the file that it reads."""
    return (
        (f"rule={BUILT_IN[name]}", None)
        if name in BUILT_IN
        else ("rule=-", os.path.join(TOP, "rules", name + ".toml"))
    )


def call(name, *words):
    """What the program prints for a rule."""
    rule, path = rule_words(name)
    with open(path or os.devnull, "rb") as file:
        ran = subprocess.run(
            [PROGRAM, words[0], rule, *words[1:]], stdin=file, capture_output=True, text=True, check=False
        )
    return ran.stdout if ran.returncode == 0 else ran.stderr


class Listed:
    """A tile of a listing, or a whole tile: its address, the position of its first half, and its polygons."""

    def __init__(self, rule, lines):
        self.names, self.polygons = [], []
        for i, line in enumerate(lines):
            kind, turn, shift, address = line.split(" ")
            by, moved = rule.motion(int(turn), rule.point([int(it) for it in shift.split(",")]))
            self.polygons.append([by * z + moved for z in rule.kinds[int(kind)].vertices])
            self.names.append(address)
            if i == 0:
                self.kind, self.turn, self.shift = int(kind), int(turn), shift
        self.name = " + ".join(self.names)

    def holds(self, point):
        """Whether a point is inside, and not near to a line."""
        return any(inside(polygon, point) for polygon in self.polygons)


def inside(polygon, point):
    sides = rule_file.sides(polygon)
    if min(distance(point, a, b) for a, b in sides) < 0.01:
        return False
    crossed = [
        a
        for a, b in sides
        if (a.imag > point.imag) != (b.imag > point.imag)
        and rule_file.cross(b - a, point - a) * (b.imag - a.imag) > 0
    ]
    return len(crossed) % 2 == 1


def distance(p, a, b):
    share = max(0, min(1, ((p - a) * (b - a).conjugate()).real / abs(b - a) ** 2))
    return abs(p - a - share * (b - a))


def listing(name, seed, at, half, whole, addr="0:"):
    """The tiles of a window by the program, whole ones with both halves."""
    rule = rule_file.load(os.path.join(TOP, "rules", name + ".toml"))
    glue = ["glue=yes"] if whole and rule.glue else []
    frame = (f"seed={seed}", f"addr={addr}", f"at={','.join(map(str, at))}", f"half={half[0]},{half[1]}")
    text = call(name, "draw", *frame, "layers=list", *glue)
    return [Listed(rule, line.split(" + ")) for line in text.splitlines()]


def alike(one, two):
    """Whether two addresses name one tile: of two windows one may have more digits."""
    pairs = list(zip(one.split(" + "), two.split(" + ")))
    return len(one.split(" + ")) == len(two.split(" + ")) and all(
        a.startswith(b) or b.startswith(a) for a, b in pairs
    )


def first_line(path):
    with open(path, encoding="utf-8") as file:
        return file.readline().strip()


# ---- the page -------------------------------------------------------------------------------------
class Page:
    """The page in a browser, and what was compared there."""

    def __init__(self, browser):
        self.browser, self.count, self.wrong, self.where = browser, 0, [], ""

    def same(self, what, got, wanted):
        self.count += 1
        if got != wanted:
            self.wrong.append(f"{self.browser.name}, {self.where}: {what} is {got!r}, not {wanted!r}")

    def true(self, what, fact):
        self.same(what, bool(fact), True)

    def js(self, text):
        return self.browser.js(text)

    def wait(self, text, seconds=90):
        """Waits until an expression is true."""
        end = time.time() + seconds
        while time.time() < end:
            if self.js(text):
                return True
            time.sleep(0.03)
        self.true(text, False)
        return False

    def ready(self):
        self.wait("Boolean(window.explorer?.told) && explorer.screen.isReady")

    def open(self, size=DESK, phone=False, scheme="light", **view):
        """The page anew, at a view of its address."""
        self.browser.size(*size, 1, phone, scheme)
        words = "&".join(f"{name}={value}" for name, value in view.items())
        self.where = words or "the start"
        self.load(f"#{words}" if words else "")

    def load(self, view):
        """The page anew, at a view as its address has it."""
        self.browser.open(PAGE + view)
        self.ready()
        self.browser.add(HELPERS)

    def at(self, place, **more):
        name, tiles, seed, at = place
        self.open(tiling=name, tiles=tiles, seed=seed, at=",".join(map(str, at)), **{"scale": 50, **more})

    def middle(self):
        return self.js("[innerWidth / 2, innerHeight / 2]")

    def text(self, name):
        return self.js(f"document.getElementById('{name}').textContent")

    def press(self, name):
        self.js(f"document.getElementById('{name}').click()")

    def place(self):
        """The point in the middle of the view, and the scale."""
        here = self.js("asked.here()")
        zeta = cmath.exp(2j * cmath.pi / here["order"])
        return (
            sum(a * zeta**i for i, a in enumerate(here["at"])) + complex(here["x"], here["y"]),
            here["scale"],
        )

    def saved(self, name):
        """The text of a file that the page gives."""
        path = os.path.join(self.browser.files, name)
        for _ in range(200):
            if os.path.exists(path) and os.path.getsize(path):
                break
            time.sleep(0.05)
        else:
            self.true(f"the file {name}", False)
            return b""
        time.sleep(0.1)
        with open(path, "rb") as file:
            data = file.read()
        os.remove(path)
        return data


# ---- what is compared -----------------------------------------------------------------------------
def try_start(page):
    """The first view: a tiling fills it, and the page says nothing on the console."""
    page.open()
    page.same("the title", page.text("title-name"), "Penrose rhombs")
    page.true("tiles are drawn", page.js("explorer.screen.report.tiles") > 400)
    page.true("no fault is shown", page.js("document.getElementById('fault').hidden"))
    page.same("what is loaded from elsewhere", page.js("asked.loaded()"), 0)


def try_tiles(page):
    """The tile under the pointer: its address, position and turn are those of the tile that holds the
    point in the program's list; so are the tiles across its edges."""
    for place in PLACES:
        page.at(place)
        name, tiles, seed, at = place
        known = listing(name, seed, at, (14, 10), tiles == "whole")
        x, y = page.middle()
        asked = 0
        for dx, dy in ((3, 4), (61, -37), (-83, 92), (110, 15), (-140, -71), (90, 120)):
            middle, scale = page.place()
            point = middle + complex(dx, -dy) / scale
            tile = next((it for it in known if it.holds(point)), None)
            if not tile:
                continue
            asked += 1
            page.browser.move(x + dx, y + dy)
            page.wait("explorer.marks.pointed && !explorer.isAsking")
            told = page.js(
                "(({name, kind, turn, shift}) => [name, kind, turn, shift.join()])(explorer.marks.pointed)"
            )
            page.true(f"{told[0]} names {tile.name}", alike(told[0], tile.name))
            page.same(f"kind, turn and position of {tile.name}", told[1:], [tile.kind, tile.turn, tile.shift])
            page.true("the card says the address", told[0] in page.text("tile-body"))
        page.true("a tile was asked for", asked > 2)
        neighbours(page, known, tiles)


def neighbours(page, known, tiles):
    """Of the tile in the middle: across each edge lies the tile that has the edge the other way round."""
    x, y = page.middle()
    page.browser.click(x + 3, y + 4)
    page.wait("explorer.marks.kept")
    told = page.js("explorer.marks.kept.edges.map(edge => edge && edge.name)")
    outline = page.js("explorer.marks.kept.outline")
    (middle, _), offset = page.place(), page.js("[explorer.state.x, explorer.state.y]")
    corners = [complex(*it) + middle - complex(*offset) for it in outline]
    page.true("each neighbour is known", all(told))
    for (a, b), name in zip(rule_file.sides(corners), told):
        across = (a + b) / 2 - (b - a) * 1j / abs(b - a) * 0.05
        tile = next(
            (it for it in known if any(inside_loosely(polygon, across) for polygon in it.polygons)), None
        )
        if tile:
            page.true(f"{name} is across, which is {tile.name}", alike(name, tile.name))
    buttons = "[...document.querySelectorAll('#tile .link:has(code)')]"
    links = page.js(f"{buttons}.map(it => [it.title, it.textContent])")
    page.same("the tiles that the card links to", [it[0] for it in links], told)
    own = page.js("explorer.marks.kept.name").split(" + ")[0]
    page.js(f"{buttons}[0].dispatchEvent(new PointerEvent('pointerenter'))")
    page.same("the neighbour that is marked", page.js("explorer.marks.pointed?.name"), told[0])
    page.js(f"{buttons}[0].dispatchEvent(new PointerEvent('pointerleave'))")
    page.true("none is marked after that", page.js("explorer.marks.pointed === null"))
    for name, said in links:
        page.same(f"{said} as an address", lengthened(said, own), name)
    page.browser.key("Escape")


def lengthened(said, own):
    """An address of the card, with the digits of the tile for "…"."""
    parts = []
    for part in said.split(" + "):
        count = part.count(",") if part.endswith(",…") else None
        parts.append(part if count is None else ",".join([part[:-2], *own.split(",")[count:]]))
    return " + ".join(parts)


def inside_loosely(polygon, point):
    sides = rule_file.sides(polygon)
    crossed = [
        a
        for a, b in sides
        if (a.imag > point.imag) != (b.imag > point.imag)
        and rule_file.cross(b - a, point - a) * (b.imag - a.imag) > 0
    ]
    return len(crossed) % 2 == 1


def try_stars(page):
    """The stars of a view are as many as the literature has, and that of a click is that of the program."""
    for name, count in STARS.items():
        page.open(tiling=name, scale=14)
        page.js("explorer.cards.show('places')")
        page.press("find-stars")
        page.wait("document.querySelectorAll('#star-list button').length")
        page.same("stars", page.js("document.querySelectorAll('#star-list svg').length"), count)
        names = page.js(
            "[...document.querySelectorAll('#star-list button')].map(it => it.getAttribute('aria-label'))"
        )
        page.same("different names", len(set(names)), count)
        numbers = [f"Star {i + 1}" for i in range(count)]
        page.same("numbers of stars", sorted(it.partition(":")[0] for it in names), numbers)
        page.js("explorer.change({by: 'star'})")
        page.js("explorer.cards.show('look')")
        page.wait("document.querySelector('#wells label').textContent.startsWith('Star')")
        wells = page.js("[...document.querySelectorAll('#wells label')].map(it => it.textContent)")
        page.same("numbers of the colours of stars", wells, numbers)
        page.js("explorer.change({by: ''})")
        shares = [float(re.search(r"([\d.]+) %", it)[1]) for it in names]
        page.true("the shares are 100 %", abs(sum(shares) - 100) < 0.1 * count)
        page.js("document.querySelectorAll('#star-list button')[2].click()")
        page.wait("explorer.marks.kept?.star")
        page.true(
            "the view goes there",
            page.js("explorer.state.at.join() === explorer.marks.kept.star.point.join()"),
        )
    for name in ("penrose_p3", "sphinx"):
        page.open(tiling=name, tiles="halves", at="30,-7,0,0", scale=60)
        x, y = page.middle()
        page.browser.click(x + 9, y - 7)
        page.wait("explorer.marks.kept")
        words = (
            page.js("document.querySelector('#tile .command code').textContent").split(" < ")[0].split(" ")
        )
        lines = call(name, "star", *words[3:]).splitlines()
        page.same("tiles of the star", page.js("explorer.marks.kept.star.tiles.length"), len(lines))


def try_supertiles(page):
    """The supertile of a tile has exactly the tiles whose addresses go on alike, by the program's list."""
    for name, level, seed in (
        ("penrose_p3", 3, 4),
        ("chair", 2, 0),
        ("sphinx", 2, 7),
        ("half_square_turned", 5, 1),
    ):
        page.open(tiling=name, tiles="halves", seed=seed, scale=50, level=level)
        deep = call(name, "walk", "addr=0:", f"seed={seed}", "grow=12").split()[-2]
        known = listing(name, seed, (0, 0, 0, 0), (16, 10), False, deep)
        (x, y), point = page.middle(), complex(11, -17) / 50
        own = next(it for it in known if any(inside_loosely(polygon, point) for polygon in it.polygons))
        page.browser.click(x + 11, y + 17)
        page.wait("explorer.marks.supertile.length === 1")
        outline = [complex(*it) for it in page.js("explorer.marks.supertile[0]")][:-1]
        digits = [it.name.partition(":")[2].split(",")[level:] for it in (own, *known)]
        page.true("tiles of the supertile are known", digits[1:].count(digits[0]) > 2)
        for tile, theirs in zip(known, digits[1:]):
            middle = rule_file.centre(tile.polygons[0])
            page.same(
                f"{tile.name} is in the supertile", inside_loosely(outline, middle), theirs == digits[0]
            )


def try_hands(page):
    """Drag, wheel and fingers move and zoom, and what is under them stays there."""
    page.open(tiling="penrose_p3", scale=50)
    x, y = page.middle()
    before, scale = page.place()
    page.browser.drag(x, y, -100, 60)
    after, _ = page.place()
    page.true("a drag moves by its length", abs(after - before - complex(100, 60) / scale) < 0.05)
    point = after + complex(40, 30) / scale
    page.browser.wheel(x + 40, y - 30, -250)
    page.wait(f"explorer.state.scale !== {scale}")
    middle, larger = page.place()
    page.true("the wheel zooms", 1.2 * scale < larger < 1.8 * scale)
    page.true("the point under the wheel stays", abs(middle + complex(40, 30) / larger - point) < 0.05)
    page.ready()
    page.browser.drag(x, y, 300, 200)
    page.ready()


def try_fingers(page):
    page.open(PHONE, True, tiling="penrose_p3", scale=40)
    x, y = page.middle()
    before, scale = page.place()
    page.browser.fingers(*[[(x - gap, y), (x + gap, y)] for gap in (40, 50, 60, 70, 80)])
    page.wait(f"explorer.state.scale > 1.4 * {scale}")
    after, larger = page.place()
    page.true("two fingers zoom", 1.4 * scale < larger < 2.1 * scale)
    page.true("around their middle", abs(after - before) < 0.6)
    page.browser.fingers([(x + 40, y + 25)])
    page.wait("explorer.marks.kept")
    page.true(
        "a tap names the tile",
        page.js("!document.getElementById('tile').hidden && explorer.marks.kept.name.length > 3"),
    )
    page.open(PHONE, True, tiling="penrose_p3", scale=40)
    page.browser.fingers(*[[(x + 20 * step, y)] for step in range(6)])
    page.true("a finger moves the view", page.place()[0].real < -1.5)
    page.true("and keeps no tile", page.js("explorer.marks.kept === null"))


def try_keys(page):
    page.open(tiling="penrose_p3", scale=50)
    page.js("document.getElementById('tiling').focus()")
    page.browser.key("ArrowRight")
    page.true("an arrow moves", abs(page.place()[0] - 80 / 50) < 1e-6)
    page.browser.key("+")
    page.true("plus zooms", abs(page.place()[1] - 62.5) < 1e-6)
    page.browser.key("Enter")
    page.wait("explorer.marks.kept")
    page.browser.key("Escape")
    page.true("Escape lets the tile go", page.js("explorer.marks.kept === null"))
    for key, card in (("l", "look"), ("p", "places"), ("s", "save"), ("h", "help"), ("t", "tilings")):
        page.js("document.getElementById('tiling').focus()")
        page.browser.key(key)
        page.true(f"{key} opens {card}", page.js(f"!document.getElementById('{card}').hidden"))
        page.browser.key("Escape")
        page.true(f"Escape closes {card}", page.js(f"document.getElementById('{card}').hidden"))
    page.js("document.getElementById('tiling').focus()")
    page.browser.key("f")
    page.true("f leaves the tiling alone", page.js("!document.getElementById('bar').offsetParent"))
    page.browser.key("Escape")
    page.true(
        "Escape brings the controls back", page.js("Boolean(document.getElementById('bar').offsetParent)")
    )
    page.browser.key("Home")
    page.true("Home goes back", abs(page.place()[0]) < 1e-9)
    page.browser.key("Enter")
    page.wait("explorer.marks.kept")
    page.js("asked.opener('look').focus()")
    page.js("asked.opener('look').click()")
    page.browser.key("Escape")
    page.true("Escape closes the card first", page.js("document.getElementById('look').hidden"))
    page.true("and keeps the tile", page.js("explorer.marks.kept !== null"))
    page.true("the focus is beside the tiling", page.js("document.activeElement.id !== 'tiling'"))
    page.browser.key("Escape")
    page.true("a second Escape lets the tile go", page.js("explorer.marks.kept === null"))
    for bare in ("true", "false"):
        page.browser.key("f")
        page.true("f works there too", page.js(f"document.body.classList.contains('bare') === {bare}"))
    page.js("explorer.cards.show('tilings')")
    page.browser.key("f")
    page.true("f is a letter of a search", page.js("!document.body.classList.contains('bare')"))


def try_address(page):
    """The page's address keeps the view; jumps go to points, and far away."""
    page.open()
    page.js("asked.fill('places', 'point', '300,-20,7,1')")
    page.ready()
    page.js("explorer.change({by: 'turn', palette: 'rose', level: 2, lines: false, seed: '9'})")
    time.sleep(0.5)
    kept = page.js("location.hash")
    page.true("the address has the point", "at=300,-20,7,1" in kept)
    page.load(kept)
    kept = "({by, palette, level, lines, seed, at}) => [by, palette, level, lines, seed, at.join()]"
    state = page.js(f"({kept})(explorer.state)")
    page.same("what it keeps", state, ["turn", "rose", 2, False, "9", "300,-20,7,1"])
    page.press("far")
    page.wait("Math.max(...explorer.state.at.map(Math.abs)) === 1000000")
    page.ready()
    page.true("far away it is drawn", page.js("document.getElementById('fault').hidden"))
    page.press("home")
    page.ready()
    page.same("home", page.js("explorer.state.at.join()"), "0,0,0,0")
    (whole, *_) = page.js("asked.tileAt(7, 11)")
    page.true("the tile has two halves", " + " in whole)
    page.js(f"asked.fill('places', 'base', '{whole}')")
    page.same("the first tile by its address", page.js("explorer.state.base"), whole.split(" + ")[0])
    page.ready()
    page.true("it is drawn", page.js("document.getElementById('fault').hidden"))


def try_saving(page):
    """The command that is copied draws the tiles of the view; SVG and PNG are of the view, the board is
    right."""
    for place in PLACES[:4] + PLACES[5:7]:
        page.at(place)
        name, tiles, seed, _ = place
        page.js("explorer.cards.show('save')")
        page.wait("document.getElementById('command').textContent")
        words = page.text("command").split(" < ")[0].split(" ")
        page.same("the command's rule", words[2], rule_words(name)[0])
        asked = dict(word.split("=", 1) for word in words[3:])
        at, half = [[int(it) for it in asked[key].split(",")] for key in ("at", "half")]
        known = {it.name for it in listing(name, seed, at, half, asked.get("glue") == "yes")}
        page.press("copy-command")
        page.wait("document.getElementById('note').textContent === 'Command copied'")
        if page.browser.name == "Chromium":
            page.same("what is copied", page.js("navigator.clipboard.readText()"), page.text("command"))
        page.press("save-svg")
        picture = page.saved(f"{name}.svg")
        page.same("what the page says then", page.text("note"), f"{name}.svg saved")
        page.same("what is wrong with the picture", invalid(picture.decode()), "")
        root = ElementTree.fromstring(picture)
        box = [float(it) for it in root.get("viewBox").split()]
        drawn = [it for it in root.iter("{http://www.w3.org/2000/svg}polygon")]
        seen = {it[0].text for it in drawn if is_seen(it, box)}
        page.true("the picture has tiles", len(seen) > 50)
        page.same(
            "tiles of the picture that the command doesn't draw",
            sorted(it for it in seen if not any(alike(it, other) for other in known))[:3],
            [],
        )
        page.same("the picture's width in lengths", round(box[2], 2), round(DESK[0] / 50, 2))
    page.js("explorer.change({level: 2})")
    page.press("save-svg")
    picture = page.saved(f"{name}.svg")
    page.same("what is wrong with a picture of supertiles", invalid(picture.decode()), "")
    page.same("light lines around supertiles", picture.count(b'class="around"'), 1)
    light, dark = (picture.find(b'class="%s"' % it) for it in (b"around", b"supertile"))
    page.true("they are under the outlines", 0 < light < dark)
    page.same("how much of the size is cut", page.js("asked.cut('png-size')"), 0)
    page.press("save-png")
    png = page.saved(f"{name}.png")
    page.same("what the page says of it", page.text("note"), f"{name}.png saved")
    page.same(
        "the size of the PNG",
        [int.from_bytes(png[i : i + 4], "big") for i in (16, 20)],
        page.js("[innerWidth, innerHeight]"),
    )
    board(page)


def invalid(picture):
    """Why a picture isn't SVG 1.1, or nothing; not judged without xmllint or the document type. Attributes
    such as data-near are of SVG 2."""
    types = glob.glob("/usr/share/xml/w3c-sgml-lib/schema/dtd/REC-SVG11-*/svg11.dtd")
    if not types or not shutil.which("xmllint"):
        return ""
    words = ["xmllint", "--nonet", "--noout", "--dtdvalid", types[-1], "-"]
    own = re.sub(r' data-near="[^"]*"', "", picture)
    return subprocess.run(words, input=own, capture_output=True, text=True, check=False).stderr


def is_seen(polygon, box):
    points = [[float(it) for it in pair.split(",")] for pair in polygon.get("points").split()]
    x, y = (sum(point[i] for point in points) / len(points) for i in (0, 1))
    return box[0] < x < box[0] + box[2] and box[1] < y < box[1] + box[3]


def board(page):
    """60 connected tiles: each at its place, with neighbours that have the edge the other way round."""
    page.open(tiling="penrose_p3", seed=4, at="12,-3,0,0", scale=50)
    page.js("document.querySelector('#board-form button').click()")
    made = json.loads(page.saved("penrose_p3-board.json"))
    page.same("what the page says of a board", page.text("note"), "penrose_p3-board.json saved")
    known = {it.name: it for it in listing("penrose_p3", 4, (12, -3, 0, 0), (30, 16), True)}
    tiles, vertices = made["tiles"], {it["id"]: complex(it["x"], it["y"]) for it in made["vertices"]}
    page.same("tiles of the board", len(tiles), 60)
    for tile in tiles:
        name = next((it for it in known if alike(it, tile["address"])), None)
        page.true(f"the program has {tile['address']}", name)
        page.same(
            f"kind and turn of {name}", [tile["kind"], tile["turn"]], [known[name].kind, known[name].turn]
        )
        corners = [z for polygon in known[name].polygons for z in polygon]
        page.true(
            "its corners are there",
            all(min(abs(vertices[it] - z) for z in corners) < 1e-6 for it in tile["corners"]),
        )
        for edge, other in enumerate(tile["neighbours"]):
            if other is not None:
                a, b = tile["corners"][edge], tile["corners"][(edge + 1) % 4]
                theirs = tiles[other]["corners"]
                page.true(
                    "a neighbour has the edge",
                    any(theirs[i] == b and theirs[(i + 1) % 4] == a for i in range(4)),
                )


def try_rules(page):
    """Each rule file of the menu is drawn without a gap, and its tile in the middle is the program's."""
    page.open()
    page.js("explorer.cards.show('tilings')")
    names = page.js("[...document.querySelectorAll('#tiling-list .choice')].map(it => it.dataset.name)")
    page.same("the tilings of the menu", sorted(names), RULES)
    titles = page.js("[...document.querySelectorAll('#tiling-list strong')].map(it => it.textContent)")
    page.same("different titles", len(set(titles)), len(RULES))
    for name in RULES:
        page.where = name
        page.js(f"document.querySelector('[data-name={name}]').click()")
        page.wait(f"explorer.state.tiling === '{name}' && explorer.told.name === '{name}'")
        page.ready()
        known = listing(name, 0, (0, 0, 0, 0), (4, 4), True)
        tile = page.js("asked.tileAt(7, 11)")
        point = complex(7, -11) / page.place()[1]
        right = [it for it in known if any(inside_loosely(polygon, point) for polygon in it.polygons)]
        page.true(
            f"{tile[0]} is the program's",
            right
            and alike(right[0].name, tile[0])
            and [right[0].kind, right[0].turn, right[0].shift] == tile[1:],
        )
        drawn = drawn_rule(os.path.join(TOP, "rules", name + ".toml"))
        told = page.js(f"explorer.ask('rulePicture', {{name: '{name}'}})")
        page.same("polygons and lines of the rule's picture", told.count("<path"), drawn.count("<path"))
        for scale in (9.71, 41):
            page.same(f"pixels without a tile at {scale}", page.js(f"asked.gaps({scale})"), [0, name])
    page.true("no fault is shown", page.js("document.getElementById('fault').hidden"))


def try_search(page):
    """Enter opens the first tiling that is listed, and the menu opens again with all of them."""
    page.open()
    page.js("explorer.cards.show('tilings')")
    page.js("asked.search('kites')")
    first = page.js("document.querySelector('#tiling-list .choice').dataset.name")
    page.browser.key("Enter")
    page.wait(f"explorer.told.name === '{first}'")
    page.same("the tiling that Enter opens", first, "penrose_p2")
    page.same("the word stays", page.js("document.getElementById('search').value"), "kites")
    page.js("explorer.cards.close(true)")
    page.js("explorer.cards.show('tilings')")
    page.same("the word is gone", page.js("document.getElementById('search').value"), "")
    count = page.js("document.querySelectorAll('#tiling-list .choice').length")
    page.same("tilings of the menu that opens again", count, len(RULES))


def drawn_rule(path):
    """The picture of a rule file by tools/draw_rule.py."""
    words = [sys.executable, os.path.join(TOP, "tools", "draw_rule.py"), path]
    return subprocess.run(words, stdout=subprocess.PIPE, text=True, check=True).stdout


def drop(page, text, name):
    """Drops a file on the page."""
    page.js(f"asked.drop({json.dumps(text)}, {json.dumps(name)})")


def try_files(page):
    """A rule file that is dropped is drawn; the fault of a refused one is that of the program, with a
    picture."""
    page.open()
    folder = os.path.join(TOP, "docs", "refused")
    for name in sorted(it for it in os.listdir(folder) if it.endswith(".toml")):
        page.where = name
        path = os.path.join(folder, name)
        with open(path, encoding="utf-8") as file:
            text = file.read()
        page.js("document.getElementById('fault').hidden = true")
        drop(page, text, name)
        page.wait("!document.getElementById('fault').hidden")
        page.same("the line", page.text("fault-line"), first_line(path).removeprefix("# Refused: "))
        page.wait("document.querySelector('#fault-picture img')?.naturalWidth > 100")
        source = page.js("decodeURIComponent(document.querySelector('#fault-picture img').src)")
        drawn = drawn_rule(path)
        page.same("red lines", *(picture.count('stroke="#d00000"') for picture in (source, drawn)))
    drop(page, "order = 5\n", "nothing.toml")
    page.wait("document.getElementById('fault-line').textContent.startsWith('3 RuleRefused Missing')")
    page.true("no picture of it", page.js("!document.querySelector('#fault-picture img')"))
    with open(os.path.join(TOP, "rules", "sphinx.toml"), encoding="utf-8") as file:
        drop(page, file.read(), "my sphinx.toml")
    page.wait("explorer.state.tiling === 'my_sphinx.toml'")
    page.ready()
    page.true("the fault is gone", page.js("document.getElementById('fault').hidden"))
    time.sleep(0.5)
    kept = page.js("location.hash")
    page.load(kept)
    page.same("a file in the page's address", page.js("explorer.told.classes.true.kinds"), [0, 1])


def try_colours(page):
    """The middle of each tile has the colour of its kind, as pictures of the package have."""
    for name, colours in LAKE.items():
        page.open(tiling=name, scale=60)
        seen = page.js("asked.colours()")
        page.true("tiles are asked for", len(seen) > 60)
        page.same("tiles of another colour", [it for it in seen if colours[it[0]] != it[1]][:3], [])
    page.js("explorer.change({own: new Map([['k0', '#123456']])})")
    page.ready()
    page.same(
        "a colour of one's own", {it[1] for it in page.js("asked.colours()") if it[0] == 0}, {"#123456"}
    )
    page.js("explorer.cards.show('look')")
    marked = "document.querySelector('input[name=palette]:checked')?.value ?? ''"
    page.same("the palette that is marked with own colours", page.js(marked), "")
    page.js("document.querySelector('input[name=palette][value=lake]').click()")
    page.same("the palette that is chosen again", page.js(marked), "lake")
    page.same("own colours after that", page.js("explorer.state.own.size"), 0)
    page.open(tiling="penrose_p3")
    page.js("explorer.cards.show('look')")
    names = "[...document.querySelectorAll('#wells label')].map(it => it.textContent)"
    page.same("names of colours", page.js(names), ["Thin rhomb", "Thick rhomb"])
    page.js("explorer.chooseTiling('penrose_p2')")
    page.wait("explorer.told.name === 'penrose_p2'")
    page.same("names of colours of another tiling", page.js(names), ["Dart", "Kite"])
    page.js("explorer.change({isWhole: false})")
    page.same("names of halves", page.js(names), [f"Kind {i}" for i in range(4)])


def try_looks(page):
    """Nothing sticks out at any size, no card hides the controls, and words have enough contrast, light
    and dark."""
    for size, phone in (((2560, 1440), False), ((1600, 1000), False), ((1280, 720), False), (PHONE, True)):
        for scheme in ("light", "dark"):
            page.open(size, phone, scheme, tiling="penrose_p3")
            page.where = f"{size[0]} x {size[1]}, {scheme}"
            page.same("how much sticks out", page.js("asked.sticksOut()"), [0, 0])
            for card in ("tilings", "look", "places", "save", "help"):
                page.js(f"explorer.cards.show('{card}')")
                page.true(f"{card} is in view", page.js(f"asked.isInView('{card}')"))
                page.same(f"words of {card} with too little contrast", page.js(f"asked.faint('{card}')"), [])
                page.same(f"controls of {card} without a name", page.js(f"asked.nameless('{card}')"), [])
                page.js("explorer.cards.close(true)")
            page.same("controls that are too small for a finger", page.js("asked.small()"), [])
    far_card(page)


def far_card(page):
    """The card of a tile far away, with long addresses, is seen whole, and stands beside the menu."""
    page.open((1600, 1000), tiling="penrose_p3", at="-3184,18067,-1000000,-5649", seed=4)
    x, y = page.middle()
    page.browser.click(x + 3, y + 4)
    page.wait("explorer.marks.kept")
    page.same("what is hidden of the tile's card", page.js("asked.hidden('tile-body')"), 0)
    page.js("explorer.cards.show('tilings')")
    tile, menu = page.js("['tile', 'tilings'].map(it => asked.box(it))")
    page.true("the card is beside the menu", tile["left"] > menu["right"])
    page.js("explorer.cards.close(true)")


ALL = (
    try_start,
    try_tiles,
    try_stars,
    try_supertiles,
    try_hands,
    try_fingers,
    try_keys,
    try_address,
    try_saving,
    try_rules,
    try_search,
    try_files,
    try_colours,
    try_looks,
)
ONLY_CHROMIUM = (try_fingers, try_looks)  # (phones and dark pages are had by its protocol alone)


# ---- how fast, and pictures -----------------------------------------------------------------------
def times(page):
    """Prints how fast the page is."""
    page.open((1600, 1000))
    name, first = page.browser.name, page.js("explorer.screen.report.first")
    print(f"explore: {name}: first view after {first:.0f} ms")
    page.js("explorer.change({scale: Math.sqrt(1600 * 1000 * explorer.told.density / 2 / 20000)})")
    page.ready()
    rows = [page.js("asked.again()") for _ in range(15)]
    for what, column in (("of a worker", 0), ("until it is shown", 1)):
        spent = sorted(row[column] for row in rows)
        print(f"explore: {name}: 20,000 rhombs in 1600 x 1000: {spent[0]:.0f} to {spent[7]:.0f} ms {what}")
    for what, step in (("panning", "explorer.move(-7, 3)"), ("zooming", "explorer.zoom(1.006, 30, 20)")):
        told = page.js(f"asked.frames(() => {step})")
        print(f"explore: {name}: {what}: {told[0]:.1f} frames a second, the longest after {told[1]:.0f} ms")


def pictures(page, folder):
    """Pictures of the page at four sizes, light and dark."""
    os.makedirs(folder, exist_ok=True)
    for size, phone in (((2560, 1440), False), ((1600, 1000), False), ((1280, 720), False), (PHONE, True)):
        for scheme in ("light", "dark"):
            for card in ("", "tilings", "look", "places", "save", "help"):
                page.open(size, phone, scheme, tiling="penrose_p3")
                if card:
                    page.js(f"explorer.cards.show('{card}')")
                if card == "places":
                    page.press("find-stars")
                time.sleep(1.2 if card in ("tilings", "places") else 0.3)
                with open(os.path.join(folder, f"{size[0]}_{scheme}_{card or 'start'}.png"), "wb") as file:
                    file.write(page.browser.picture())


def tried(browser, asked):
    """Tries all in a browser, and returns how many comparisons there were and what is wrong."""
    page = Page(browser)
    for one in ALL:
        if browser.name == "Chromium" or one not in ONLY_CHROMIUM:
            try:
                one(page)
            except Trouble as trouble:
                page.wrong.append(f"{browser.name}, {one.__name__}, {page.where}: {trouble}")
    for said in browser.complaints():
        page.wrong.append(f"{browser.name}: the console has {said}")
    if "--times" in asked:
        times(page)
    if "--pictures" in asked:
        pictures(page, asked[asked.index("--pictures") + 1])
    return page.count, page.wrong


def main():
    browsers = [kind for kind in (Chromium, Firefox) if kind.program()]
    if not browsers:
        print("explore: skipped, since there is no browser")
        return 77
    total, wrong = 0, []
    for kind in browsers:
        browser = kind()
        try:
            count, faults = tried(browser, sys.argv[3:])
        finally:
            browser.end()
        total, wrong = total + count, wrong + faults
    for line in wrong[:30]:
        print(f"explore: {line}", file=sys.stderr)
    print(f"explore: {total} compared in {' and '.join(kind.name for kind in browsers)}, {len(wrong)} differ")
    return 1 if wrong else 0


if __name__ == "__main__":
    sys.exit(main())
