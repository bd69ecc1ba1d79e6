"""What the page of tilings names beside what is under the pointer: see page.sh. Called with the top."""
import html
import os
import random
import re
import shutil
import sys

from selenium import webdriver
from selenium.webdriver.chrome.options import Options
from selenium.webdriver.chrome.service import Service

sys.dont_write_bytecode = True
PAGE = os.path.join(os.path.abspath(sys.argv[1]), "docs", "gallery", "tilings.html")
WIDTHS, HEIGHT = (1400, 1200, 915, 600, 390), 800
STEPS, TAPS = 16, 3  # in each picture at each width
NEAR = 1.0  # pixels: so near to a line nothing is asked
FIGURE = re.compile(r'<figure id="(\w+)".*?</figure>', re.S)
HEAD = re.compile(r'viewBox="(\S+) (\S+) (\S+) (\S+)".*?scale\((\S+) (\S+)\)', re.S)
TILE = re.compile(r'<path class="k\d[^"]*" d="M([^"]*)Z"><title>([^<]*)</title>')
SAID = "return document.querySelector('#said code').textContent"
RECTS = """const box = (e) => { const r = e.getBoundingClientRect(); return [r.left, r.top, r.right, r.bottom]; };
return [box(document.querySelector('figure:not([hidden]) svg')), box(document.getElementById('said')), document.documentElement.scrollWidth];"""


class Picture:
    """A picture of the page by its own numbers: its box, and its tiles by their titles."""

    def __init__(self, text):
        left, top, wide, high, x, y = map(float, HEAD.search(text).groups())
        self.box, self.scale, self.tiles = (left, top, wide, high), (x, y), []
        for numbers, title in TILE.findall(text):
            corners = [tuple(map(float, corner.split(" "))) for corner in numbers.split("L")]
            self.tiles.append((corners, html.unescape(title)))

    def at(self, pixel, rect):
        """The tile at a pixel of the window, where the picture has this place; None where a line is near."""
        left, top, wide, high = self.box
        unit = (rect[2] - rect[0]) / wide
        point = tuple((left, top)[i] / 1.0 + (pixel[i] - rect[i]) / unit for i in (0, 1))
        for corners, title in self.tiles:
            seen = [(x * self.scale[0], y * self.scale[1]) for x, y in corners]
            sides = list(zip(seen, seen[1:] + seen[:1]))
            if min(distance(point, a, b) for a, b in sides) * unit < NEAR:
                return None
            if sum(crosses(point, a, b) for a, b in sides) % 2:
                return title
        return None


def distance(p, a, b):
    """How far a point is from a line between two others."""
    along, own = (b[0] - a[0], b[1] - a[1]), (p[0] - a[0], p[1] - a[1])
    share = max(0, min(1, (along[0] * own[0] + along[1] * own[1]) / (along[0] ** 2 + along[1] ** 2)))
    return ((own[0] - share * along[0]) ** 2 + (own[1] - share * along[1]) ** 2) ** 0.5


def crosses(p, a, b):
    """Whether a ray to the right crosses the line from a to b."""
    return (a[1] > p[1]) != (b[1] > p[1]) and p[0] < a[0] + (p[1] - a[1]) / (b[1] - a[1]) * (b[0] - a[0])


class Browser:
    def __init__(self):
        options = Options()
        options.binary_location = shutil.which("chromium")
        for word in ("--headless=new", "--no-sandbox", "--disable-gpu", "--disable-dev-shm-usage", "--hide-scrollbars"):
            options.add_argument(word)
        self.driver = webdriver.Chrome(service=Service(shutil.which("chromedriver")), options=options)

    def open(self, width, touch):
        """The page anew in a window of this width, with a mouse or by touch."""
        size = {"width": width, "height": HEIGHT, "deviceScaleFactor": 1, "mobile": touch}
        self.driver.execute_cdp_cmd("Emulation.setDeviceMetricsOverride", size)
        self.driver.execute_cdp_cmd("Emulation.setTouchEmulationEnabled", {"enabled": touch})
        self.driver.get(f"file://{PAGE}")

    def show(self, name):
        """One of the page's pictures; where it is, where the box of text is, and how wide the page is."""
        self.driver.execute_script(f"document.querySelector('button[value={name}]').click()")
        return self.rects()

    def rects(self):
        return self.driver.execute_script(RECTS)

    def said(self):
        return self.driver.execute_script(SAID)

    def move(self, x, y):
        self.driver.execute_cdp_cmd("Input.dispatchMouseEvent", {"type": "mouseMoved", "x": x, "y": y})

    def tap(self, x, y):
        self.driver.execute_cdp_cmd("Input.dispatchTouchEvent", {"type": "touchStart", "touchPoints": [{"x": x, "y": y}]})
        self.driver.execute_cdp_cmd("Input.dispatchTouchEvent", {"type": "touchEnd", "touchPoints": []})


class Check:
    def __init__(self, pictures):
        self.browser, self.pictures, self.draw = Browser(), pictures, random.Random(1)
        self.asked, self.wrong = 0, []

    def compare(self, what, got, wanted):
        self.asked += 1
        if got != wanted:
            self.wrong.append(f"{what}: it says {got!r}, and there is {wanted!r}")

    def spots(self, rects, count):
        """Pixels of the picture that the box of text doesn't hide, one near to the next as a pointer goes."""
        (left, top, right, bottom), said, _ = rects
        low = min(bottom, said[1], HEIGHT) - 3
        x, y = self.draw.uniform(left + 3, right - 3), self.draw.uniform(top + 3, low)
        for _ in range(count):
            yield round(x), round(y)
            x += self.draw.uniform(-60, 60) if count == STEPS else self.draw.uniform(left - right, right - left)
            y += self.draw.uniform(-40, 40) if count == STEPS else self.draw.uniform(top - low, low - top)
            x, y = min(max(x, left + 3), right - 3), min(max(y, top + 3), low)

    def point(self, name, width):
        """A pointer goes over a picture."""
        rects = self.browser.show(name)
        self.compare(f"{name} at {width}: the page is wider than the window", rects[2] <= width, True)
        for x, y in self.spots(rects, STEPS):
            self.browser.move(x, y)
            wanted = self.pictures[name].at((x, y), rects[0])
            self.compare(f"{name} at {width}: what is where, with the pointer at {x},{y}", self.browser.rects(), rects)
            if wanted:
                self.compare(f"{name} at {width}, pointer at {x},{y}", self.browser.said(), wanted)
        self.browser.move(1, 1)
        self.compare(f"{name} at {width}, no tile", self.browser.said().startswith("./tiling draw "), True)

    def touch(self, name, width):
        """Taps at tiles: the first names and keeps one, a second lets it go."""
        rects = self.browser.show(name)
        for x, y in self.spots(rects, TAPS):
            wanted = self.pictures[name].at((x, y), rects[0])
            if wanted:
                self.browser.tap(x, y)
                self.compare(f"{name} at {width}, touched at {x},{y}", self.browser.said(), wanted)
                self.compare(f"{name} at {width}: what is where, touched at {x},{y}", self.browser.rects(), rects)
                self.browser.tap(x, y)
                self.compare(f"{name} at {width}, touched twice", self.browser.said().startswith("./tiling draw "), True)

    def run(self):
        for width in WIDTHS:
            for touch, way in ((False, self.point), (True, self.touch)):
                self.browser.open(width, touch)
                for name in self.pictures:
                    way(name, width)
        self.browser.driver.quit()


def main():
    with open(PAGE, encoding="utf-8") as file:
        page = file.read()
    check = Check({found[1]: Picture(found[0]) for found in FIGURE.finditer(page)})
    check.run()
    for line in check.wrong[:20]:
        print(f"page: {line}", file=sys.stderr)
    print(f"page: {check.asked} compared in {len(check.pictures)} pictures at {len(WIDTHS)} widths, {len(check.wrong)} differ")
    return 1 if check.wrong or not check.asked else 0


sys.exit(main())
