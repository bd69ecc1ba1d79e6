#!/usr/bin/env python3
"""Plays the game of docs/BOARDS.md in Chromium, from a folder as a reader has it: the page, and a board of 60 rhombs
beside it. A click changes exactly the tile and its neighbours, and the same click changes them back. Solved as linear
equations, the game ends with all tiles dark.

  tests/wasm/game.py TOP

Ends with 1 if it isn't so, and with 77 if there is no Chromium here."""
import os
import re
import subprocess
import sys
import tempfile

from browser import Chromium, is_there

LIT = "lit.map(Number)"
PRESS = "shapes[{}].dispatchEvent(new MouseEvent('click'))"
NEAR = "board.tiles.map((tile) => tile.neighbours)"


def solution(near, lit):
    """The tiles to press: a solution of the linear equations modulo 2, each row a number with a bit for each tile, and
    one for what is lit."""
    count = len(near)
    rows = [sum(1 << other for other in {tile, *near[tile]} - {None}) | lit[tile] << count for tile in range(count)]
    pivots = []
    for column in range(count):
        row = next((i for i in range(len(pivots), count) if rows[i] >> column & 1), None)
        if row is None:
            continue
        top = len(pivots)
        rows[top], rows[row] = rows[row], rows[top]
        rows = [it ^ rows[top] if i != top and it >> column & 1 else it for i, it in enumerate(rows)]
        pivots.append(column)
    return [column for row, column in enumerate(pivots) if rows[row] >> count & 1]


def faults(run):
    """What is wrong with the game."""
    near, first = run(NEAR), run(LIT)
    if len(first) != 60 or run("document.querySelectorAll('polygon').length") != 60:
        yield "there aren't 60 tiles"
    for tile in range(60):
        run(PRESS.format(tile))
        changed = {i for i, (one, other) in enumerate(zip(first, run(LIT))) if one != other}
        run(PRESS.format(tile))
        if changed != {tile, *near[tile]} - {None} or run(LIT) != first:
            yield f"tile {tile} changes {changed}"
    for tile in solution(near, first):
        run(PRESS.format(tile))
    told = run("document.querySelector('b').textContent")
    if any(run(LIT)) or not re.fullmatch(r"\d+ moves, done!", told):
        yield f"the game isn't solved: {told}"


def main():
    top = os.path.abspath(sys.argv[1])
    if not is_there("chromium"):
        sys.exit(77)
    with open(os.path.join(top, "docs", "BOARDS.md"), encoding="utf-8") as file:
        page = re.search(r"^```html\n(.*?)^```$", file.read(), re.M | re.S)[1]
    with tempfile.TemporaryDirectory() as folder:
        with open(os.path.join(folder, "game.html"), "w", encoding="utf-8") as file:
            file.write(page)
        with open(os.path.join(folder, "board.js"), "w", encoding="utf-8") as file:
            subprocess.run(["node", os.path.join(top, "tests", "wasm", "board.mjs")], stdout=file, check=True)
        browser = Chromium()
        try:
            browser.open(os.path.join(folder, "game.html"))
            found = list(faults(browser.js))
            if len(sys.argv) > 2:
                with open(sys.argv[2], "wb") as file:
                    file.write(browser.picture())
        finally:
            browser.close()
    for fault in found[:5]:
        print(f"game: {fault}", file=sys.stderr)
    sys.exit(1 if found else 0)


if __name__ == "__main__":
    main()
