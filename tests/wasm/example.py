#!/usr/bin/env python3
"""Opens the page of docs/JAVASCRIPT.md in Chromium, from a server on this machine, and looks at its canvas: all of it is
painted, in the four colours of the page and that of the lines.

  tests/wasm/example.py TOP WASM

Ends with 1 if it isn't so, and with 77 if there is no Chromium here."""
import functools
import http.server
import os
import re
import shutil
import sys
import tempfile
import threading
import time

from browser import Chromium, is_there

PIXELS = """(() => { const canvas = document.querySelector('canvas'), seen = {};
const { data } = canvas.getContext('2d').getImageData(0, 0, canvas.width, canvas.height);
for (let i = 0; i < data.length; i += 4) {
  const name = [...data.subarray(i, i + 4)].join();
  seen[name] = (seen[name] || 0) + 1;
}
return seen; })()"""
COLOURS = {"31,95,122,255", "142,202,230,255", "244,184,96,255", "242,233,216,255"}


def folder_of(top: str, wasm: str, folder: str):
    """A folder with the page, and with the package beside it as the page has it."""
    with open(os.path.join(top, "docs", "JAVASCRIPT.md"), encoding="utf-8") as file:
        page = re.search(r"^```html\n(.*?)^```$", file.read(), re.M | re.S)[1]
    with open(os.path.join(folder, "page.html"), "w", encoding="utf-8") as file:
        file.write("<!doctype html>" + page)
    os.mkdir(os.path.join(folder, "pagnetuf"))
    shutil.copy(os.path.join(top, "js", "pagnetuf.js"), os.path.join(folder, "pagnetuf"))
    shutil.copy(wasm, os.path.join(folder, "pagnetuf", "tiling.wasm"))


class Quiet(http.server.SimpleHTTPRequestHandler):
    extensions_map = {**http.server.SimpleHTTPRequestHandler.extensions_map, ".js": "text/javascript"}

    def log_message(self, *_):
        pass


def pixels(folder: str):
    """How often each colour is on the canvas, as soon as all of it is painted, or after a while."""
    server = http.server.ThreadingHTTPServer(("127.0.0.1", 0), functools.partial(Quiet, directory=folder))
    threading.Thread(target=server.serve_forever, daemon=True).start()
    browser = Chromium()
    try:
        browser.open(f"http://127.0.0.1:{server.server_port}/page.html")
        for _ in range(40):
            seen = browser.js(PIXELS)
            if "0,0,0,0" not in seen:
                break
            time.sleep(0.25)
        return seen
    finally:
        browser.close()
        server.shutdown()


def main():
    if not is_there("chromium"):
        sys.exit(77)
    with tempfile.TemporaryDirectory() as folder:
        folder_of(sys.argv[1], sys.argv[2], folder)
        seen = pixels(folder)
    few = [colour for colour in COLOURS if seen.get(colour, 0) < 10000]
    if few or "0,0,0,0" in seen:
        sys.exit(f"example: the canvas isn't painted: {sorted(seen.items(), key=lambda it: -it[1])[:6]}")


if __name__ == "__main__":
    main()
