#!/bin/sh
# Opens docs/gallery/tilings.html in a browser without a screen, at five widths, and points at its tiles: with a moving
# pointer, and by touch. The page names the tile that is there, found from the numbers of its picture, and nothing
# moves. Ends with 1 if it does not. It needs chromium, chromedriver and Python's selenium, and is skipped without them.
. "$(dirname "$0")/needs"
need chromium chromedriver python:selenium.webdriver
exec "$python" "$top/tests/page/page.py" "$top"
