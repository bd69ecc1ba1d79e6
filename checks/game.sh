#!/bin/sh
# Plays the game of docs/BOARDS.md in Chromium, on a board that js/pagnetuf.js makes with the built engine, or that inside
# docs/explore.html: each click changes what the page says, and a computed solution ends the game. Ends with 1 if not.
. "$(dirname "$0")/needs"
need node chromium python3
exec "$python" "$top/tests/wasm/game.py" "$top"
