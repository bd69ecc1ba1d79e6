"""Opens a page in the browser to pan and zoom tilings.

  pagnetuf explore
  pagnetuf explore sphinx --seed 3 --at 1000,-7,0,0
  pagnetuf explore my_rule.toml --print

The page is one file, docs/explore.html. It has the engine and all rule files inside, and needs no network.
The address of the page is printed too, for a browser of your choice; it has the view, and the text of a
rule file of your own."""
from __future__ import annotations

import argparse
import base64
import os
import pathlib
import re
import webbrowser
from urllib.parse import quote

from .. import places
from .command_line import Trouble, add_frame, called, frame_asked, is_known, tell

MOST_FILE = 1 << 16  # bytes of a rule file in an address


def add_words(parser: argparse.ArgumentParser) -> None:
    parser.add_argument(
        "rule",
        nargs="?",
        default="p3",
        help="p2, p3, ab, chair, halfhex, a rule file, or a name that the command `rules` lists",
    )
    add_frame(parser)
    parser.add_argument("--print", action="store_true", help="only print the address")


def run(options: argparse.Namespace) -> None:
    address = f"{pathlib.Path(page_address()).as_uri()}#{view(options)}"
    print(address, flush=True)
    if not options.print and not webbrowser.open(address):
        tell(f"{called()} explore: no browser was opened; the address above can be opened by hand")


def page_address() -> str:
    """The path of the page."""
    found = places.page_path()
    if not found:
        raise Trouble("there is no page explore.html: packaging/make_page.py makes it")
    return found


def view(options: argparse.Namespace) -> str:
    """What the page reads behind the # of its address."""
    frame = frame_asked(options)
    words = {
        "seed": str(frame.seed),
        "base": frame.base,
        "at": ",".join(map(str, options.at)),
        **tiling_words(options.rule),
    }
    return "&".join(f"{name}={quote(value, ',:/')}" for name, value in words.items())


def tiling_words(name: str) -> dict:
    """The name of a tiling that the page knows, or the text of a rule file."""
    known = places.rule_path(os.path.splitext(os.path.basename(name))[0])
    is_file_of_rules = known and os.path.exists(name) and os.path.samefile(name, known)
    if is_known(name) or is_file_of_rules:
        return {"tiling": os.path.splitext(os.path.basename(name))[0]}
    path = name
    try:
        with open(path, "rb") as file:
            data = file.read(MOST_FILE + 1)
    except OSError as trouble:
        raise Trouble(
            f"there is no tiling {name}, and no file {name} can be read ({trouble.strerror})"
        ) from trouble
    if len(data) > MOST_FILE:
        raise Trouble(f"{name} is too long for an address of the page: drop it on the page")
    own = re.sub(r"[^\w.()+-]", "_", os.path.basename(path))[:80]
    return {"tiling": own, "file": base64.urlsafe_b64encode(data).decode().rstrip("=")}
