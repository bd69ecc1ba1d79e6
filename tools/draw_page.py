#!/usr/bin/env python3
"""Puts pictures of tools/paint.py into one page that shows the address of the tile under the pointer.

    draw_page.py PICTURE.svg .. > PAGE.html

The page is tools/page.html with the pictures in it; it needs no network."""
import html
import os
import re
import sys

sys.dont_write_bytecode = True
from command_line import Arguments, Trouble, run  # noqa: E402

HEAD = re.compile(r'<svg [^>]*viewBox="[^"]*" width="(\d+)" height="(\d+)">\n<title>([^<]*)</title>\n')
COLOUR = re.compile(r"^(\.[a-z]\d+)(\{fill:#\w+;stroke:#\w+\})$", re.M)


def words_of(picture):
    """The command that drew a picture, and the word of its rule."""
    found = HEAD.match(picture)
    if not found:
        raise Trouble("a picture isn't one that tools/paint.py wrote with --title")
    words = html.unescape(found[3])
    return words, next(word for word in words.split(" ") if word.startswith("rule="))


def figure(path):
    """A picture as a figure of the page, and its colours, which hold in that figure alone."""
    name = os.path.basename(path).removesuffix(".svg")
    try:
        with open(path, encoding="utf-8") as file:
            picture = file.read()
    except OSError as fault:
        raise Trouble(f"{path} can't be read: {fault.strerror}") from fault
    words, rule = words_of(picture)
    colours = "\n".join(f"#{name} {what}{how}" for what, how in COLOUR.findall(picture))
    body = re.sub(r"<title>tiling [^<]*</title>\n|<style[^>]*>.*?</style>\n", "", picture, flags=re.S)
    words = html.escape(f"./{words}")
    return f'<figure id="{name}" data-name="{name}" data-rule="{rule}" data-words="{words}">\n{body}</figure>', colours


def main(words):
    arguments = Arguments()
    arguments.add_argument("pictures", nargs="+")
    paths = arguments.parse_args(words).pictures
    with open(os.path.join(os.path.dirname(os.path.abspath(__file__)), "page.html"), encoding="utf-8") as file:
        page = file.read()
    figures = [figure(path) for path in paths]
    page = page.replace("/* colours */", "\n".join(colours for _, colours in figures))
    print(page.replace("<!-- pictures -->", "\n".join(text for text, _ in figures)), end="")


if __name__ == "__main__":
    run(main, __doc__)
