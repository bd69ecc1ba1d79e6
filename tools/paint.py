#!/usr/bin/env python3
"""Colours what the command `draw` prints: reads its picture and its list, and writes the picture in colours.

    ./tiling draw .. layers=svg,list | python3 tools/paint.py [OPTION..] > PICTURE.svg      (Python 3.9 or later)

    --colour kind|turn|child|plain   by the tile's kind, by its turn, by its number as a child, or all the same
    --level N                        with `child`: the number of the digit, counted from 0, the finest; 0 by default
    --palette NAME                   the colours: day, earth, sea, rose, stone or turns; or your own, as '#0b3954,#ff6663',
                                     which by kind go to the kinds that are there, in order
    --width N                        pixels; 800 by default
    --title TEXT                     what the picture shows

A whole tile of two halves, which `draw` lists with glue=yes, has the kind, the turn and the number of its first half. The
shapes are those of the program, to the digit. Path i gets the classes kK and tT (its kind and its turn) and, as its title,
the address or the two addresses in line i of the list; a style sheet can colour it again. The last path, of the class l,
has each line of the picture once. A line has the same width at any size."""
import re
import sys
from argparse import ArgumentTypeError

sys.dont_write_bytecode = True
from command_line import Arguments, Trouble, WrongWords, count, run  # noqa: E402
from svg import element, escaped, root  # noqa: E402

HEAD = re.compile(r'<svg xmlns="[^"]*" version="1.1" viewBox="(\S+ \S+) (\S+) (\S+)">')
GROUP = re.compile(r'<g transform="scale\((\S+) (\S+)\)" fill="none" stroke="black" stroke-width="40">')
PATH = re.compile(r'<path class="k(\d+)" d="M([^"]*)Z"/>')
PART = r"(\d+) (\d+) \S+ (\d+:\S*)"
LINE = re.compile(rf"{PART}(?: \+ {PART})?")
PALETTES = {
    "day": ["#4a7fb5", "#ecc06a", "#8fae5d", "#b5536b", "#8d78b8", "#e3885a"],
    "earth": ["#e9c46a", "#b5651d", "#7a8f52", "#f1e3c6", "#8c4a3c", "#c9a27c"],
    "sea": ["#1f5f7a", "#8ecae6", "#f2e9d8", "#3a9a9c", "#f4b860", "#d0ebf2"],
    "rose": ["#8e3b5e", "#f2b8c6", "#f7e7dc", "#d9708f", "#5b4a78", "#c9b6d8"],
    "stone": ["#e4ddd0", "#a9b4a6", "#6f7f80", "#c9b79c", "#8a7a6a", "#d5d9d2"],
    "turns": ["#3a6378", "#2a7f86", "#2a9d8f", "#8ab17d", "#babb74", "#e9c46a", "#efb366", "#f4a261", "#ee8959", "#e76f51"],
}
OWN = re.compile(r"#[0-9A-Fa-f]{6}(?:,#[0-9A-Fa-f]{6})*")


class Tile:
    """A tile drawn: its kind and turn, its address or those of its halves, and its corners as the texts `x
    y`."""

    def __init__(self, path, line):
        self.kind, self.turn, self.name = int(line[1]), int(line[2]), line[3]
        self.corners = path[2].split("L")
        self.digits = [int(digit.partition("/")[0]) for digit in self.name.partition(":")[2].split(",") if digit]
        if line[6]:
            self.name = f"{line[3]} + {line[6]}"
        if path[1] != line[1]:
            raise Trouble("a line of the list is of another kind than its path")

    def sides(self):
        return list(zip(self.corners, self.corners[1:] + self.corners[:1]))


class Drawn:
    """What `draw` printed: the box of the picture, the scale of its numbers, and its tiles."""

    def __init__(self, text):
        lines = text.split("\n")
        head, group = HEAD.fullmatch(lines[0]), GROUP.fullmatch(lines[1]) if len(lines) > 1 else None
        if not head or not group or "</svg>" not in lines:
            raise Trouble("this isn't what `./tiling draw .. layers=svg,list` prints")
        end = lines.index("</svg>")
        self.box, self.wide, self.high = f"{head[1]} {head[2]} {head[3]}", float(head[2]), float(head[3])
        self.scale = f"{group[1]} {group[2]}"
        paths = [PATH.fullmatch(line) for line in lines[2 : end - 1]]
        listed = [LINE.fullmatch(line) for line in lines[end + 1 : end + 1 + len(paths)]]
        if not all(paths) or not all(listed) or len(listed) < len(paths):
            raise Trouble("the list is missing: the layers have to be svg,list, in this order")
        self.tiles = [Tile(path, line) for path, line in zip(paths, listed)]


def outline(drawn):
    """The lines of the picture, each once, as the text of one path."""
    seen, text, last = set(), "", None
    for tile in drawn.tiles:
        for side in tile.sides():
            if side in seen or side[::-1] in seen:
                continue
            seen.add(side)
            text += f"L{side[1]}" if side[0] == last else f"M{side[0]}L{side[1]}"
            last = side[1]
    return text


def class_of(tile, options):
    """The class by which a tile is coloured: kK, tT, or where neither says it, cN."""
    if options.colour == "child":
        return f"c{tile.digits[options.level] if options.level < len(tile.digits) else 0}"
    if options.colour == "turn":
        return f"t{tile.turn}"
    return f"k{tile.kind}"


def fills(classes, options, palette):
    """The rules of the style sheet: a colour for each class that is there."""
    numbers = sorted(int(name[1:]) for name in classes)
    turns = max(numbers, default=0) + 1
    for name in sorted(classes):
        place = int(name[1:])
        if options.colour == "plain":
            place = 0
        elif options.colour == "turn":
            place = place * len(palette) // turns
        elif options.colour == "kind" and options.palette not in (None, *PALETTES):
            place = numbers.index(place)
        colour = palette[place % len(palette)]
        yield f".{name}{{fill:{colour};stroke:{colour}}}"


def paint(drawn, options):
    """The picture in colours as the text of an SVG file."""
    name = options.palette or ("turns" if options.colour == "turn" else "day")
    palette = PALETTES.get(name) or name.split(",")
    classes = [class_of(tile, options) for tile in drawn.tiles]
    high = round(options.width * drawn.high / drawn.wide)
    body = [root(drawn.box, options.width, high, "1.1")]
    body += [element("title", escaped(options.title))] if options.title else []
    body += ['<style type="text/css">path{stroke-width:20;stroke-linejoin:round} .l{fill:none;stroke:#222;stroke-width:40}']
    body += ["@supports (vector-effect:non-scaling-stroke){path{vector-effect:non-scaling-stroke;stroke-width:1} .l{stroke-width:1.1}}"]
    body += [*fills(set(classes), options, palette), "</style>", f'<g transform="scale({drawn.scale})">']
    for tile, name in zip(drawn.tiles, classes):
        more = f" {name}" if name[0] == "c" else ""
        look = {"class_": f"k{tile.kind} t{tile.turn}{more}", "d": f"M{'L'.join(tile.corners)}Z"}
        body.append(element("path", element("title", tile.name), **look))
    body.append(element("path", class_="l", d=outline(drawn)))
    return "\n".join(body + ["</g>", "</svg>", ""])


def palette_of(word):
    """A type of argparse: the name of a palette, or own colours."""
    if word not in PALETTES and not OWN.fullmatch(word):
        raise ArgumentTypeError(f"'{word}' is none of {', '.join(PALETTES)}, and no list of colours such as '#0b3954,#ff6663'")
    return word


def given(words):
    """The options of a call."""
    arguments = Arguments()
    arguments.add_argument("--colour", choices=("kind", "turn", "child", "plain"), default="kind")
    arguments.add_argument("--level", type=count, default=0)
    arguments.add_argument("--palette", type=palette_of)
    arguments.add_argument("--width", type=count, default=800)
    arguments.add_argument("--title")
    return arguments.parse_args(words)


def main(words):
    options = given(words)
    if sys.stdin is None or sys.stdin.isatty():
        raise WrongWords
    print(paint(Drawn(sys.stdin.read()), options), end="")


if __name__ == "__main__":
    run(main, __doc__)
