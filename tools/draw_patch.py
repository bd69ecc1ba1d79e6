#!/usr/bin/env python3
"""Draws tiles of a supertile of a rule file as SVG, in floating point, from the file's numbers.

    draw_patch.py [OPTION..] FILE.toml KIND DEPTH > PICTURE.svg      the supertile of that kind and depth (Python 3.11)

    --colour kind|turn|child|shape   by the tile's kind, by its turn, by its coarsest child, or by kind with one colour
                                     for the two halves of a glued tile
    --whole                          no line along glue edges, so that two halves look like one tile
    --window W,H                     only what is in a window of W by H around the supertile's middle
    --centre X,Y                     the middle of that window
    --label                          each tile's child numbers, from fine to coarse
    --outline LEVEL                  thick lines around the supertiles of that level; may be given more than once
    --mark ADDRESS                   that tile in another colour; may be given more than once
    --width N                        pixels; 800 by default

Each tile is a path of the classes kK and tT (its kind and turn) with its address as its title, so a style sheet can
colour it again."""
import sys

sys.dont_write_bytecode = True
from command_line import Arguments, Trouble, count, numbers, run  # noqa: E402
from rule_file import box, centre, cross, load, sides  # noqa: E402
from svg import element, joined_spots, label, path, root  # noqa: E402

KINDS = ["#3f6c9f", "#6f9ccb", "#e0a344", "#f1cf8e", "#8fae5d", "#c9dba6", "#b5536b", "#e3a8b6"]
SHAPES = ["#4a7fb5", "#ecc06a", "#8fae5d", "#b5536b"]
TURNS = ["#264653", "#2a7f86", "#2a9d8f", "#8ab17d", "#babb74", "#e9c46a", "#efb366", "#f4a261", "#ee8959", "#e76f51"]
PALE = ["#d6e6f4", "#fbe6c8", "#dcebd0", "#f0d5dc", "#e6dcf0", "#d3eeea", "#f3efc0", "#e3ddd3"]
MARKED = ["#e06c3a", "#5b8fd0", "#7fb069"]


def whole_kinds(rule):
    """For each kind the least kind that is a half of the same glued tile, or the kind itself."""
    of = list(range(len(rule.kinds)))
    for glue in rule.glue:
        halves = [k for k, kind in enumerate(rule.kinds) if {glue, rule.mates[glue]} & set(kind.edges)]
        for k in halves:
            of[k] = min(halves)
    return of


def tiles_of(rule, top, depth, window, level=0):
    """The tiles of a supertile that may meet the window, or its supertiles of a level that do: (kind, turn, shift, digits
    from fine to coarse), the shift as it is in the whole."""
    reach = [max(abs(z - centre(kind.vertices)) for z in kind.vertices) for kind in rule.kinds]
    middle = [centre(kind.vertices) for kind in rule.kinds]
    stack, found = [(top, 0, 0, ())], []
    while stack:
        kind, turn, shift, digits = stack.pop()
        scale = rule.factor ** (depth - len(digits))
        at = (rule.zeta**turn * middle[kind]) * scale + shift
        far = reach[kind] * abs(scale)
        x0, y0, x1, y1 = window
        if at.real + far < x0 or at.real - far > x1 or at.imag + far < y0 or at.imag - far > y1:
            continue
        if len(digits) == depth - level:
            found.append((kind, turn, shift, digits))
            continue
        below = rule.factor ** (depth - len(digits) - 1)
        for c, (of, more, moved) in reversed(list(enumerate(rule.kinds[kind].children))):
            stack.append((of, (turn + more) % rule.order, shift + rule.zeta**turn * moved * below, ((c, kind), *digits)))
    return found


def address(kind, digits):
    return f"{kind}:" + ",".join(f"{child}/{parent}" for child, parent in digits)


def label_place(polygon):
    """The centre, or in a tile with an inner corner at vertex 0 a place further from it."""
    at = centre(polygon)
    inner = cross((polygon[0] - polygon[-1]).conjugate(), (polygon[1] - polygon[0]).conjugate()) < -1e-6
    return at + (at - polygon[0]) * 2 if inner else at


def style_of(rule, options):
    """The lines of the style sheet: a colour for each class."""
    shape = whole_kinds(rule)
    shapes, rules = sorted(set(shape)), []
    for i in range(rule.order if options.colour == "turn" else len(rule.kinds)):
        if options.colour == "turn":
            rules.append(f".t{i}{{fill:{TURNS[i * len(TURNS) // rule.order]}}}")
        elif options.colour == "shape":
            rules.append(f".k{i}{{fill:{SHAPES[shapes.index(shape[i]) % len(SHAPES)]}}}")
        elif options.colour == "kind":
            rules.append(f".k{i}{{fill:{KINDS[i % len(KINDS)]}}}")
    ink = "#333" if options.label else "#222"
    yield f'<style type="text/css">path{{stroke-linejoin:round;stroke-linecap:round}} .l{{fill:none;stroke:{ink};stroke-width:1.1}}'
    yield " ".join(rules) + "</style>"


def window_of(rule, outline, options):
    """What is drawn of a supertile, as its least x and y, and its greatest."""
    if not options.window:
        return box(outline)
    wide, high = options.window
    middle = complex(*options.centre) if options.centre else centre(outline)
    return middle.real - wide / 2, middle.imag - high / 2, middle.real + wide / 2, middle.imag + high / 2


class Picture:
    """The tiles of a supertile, in pixels: their paths, their lines, and their numbers."""

    def __init__(self, rule, options, unit):
        self.rule, self.options, self.unit = rule, options, unit
        self.tiles, self.lines, self.labels = [], [], []
        glued = set(rule.glue) | {rule.mates[glue] for glue in rule.glue}
        self.hidden = glued if options.whole else set()

    def placed(self, kind, turn, shift, level=0):
        """The corners of a tile, or of its supertile of a level."""
        rule = self.rule
        corners = (rule.zeta**turn * z * rule.factor**level + shift for z in rule.kinds[kind].vertices)
        return [z.conjugate() * self.unit for z in corners]

    def put(self, tile):
        """Adds a tile."""
        kind, turn, shift, digits = tile
        polygon, name, options, look = self.placed(kind, turn, shift), address(kind, digits), self.options, {}
        if name in options.mark:
            look = {"style": f"fill:{MARKED[options.mark.index(name) % len(MARKED)]}"}
        elif options.colour == "child" and digits:
            look = {"fill": PALE[digits[-1][0] % len(PALE)]}
        d = f"M{joined_spots(polygon)}Z"
        self.tiles.append(element("path", element("title", name), class_=f"k{kind} t{turn}", **look, d=d))
        shown = [pair for pair, number in zip(sides(polygon), self.rule.kinds[kind].edges) if number not in self.hidden]
        self.lines += [d] if len(shown) == len(polygon) else [f"M{joined_spots(pair)}" for pair in shown]
        if options.label:
            bold = {"font_weight": "bold"} if "style" in look else {}
            numbers_of_children = ",".join(str(child) for child, _ in digits)
            self.labels.append(label(label_place(polygon) + 4j, numbers_of_children, font_size=12, **bold))


def draw(rule, top, depth, options):
    """The picture as the text of an SVG file."""
    outline = [z * rule.factor**depth for z in rule.kinds[top].vertices]
    window = window_of(rule, outline, options)
    unit, edge = options.width / (window[2] - window[0]), 0 if options.window else 4
    left, up = window[0] * unit - edge, -window[3] * unit - edge
    wide, high = (window[2] - window[0]) * unit + 2 * edge, (window[3] - window[1]) * unit + 2 * edge
    view, sizes = f"{left:.1f} {up:.1f} {wide:.1f} {high:.1f}", (f"{wide:.0f}", f"{high:.0f}")
    what = f"{rule.name}: {'tiles in' if options.window else 'all tiles of'} the supertile of kind {top} and depth {depth}"
    body = [root(view, *sizes, font_family="sans-serif", text_anchor="middle"), element("title", what)]
    body += style_of(rule, options)
    if not options.window:
        box_of = dict(zip(("x", "y", "width", "height"), view.split()))
        body.append(element("rect", **box_of, fill="white"))
    picture = Picture(rule, options, unit)
    for tile in tiles_of(rule, top, depth, window):
        picture.put(tile)
    body += [*picture.tiles, element("path", class_="l", d="".join(picture.lines))]
    levels = [(level, 1.3 + 0.8 * level) for level in options.outline] + ([(depth - 1, 2.6)] if options.label else [])
    for level, thick in levels:
        for kind, turn, shift, _ in tiles_of(rule, top, depth, window, level):
            big = picture.placed(kind, turn, shift, level)
            body.append(path(big, fill="none", stroke="#222", stroke_width=f"{thick:.1f}"))
    return "\n".join([*body, *picture.labels, "</svg>", ""])


def given(words):
    """The options of a call."""
    arguments = Arguments()
    add = arguments.add_argument
    add("--colour", choices=("kind", "turn", "child", "shape"), default="kind")
    add("--window", type=numbers(2, float))
    add("--centre", type=numbers(2, float))
    add("--width", type=count, default=800)
    add("--outline", type=count, action="append", default=[])
    add("--mark", action="append", default=[])
    add("--whole", action="store_true")
    add("--label", action="store_true")
    add("file")
    add("kind", type=count)
    add("depth", type=count)
    return arguments.parse_args(words)


def main(words):
    options = given(words)
    rule, depth = load(options.file), options.depth
    if not options.kind < len(rule.kinds):
        raise Trouble(f"{options.file} has the kinds 0 to {len(rule.kinds) - 1}")
    if not all(level <= depth for level in options.outline):
        raise Trouble(f"the levels of a supertile of depth {depth} are 0 to {depth}")
    if not options.window and abs(rule.factor) ** (2 * depth) > 50000:
        raise Trouble("so deep a supertile has too many tiles for one picture: give --window W,H")
    try:
        print(draw(rule, options.kind, depth, options), end="")
    except (IndexError, TypeError, ValueError, ZeroDivisionError) as fault:
        raise Trouble(f"{options.file} can't be drawn ({fault}); `./tiling check rule=- < FILE` names its fault") from fault


if __name__ == "__main__":
    run(main, __doc__)
