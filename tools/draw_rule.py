#!/usr/bin/env python3
"""Draws the substitution of rule files as SVG, in floating point, from the numbers of the files.

    draw_rule.py FILE.toml > PICTURE.svg                   one picture (Python 3.11 or later)
    draw_rule.py --to FOLDER FILE.toml ..                  FOLDER/NAME.svg for each FILE NAME.toml
    draw_rule.py --fault 'REFUSAL' FILE.toml > PICTURE.svg the same, with the place that the refusal names in red:
                                                           'ChildEdgeLoose 0 0 0', or the whole line of `check`

Each kind has its prototile on the left. On the right is the prototile enlarged by the factor, and cut into its children.
Black numbers are children, and k with a number is the child's kind. Blue numbers at edges are edge types. An arrow shows
which way a directed type runs, so the arrow of a type and that of its mate are the same. The black dot is next to vertex
0, and the small circles are the other vertices. A file whose first line is '# Refused: ' and a refusal is drawn with that
refusal's place in red."""
import cmath
import math
import os
import sys

sys.dont_write_bytecode = True
from command_line import Arguments, Trouble, run  # noqa: E402
from rule_file import area, box, centre, cross, load, sides  # noqa: E402
from svg import arrow_head, circle, element, label, path, root  # noqa: E402

GAP, PAD, HEAD = 52, 24, 20
RED = "#d00000"
BLUE = "#1f5fa8"
FILLS = ["#d6e6f4", "#fbe6c8", "#dcebd0", "#f0d5dc", "#e6dcf0", "#d3eeea", "#f3efc0", "#e3ddd3"]


def fill(kind):
    return FILLS[kind] if kind < len(FILLS) else f"hsl({kind * 67 % 360} 45% 86%)"


def titled(polygon, title, **look):
    """A tile, with a text that is shown at the pointer."""
    return path(polygon, "Z", element("title", title), **look)


def segment(a, b, **look):
    return path([a, b], "", **look)


def red(a, b):
    """An edge in red."""
    return segment(a, b, stroke=RED, stroke_width=4, stroke_linecap="round")


def beside(polygon):
    """The place of the dot, in the tile beside vertex 0."""
    u, v = polygon[1] - polygon[0], polygon[-1] - polygon[0]
    half = cmath.phase(u / v) % (2 * cmath.pi) / 2
    return polygon[0] + u / abs(u) * cmath.exp(-1j * half) * (11 if half < 0.6 else 7)


def dot(polygon):
    return circle(beside(polygon), 2.2, fill="#222")


def middle(polygon):
    """The place of a tile's number: its centre, but not on the dot."""
    z, d = centre(polygon), beside(polygon)
    return z if abs(z - d) > 14 or z == d else d + (z - d) / abs(z - d) * 14


def edge_type(a, b, number):
    """The number of an edge's type, outside of the edge."""
    return label((a + b) / 2 + 1j * (b - a) / abs(b - a) * 10 + 3.5j, number, fill=BLUE, font_size=10)


def arrow(a, b, rule, number):
    """The arrow of a directed edge type: the type and its mate show the same one."""
    mate = rule.mates[number] if number < len(rule.mates) else number
    if mate == number or a == b:
        return []
    along = (b - a) / abs(b - a) * (1 if number < mate else -1)
    tip = (a + b) / 2 + along * 4
    return [path(arrow_head(tip, along, 8, 0.42), fill=BLUE)]


def lies(a, b, p):
    """p is on the segment ab, up to rounding."""
    return abs(abs(p - a) + abs(b - p) - abs(b - a)) < 1e-6


class Marks:
    """What a refusal names: red edges of prototiles and of children, fans, whole inflated edges, kinds, and notes."""

    def __init__(self):
        self.prototile, self.child, self.inflated, self.fans, self.kinds, self.notes = set(), set(), set(), set(), set(), []


def by_name(rule, what, number):
    """The edges (kind, edge) of a type."""
    return {(k, e) for k, kind in enumerate(rule.kinds) for e, t in enumerate(kind.edges) if t == number}


def types(numbers):
    return " ".join(str(number) for number in numbers)


def turned_back(rule, parts):
    """Parts read from the end, each replaced by its mate."""
    return [rule.mates[part] if part < len(rule.mates) else part for part in reversed(parts)]


def along_edge(rule, kind, edge):
    """The child edges along an inflated edge, from its start to its end: (child, edge, type)."""
    vertices = rule.kinds[kind].vertices
    p, q = (rule.factor * z for z in sides(vertices)[edge])
    found = []
    for c, (of, turn, shift) in enumerate(rule.kinds[kind].children):
        turned, moved = rule.motion(turn, shift)
        tile = [turned * z + moved for z in rule.kinds[of].vertices]
        for e, (a, b) in enumerate(sides(tile)):
            if lies(p, q, a) and lies(p, q, b) and abs(a - p) < abs(b - p):
                found.append((abs(a - p), c, e, rule.kinds[of].edges[e]))
    return [it[1:] for it in sorted(found)]


def marks_of(rule, fault):
    """The marks of a refusal, given as its words from the fault's name on."""
    marks = Marks()
    if not fault:
        return marks
    name, words = fault[0], fault[1:]
    numbers = [int(word) for word in words if word.isdigit()]
    try:
        note = mark(rule, marks, name, words, numbers)
    except (IndexError, ValueError) as trouble:
        raise Trouble(f"'{' '.join(fault)}' names a place that this rule hasn't") from trouble
    marks.notes = [note] if isinstance(note, str) else note
    return marks


def mark(rule, marks, name, words, numbers):
    """Enters the place of a refusal into the marks, and returns the lines of text that say what is wrong there."""
    if name == "ChildEdgeLoose":
        k, c, e = numbers
        marks.child.add((k, c, e))
        return f"Edge {e} of child {c} is met by no whole edge of another child with its type's mate, and is no part of the boundary."
    if name == "BoundaryWrong":
        k, e, part = numbers
        marks.inflated.add((k, e))
        number = rule.kinds[k].edges[e]
        found = along_edge(rule, k, e)
        if part < len(found):
            marks.child.add((k, *found[part][:2]))
        return f"Inflated edge {e} of kind {k}: type {number} says {types(rule.parts[number])}, the children's edges there are {types(t for *_, t in found)}; part {part} differs."
    if name == "BadLength":
        k, e = numbers
        number = rule.kinds[k].edges[e]
        alike = {number, rule.mates[number]}
        first = min((it for t in alike for it in by_name(rule, "type", t)), default=(k, e))
        lengths = [abs(b - a) for a, b in (sides(rule.kinds[i].vertices)[j] for i, j in ((k, e), first))]
        marks.prototile.add((k, e))
        return f"Edge {e} of kind {k} is {lengths[0]:.3f} long, and edge {first[1]} of kind {first[0]}, of the same type or its mate, {lengths[1]:.3f}."
    if name == "NotStar":
        marks.fans.add(numbers[0])
        return f"Kind {numbers[0]}: the triangles from vertex 0 to the edges that don't end there have to turn left, and not overlap."
    if name == "WrongFactor":
        degrees, length = math.degrees(cmath.phase(rule.factor)), abs(rule.factor)
        marks.kinds.update(range(len(rule.kinds)))
        if rule.format == 2:
            return f"The length of the factor is {length:.3f}: it has to be above 1, and its 64th power above 2^24."
        if abs(rule.factor.imag) > 1e-9:
            return f"The factor turns by {degrees:.0f}°, and its length is {length:.3f}: in format 1 it has to be real, and above 1."
        return f"The factor is {rule.factor.real:.3f}: it has to be above 1, and its 64th power above 2^24."
    if name in ("BadMate", "BadSubdivision", "GlueWrong"):
        number = numbers[0]
        mate = rule.mates[number]
        marks.prototile |= by_name(rule, "type", number) | (by_name(rule, "type", mate) if name == "GlueWrong" else set())
        if name == "BadMate":
            return f"The mate of type {number} is {mate}, and the mate of type {mate} is {rule.mates[mate]}, not {number}."
        if name == "GlueWrong":
            own = ", its own mate" if mate == number else f", with the mate {mate}"
            return f"Type {number}{own}, is on {len(by_name(rule, 'type', number))} edges, its mate on {len(by_name(rule, 'type', mate))}: it has to be on one, and its mate on one of another kind."
        marks.prototile |= by_name(rule, "type", mate)
        return f"Type {number} is cut into {types(rule.parts[number])}, so its mate {mate} has to be cut into {types(turned_back(rule, rule.parts[number]))}, and it is cut into {types(rule.parts[mate])}."
    if name == "Unused":
        marks.kinds.add(numbers[0])
        return f"Kind {numbers[0]} is a child of no kind."
    if name == "TooMany":
        lost = [(k, c, of) for k, kind in enumerate(rule.kinds) for c, (of, *_) in enumerate(kind.children) if of >= len(rule.kinds)]
        marks.kinds |= {numbers[0]} if words[0] in ("child", "edges") else set()
        if words[0] == "child" and lost:
            return f"Child {lost[0][1]} of kind {lost[0][0]} is of kind {lost[0][2]}, and the last kind is {len(rule.kinds) - 1}. It isn't drawn."
        return f"Too many or too few: {' '.join(words)}. There are 1 to 16 kinds of 3 to 12 edges with 1 to 16 children, 1 to 32 types of 1 to 8 parts."
    raise Trouble(f"'{name}' is no refusal of a rule that a picture can show: the text of the file comes first")


def wanted(argument, path):
    """The refusal to be marked, from its name on: given, or in the file's first line."""
    if argument is None:
        with open(path, encoding="utf-8") as file:
            first = file.readline().strip()
        argument = first.removeprefix("# Refused: ") if first.startswith("# Refused: ") else ""
    words = argument.split()
    return words[2:] if words[:2] == ["3", "RuleRefused"] else words


def left_panel(rule, k, unit, marks):
    """The prototile of kind k, in pixels, y downwards: its outline, and its lines."""
    kind = rule.kinds[k]
    tile = [z.conjugate() * unit for z in kind.vertices]
    lines = [titled(tile, f"kind {k}", class_=f"k{k}", fill=fill(k), stroke="#222", stroke_width=1.6)]
    if k in marks.fans:
        for v in tile[2:-1]:
            lines.append(segment(tile[0], v, stroke=RED, stroke_width=1, stroke_dasharray="3 3"))
        for a, b in sides(tile)[1:-1]:
            if cross((a - tile[0]).conjugate(), (b - tile[0]).conjugate()) < 1e-6:
                lines.append(red(a, b))
    lines += [red(*sides(tile)[e]) for i, e in sorted(marks.prototile) if i == k]
    lines += [circle(z, 1.6, fill="white", stroke="#222", stroke_width=0.8) for z in tile[1:]]
    lines.append(dot(tile))
    for (a, b), number in zip(sides(tile), kind.edges):
        lines += [*arrow(a, b, rule, number), edge_type(a, b, number)]
    return tile, lines


def right_panel(rule, k, unit, marks):
    """The inflated prototile of kind k, cut into its children."""
    kind = rule.kinds[k]
    large = [(rule.factor * z).conjugate() * unit for z in kind.vertices]
    lines, labels, red_lines = [], [], []
    for c, (of, turn, shift) in enumerate(kind.children):
        if not 0 <= of < len(rule.kinds):
            continue
        turned, moved = rule.motion(turn, shift)
        tile = [(turned * z + moved).conjugate() * unit for z in rule.kinds[of].vertices]
        title = f"child {c}: kind {of}, turn {turn}"
        lines.append(titled(tile, title, class_=f"k{of}", fill=fill(of), stroke="#555", stroke_width=0.8))
        mid = middle(tile)
        labels += [dot(tile), label(mid + (4j if len(rule.kinds) == 1 else 1j), c, font_size=13, font_weight="bold")]
        if len(rule.kinds) > 1:
            labels.append(label(mid + 11j, f"k{of}", font_size=10))
        for e, ((a, b), number) in enumerate(zip(sides(tile), rule.kinds[of].edges)):
            labels += arrow(a, b, rule, number)
            if any(lies(p, q, a) and lies(p, q, b) and abs(b - q) < abs(a - q) for p, q in sides(large)):
                labels.append(edge_type(a, b, number))
            if (k, c, e) in marks.child:
                red_lines.append(red(a, b))
    lines.append(path(large, fill="none", stroke="#222", stroke_width=1.8))
    for i, e in sorted(marks.inflated):
        if i == k:
            lines.append(segment(*sides(large)[e], stroke=RED, stroke_width=2, stroke_dasharray="5 3"))
    return large, lines + red_lines + labels


def shifted(polygon, lines, x, y):
    """A picture with the upper left corner of its box at (x, y)."""
    left, top, _, _ = box(polygon)
    return [f'<g transform="translate({x - left:.1f} {y - top:.1f})">'] + lines + ["</g>"]


def size(polygon):
    left, top, right, bottom = box(polygon)
    return right - left, bottom - top


def wrapped(note, width):
    """The lines of a note, for pictures of this width."""
    lines = [""]
    for word in note.split():
        if len(lines[-1]) + len(word) > width / 6:
            lines.append("")
        lines[-1] += " " * bool(lines[-1]) + word
    return lines


def draw(rule, marks):
    """The picture of a rule, as the text of an SVG file."""
    if not rule.kinds or any(len(kind.vertices) < 3 for kind in rule.kinds):
        raise Trouble("there is no kind, or one has fewer than 3 vertices")
    if any(a == b for kind in rule.kinds for a, b in sides(kind.vertices)):
        raise Trouble("an edge has no length")
    widest = max(max(size(kind.vertices)) for kind in rule.kinds) * abs(rule.factor)
    least = min(abs(area(kind.vertices)) for kind in rule.kinds)
    unit = max(38, min(90, max(250 / widest, 46 / math.sqrt(least) if least > 1e-9 else 0)))
    panels = [(left_panel(rule, k, unit, marks), right_panel(rule, k, unit, marks)) for k in range(len(rule.kinds))]
    columns = 2 if len(rule.kinds) >= 4 else 1
    width = [max(size(pair[i][0])[0] for pair in panels) for i in (0, 1)]
    cell = width[0] + GAP + width[1] + 2 * PAD
    body, y = [], 0
    for row in range(0, len(panels), columns):
        high = max(max(size(large)[1], size(small)[1]) for (small, _), (large, _) in panels[row : row + columns])
        for i, ((small, left), (large, right)) in enumerate(panels[row : row + columns]):
            x, low, k = i * (cell + 10) + PAD, y + HEAD + high / 2, row + i
            look = {"fill": RED, "font_weight": "bold"} if k in marks.kinds else {}
            body.append(label(complex(x - 10, y + 13), f"kind {k}", font_size=12, text_anchor="start", **look))
            body += shifted(small, left, x, low - size(small)[1] / 2 + 6)
            ax = x + width[0] + GAP / 2
            body.append(path([complex(ax - 8, low)], "h14m-5 -4l5 4l-5 4", fill="none", stroke="#222"))
            body += shifted(large, right, x + width[0] + GAP, low - size(large)[1] / 2 + 6)
        y += high + HEAD + PAD
    w = max(columns * cell + (columns - 1) * 10, 340 if marks.notes else 0)
    for note in marks.notes:
        for line in wrapped(note, w):
            y += 15
            body.append(label(complex(10, y - 4), line, font_size=11, text_anchor="start", fill=RED))
    w, h = f"{w:.0f}", f"{y + 6:.0f}"
    head = root(f"0 0 {w} {h}", w, h, font_family="sans-serif", text_anchor="middle", stroke_linejoin="round")
    title = element("title", f"{rule.name}: each prototile, and the inflated prototile cut into its children")
    return "\n".join([head, title, element("rect", width=w, height=h, fill="white"), *body, "</svg>", ""])


def picture(path_of_rule, fault=None):
    """The picture of a rule file."""
    rule = load(path_of_rule)
    try:
        return draw(rule, marks_of(rule, wanted(fault, path_of_rule)))
    except Trouble as trouble:
        raise Trouble(f"{path_of_rule}: {trouble}") from trouble
    except (IndexError, TypeError, ZeroDivisionError) as trouble:
        raise Trouble(f"{path_of_rule} can't be drawn ({trouble}); `./tiling check rule=- < FILE` names its fault") from trouble


def main(words):
    arguments = Arguments()
    arguments.add_argument("--fault")
    arguments.add_argument("--to")
    arguments.add_argument("files", nargs="+")
    options = arguments.parse_args(words)
    if options.to is None and len(options.files) > 1:
        arguments.error("several files need --to FOLDER")
    if options.to is not None and not os.path.isdir(options.to):
        raise Trouble(f"{options.to} is no folder")
    for name in options.files:
        drawn = picture(name, options.fault)
        if options.to is None:
            print(drawn, end="")
            continue
        with open(os.path.join(options.to, os.path.splitext(os.path.basename(name))[0] + ".svg"), "w", encoding="utf-8") as file:
            file.write(drawn)


if __name__ == "__main__":
    run(main, __doc__)
