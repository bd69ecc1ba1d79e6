#!/usr/bin/env python3
"""Prints the corners of placed tiles as x and y, in floating point.

    corners.py FILE.toml < LINES    LINES are what `place` prints for this rule, or the list that `draw` prints without
                                    glue. For each tile it prints its corners, one `x y` a line, with an empty line
                                    between tiles (Python 3.11 or later)
"""
import sys

sys.dont_write_bytecode = True
from command_line import Arguments, Trouble, run  # noqa: E402
from rule_file import load  # noqa: E402


def corners(rule, line):
    """The vertices of the tile that a line `kind turn shift` places, in order; an address may stand
    behind."""
    if " + " in line:
        raise Trouble(f"'{line.strip()}' is a whole tile of two halves: list the halves, without glue=yes")
    try:
        kind, turn, shift = line.split()[:3]
        turned, moved = rule.motion(int(turn), rule.point([int(a) for a in shift.split(",")]))
        return [turned * vertex + moved for vertex in rule.kinds[int(kind)].vertices]
    except (ValueError, IndexError) as fault:
        raise Trouble(f"'{line.strip()}' is no line of `place` or `draw` for this rule") from fault


def coordinate(x):
    """Six digits, and no -0."""
    return f"{round(x, 6) + 0.0:.6f}"


def main(words):
    arguments = Arguments()
    arguments.add_argument("file")
    rule = load(arguments.parse_args(words).file)
    tiles = [corners(rule, line) for line in sys.stdin]
    print("\n\n".join("\n".join(f"{coordinate(z.real)} {coordinate(z.imag)}" for z in tile) for tile in tiles))


if __name__ == "__main__":
    run(main, __doc__)
