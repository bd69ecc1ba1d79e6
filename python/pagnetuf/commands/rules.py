"""Lists the rules that each command takes.

  pagnetuf rules
  pagnetuf rules | grep square

A line has the name of a rule, and what it is. The built-in rules are first. For a rule file it is the first
sentence of its comment. Each name stands where a command takes a rule, and in Tiling(NAME)."""
from __future__ import annotations

import argparse
import glob
import io
import os
import re
import sys
from typing import Iterator, Tuple

from .. import places
from .command_line import write_pieces

BUILT_IN = {
    "p3": "Penrose's rhombs",
    "p2": "Penrose's kites and darts",
    "ab": "Ammann-Beenker's rhombs and squares",
    "chair": "The chair: three squares in an L, cut into four of its kind",
    "halfhex": "The half of a regular hexagon, cut into four of its kind",
}
# the files of the built-in rules, which have no comment
FILES = {"penrose_p3": "p3", "penrose_p2": "p2", "ammann_beenker": "ab", "half_hex": "halfhex"}
LONGEST = 80


def add_words(_: argparse.ArgumentParser) -> None:
    """It takes no words but --help."""


def run(_: argparse.Namespace) -> None:
    rules = list(known_rules())
    wide = max(len(name) for name, _ in rules)
    if isinstance(sys.stdout, io.TextIOWrapper):  # (a terminal may have no letter such as √)
        sys.stdout.reconfigure(errors="replace")
    write_pieces((f"{name:{wide}}  {title}".rstrip() + "\n" for name, title in rules), None)


def known_rules() -> Iterator[Tuple[str, str]]:
    """The name and the title of each rule: the built-in ones, and those of the package's rule files."""
    yield from BUILT_IN.items()
    for path in sorted(glob.glob(os.path.join(glob.escape(places.rules_path()), "*.toml"))):
        name = os.path.splitext(os.path.basename(path))[0]
        if name not in BUILT_IN and places.rule_path(name):
            yield name, title_of(path) or (f"The same as {FILES[name]}" if name in FILES else "")


def title_of(path: str) -> str:
    """The first sentence of the comment with which a rule file begins, or nothing. Of a long one, what is
    before a colon."""
    words = []
    with open(path, encoding="utf-8", errors="replace") as file:
        for line in file:
            if not line.startswith("#"):
                break
            words.append(line.strip("# \r\n"))
    # (a full stop after a capital letter is that of a name, as in R. Penrose)
    sentence = re.split(r"(?<![A-Z])\.(?: |$)", " ".join(words), maxsplit=1)[0]
    return sentence if len(sentence) <= LONGEST else sentence.split(": ")[0]
