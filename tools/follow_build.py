#!/usr/bin/env python3
"""Prints how far a build is. Usage: PROVER | tools/follow_build.py TOP CRATE

Reads the prover's output on standard input. As each crate is proved, prints a line with its name, how many of the
crates that CRATE stands on are left, which are being proved, and how long that may take. The time left is the time so
far, by bytes of code and proofs: it is a guess at first and gets better."""
import pathlib
import re
import sys
import time

sys.dont_write_bytecode = True
from command_line import Arguments, run  # noqa: E402


class Build:
    """The crates that a crate stands on, and what of them is proved."""

    def __init__(self, top, name):
        self.folder, self.begun = pathlib.Path(top, "crates"), time.monotonic()
        lines = pathlib.Path(top, "crates.txt").read_text(encoding="utf-8").split("\n")
        rows = dict(line.split(":", 1) for line in lines if ":" in line and not line.startswith("#"))
        below = {row.split()[0]: deps.split() for row, deps in rows.items()}
        self.left = {it for it in [name, *below[name]] if it in below}
        self.left |= {dep for it in list(self.left) for dep in below[it] if dep in below}
        self.count = len(self.left)
        self.work = {it: self.size(it) for it in self.left if not self.is_built(it)}
        self.done = 0

    def size(self, name):
        parts = (self.folder / name / part for part in ("src", "specs", "proofs"))
        return sum(file.stat().st_size for part in parts for file in part.rglob("*") if file.is_file())

    def is_built(self, name):
        return (self.folder / name / "out/rlib/stamp").exists()

    def is_proving(self, name):
        """Whether the crate's library is being made: its folder is there, and not yet its stamp."""
        return (self.folder / name / "out/rlib").is_dir() and not self.is_built(name)

    def proved(self, name):
        """The line to print when a crate is proved."""
        self.left.discard(name)
        self.done += self.work.pop(name, 0)
        now = sorted(it for it in self.left if self.is_proving(it))
        words = [f"{time.strftime('%H:%M')} proved {name}, {self.count - len(self.left)} of {self.count}"]
        words += [f"now {', '.join(now)}"] if now else []
        words += [f"about {self.minutes()} min left"] if self.work and self.done else []
        return "; ".join(words)

    def minutes(self):
        spent = (time.monotonic() - self.begun) / 60
        return max(1, round(spent * sum(self.work.values()) / self.done))


def main(words):
    arguments = Arguments()
    arguments.add_argument("top")
    arguments.add_argument("crate")
    build, name = Build(*vars(arguments.parse_args(words)).values()), None
    for line in sys.stdin:
        found = re.match(r"== (\S+)", line)
        if found and name and build.is_built(name):
            build.left.discard(name)  # it was proved before, so the prover has nothing to say of it
        name = found[1] if found else name
        if name in build.left and line.startswith("logic=proved "):
            print(f"tiling: {build.proved(name)}", file=sys.stderr, flush=True)
            name = None


if __name__ == "__main__":
    run(main, __doc__)
