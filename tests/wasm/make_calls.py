#!/usr/bin/env python3
"""Writes calls of the command for tests/wasm/calls.c and harness.mjs: of each a number of 32 bits and so many bytes of
arguments, with newlines between them, and the same for standard input.

  tests/wasm/make_calls.py TOP usual|heavy > FILE

`usual` is more than a thousand calls of all commands, of the five rules and each file of rules/ and docs/refused/, right
and wrong. `heavy` is a few that take long, nest deeply or answer much."""
import glob
import os
import random
import struct
import sys

RULES = {"chair": (1, 4), "p2": (4, 10), "p3": (4, 10), "ab": (3, 8), "halfhex": (1, 6)}  # kinds and order
LAYERS = ("svg", "list", "census", "svg,list,census")
SCRIPT = b"let a 0:0/0\nlet b 0:1/0\nshow a\nplace a\nacross a 0 c\nshow c\ncommon a b\npair a b\n"


class Calls:
    def __init__(self):
        self.chance, self.found = random.Random(7), []

    def add(self, words: str, given: bytes = b""):
        self.found.append(("\n".join(words.split(" ")).encode(), given))

    def address(self, rule: str) -> str:
        """Often not a tile's, so that refusals come too."""
        kinds, _ = RULES[rule]
        some = lambda most: self.chance.randrange(most)
        digits = ",".join(f"{some(3)}/{some(kinds)}" for _ in range(some(9)))
        return f"{some(kinds)}:{digits}"

    def window(self, rule: str, far: int, most: int) -> str:
        _, order = RULES[rule]
        at = [self.chance.randrange(-far, far) for _ in range(4 if order > 6 else 2)] + [0, 0]
        half = f"{self.chance.randrange(1, most)},{self.chance.randrange(1, most)}"
        return f"rule={rule} addr=0: at={','.join(map(str, at[:4]))} half={half} seed={self.chance.randrange(10**9)}"

    def of_file(self, path: str):
        with open(path, "rb") as file:
            text = file.read()
        self.add("check rule=-", text)
        self.add("draw rule=- addr=0: at=0,0,0,0 half=6,5 seed=3 layers=svg,list,census", text)
        self.add("draw rule=- addr=0: at=0,0,0,0 half=3,3 seed=4 layers=list glue=yes", text)
        self.add("star rule=- addr=0: vertex=0 seed=5", text)
        self.add("neighbour rule=- addr=0: edge=1", text)
        self.add("check rule=-", text[: self.chance.randrange(len(text))])

    def of_rule(self, rule: str):
        self.add(f"check rule={rule}")
        for i in range(32):
            place = self.window(rule, 400, 14)
            self.add(f"draw {place} layers={self.chance.choice(LAYERS)}{self.chance.choice(['', ' glue=yes'])}")
            if i < 8:
                self.add(f"verify {place}", b"0 0 0,0,0,0 0:\n")
        for i in range(50):
            self.add(f"place rule={rule} addr={self.address(rule)}")
            self.add(f"neighbour rule={rule} addr={self.address(rule)} edge={self.chance.randrange(6)}")
        for i in range(14):
            path = ",".join(str(self.chance.randrange(4)) for _ in range(self.chance.randrange(1, 40)))
            self.add(f"walk rule={rule} addr=0: seed={i} path={path}")
            self.add(f"star rule={rule} addr=0: vertex={i % 5} seed={i}")
        self.add(f"drill rule={rule} n=5 seed=1")
        self.add(f"calc rule={rule}", SCRIPT)

    def heavy_of_rule(self, rule: str):
        place = f"rule={rule} addr=0: at=0,0,0,0 seed=9"
        self.add(f"draw {place} half=60,60 layers=svg,list,census")
        self.add(f"draw {place} half=120,120 layers=list glue=yes")
        self.add(f"draw {place} half=4096,4096 layers=list")
        self.add(f"drill rule={rule} n=60 seed=2")
        self.add(f"walk rule={rule} addr=0: path={','.join('0121' * 250)} seed=3")
        self.add(f"place rule={rule} addr=0:{','.join(['0/0'] * 64)}")


def files(top: str):
    return sorted(glob.glob(os.path.join(top, "rules", "*.toml")) + glob.glob(os.path.join(top, "docs", "refused", "*.toml")))


def heavy_files(calls: Calls):
    """Files of about a mebibyte: brackets as deep as they come, many keys, dots, blanks, and one too long."""
    most = 1 << 20
    head = b"format = 1\norder = 4\n"
    calls.add("check rule=-", head + b"lambda = " + b"[" * (most - 100))
    calls.add("check rule=-", b"x = " + b"{a=" * 300000)
    calls.add("check rule=-", b"".join(b"k%d = 1\n" % i for i in range(60000)))
    calls.add("check rule=-", b".".join([b"a"] * 100000) + b" = 1\n")
    calls.add("check rule=-", b" " * most)
    calls.add("check rule=-", b"#" * (most + 1))
    calls.add("check rule=-", head + b"lambda = [" + b"1," * 400000 + b"]\n")
    calls.add("calc rule=p3", b"let a 0:0/0\n" + b"show a\n" * 100000)
    calls.add("verify rule=p3 addr=0: at=0,0,0,0 half=60,60 seed=9", b"0 0 0,0,0,0 0:\n" * 100000)


def main():
    top, what = sys.argv[1:3]
    calls = Calls()
    for rule in RULES:
        calls.of_rule(rule) if what == "usual" else calls.heavy_of_rule(rule)
    if what == "usual":
        for path in files(top):
            calls.of_file(path)
        calls.add("nonsense")
        calls.add("")
        calls.found.append((b"\xff\xfe", b""))
    else:
        heavy_files(calls)
    for words, given in calls.found:
        sys.stdout.buffer.write(struct.pack("<I", len(words)) + words + struct.pack("<I", len(given)) + given)
    print(f"make_calls: {len(calls.found)} {what} calls", file=sys.stderr)


main()
