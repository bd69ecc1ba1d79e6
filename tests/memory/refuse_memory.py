#!/usr/bin/env python3
"""Refuses each allocation of a call in turn, for a call of each command, and checks how the call ends.

    refuse_memory.py PROGRAM        (Python 3.11 or later, on Linux, with a C compiler `cc` and a program that uses libc)

A library made of tests/memory/refuse_memory.c is loaded before the program's own and counts what `main` allocates. A call is run
once undisturbed. Then, for each number up to its last allocation, it is run once with no memory for that one, and once
with none from it on. It must end with 11, nothing on standard output and its note, or give its full answer. While the
arguments are read, it may end without a note. Ends with 1 if a call does anything else, and with 2 if what the script
needs is missing."""
import collections
import concurrent.futures
import os
import subprocess
import sys
import tempfile
import tomllib

sys.dont_write_bytecode = True
TOP = os.path.dirname(os.path.dirname(os.path.dirname(os.path.abspath(__file__))))
sys.path[1:1] = [os.path.join(TOP, "tools"), os.path.join(TOP, "checks")]
from command_line import WrongWords, run  # noqa: E402
from supertiles import address  # noqa: E402
from windows import Box, Frame, Tiling, shift_of  # noqa: E402

NOTE = b"11 NoMemory\n"
SHOWN = 20
SCRIPT = b"let a 0:0/0,1/0\nacross a 4 b\nshow b\ncommon a b\npair a b\nplace b\n# x\nlet c 0:0/0\nshow c\n"
WINDOW = "at=0,0,0,0 half=2,2 layers=svg,list,census"


def listing():
    """The list of a window of Penrose's rhombs, found as its definition says: its lines."""
    with open(os.path.join(TOP, "rules", "penrose_p3.toml"), "rb") as file:
        tiling = Tiling(tomllib.load(file))
    frame, box = Frame(tiling, 0, (), 3), Box(tiling.plane, tiling.point([0, 0, 0, 0]), (2, 2))
    while not frame.is_enough(box):
        frame.grow()
    for kind, turn, shift, digits in frame.tiles(box):
        where = ",".join(map(str, shift_of((kind, turn, shift))))
        yield f"{kind} {turn} {where} {address((kind, digits))}\n".encode()


def calls():
    """Each call as its words and its standard input."""
    rules = {}
    for name in ("chair", "penrose_p3", "half_chair"):
        with open(os.path.join(TOP, "rules", f"{name}.toml"), "rb") as file:
            rules[name] = file.read()
    with open(os.path.join(TOP, "docs", "refused", "10_wrong_glue.toml"), "rb") as file:
        refused = file.read()
    for rule, text in (("p3", b""), ("-", rules["penrose_p3"])):
        yield f"place rule={rule} addr=0:0/0,0/0", text
        yield f"neighbour rule={rule} addr=2:1/0,0/0 edge=2", text
        yield f"walk rule={rule} seed=42 addr=0: grow=3 path=0,1,2,0,1,2,0,1", text
        yield f"draw rule={rule} seed=3 addr=0: {WINDOW}", text
        yield f"draw rule={rule} seed=3 addr=0: {WINDOW} glue=yes", text
        yield f"check rule={rule}", text
        yield f"drill rule={rule} n=1 seed=7", text
        yield f"star rule={rule} addr=2:1/0,0/0 vertex=0", text
    yield "calc rule=chair", SCRIPT
    yield "calc rule=p3", b"let a 2:1/0,0/0\nacross a 2 b\nplace b\ncommon a b\npair b a\nshow a\n"
    yield f"draw rule=- seed=3 addr=0: {WINDOW} glue=yes", rules["half_chair"]
    yield f"draw rule=chair seed=42 addr=0: {WINDOW}", b""
    lines, listed = list(listing()), "verify rule=p3 seed=3 addr=0: at=0,0,0,0 half=2,2"
    yield listed, b"".join(lines)
    # calls that are refused
    yield listed, b"".join(lines[:-1])
    yield listed, b"".join(lines + lines[:1])
    yield listed, b"".join(lines) + b"0 0\n"
    yield "place rule=chair", b""
    yield "check rule=-", refused
    yield "check rule=-", b"format = 1\norder = 4\nlambda = ["
    yield "place rule=p3 addr=0:0/7", b""
    yield "neighbour rule=p3 addr=0:0/0,0/0 edge=2", b""
    yield "neighbour rule=p3 addr=0: edge=9", b""
    yield "star rule=p3 addr=0: vertex=3", b""
    yield "walk rule=chair addr=0:" + ",".join(["0/0"] * 64) + " path=0,4", b""
    yield "draw rule=chair seed=10 addr=0: at=1000000,1000000,0,0 half=2,1 layers=list", b""
    yield "calc rule=chair", SCRIPT + b"across c 4 d\n"
    yield "calc rule=chair", SCRIPT + b"show z\n"


class Trial:
    """A program with the library that refuses its allocations."""

    def __init__(self, program, library, folder):
        self.program, self.library, self.folder = program, library, folder

    def run(self, call, refused=0, goes_on=False):
        """The status and the two texts of a call, and how many allocations it asked for."""
        words, text = call
        with tempfile.NamedTemporaryFile(dir=self.folder) as count:
            count.truncate(8)
            environment = {"LD_PRELOAD": self.library, "REFUSE": str(refused), "REFUSE_COUNT": count.name}
            environment |= {"REFUSE_ON": "1"} if goes_on else {}
            ran = subprocess.run([self.program, *words.split(" ")], input=text, capture_output=True, env=environment, timeout=60)
            return (ran.returncode, ran.stdout, ran.stderr), int.from_bytes(count.read(8), sys.byteorder)

    def refused(self, call, most, pool, goes_on):
        """How the call ends for each allocation refused."""
        return list(pool.map(lambda number: self.run(call, number, goes_on)[0], range(1, most + 1)))


def kind_of(end, whole):
    """What an end is: as if nothing had been, with the note, without it, or something else."""
    if end == whole:
        return "the same"
    return {(11, b"", NOTE): "a note", (11, b"", b""): "no note"}.get(end, "WRONG")


def wrong_ends(ends, whole):
    """The numbers of the allocations at which a call ended as it mustn't: where nothing is noted, but was before."""
    noted = False
    for number, end in enumerate(ends, 1):
        kind = kind_of(end, whole)
        noted = noted or kind == "a note"
        if kind == "WRONG" or (kind == "no note" and noted):
            yield number


def tried(trial, call, pool):
    """Refuses each allocation of a call, prints how it ended, and answers the lines of what is wrong."""
    whole, most = trial.run(call)
    shown = call[0] if len(call[0]) <= 70 else call[0][:67] + ".."
    wrong = []
    for goes_on in (False, True):
        ends = trial.refused(call, most, pool, goes_on)
        counts = collections.Counter(kind_of(end, whole) for end in ends)
        told = ", ".join(f"{many} {kind}" for kind, many in sorted(counts.items()))
        print(f"refuse_memory: {shown} (status {whole[0]}): {most} allocations, {'all from it on' if goes_on else 'each alone'}: {told}", flush=True)
        wrong += [f"{shown}: {'from' if goes_on else 'at'} allocation {number}: {ends[number - 1]!r:.300}" for number in wrong_ends(ends, whole)]
    return most, wrong


def built(folder):
    """The library, made by the C compiler; None where there is none."""
    library = os.path.join(folder, "refuse_memory.so")
    source = os.path.join(TOP, "tools", "refuse_memory.c")
    try:
        subprocess.run(["cc", "-O1", "-shared", "-fPIC", "-o", library, source], check=True)
    except (OSError, subprocess.CalledProcessError):
        return None
    return library


def main(words):
    if len(words) != 1:
        raise WrongWords
    with tempfile.TemporaryDirectory() as folder, concurrent.futures.ThreadPoolExecutor(2) as pool:
        library = built(folder)
        if not library:
            print("refuse_memory: there is no C compiler cc that makes tests/memory/refuse_memory.c", file=sys.stderr)
            return 2
        trial = Trial(os.path.abspath(words[0]), library, folder)
        if trial.run(("check rule=chair", b""))[1] == 0:
            print("refuse_memory: the program takes no memory from libc, or isn't linked with it", file=sys.stderr)
            return 2
        results = [tried(trial, call, pool) for call in calls()]
    wrong = [line for _, lines in results for line in lines]
    for line in wrong[:SHOWN]:
        print(f"refuse_memory: {line}", file=sys.stderr)
    print(f"refuse_memory: {len(results)} calls, {2 * sum(most for most, _ in results)} refusals tried, {len(wrong)} wrong")
    return 1 if wrong else 0


if __name__ == "__main__":
    run(main, __doc__)
