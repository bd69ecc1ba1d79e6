#!/usr/bin/env python3
"""Makes the most expensive calls of each command that can be written, and prints how long each takes and how much memory.

    dearest.py PROGRAM [--count]          (Python 3.11 or later, on Linux)

For each file of rules/ it draws the largest window around the middle of the plane, of at most 200,000 tiles, as a picture,
a list and a census at once, without and with glued halves. For each built-in rule it verifies the list of that window.
Then come addresses of 64 digits, paths of 1,000 edges, stars of 64 tiles, drills of 200 windows, scripts and rule files of
a mebibyte, and listings of 200,000 lines and of 64 mebibytes. It prints a line for each: its status, the bytes that it
read and printed, the seconds of processor, and the most memory, which is at least that of this script. With --count it
also prints the instructions, by valgrind, except for the windows and the listings. Ends with 1 if a call ends in another
way than it must, takes more than two seconds, or needs more than a gigabyte."""
import os
import re
import subprocess
import sys
import tempfile

sys.dont_write_bytecode = True
TOP = os.path.dirname(os.path.dirname(os.path.dirname(os.path.abspath(__file__))))
sys.path[1:1] = [os.path.join(TOP, "tools"), os.path.join(TOP, "tests", "hostile"), os.path.join(TOP, "checks")]
from command_line import WrongWords, run as answer  # noqa: E402
from fan_rule import RULES, fan_rule  # noqa: E402
from hostile_answers import BUILT_IN, LONGEST_LISTING, MOST_LISTED  # noqa: E402

MOST_TILES = 200000
MEBIBYTE = 1 << 20
MOST_SECONDS, MOST_MEMORY = 2, 10**9


def run(program, words, text=b"", status=0):
    """Runs a call: its line's numbers, and what it printed."""
    with tempfile.TemporaryFile() as source, tempfile.TemporaryFile() as sink:
        source.write(text)
        source.seek(0)
        child = os.posix_spawn(program, [program, *words.split(" ")], {}, file_actions=[
            (os.POSIX_SPAWN_DUP2, source.fileno(), 0), (os.POSIX_SPAWN_DUP2, sink.fileno(), 1), (os.POSIX_SPAWN_OPEN, 2, "/dev/null", os.O_WRONLY, 0),
        ])  # fmt: skip
        _, ended, used = os.wait4(child, 0)
        printed = sink.seek(0, os.SEEK_END)
        sink.seek(max(0, printed - 200))
        end = sink.read()
    return os.waitstatus_to_exitcode(ended), printed, used.ru_utime + used.ru_stime, used.ru_maxrss * 1024, end


def instructions(program, words, text):
    """The instructions of a call, as valgrind counts them."""
    tool = ["valgrind", "--tool=callgrind", "--callgrind-out-file=/dev/null", program, *words.split(" ")]
    told = subprocess.run(tool, input=text, stdout=subprocess.DEVNULL, stderr=subprocess.PIPE, env={"PATH": "/usr/bin:/bin"})
    return int(re.search(rb"Collected : ([0-9]+)", told.stderr).group(1))


class Table:
    """The lines that were printed, and whether one was wrong."""

    def __init__(self, program, counts):
        self.program, self.counts, self.wrong = program, counts, 0

    def add(self, name, words, text=b"", status=0, counts=True):
        ended, printed, seconds, memory, _ = run(self.program, words, text)
        told = f"{name}: status {ended}, read {len(text)}, printed {printed}, {seconds:.2f} s, {memory / 1e6:.0f} MB"
        if self.counts and counts:
            told += f", {instructions(self.program, words, text):,} instructions"
        is_wrong = ended != status or seconds > MOST_SECONDS or memory > MOST_MEMORY
        self.wrong += is_wrong
        print(told + (" WRONG" if is_wrong else ""), flush=True)


def tiles(program, text, half):
    """How many tiles a square window of these half extents has, or None where it has too many."""
    ended, *_, end = run(program, f"draw rule=- addr=0: seed=42 at=0,0,0,0 half={half},{half} layers=census", text)
    return int(end.split()[-1]) if ended == 0 else None


def largest(program, text):
    """The greatest square window round the middle that is drawn."""
    low, high = 1, 4096
    while low < high:
        middle = (low + high + 1) // 2
        low, high = (middle, high) if tiles(program, text, middle) is not None else (low, middle - 1)
    return low


def windows(table):
    """The largest window of each rule file."""
    for name in sorted(name for name in os.listdir(os.path.join(TOP, "rules")) if name.endswith(".toml")):
        with open(os.path.join(TOP, "rules", name), "rb") as file:
            text = file.read()
        half = largest(table.program, text)
        many = tiles(table.program, text, half)
        for glue in ("no", "yes"):
            words = f"draw rule=- addr=0: seed=42 at=0,0,0,0 half={half},{half} layers=svg,list,census glue={glue}"
            table.add(f"draw {name} half={half},{half} glue={glue}, {many} tiles", words, text, counts=False)


def listed(program, words):
    """The list that `draw` prints."""
    call = [program, "draw", *words.split(" "), "layers=list"]
    return subprocess.run(call, stdin=subprocess.DEVNULL, stdout=subprocess.PIPE).stdout


def backwards(text):
    """The lines of a text, the last first."""
    return b"".join(reversed(text.splitlines(keepends=True)))


def chairs():
    """Lines for as many chairs of one supertile as a listing may have, all with one motion."""
    digits = lambda number: ",".join(f"{number >> 2 * level & 3}/0" for level in range(9))  # noqa: E731
    return "".join(f"0 0 0,0,0,0 0:{digits(number)}\n" for number in range(MOST_LISTED)).encode()


def listings(table):
    """The lists of the largest windows of the built-in rules, and of a window round a tile of 64 digits; then such as are
    refused late, or are past their limits."""
    for name, file in BUILT_IN.items():
        with open(os.path.join(TOP, "rules", f"{file}.toml"), "rb") as source:
            half = largest(table.program, source.read())
        words = f"rule={name.decode()} addr=0: seed=42 at=0,0,0,0 half={half},{half}"
        text = listed(table.program, words)
        many = text.count(b"\n")
        table.add(f"verify {name.decode()} half={half},{half}, {many} lines", f"verify {words}", text, counts=False)
        table.add("verify, the same backwards", f"verify {words}", backwards(text), counts=False)
        less = text[: text.rindex(b"\n", 0, -1) + 1]
        table.add("verify, the same without its last line", f"verify {words}", less, 17, False)
    long = f"rule=chair seed=1 addr=0:{deep('3/0', 21)},{deep('0/0', 43)} at=0,0,0,0 half=300,150"
    text = listed(table.program, long)
    many = text.count(b"\n")
    table.add(f"verify chair, 64 digits, {many} lines", f"verify {long}", text, counts=False)
    short = "verify rule=chair seed=42 addr=0: at=1,1,0,0 half=2,1"
    table.add("verify, 200,000 lines of other tiles", short, chairs(), 17, False)
    table.add("verify, one line again and again", short, b"0 0 0,0,0,0 0:\n" * MOST_LISTED, 17, False)
    table.add("verify, empty lines", short, b"\n" * MOST_LISTED, 17, False)
    table.add("verify, a line too many", short, b"0 0 0,0,0,0 0:\n" * (MOST_LISTED + 1), 17, False)
    table.add("verify, one line of 64 mebibytes", short, b"0" * LONGEST_LISTING, 17, False)
    table.add("verify, 64 mebibytes of empty lines", short, b"\n" * LONGEST_LISTING, 17, False)
    table.add("verify, a byte too long", short, b"0" * (LONGEST_LISTING + 1), 17, False)


def deep(digit, times=64):
    return ",".join([digit] * times)


def filled(line, front=b"", most=MEBIBYTE):
    """A text of a line again and again, of at most a mebibyte."""
    return front + line * ((most - len(front)) // len(line))


def numbered(line):
    """The lines that numbers from 0 make of a line, as many as a mebibyte holds."""
    lines = b"".join(line % number for number in range(MEBIBYTE // (len(line) - 1)))
    return lines[:MEBIBYTE].rpartition(b"\n")[0]


def addresses(table):
    """Addresses of 64 digits: placed, crossed over all levels, walked along, and grown."""
    table.add("place, 64 digits", f"place rule=chair addr=0:{deep('0/0')}")
    table.add("neighbour over 64 levels", f"neighbour rule=chair addr=0:{deep('0/0', 63)},1/0 edge=4")
    table.add("neighbour of ab, 64 digits", f"neighbour rule=ab addr=0:{deep('0/0')} edge=1")
    path = ",".join(["0", "3"] * 500)
    table.add("walk of 1,000 edges, 64 digits", f"walk rule=chair addr=0:{deep('0/0')} path={path}")
    climbing = ",".join(["4", "7"] * 500)
    table.add("walk of 1,000 edges over 64 levels", f"walk rule=chair addr=0:{deep('0/0', 63)},1/0 path={climbing}")
    for rule in ("chair", "p2", "p3", "ab", "halfhex"):
        table.add(f"drill of {rule}, 200 windows", f"drill rule={rule} n=200 seed=42")


def stars(table):
    """Stars over all levels, and of very many tiles."""
    table.add("star over 64 levels", f"star rule=chair addr=0:{deep('0/0', 63)},1/0 vertex=4")
    table.add("star that grows over 64 levels", f"star rule=chair addr=0:{deep('0/0')} vertex=4", status=5)
    for number, status in ((64, 0), (65, 16)):
        text = fan_rule(*RULES[number])[0].encode()
        table.add(f"star of {number} tiles", "star rule=- addr=3:0/1,6/0,0/0 vertex=1", text, status)
        table.add("check of its rule", "check rule=-", text)


def scripts(table):
    """Scripts of a mebibyte."""
    front = f"let a 0:{deep('0/0', 63)},1/0\n".encode()
    table.add("calc, across over 64 levels", "calc rule=chair", filled(b"across a 4 b\n", front))
    table.add("calc, place of 64 digits", "calc rule=chair", filled(b"place a\n", b"let a 0:" + deep("0/0").encode() + b"\n"))
    table.add("calc, common of 64 digits", "calc rule=chair", filled(b"common a a\n", front))
    other = f"let b 0:{deep('1/0', 63)},0/0\n".encode()
    table.add("calc, pair along each other over 64 levels", "calc rule=chair", filled(b"pair a b\n", front + other))
    table.add("calc, show of 64 digits", "calc rule=chair", filled(b"show a\n", front))
    table.add("calc, let of 64 digits", "calc rule=chair", filled(front))
    table.add("calc, empty lines", "calc rule=chair", b"\n" * MEBIBYTE)
    table.add("calc, one line", "calc rule=chair", b"a" * MEBIBYTE, status=13)
    table.add("calc, a byte too long", "calc rule=chair", b"#" * (MEBIBYTE + 1), status=13)


def largest_rule():
    """The text of a rule of sixteen kinds, rectangles with twelve edges, each cut into sixteen."""
    corners = [(1, 0), (2, 0), (2, 1), (2, 2), (2, 3), (2, 4), (1, 4), (0, 4), (0, 3), (0, 2), (0, 1), (0, 0)]
    vertices = ",".join(f"[{x},{y},0,0]" for x, y in corners)
    rows = lambda kind: ",".join(f"[{(kind + n) % 16},0,{2 * (n % 4)},{4 * (n // 4)},0,0]" for n in range(16))  # noqa: E731
    head = "format = 1\norder = 4\nlambda = [4, 0, 0, 0]\nglue = []\n[[type]]\nmate = 0\nparts = [0, 0, 0, 0]\n"
    edges = ",".join("0" * 12)
    return head + "".join(f"[[kind]]\nvertices = [{vertices}]\nedges = [{edges}]\nchildren = [{rows(kind)}]\n" for kind in range(16))


def files(table):
    """Rule files of a mebibyte, and the largest rules."""
    most = largest_rule().encode()
    table.add("check, 16 kinds of 16 children", "check rule=-", most)
    table.add("check, the same with a mebibyte of comments", "check rule=-", filled(b"# x\n", most))
    table.add("place, the same rule", "place rule=- addr=0:", most)
    table.add("check, a mebibyte of bytes that are no text", "check rule=-", b"\xff" * MEBIBYTE, status=3)
    table.add("check, one long array", "check rule=-", filled(b"0,", b"format = ["), status=3)
    table.add("check, many tables", "check rule=-", filled(b"[[kind]]\n"), status=3)
    table.add("check, many types", "check rule=-", filled(b"[[type]]\nmate = 0\nparts = [0]\n", b"format = 1\norder = 4\nlambda = [2, 0, 0, 0]\nglue = []\n"), status=3)
    table.add("check, nested arrays", "check rule=-", b"a = " + b"[" * (MEBIBYTE - 4), status=3)
    table.add("check, dots alone", "check rule=-", b"." * MEBIBYTE, status=3)
    table.add("check, dotted keys", "check rule=-", numbered(b"k%d" + b".a" * 79 + b"=1\n"), status=3)
    table.add("check, headers with dotted keys", "check rule=-", numbered(b"[k%d" + b".a" * 79 + b"]\n"), status=3)
    table.add("check, headers of lists with dotted keys", "check rule=-", numbered(b"[[k%d" + b".a" * 79 + b"]]\n"), status=3)
    table.add("check, inline tables with dotted keys", "check rule=-", filled(b"{" + b"a." * 78 + b"a=0},", b"a=[", MEBIBYTE - 1) + b"]", status=3)
    table.add("check, inline tables", "check rule=-", filled(b"{a=" * 79 + b"0" + b"}" * 79 + b",", b"a=[", MEBIBYTE - 1) + b"]", status=3)
    table.add("check, one long string", "check rule=-", b'a = "' + b"x" * (MEBIBYTE - 6) + b'"', status=3)
    table.add("check, many keys", "check rule=-", numbered(b"a%d = 0\n"), status=3)
    table.add("check, a byte too long", "check rule=-", b"#" * (MEBIBYTE + 1), status=3)


def main(words):
    if len(words) not in (1, 2) or words[1:] not in ([], ["--count"]):
        raise WrongWords
    table = Table(os.path.abspath(words[0]), len(words) == 2)
    for part in (addresses, stars, scripts, files, windows, listings):
        part(table)
    print(f"dearest: {table.wrong} wrong")
    return 1 if table.wrong else 0


if __name__ == "__main__":
    answer(main, __doc__)
