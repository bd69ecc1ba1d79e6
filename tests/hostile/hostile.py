#!/usr/bin/env python3
"""Hostile use of the program: makes COUNT inputs from a seed, runs each, and compares each answer with the formats.

    hostile.py PROGRAM COUNT SEED [PROCESSES]             (Python 3.11 or later, on Linux)
    hostile.py PROGRAM --one NUMBER SEED [FILE]

The inputs are arguments, addresses, rule files, scripts, windows, walks, drills and listings: right ones, ones with one
fault, and ones with many. Input NUMBER depends only on SEED and its number, so `--one` makes it again: it prints the
arguments and the answer, and puts the standard input into FILE. Of each call the status, both streams, the time of
processor and the memory are checked. Every twentieth call is made twice and must answer the same. Of a neighbour the
return edge must lead back, and of a listing the verdict must be that by what `draw` lists. Ends with 1 if something is
wrong. Memory is reported only if a call needs more than this script."""
import collections
import concurrent.futures
import hashlib
import os
import random
import resource
import shlex
import signal
import sys
import time
from typing import NamedTuple

sys.dont_write_bytecode = True
TOP = os.path.dirname(os.path.dirname(os.path.dirname(os.path.abspath(__file__))))
sys.path[1:1] = [os.path.join(TOP, "tools"), os.path.join(TOP, "checks")]
from command_line import WrongWords, run  # noqa: E402
from hostile_answers import Listing, Wanted  # noqa: E402
from hostile_inputs import Library, made  # noqa: E402

MOST_SECONDS = 2  # of processor
MOST_MEMORY = 1000000000  # bytes
PATIENCE = 120  # seconds by the clock, after which a call is ended
TWICE = 20  # of so many calls one is run twice
CHUNK = 200  # calls that a process makes at a time
WHOLE = 4000000  # bytes of a text that is looked at whole; of a longer one both ends
ENDS = 100000  # bytes
SHOWN = 20

class Ran(NamedTuple):
    """How a call ended: its status or the signal as a number below 0, its two texts, of a very long one both ends and a
    checksum of it all, its seconds and its memory."""

    status: int
    out: bytes
    err: bytes
    checksum: bytes
    seconds: float
    memory: int


class Runner:
    """Runs the program over three files in memory, which are used again and again."""

    def __init__(self, program):
        self.program = program
        self.files = [os.memfd_create(name) for name in ("input", "output", "notes")]
        self.folder = os.open("/", os.O_RDONLY)
        signal.signal(signal.SIGALRM, self.give_up)
        self.running = None

    def give_up(self, *_):
        """Ends a call that has taken too long by the clock."""
        if self.running:
            os.kill(self.running, signal.SIGKILL)

    def filled(self, file, text):
        """Puts a text into a file, and goes back to its front."""
        os.ftruncate(file, 0)
        os.lseek(file, 0, os.SEEK_SET)
        with open(file, "wb", closefd=False) as stream:
            stream.write(text)
        os.lseek(file, 0, os.SEEK_SET)

    def read(self, file):
        """A text, or both ends of a very long one."""
        size = os.fstat(file).st_size
        if size <= WHOLE:
            return os.pread(file, size, 0)
        return os.pread(file, ENDS, 0) + os.pread(file, ENDS, size - ENDS)

    def checksum(self, file):
        """A checksum of a text."""
        total, place = hashlib.blake2b(digest_size=16), 0
        while part := os.pread(file, 1 << 20, place):
            total.update(part)
            place += len(part)
        return total.digest()

    def run(self, call):
        """Runs a call to its end."""
        for file, text in zip(self.files, (call.text, b"", b"")):
            self.filled(file, text)
        streams = [self.folder if call.folder else self.files[0], *self.files[1:]]
        actions = [(os.POSIX_SPAWN_DUP2, file, number) for number, file in enumerate(streams)]
        signal.alarm(PATIENCE)
        self.running = os.posix_spawn(self.program, [self.program, *call.words], {}, file_actions=actions)
        _, status, used = os.wait4(self.running, 0)
        self.running = None
        signal.alarm(0)
        own = resource.getrusage(resource.RUSAGE_SELF).ru_maxrss
        memory = used.ru_maxrss * 1024 if used.ru_maxrss > own else 0
        _, out, err = self.files
        texts = self.read(out), self.read(err), self.checksum(out)
        return Ran(os.waitstatus_to_exitcode(status), *texts, used.ru_utime + used.ru_stime, memory)


def wrong(call, ran, shapes):
    """What is wrong with how a call ended, in words, or None."""
    told = Wanted(shapes, call.words, call.text, call.shape, call.refused, call.folder).wrong(ran.status, ran.out, ran.err)
    if told:
        return told
    if ran.seconds > MOST_SECONDS:
        return f"{ran.seconds:.2f} seconds of processor"
    return f"{ran.memory} bytes of memory" if ran.memory > MOST_MEMORY else None


def back(call, out):
    """The call that goes back across the edge of a neighbour, and what it must print."""
    address, edge = out[:-1].split(b" ")
    asked = {word[:5]: word[5:] for word in call.words}
    there = {b"addr=": b"addr=" + address, b"edge=": b"edge=" + edge}
    return call._replace(words=[there.get(word[:5], word) for word in call.words]), b"%b %b\n" % (asked[b"addr="], asked[b"edge="])


def turned(call, out):
    """The call for the star of the last tile of a star, which has the same tiles, and its lines' addresses and vertices."""
    corners = [line.split(b" ")[3:] for line in out[:-1].split(b"\n")]
    (address, vertex), words = corners[-1], [word for word in call.words if not word.startswith((b"addr=", b"vertex="))]
    return call._replace(words=[*words, b"addr=" + address, b"vertex=" + vertex]), corners[-1:] + corners[:-1]


def judged(runner, call, ran, shapes):
    """What is wrong with what is said of a listing, beside the list that `draw` makes of the window, or None."""
    values = dict(word.split(b"=", 1) for word in call.words[1:])
    listing = Listing(shapes[values[b"rule"]], values, call.text)
    if listing.fault:
        return None
    drawn = runner.run(call._replace(words=[b"draw", *call.words[1:], b"layers=list"], text=b"", folder=False))
    if os.fstat(runner.files[1]).st_size > WHOLE:
        return None
    if drawn.status == 0:
        return listing.otherwise(ran.status, ran.out, ran.err, drawn.out)
    is_said = ran.status == 0 or b" Stray " in ran.err
    return f"{ran.out[:100]!r} and {ran.err[:300]!r}, but `draw` refuses the window" if is_said else None


def other_wrong(runner, number, call, ran, shapes):
    """Runs a neighbour's way back, a star from its last tile, the list of a listing's window, and every so manieth call
    again; what is wrong with that, or None."""
    if call.words[:1] == [b"verify"] and ran.status in (0, 5, 6, 17) and len(call.text) < WHOLE:
        told = judged(runner, call, ran, shapes)
        if told:
            return told
    if call.words[:1] == [b"star"] and ran.status == 0:
        there, wanted = turned(call, ran.out)
        if [line.split(b" ")[3:] for line in runner.run(there).out[:-1].split(b"\n")] != wanted:
            return f"the star of its last tile is otherwise: {' '.join(map(shown, there.words))}"
    if call.words[:1] == [b"neighbour"] and ran.status == 0:
        there, wanted = back(call, ran.out)
        if runner.run(there).out != wanted:
            return f"the way back is otherwise: {' '.join(map(shown, there.words))}"
    if number % TWICE == 0 and runner.run(call)[:4] != ran[:4]:
        return "it answers otherwise the second time"
    return None


class Tally:
    """What came of some calls: how many ended with each status, in all and by maker, the dearest, and the wrong ones."""

    def __init__(self):
        self.statuses, self.makers = collections.Counter(), collections.Counter()
        self.slowest, self.largest, self.wrong, self.twice = (0, 0), (0, 0), [], 0

    def add(self, number, call, ran):
        self.statuses[ran.status] += 1
        self.makers[call.maker, ran.status] += 1
        self.slowest = max(self.slowest, (ran.seconds, number))
        self.largest = max(self.largest, (ran.memory, number))

    def join(self, other):
        self.statuses += other.statuses
        self.makers += other.makers
        self.slowest, self.largest = max(self.slowest, other.slowest), max(self.largest, other.largest)
        self.wrong, self.twice = self.wrong + other.wrong, self.twice + other.twice


def input_of(library, number, seed):
    """Input number NUMBER of a seed."""
    return made(library, random.Random(f"{seed} {number}"))


workers = {}


def worker(program):
    """The library and the runner of this process, made once."""
    if not workers:
        workers["one"] = Library(TOP), Runner(program)
    return workers["one"]


def tried(program, seed, first, last):
    """Runs the inputs of some numbers."""
    (library, runner), tally = worker(program), Tally()
    for number in range(first, last):
        call = input_of(library, number, seed)
        ran = runner.run(call)
        tally.add(number, call, ran)
        told = wrong(call, ran, library.shapes) or other_wrong(runner, number, call, ran, library.shapes)
        tally.twice += number % TWICE == 0
        if told:
            tally.wrong.append((number, call.maker, told))
    return tally


def shown(word):
    """A word as a shell takes it, cut where it is long."""
    text = shlex.quote(word.decode()) if word.isascii() and word.decode().isprintable() else repr(word)
    return text if len(text) <= 200 else f"{text[:150]}.. ({len(word)} bytes)"


def one(program, number, seed, file=None):
    """Makes one input again, runs it, and tells all of it."""
    library, runner = worker(program)
    call = input_of(library, number, seed)
    if file:
        with open(file, "wb") as stream:
            stream.write(call.text)
    ran = runner.run(call)
    print("maker:", call.maker)
    print("words:", " ".join(map(shown, call.words)))
    print("standard input:", "a folder" if call.folder else f"{len(call.text)} bytes, {call.text[:80]!r}")
    print(f"status: {ran.status}, {ran.seconds:.3f} seconds of processor, {ran.memory / 1e6:.0f} MB where it takes more than this script")
    print(f"output: {os.fstat(runner.files[1]).st_size} bytes, {ran.out[:80]!r}")
    print("notes:", ran.err[:1000])
    told = wrong(call, ran, library.shapes) or other_wrong(runner, 0, call, ran, library.shapes)
    print("wrong:", told)
    return 1 if told else 0


def report(tally, count, seed, seconds):
    """Prints what came of all calls."""
    for maker in sorted({maker for maker, _ in tally.makers}):
        ends = sorted((status, many) for (own, status), many in tally.makers.items() if own == maker)
        print(f"hostile: {maker}: " + ", ".join(f"{status}: {many}" for status, many in ends))
    print("hostile: ended with " + ", ".join(f"{status}: {many}" for status, many in sorted(tally.statuses.items())))
    print(f"hostile: dearest by time {tally.slowest[0]:.3f} s (--one {tally.slowest[1]} {seed}), by memory {tally.largest[0] / 1e6:.0f} MB (--one {tally.largest[1]} {seed})")
    for number, maker, told in sorted(tally.wrong)[:SHOWN]:
        print(f"hostile: --one {number} {seed} ({maker}): {told}", file=sys.stderr)
    print(f"hostile: {count} inputs, {tally.twice} of them run twice, {len(tally.wrong)} wrong, in {seconds:.0f} s")


def is_number(word):
    return word.isascii() and word.isdigit()


def main(words):
    if len(words) in (4, 5) and words[1] == "--one" and is_number(words[2]):
        return one(os.path.abspath(words[0]), int(words[2]), *words[3:])
    if len(words) not in (3, 4) or not is_number(words[1]) or not all(map(is_number, words[3:])):
        raise WrongWords
    return many(os.path.abspath(words[0]), int(words[1]), words[2], *map(int, words[3:]))


def many(program, count, seed, processes=None):
    """Makes so many inputs, runs each, and reports."""
    begun, tally = time.monotonic(), Tally()
    with concurrent.futures.ProcessPoolExecutor(processes or os.cpu_count()) as pool:
        runs = [pool.submit(tried, program, seed, first, min(count, first + CHUNK)) for first in range(0, count, CHUNK)]
        for run in concurrent.futures.as_completed(runs):
            tally.join(run.result())
    report(tally, count, seed, time.monotonic() - begun)
    return 1 if tally.wrong else 0


if __name__ == "__main__":
    run(main, __doc__)
