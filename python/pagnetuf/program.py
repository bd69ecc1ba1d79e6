"""The engine by the words of its command: over the program `tiling`, or over any engine that answers such
words.

The program is that which the variable TILING_PROGRAM names, or .tiling/program of the checkout that holds
this package, or the installed one, or `tiling` on the PATH. A call takes one to two milliseconds beside its
work; a window's text is parsed in bulk by numpy."""
from __future__ import annotations

import os
from typing import Any, Callable, Dict, List, Optional, Sequence, Tuple, Union

import numpy as np

from . import places
from .engine import BUILT_IN, NO_EDGE, TILE, Addresses, Box, Engine, Found, Frame, Machine, Motion, records_of
from .refusals import BadAddress, BadScript, BadWords, NoEngine, Refusal, refusal_of
from .rule import Rule
from .texts import address_texts, listing_text, parsed_listing, parsed_motions, read_texts

MOST_SCRIPT = 1 << 20
Answer = Union[bytes, Refusal]


def find_program() -> str:
    """The path of the program `tiling`. NoEngine."""
    found = places.program_path()
    if not found or not os.access(found, os.X_OK):
        raise NoEngine("no program `tiling`: name it by TILING_PROGRAM, or build it by ./tiling --build")
    return found


class ProgramEngine(Engine):
    """Machines over the program at a path, or over the one that is found: for comparisons, as it is slower
    than the library. What is in no answer of the program is the library's: the numbers of a rule, and pairs
    and lists of tiles for the rule of a file."""

    def __init__(self, path: Optional[str] = None):
        self.path = path or find_program()

    def call(self, words: Sequence[str], given: bytes = b"") -> bytes:
        """What the program prints for these words and this standard input. A refusal is raised."""
        import subprocess  # (which most users of the package never need)

        try:
            ran = subprocess.run(
                [self.path, *words], input=given, stdout=subprocess.PIPE, stderr=subprocess.PIPE, check=False
            )
        except (OSError, ValueError) as trouble:
            raise NoEngine(f"{self.path} can't be run: {trouble}") from trouble
        if ran.returncode:
            raise refusal_of(ran.stderr.decode("utf-8", "replace").strip())
        return ran.stdout

    def machine(self, name: str) -> "CommandMachine":
        if name not in BUILT_IN:
            raise BadWords(1)
        return CommandMachine(self, name, None)

    def machine_of(self, data: bytes) -> "CommandMachine":
        self.call(["check", "rule=-"], data)
        return CommandMachine(self, "-", data)


def machine_by_library(name: str, file: Optional[bytes]) -> Machine:
    """The same rule over the library. NoEngine without one."""
    from .library import LibraryEngine

    engine = LibraryEngine()
    return engine.machine(name) if file is None else engine.machine_of(file)


class CommandMachine(Machine):
    """A rule that is named to an engine by the words of the command, or whose file stands for standard input.
    Its numbers are asked for when they are needed."""

    def __init__(self, engine: Engine, name: str, file: Optional[bytes]):
        self.engine, self.name, self.file = engine, name, file

    @property
    def rule(self) -> Rule:
        return machine_by_library(self.name, self.file).rule

    def meeting(self, tiles: np.ndarray, boxes: Sequence[Box]) -> np.ndarray:
        return machine_by_library(self.name, self.file).meeting(tiles, boxes)

    def __reduce__(self) -> tuple:
        if self.file is not None:
            return self.engine.machine_of, (self.file,)
        return self.engine.machine, (self.name,)

    def ask(self, command: str, given: Optional[bytes] = None, **keys: Any) -> bytes:
        """Calls a command with this rule and these keys."""
        # (no argument may have the character 0; a question mark is refused at the same place)
        words = [f"{key}={value}".replace("\0", "?") for key, value in {"rule": self.name, **keys}.items()]
        return self.engine.call([command, *words], (self.file or b"") if given is None else given)

    def place(self, address: str) -> Motion:
        kind, turn, shift = self.ask("place", addr=address).decode().split()
        a, b, c, d = map(int, shift.split(","))
        return int(kind), int(turn), (a, b, c, d)

    def neighbour(self, address: str, edge: int) -> Tuple[str, int]:
        there, back = self.ask("neighbour", addr=address, edge=edge).decode().split()
        return there, int(back)

    def place_all(self, addresses: Addresses) -> np.ndarray:
        records = records_of(addresses)
        texts = addresses if records is None else address_texts(records)
        answers = self._answers(
            [f"let a {plain(address)}\nplace a\n" for address in texts],
            lambda i: ("place", {"addr": texts[i]}),
        )
        tiles = np.zeros(len(texts), TILE)
        # (a line of a script begins with the name)
        told = {
            i: answer[2:] if answer.startswith(b"a ") else answer
            for i, answer in enumerate(answers)
            if not isinstance(answer, Refusal)
        }
        if told:
            tiles[list(told)] = parsed_motions(b"\n".join(told.values()) + b"\n")
        for i, answer in enumerate(answers):
            tiles["status"][i] = answer.status if isinstance(answer, Refusal) else 0
        return tiles

    def neighbour_all(
        self, addresses: Addresses, edges: np.ndarray, out: Optional[np.ndarray] = None
    ) -> Tuple[Addresses, np.ndarray]:
        records, numbered = records_of(addresses), edges.tolist()
        given = addresses if records is None else address_texts(records)
        scripts = [f"let a {plain(address)}\nacross a {edge} a\n" for address, edge in zip(given, numbered)]
        answers = self._answers(scripts, lambda i: ("neighbour", {"addr": given[i], "edge": numbered[i]}))
        there, numbers = list(given), np.zeros((len(answers), 2), np.uint8)
        for i, answer in enumerate(answers):
            if isinstance(answer, Refusal):
                numbers[i] = 0, answer.status
            else:
                there[i], back = answer.decode().split()[-2:]
                numbers[i] = int(back), 0
        if out is None:
            return (there if records is None else read_texts(there)), numbers
        out[:] = read_texts(there)
        return out, numbers

    def _answers(self, scripts: Sequence[str], alone: Callable[[int], Tuple[str, dict]]) -> List[Answer]:
        """A line, or a refusal, for each script of two lines that prints one. Rules of files are asked one by
        one."""
        if self.name != "-":
            return self._script_answers(list(scripts), alone)
        return [self._alone(*alone(i)) for i in range(len(scripts))]

    def _alone(self, command: str, keys: dict) -> Answer:
        try:
            return self.ask(command, **keys).strip()
        except Refusal as refused:
            return refused

    def _script_answers(
        self, scripts: Sequence[str], alone: Callable[[int], Tuple[str, dict]]
    ) -> List[Answer]:
        """Runs the scripts as a few long ones. A line that is refused ends its script: what stands before it
        is run again, the question of the line is asked alone, and the next script begins behind it."""
        answers: List[Answer] = []
        most = len(scripts)  # as many as the next script may have
        while (start := len(answers)) < len(scripts):
            some = fitting_scripts(scripts, start, start + most, MOST_SCRIPT)
            try:
                answers += self.ask("calc", "".join(some).encode()).splitlines()
                most = len(scripts)
            except BadScript as refused:
                if len(refused.fields) < 2:  # (the script as a whole)
                    most = 0
                else:
                    most = (int(refused.fields[1]) - 1) // 2
            if not most:
                answers.append(self._alone(*alone(len(answers))))
                most = len(scripts)
        return answers

    def _window(self, frame: Frame, box: Box, glue: bool) -> bytes:
        keys: Dict[str, Any] = {
            **frame_words(frame),
            **box_words(box),
            "layers": "list",
            **({"glue": "yes"} if glue else {}),
        }
        return self.ask("draw", **keys)

    def cover(self, frame: Frame, box: Box, glue: bool = False, addresses: bool = True) -> Found:
        found = parsed_listing(self._window(frame, box, glue))
        return found if addresses else found._replace(addresses=None)

    def listing(self, frame: Frame, box: Box, glue: bool = False) -> bytes:
        return self._window(frame, box, glue)

    def star(self, frame: Frame, vertex: int) -> Found:
        return parsed_listing(self.ask("star", **frame_words(frame), vertex=vertex), has_number=True)

    def walk(self, frame: Frame, path: Sequence[int], grow: int = 0) -> Found:
        keys: Dict[str, Any] = {**frame_words(frame), "grow": grow}
        if len(path):
            keys["path"] = ",".join(map(str, path))
        text = self.ask("walk", **keys)
        return parsed_listing(text.replace(b" -\n", b" %d\n" % NO_EDGE, 1), has_number=True)

    def pair(self, a: str, b: str) -> str:
        if self.file is not None:
            return machine_by_library(self.name, self.file).pair(a, b)
        return self._script(f"let a {plain(a)}\nlet b {plain(b)}\npair a b\n")

    def common(self, a: str, b: str) -> Optional[int]:
        level = self._script(f"let a {plain(a)}\nlet b {plain(b)}\ncommon a b\n")
        return None if level == "none" else int(level)

    def _script(self, text: str) -> str:
        """The one line that a script of three lines prints, without its two names. A wrong address is
        BadAddress."""
        try:
            return self.ask("calc", text.encode()).decode().strip()[4:]
        except BadScript as refused:
            if refused.fields[0] == "Address":
                raise BadAddress(*refused.fields[2:]) from None
            raise

    def verify(self, frame: Frame, box: Box, listing: bytes) -> int:
        return int(self.ask("verify", listing, **frame_words(frame), **box_words(box)).split()[1])

    def verify_tiles(self, frame: Frame, box: Box, found: Found) -> int:
        if self.file is not None:
            return machine_by_library(self.name, self.file).verify_tiles(frame, box, found)
        return self.verify(frame, box, listing_text(found).encode())


def fitting_scripts(scripts: Sequence[str], start: int, end: int, size: int) -> List[str]:
    """The scripts from a begin to an end, as far as they have so many bytes together, and at least one."""
    some: List[str] = []
    for script in scripts[start:end]:
        size -= len(script.encode())
        if some and size < 0:
            break
        some.append(script)
    return some


def frame_words(frame: Frame) -> Dict[str, Any]:
    return {"seed": frame.seed, "addr": frame.base}


def box_words(box: Box) -> Dict[str, Any]:
    return {"at": ",".join(str(int(a)) for a in box.at), "half": ",".join(str(int(h)) for h in box.half)}


def plain(address: str) -> str:
    """An address as a word of a script: what can be none is no address there either."""
    return "".join(character if character in "0123456789:/," else "?" for character in str(address)) or "?"
