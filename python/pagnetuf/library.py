"""The engine: the C library, called in the process by ctypes. Tiles of a window come as arrays.

The library is the one that TILING_LIBRARY names, or one next to the package's files, or that of .tiling of a
checkout, or the installed one. include/tiling.h is its header. Where a call refuses, the command's own line
is asked for by tiling_call, so that the exception has its fields."""
from __future__ import annotations

import ctypes
import struct
import threading
from functools import cached_property, lru_cache
from typing import TYPE_CHECKING, Any, Callable, Dict, Optional, Sequence, Tuple, TypeVar

import numpy as np

from . import places
from .engine import (
    ADDRESS,
    BUILT_IN,
    MOST_TILES,
    NO_EDGE,
    TILE,
    Addresses,
    Box,
    Engine,
    Found,
    Frame,
    Machine,
    Motion,
    copied,
    raw,
    records_of,
    taken,
)
from .refusals import BY_STATUS, BadListing, BadWords, NoEngine, NoMemory, refusal_of
from .rule import Rule
from .texts import NO_TILES, address_texts, read_alike

if TYPE_CHECKING:  # (most users never need it)
    from .program import CommandMachine

Result = TypeVar("Result")
ABI = 2
FRAME = np.dtype([("seed", "<u8"), ("base", ADDRESS), ("rest", "u1", 6)])
WINDOW = np.dtype([("at", "<i8", 4), ("w", "<u2"), ("h", "<u2"), ("rest", "u1", 4)])
OK, BAD_ADDRESS, REFUSED = 0, 4, 255
NO_NUMBERS = np.zeros(0, np.int64)
STATUS, SIZE, POINTER, BYTE = ctypes.c_uint8, ctypes.c_size_t, ctypes.c_void_p, ctypes.c_uint8
# the result and the parameters of each function that is called
CALLS = {
    "abi": (ctypes.c_uint32,),
    "open": (STATUS, ctypes.c_char_p, SIZE, POINTER),
    "open_file": (STATUS, ctypes.c_char_p, SIZE, POINTER, POINTER, SIZE, POINTER),
    "rule": (None, POINTER, POINTER),
    "read_address": (STATUS, POINTER, ctypes.c_char_p, SIZE, POINTER),
    "write_address": (STATUS, POINTER, POINTER, SIZE, POINTER),
    "place": (STATUS, POINTER, POINTER, POINTER),
    "neighbour": (STATUS, POINTER, POINTER, BYTE, POINTER, POINTER),
    "place_all": (STATUS, POINTER, POINTER, SIZE, POINTER, SIZE),
    "neighbour_all": (STATUS, POINTER, POINTER, SIZE, POINTER, SIZE, POINTER, SIZE),
    "pair": (STATUS, POINTER, POINTER, POINTER, POINTER),
    "cover": (STATUS, POINTER, POINTER, POINTER, POINTER, SIZE, POINTER, SIZE, POINTER),
    "meets_all": (STATUS, POINTER, POINTER, SIZE, POINTER, POINTER, SIZE),
    "glue": (STATUS, POINTER, POINTER, POINTER, POINTER, SIZE, POINTER),
    "walk": (STATUS, POINTER, POINTER, BYTE, POINTER, SIZE, POINTER, SIZE, POINTER, SIZE),
    "star": (STATUS, POINTER, POINTER, BYTE, POINTER),
    "verify": (STATUS, *(POINTER,) * 3, *(POINTER, SIZE) * 2, POINTER, POINTER),
    "call": (STATUS, *(ctypes.c_char_p, SIZE) * 2, *(POINTER, SIZE, POINTER) * 2),
}
SINGLE_CALLS = ("read_address", "write_address", "place", "neighbour")
CROSSING = np.dtype([("status", "u1"), ("back", "u1"), ("part", "u1")])
RELATION = np.dtype([("relation", "u1"), ("backs", "u1", 12)])
STAR = np.dtype([("tiles", TILE, 64), ("addresses", ADDRESS, 64), ("count", "u1"), ("rest", "u1", 7)])
WHOLE = np.dtype([("tiles", TILE, 2), ("addresses", ADDRESS, 2), ("parts", "u1"), ("rest", "u1", 3)])
ONE_TILE = struct.Struct("<4q8B")
BESIDE = 3
# the faults of arrays, by their numbers
FAULTS, MISSING = ("", "NoTile", "NotOfFrame", "Double", "Missing", "WrongPlace", "Stray"), 4
RELATIONS = ("none", "same", "apart")  # 0, 1 and 2
LONGEST_TEXT, LONGEST_PATH, LONGEST_LINE = 515, 1000, 128
TEXT_ROOM, NOTE_ROOM = 1 << 16, 1 << 10


class Library:
    """The functions of the library at a path. NoEngine if it can't be loaded, or has another interface."""

    abi: Callable[..., int]
    open: Callable[..., int]
    open_file: Callable[..., int]
    rule: Callable[..., None]
    read_address: Callable[..., int]
    write_address: Callable[..., int]
    place: Callable[..., int]
    neighbour: Callable[..., int]
    place_all: Callable[..., int]
    neighbour_all: Callable[..., int]
    pair: Callable[..., int]
    cover: Callable[..., int]
    glue: Callable[..., int]
    walk: Callable[..., int]
    star: Callable[..., int]
    verify: Callable[..., int]
    call: Callable[..., int]
    meets_all: Callable[..., int]

    def __init__(self, path: str):
        self.path = path
        try:
            loaded = ctypes.CDLL(path)
            self._take(loaded, CALLS)
            # (a call on one tile takes less time than it takes to let other threads run meanwhile)
            self._take(ctypes.PyDLL(path), {name: CALLS[name] for name in SINGLE_CALLS})
        except (OSError, AttributeError) as trouble:
            raise NoEngine(f"{path} can't be loaded: {trouble}") from trouble
        if self.abi() != ABI:
            raise NoEngine(f"{path} has the interface {self.abi()}, and this package needs {ABI}")

    def _take(self, loaded: ctypes.CDLL, calls: Dict[str, Tuple[Any, ...]]) -> None:
        """Takes these functions of a library."""
        for name, (result, *parameters) in calls.items():
            call = getattr(loaded, "tiling_" + name)
            call.restype, call.argtypes = result, parameters
            setattr(self, name, call)


@lru_cache(16)
def library_at(path: str) -> Library:
    """The library at a path, loaded once."""
    return Library(path)


class Scratch:
    """What is handed to calls on single tiles: an address, a tile, a text, three numbers, and pointers to
    them."""

    def __init__(self) -> None:
        self.address, self.tile = (ctypes.c_uint8 * ADDRESS.itemsize)(), (ctypes.c_uint8 * TILE.itemsize)()
        self.text, self.size = ctypes.create_string_buffer(LONGEST_TEXT), ctypes.c_size_t()
        self.back, self.part = ctypes.c_uint8(), ctypes.c_uint8()
        self.to_address, self.to_tile = ctypes.addressof(self.address), ctypes.addressof(self.tile)
        self.to_text, self.to_size = ctypes.addressof(self.text), ctypes.addressof(self.size)
        self.to_back, self.to_part = ctypes.addressof(self.back), ctypes.addressof(self.part)


class OwnScratch(threading.local):
    """That of each thread, made once."""

    def __init__(self) -> None:
        self.scratch = Scratch()


OWN = OwnScratch()


class LibraryEngine(Engine):
    """Machines over the library at a path, or over the one that is found. NoEngine without one."""

    def __init__(self, path: Optional[str] = None):
        found = path or places.library_path()
        if not found:
            raise NoEngine(
                f"there is no C library {places.LIBRARIES[0]}: the wheel of the package has it, `./tiling "
                "--build` makes it in a checkout, and the variable TILING_LIBRARY names another"
            )
        self.library = library_at(found)

    def __reduce__(self) -> tuple:
        return LibraryEngine, (self.library.path,)

    def call(self, words: Sequence[str], given: bytes = b"") -> bytes:
        # (no argument of a call has a newline; a question mark is refused at the same place)
        text = "\n".join(word.replace("\n", "?") for word in words).encode("utf-8", "surrogateescape")
        size = ctypes.c_size_t(TEXT_ROOM)
        while True:
            room, length = size.value, ctypes.c_size_t()
            out, note = ctypes.create_string_buffer(room), ctypes.create_string_buffer(NOTE_ROOM)
            status = self.library.call(
                *(text, len(text), given, len(given), out, room, ctypes.byref(size)),
                *(note, NOTE_ROOM, ctypes.byref(length)),
            )
            if status != OK:
                line = note.raw[: length.value].decode()
                raise NoMemory() if status == NoMemory.status else refusal_of(line)
            if size.value <= room:
                return out.raw[: size.value]

    def machine(self, name: str) -> "LibraryMachine":
        return opened(self.library.path, name, None)

    def machine_of(self, data: bytes) -> "LibraryMachine":
        return opened(self.library.path, "-", data)


class LibraryMachine(Machine):
    """A machine of a built-in rule, or of a rule file with its bytes. It is only read, so threads may share
    it."""

    def __init__(self, engine: LibraryEngine, name: str, file: Optional[bytes] = None):
        self.engine, self.name, self.file, self.library = engine, name, file, engine.library
        self.handle = self._opened()

    @cached_property
    def asked(self) -> CommandMachine:
        """The same rule by the words of the command, which is asked where a call refuses."""
        from .program import CommandMachine

        return CommandMachine(self.engine, self.name, self.file)

    def _opened(self) -> ctypes.c_void_p:
        handle, size = ctypes.c_void_p(), ctypes.c_size_t()
        line = ctypes.create_string_buffer(LONGEST_LINE)
        if self.file is None:
            if self.name not in BUILT_IN:
                raise BadWords(1)
            text = self.name.encode()
            status = self.library.open(text, len(text), ctypes.byref(handle))
        else:
            status = self.library.open_file(
                *(self.file, len(self.file), ctypes.byref(handle), line, LONGEST_LINE, ctypes.byref(size)),
            )
        if status == OK:
            return handle
        if status == NoMemory.status:
            raise NoMemory()
        raise refusal_of(line.raw[: size.value].decode() or f"tiling_open answered {status}")

    @cached_property
    def rule(self) -> Rule:
        """The numbers of the rule."""
        from .rule_numbers import rule_of

        return rule_of(self.library, self.handle)

    def __reduce__(self) -> tuple:
        return opened, (self.library.path, self.name, self.file)

    def _read(self, text: str) -> Optional[Scratch]:
        """The address of a text in the scratch of this thread, or None where it is none of this rule."""
        scratch, line = OWN.scratch, text.encode("utf-8", "surrogateescape")
        status = self.library.read_address(self.handle, line, len(line), scratch.to_address)
        return scratch if status == OK else None

    def place(self, address: str) -> Motion:
        scratch = self._read(address)
        if scratch is None or self.library.place(self.handle, scratch.to_address, scratch.to_tile) != OK:
            return self.asked.place(address)
        a, b, c, d, _, kind, turn, *_ = ONE_TILE.unpack(scratch.tile)
        return kind, turn, (a, b, c, d)

    def neighbour(self, address: str, edge: int) -> Tuple[str, int]:
        scratch = self._read(address)
        if scratch is None or not 0 <= edge <= 255:
            return self.asked.neighbour(address, edge)
        to, library = scratch.to_address, self.library
        if library.neighbour(self.handle, to, edge, scratch.to_back, scratch.to_part) != OK:
            return self.asked.neighbour(address, edge)
        library.write_address(to, scratch.to_text, LONGEST_TEXT, scratch.to_size)
        return ctypes.string_at(scratch.to_text, scratch.size.value).decode(), scratch.back.value

    def place_all(self, addresses: Addresses) -> np.ndarray:
        read, wrong = self._read_all(addresses, True)
        tiles, count = np.empty(len(read), TILE), len(read)
        self.library.place_all(self.handle, read.ctypes.data, count, tiles.ctypes.data, count)
        if len(wrong):
            tiles[wrong] = np.zeros((), TILE)
            tiles["status"][wrong] = BAD_ADDRESS
        return tiles

    def neighbour_all(
        self, addresses: Addresses, edges: np.ndarray, out: Optional[np.ndarray] = None
    ) -> Tuple[Addresses, np.ndarray]:
        there, wrong = self._read_all(addresses, False, out)
        small, far = small_edges(edges)
        crossings, count = np.empty(len(there), CROSSING), len(there)
        given = (there.ctypes.data, count, small.ctypes.data, count, crossings.ctypes.data, count)
        self.library.neighbour_all(self.handle, *given)
        numbers = np.empty((len(there), 2), np.uint8)
        numbers[:, 1] = crossings["status"]
        np.multiply(crossings["back"], numbers[:, 1] == OK, out=numbers[:, 0])
        numbers[wrong] = 0, BAD_ADDRESS
        numbers[far] = 0, BadWords.status
        if out is not None or records_of(addresses) is not None:
            return there, numbers
        both = zip(address_texts(there), addresses, (numbers[:, 1] != OK).tolist())
        return [old if is_refused else text for text, old, is_refused in both], numbers

    def _read_all(
        self, addresses: Addresses, is_only_read: bool, out: Optional[np.ndarray] = None
    ) -> Tuple[np.ndarray, np.ndarray]:
        """The addresses as an ADDRESS array without gaps, and the numbers of the texts that are none. The
        array is `out`, or else a new one; if `is_only_read` it can be that of the addresses."""
        records, wrong = records_of(addresses), NO_NUMBERS
        if records is None:
            read, wrong = self._read_texts(list(addresses))
        elif out is not None or (is_only_read and records.flags.c_contiguous):
            read = records
        else:
            read = copied(records)
        if out is None or out is addresses:
            return read, wrong
        raw(out)[:] = raw(read)
        return out, wrong

    def _read_texts(self, texts: Sequence[str]) -> Tuple[np.ndarray, np.ndarray]:
        """The addresses of texts, as ADDRESS (n,), and the numbers of those that are none of this rule.
        (Some of another rule are left to the call.)"""
        read, is_read = read_alike(texts)
        wrong, at = [], read.ctypes.data
        for i in np.flatnonzero(~is_read).tolist():
            line = str(texts[i]).encode("utf-8", "surrogateescape")
            if self.library.read_address(self.handle, line, len(line), at + i * ADDRESS.itemsize) != OK:
                wrong.append(i)
        return read, np.array(wrong, np.int64)

    def meeting(self, tiles: np.ndarray, boxes: Sequence[Box]) -> np.ndarray:
        given, found = np.ascontiguousarray(tiles), np.zeros(len(tiles), bool)
        for box in boxes:
            window, flags = np.zeros((), WINDOW), np.zeros(len(tiles), np.uint8)
            window["at"], (window["w"], window["h"]) = box.at, box.half
            status = self.library.meets_all(
                *(
                    self.handle,
                    given.ctypes.data,
                    len(given),
                    window.ctypes.data,
                    flags.ctypes.data,
                    len(flags),
                )
            )
            if status != OK:
                raise BadWords()
            found |= flags != 0
        return found

    def cover(self, frame: Frame, box: Box, glue: bool = False, addresses: bool = True) -> Found:
        cover = self._glued if glue and self.rule.glue else self._covered
        found, status = cover(frame, box, addresses)
        return self._or_refused(status, found, lambda: self.asked.cover(frame, box, glue, addresses))

    def _or_refused(self, status: int, answer: Result, ask: Callable[[], Result]) -> Result:
        """The answer if the status is OK. Else the same question is asked of the command, which raises the
        refusal with its fields."""
        if status == NoMemory.status:
            raise NoMemory()
        return answer if status == OK else ask()

    def _frame(self, frame: Frame) -> Tuple[np.ndarray, int]:
        """A frame as FRAME, and a status, with which it is refused if that isn't OK."""
        scratch, plane = self._read(frame.base), np.zeros((), FRAME)
        if scratch is None or not fits(frame.seed, "<u8"):
            return plane, REFUSED
        plane["seed"], plane["base"] = frame.seed, np.frombuffer(bytes(scratch.address), ADDRESS)[0]
        return plane, OK

    def _window(self, frame: Frame, box: Box) -> Tuple[np.ndarray, np.ndarray, int]:
        """A frame as FRAME, a window as WINDOW, and a status: that of their refusal, or OK."""
        (plane, status), window = self._frame(frame), np.zeros((), WINDOW)
        if not all(fits(half, "<u2") for half in box.half) or not all(fits(a, "<i8") for a in box.at):
            return plane, window, REFUSED
        window["at"], (window["w"], window["h"]) = box.at, box.half
        return plane, window, status

    def _covered(self, frame: Frame, box: Box, addresses: bool) -> Tuple[Found, int]:
        plane, window, status = self._window(frame, box)
        if status != OK:
            return NO_TILES, status
        count = ctypes.c_size_t()

        def fill(room: int) -> Tuple[int, np.ndarray, np.ndarray]:
            tiles, named = np.empty(room, TILE), blank_addresses(room if addresses else 0)
            status = self.library.cover(
                *(self.handle, plane.ctypes.data, window.ctypes.data, tiles.ctypes.data, room),
                *(named.ctypes.data, len(named), ctypes.byref(count)),
            )
            return status, tiles, named

        status, tiles, named = self._filled(fill, box, count)
        tiles.resize(count.value, refcheck=False)
        if addresses:
            named.resize(count.value, refcheck=False)
        return Found(tiles, named if addresses else None, np.arange(count.value)), status

    def _filled(self, fill: Callable[[int], Any], box: Box, count: ctypes.c_size_t) -> Any:
        """What `fill` answers, with room for all tiles of a window, as far as `count` says."""
        room = min(MOST_TILES, self.rule.most_tiles(box.half))
        status, *filled = fill(room)
        return fill(MOST_TILES) if status == OK and count.value > room else (status, *filled)

    def _glued(self, frame: Frame, box: Box, addresses: bool) -> Tuple[Found, int]:
        """The halves of the whole tiles of a window."""
        plane, window, status = self._window(frame, box)
        if status != OK:
            return NO_TILES, status
        count = ctypes.c_size_t()

        def fill(room: int) -> Tuple[int, np.ndarray]:
            wholes = np.empty(room, WHOLE)
            status = self.library.glue(
                *(self.handle, plane.ctypes.data, window.ctypes.data),
                *(wholes.ctypes.data, room, ctypes.byref(count)),
            )
            return status, wholes

        status, wholes = self._filled(fill, box, count)
        found = wholes[: count.value]
        is_part = np.arange(2) < found["parts"][:, None]
        numbers = np.repeat(np.arange(count.value), found["parts"])
        named = taken(found["addresses"], is_part) if addresses else None
        return Found(taken(found["tiles"], is_part), named, numbers), status

    def listing(self, frame: Frame, box: Box, glue: bool = False) -> bytes:
        return self.asked.listing(frame, box, glue)

    def star(self, frame: Frame, vertex: int) -> Found:
        (plane, status), star = self._frame(frame), np.zeros((), STAR)
        if status == OK and fits(vertex, "u1"):
            status = self.library.star(self.handle, plane.ctypes.data, vertex, star.ctypes.data)
            if status == OK:
                count = int(star["count"])
                return Found(star["tiles"][:count], star["addresses"][:count], np.arange(count))
        return self.asked.star(frame, vertex)

    def walk(self, frame: Frame, path: Sequence[int], grow: int = 0) -> Found:
        (plane, status), count = self._frame(frame), len(path) + 1
        if status != OK or not all(fits(edge, "u1") for edge in (*path, grow)) or len(path) > LONGEST_PATH:
            return self.asked.walk(frame, path, grow)
        edges, tiles, addresses = np.array(path, np.uint8), np.zeros(count, TILE), np.zeros(count, ADDRESS)
        status = self.library.walk(
            *(self.handle, plane.ctypes.data, grow, edges.ctypes.data, len(path)),
            *(tiles.ctypes.data, count, addresses.ctypes.data, count),
        )
        tiles["number"][0] = NO_EDGE
        found = Found(tiles, addresses, np.arange(count))
        return self._or_refused(status, found, lambda: self.asked.walk(frame, path, grow))

    def pair(self, a: str, b: str) -> str:
        both, told = np.zeros(2, ADDRESS), np.zeros((), RELATION)
        for spot, text in enumerate((a, b)):
            scratch = self._read(text)
            if scratch is None:
                self.asked.place(text)  # (which is refused)
                raise NoEngine(f"{text!r} is refused, and isn't")
            both[spot] = np.frombuffer(bytes(scratch.address), ADDRESS)[0]
        self.library.pair(
            self.handle, both.ctypes.data, both.ctypes.data + ADDRESS.itemsize, told.ctypes.data
        )
        if told["relation"] != BESIDE:
            return RELATIONS[int(told["relation"])]
        return " ".join(
            f"{edge}/{back}" for edge, back in enumerate(told["backs"].tolist()) if back != NO_EDGE
        )

    def common(self, a: str, b: str) -> Optional[int]:
        return self.asked.common(a, b)

    def verify(self, frame: Frame, box: Box, listing: bytes) -> int:
        return self.asked.verify(frame, box, listing)

    def verify_tiles(self, frame: Frame, box: Box, found: Found) -> int:
        plane, window, status = self._window(frame, box)
        tiles, addresses = np.ascontiguousarray(found.tiles), np.ascontiguousarray(found.addresses)
        fault, index = ctypes.c_uint8(), ctypes.c_size_t()
        if status == OK:
            status = self.library.verify(
                *(self.handle, plane.ctypes.data, window.ctypes.data, tiles.ctypes.data, len(tiles)),
                *(addresses.ctypes.data, len(addresses), ctypes.byref(fault), ctypes.byref(index)),
            )
        if status == BadListing.status:
            fields = (
                (FAULTS[fault.value],) if fault.value == MISSING else (FAULTS[fault.value], index.value + 1)
            )
            raise BadListing(*fields)
        return self._or_refused(
            status, len(tiles), lambda: self._refused_window(frame, box, len(tiles), status)
        )

    def _refused_window(self, frame: Frame, box: Box, count: int, status: int) -> int:
        """Raises why a window is refused, as `draw` does, or that the arrays are too long."""
        self.asked.cover(frame, box)
        raise BadListing("TooLong") if count > MOST_TILES else BY_STATUS.get(status, BadWords)()


@lru_cache(256)
def opened(path: str, name: str, file: Optional[bytes]) -> LibraryMachine:
    """The machine of a rule, opened once in a process, as it never goes away."""
    return LibraryMachine(LibraryEngine(path), name, file)


def usual_engine() -> Engine:
    """The engine over the library. NoEngine without one."""
    return LibraryEngine()


def blank_addresses(count: int) -> np.ndarray:
    """So many ADDRESS of zeros, as a call leaves the digits after the last as they are. (np.zeros would take
    them page by page, in more time than it takes to fill large pages.)"""
    blank = np.empty(count, ADDRESS)
    blank.view(np.uint8).fill(0)
    return blank


def fits(number: int, kind: str) -> bool:
    """True if a number is one of a dtype."""
    limits = np.iinfo(kind)
    return limits.min <= number <= limits.max


def small_edges(asked: np.ndarray) -> Tuple[np.ndarray, np.ndarray]:
    """The numbers of edges as uint8 (n,), without gaps, and where they are none of a uint8. There they become
    255, which is the edge of no tile."""
    if asked.dtype == np.uint8:
        return np.ascontiguousarray(asked), NO_NUMBERS
    far = np.asarray((asked < 0) | (asked > 255), bool)
    if not far.any():
        return asked.astype(np.uint8), NO_NUMBERS
    return np.where(far, 255, asked).astype(np.uint8), np.flatnonzero(far)
