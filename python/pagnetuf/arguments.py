"""What callers pass, read once: whole numbers are whole, and an argument that isn't what it should be is
named.

A number with a fraction is never cut off. TypeError is for what isn't of the kind that a call takes, and
ValueError for too many, too few, or out of range."""
from __future__ import annotations

import operator
from typing import Any, Iterable, Optional, Sequence, Tuple

import numpy as np

Point = Tuple[int, int, int, int]


def integer(name: str, value: Any) -> int:
    """A whole number. TypeError for anything else, such as 0.5, 1.0 or "1"."""
    if type(value) is int:
        return value
    if not isinstance(value, (bool, np.bool_)):
        try:
            return operator.index(value)
        except TypeError:
            pass
    raise TypeError(f"{name} is a whole number, and not {value!r}")


def integers(name: str, values: Any, count: int) -> Tuple[int, ...]:
    """So many whole numbers."""
    numbers = tuple(integer(f"each of {name}", value) for value in listed(name, values))
    if len(numbers) != count:
        raise ValueError(f"{name} has {count} whole numbers, and not {len(numbers)}")
    return numbers


def four_integers(name: str, value: Any) -> Point:
    """The four coefficients of a point."""
    a, b, c, d = integers(name, value, 4)
    return a, b, c, d


def two_integers(name: str, value: Any) -> Tuple[int, int]:
    """Two whole numbers, such as the half-width and the half-height of a window."""
    a, b = integers(name, value, 2)
    return a, b


def floats(name: str, value: Any) -> Tuple[float, float]:
    """x and y in lengths."""
    try:
        x, y = (float(it) for it in value)
    except (TypeError, ValueError):
        raise TypeError(f"{name} is a pair of numbers (x, y), and not {value!r}") from None
    if not np.isfinite([x, y]).all():
        raise ValueError(f"{name} is finite, and not {value!r}")
    return x, y


def text_of(name: str, value: Any) -> str:
    """A text."""
    if not isinstance(value, str):
        raise TypeError(f"{name} is a text, and not {value!r}")
    return value


def one_of(name: str, value: Any, known: Sequence[str]) -> str:
    """One of some texts."""
    if value not in known:
        raise ValueError(f"{name} is one of {', '.join(known)}, and not {value!r}")
    return value


def listed(name: str, values: Any) -> Any:
    """What can be gone through, as a sequence with a length; a text or bytes is one thing and not many."""
    if isinstance(values, (str, bytes)) or not isinstance(values, Iterable):
        raise TypeError(f"{name} is a sequence, and not {values!r}")
    return values if isinstance(values, (list, tuple, np.ndarray)) else list(values)


def whole_array(name: str, values: Any) -> np.ndarray:
    """Whole numbers as an array of an integer dtype, of any shape. It isn't copied if it is one."""
    found = np.asarray(values if isinstance(values, np.ndarray) else listed(name, values))
    if found.size == 0 and not isinstance(values, np.ndarray):
        return found.astype(np.int64)
    if found.dtype.kind == "O":  # (numbers of Python beyond 64 bits)
        for value in found.ravel().tolist():
            integer(f"each of {name}", value)
    elif found.dtype.kind not in "iu":
        raise TypeError(f"{name} are whole numbers, and not of the dtype {found.dtype}")
    return found


def rows_of(name: str, values: Any, width: int) -> np.ndarray:
    """Whole numbers whose last axis has so many, such as points, as int64 (.., width)."""
    found = whole_array(name, values)
    if found.shape[-1:] != (width,):
        raise ValueError(f"{name} have the shape (.., {width}), and not {found.shape}")
    return found.astype(np.int64, copy=False)


def real_array(name: str, values: Any) -> np.ndarray:
    """Real numbers as float64, of any shape."""
    found = np.asarray(values if isinstance(values, np.ndarray) else listed(name, values))
    if found.dtype.kind not in "iuf":
        raise TypeError(f"{name} are real numbers, and not of the dtype {found.dtype}")
    return found.astype(float, copy=False)


def tile_colours(name: str, colours: Any, count: int) -> Tuple[str, ...]:
    """A colour for each of `count` tiles, as texts: texts, or rows of red, green and blue, from 0 to 1, or to
    255 as uint8. The rows of a colour map have a fourth number, which is the greatest for what is opaque."""
    found = listed(name, colours)
    if len(found) != count:
        raise ValueError(f"{name} has a colour for each of {count} tiles, and not {len(found)}")
    if not count or isinstance(found[0], str):
        return colour_texts(f"the colours in {name}", found) or ()
    rows = real_array(name, found)
    rows = rows / 255 if np.asarray(found).dtype == np.uint8 else rows
    if rows.ndim != 2 or rows.shape[1] not in (3, 4):
        raise ValueError(f"{name} has rows of red, green and blue, and not the shape {rows.shape}")
    if not ((rows >= 0) & (rows <= 1)).all():
        raise ValueError(f"{name} has numbers from 0 to 1, or to 255 as uint8")
    if (rows[:, 3:] != 1).any():
        raise ValueError(f"{name} has opaque colours alone")
    return tuple("#" + bytes(row).hex() for row in np.round(rows[:, :3] * 255).astype(np.uint8).tolist())


def numbers_of_tiles(name: str, tiles: Any, count: int) -> np.ndarray:
    """Which of `count` tiles: numbers, a mask, a slice or one number, as int64 (k,). IndexError where there
    is no such tile."""
    if isinstance(tiles, slice):
        return np.arange(count)[tiles]
    found = np.atleast_1d(
        np.asarray(tiles if np.ndim(tiles) or not isinstance(tiles, Iterable) else list(tiles))
    )
    if found.ndim != 1:
        raise TypeError(f"{name} have one axis, and not the shape {found.shape}")
    if found.dtype.kind == "b":
        if len(found) != count:
            raise IndexError(f"{name}: a mask has {count} entries, and not {len(found)}")
        return np.flatnonzero(found)
    if not len(found):
        return np.zeros(0, np.int64)
    if found.dtype.kind not in "iu":
        raise TypeError(f"{name} are whole numbers or a mask, and not of the dtype {found.dtype}")
    low, high = int(found.min()), int(found.max())
    if low < -count or high >= count:
        raise IndexError(f"{name}: there is no tile {high if high >= count else low}; there are {count}")
    found = found.astype(np.int64)
    return np.where(found < 0, found + count, found)


def colour_texts(name: str, colours: Any) -> Optional[Tuple[str, ...]]:
    """Colours as texts, at least one; None for None."""
    if colours is None:
        return None
    found = tuple(text_of(f"each of {name}", colour) for colour in listed(name, colours))
    if not found:
        raise ValueError(f"{name} has no colour")
    return found


def frozen(array: np.ndarray) -> np.ndarray:
    """The same array, read only."""
    array.flags.writeable = False
    return array
