"""The parts of SVG that all pictures are made of, those of the package and those of the scripts in tools/,
which need no numpy. Pictures of many tiles are plain texts, so that a file of tens of megabytes can be
written as it is made."""
import cmath
from typing import Iterable, List, Sequence, Union


def escaped(text: object) -> str:
    """A text inside an element or an attribute."""
    return str(text).replace("&", "&amp;").replace("<", "&lt;").replace(">", "&gt;").replace('"', "&quot;")


def number(value: float, digits: int = 4) -> str:
    """A number in the fewest characters."""
    text = f"{value:.{digits}f}".rstrip("0").rstrip(".")
    return "0" if text == "-0" else text


def attributes(**values: object) -> str:
    """Attributes, each with a blank before it; underscores stand for hyphens, and None leaves one out."""
    named = (
        (name.rstrip("_").replace("_", "-"), value) for name, value in values.items() if value is not None
    )
    return "".join(f' {name}="{escaped(value)}"' for name, value in named)


def element(tag: str, inside: str = "", **values: object) -> str:
    """An element with its attributes, and with what is inside."""
    return f"<{tag}{attributes(**values)}" + (f">{inside}</{tag}>" if inside else "/>")


def corner_text(corners: Iterable[Sequence[float]]) -> str:
    """The corners of a polygon."""
    return " ".join(f"{number(x)},{number(y)}" for x, y in corners)


def path(places: Iterable[complex], end: str = "Z", inside: str = "", **values: object) -> str:
    """A line through places x + i y, to a tenth: closed, or with another end."""
    return element("path", inside, d=f"M{joined_spots(places)}{end}", **values)


def joined_spots(places: Iterable[complex]) -> str:
    """The corners of a path after its first M."""
    return "L".join(f"{z.real:.1f} {z.imag:.1f}" for z in places)


def label(place: complex, text: object, **values: object) -> str:
    """A text at a place x + i y."""
    return element("text", escaped(text), x=f"{place.real:.1f}", y=f"{place.imag:.1f}", **values)


def circle(place: complex, radius: object, **values: object) -> str:
    """A circle around a place x + i y."""
    return element("circle", "", cx=f"{place.real:.1f}", cy=f"{place.imag:.1f}", r=radius, **values)


def arrow_head(tip: complex, along: complex, size: float, angle: float) -> List[complex]:
    """The three corners of the head of an arrow with a direction of length 1."""
    return [tip, *(tip - along * cmath.rect(size, side) for side in (angle, -angle))]


def root(
    box: Union[str, Sequence[float]], width: object, height: object, version: str = "", **more: object
) -> str:
    """The begin of a picture of a box (x, y, width, height)."""
    of = f' version="{version}"' if version else ""
    view = box if isinstance(box, str) else " ".join(number(value) for value in box)
    sizes = attributes(width=width, height=height, **more)
    return f'<svg xmlns="http://www.w3.org/2000/svg"{of} viewBox="{view}"{sizes}>'
