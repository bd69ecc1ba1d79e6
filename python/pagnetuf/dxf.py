"""Lines as DXF, R12, in millimetres, y upwards, on two layers: CUT is red, and FRAME blue."""
from __future__ import annotations

from typing import Iterable, Iterator, List, Tuple

Spot = Tuple[float, float]  # mm
Line = Tuple[str, List[Spot]]  # its layer and its places
LAYERS = (("CUT", 1), ("FRAME", 5))  # red and blue
CLOSED = 1


def drawing(wide: float, high: float, lines: Iterable[Line]) -> Iterator[str]:
    """A drawing of a width and a height, line by line. One that ends where it begins is closed."""
    yield dxf_head(wide, high)
    for name, places in lines:
        yield polyline(name, places)
    yield dxf_lines(0, "ENDSEC", 0, "EOF")


def dxf_lines(*pairs: object) -> str:
    """Pairs of a group code and a value, each in a line."""
    return "".join(f"{word}\n" for word in pairs)


def dxf_head(wide: float, high: float) -> str:
    """The header, in mm, and the tables of line types and layers."""
    out = dxf_lines(0, "SECTION", 2, "HEADER", 9, "$ACADVER", 1, "AC1009", 9, "$INSUNITS", 70, 4)
    out += dxf_lines(9, "$MEASUREMENT", 70, 1, 9, "$EXTMIN", 10, 0.0, 20, 0.0, 30, 0.0)
    out += dxf_lines(9, "$EXTMAX", 10, float(wide), 20, float(high), 30, 0.0, 0, "ENDSEC")
    out += dxf_lines(0, "SECTION", 2, "TABLES", 0, "TABLE", 2, "LTYPE", 70, 1, 0, "LTYPE", 2, "CONTINUOUS")
    out += dxf_lines(70, 64, 3, "Solid line", 72, 65, 73, 0, 40, 0.0, 0, "ENDTAB")
    out += dxf_lines(0, "TABLE", 2, "LAYER", 70, len(LAYERS))
    for name, colour in LAYERS:
        out += dxf_lines(0, "LAYER", 2, name, 70, 0, 62, colour, 6, "CONTINUOUS")
    return out + dxf_lines(0, "ENDTAB", 0, "ENDSEC", 0, "SECTION", 2, "ENTITIES")


def polyline(name: str, places: List[Spot]) -> str:
    is_closed = len(places) > 2 and places[0] == places[-1]
    out = dxf_lines(0, "POLYLINE", 8, name, 66, 1, 70, CLOSED if is_closed else 0, 10, 0, 20, 0, 30, 0)
    for x, y in places[:-1] if is_closed else places:
        out += dxf_lines(0, "VERTEX", 8, name, 10, f"{x:.4f}", 20, f"{y:.4f}", 30, 0)
    return out + dxf_lines(0, "SEQEND", 8, name)
