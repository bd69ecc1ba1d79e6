"""Aperiodic substitution tilings, exactly: places, neighbours, windows, stars, pictures. Begin with
`help(Tiling)`. A module, and numpy with it, is imported when one of its names is first asked for."""
import importlib
import importlib.util
import sys
import typing

if importlib.util.find_spec("numpy") is None:
    NEEDED = f"pagnetuf needs numpy, which {sys.executable} doesn't have (Debian's package is python3-numpy)"
    if sys.argv[0] == "-m":  # a command: its user needs no traceback
        sys.exit(NEEDED)
    raise ModuleNotFoundError(NEEDED, name="numpy")

if typing.TYPE_CHECKING:
    from .engine import ADDRESS, BUILT_IN, TILE, Box, Engine, Frame, Machine
    from .geometry import Ring
    from .library import LibraryEngine, usual_engine
    from .patch import Patch, Tile, WholePatch
    from .program import ProgramEngine, find_program
    from .refusals import (
        BadAddress,
        BadListing,
        BadScript,
        BadWords,
        CoordLimit,
        DepthLimit,
        NoEdge,
        NoEngine,
        NoMemory,
        NoVertex,
        Outside,
        ReadFault,
        Refusal,
        RuleRefused,
        RuleTooLong,
        StarTooBig,
        TooManyTiles,
        WriteFault,
    )
    from .rule import Rule
    from .sheet import Sheet
    from .symmetry import Place, symmetric_place
    from .tiling import Across, Pairing, Placed, StarTile, Tiling, WalkTile, Window, call, rule_file
    from .trails import strokes

__version__ = "0.2.0"
__all__ = [
    "__version__",
    "Across",
    "ADDRESS",
    "BadAddress",
    "BadListing",
    "BadScript",
    "BadWords",
    "Box",
    "BUILT_IN",
    "call",
    "CoordLimit",
    "DepthLimit",
    "Engine",
    "find_program",
    "Frame",
    "LibraryEngine",
    "Machine",
    "NoEdge",
    "NoEngine",
    "NoMemory",
    "NoVertex",
    "Outside",
    "Pairing",
    "Patch",
    "Place",
    "Placed",
    "ProgramEngine",
    "ReadFault",
    "Refusal",
    "Ring",
    "Rule",
    "rule_file",
    "RuleRefused",
    "RuleTooLong",
    "Sheet",
    "StarTile",
    "StarTooBig",
    "strokes",
    "symmetric_place",
    "TILE",
    "Tile",
    "Tiling",
    "TooManyTiles",
    "usual_engine",
    "WalkTile",
    "WholePatch",
    "Window",
    "WriteFault",
]
# where each name comes from
_NAMES = {
    "engine": "ADDRESS BUILT_IN TILE Box Engine Frame Machine",
    "geometry": "Ring",
    "library": "LibraryEngine usual_engine",
    "patch": "Patch Tile WholePatch",
    "program": "ProgramEngine find_program",
    "refusals": (
        "BadAddress BadListing BadScript BadWords CoordLimit DepthLimit NoEdge NoEngine "
        "NoMemory NoVertex Outside ReadFault Refusal RuleRefused RuleTooLong StarTooBig "
        "TooManyTiles WriteFault"
    ),
    "rule": "Rule",
    "sheet": "Sheet",
    "symmetry": "Place symmetric_place",
    "tiling": "Across Pairing Placed StarTile Tiling WalkTile Window call rule_file",
    "trails": "strokes",
}
_MODULES = {name: module for module, names in _NAMES.items() for name in names.split()}


def __getattr__(name: str) -> object:
    if name in _NAMES:
        return importlib.import_module(f".{name}", __name__)
    if name not in _MODULES:
        raise AttributeError(f"module {__name__!r} has no attribute {name!r}")
    globals()[name] = value = getattr(importlib.import_module(f".{_MODULES[name]}", __name__), name)
    return value


def __dir__() -> list[str]:
    return sorted({*globals(), *_MODULES, *_NAMES})
