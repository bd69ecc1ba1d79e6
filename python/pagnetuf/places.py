"""Where the package finds the C library, rule files, the page, and the program: beside its own files, as a
wheel has them, in a checkout, or where packaging/install.sh puts them."""
from __future__ import annotations

import os
import re
import sys
from typing import List, Optional

HERE = os.path.dirname(os.path.abspath(__file__))
CHECKOUT = os.path.normpath(os.path.join(HERE, os.pardir, os.pardir))
# PREFIX/lib/python3/dist-packages/pagnetuf is this folder once it is installed
PREFIX = os.path.normpath(os.path.join(CHECKOUT, os.pardir, os.pardir))
LIBRARIES = {
    "darwin": ("libtiling.0.dylib", "libtiling.dylib"),
    "win32": ("tiling.dll", "libtiling.dll"),
}.get(sys.platform, ("libtiling.so.0", "libtiling.so"))


def program_path() -> Optional[str]:
    """The path of the program `tiling`: TILING_PROGRAM, the built one of a checkout, the installed one, or
    that on the PATH."""
    named = os.environ.get("TILING_PROGRAM")
    if named:
        return named
    built = os.path.join(CHECKOUT, ".tiling", "program")
    installed = os.path.join(PREFIX, "lib", "tiling", "program")
    found = [path for path in (built, installed) if os.access(path, os.X_OK)]
    if found:
        return found[0]
    import shutil  # (which most users of the package never need)

    return shutil.which("tiling")


def library_path() -> Optional[str]:
    """The path of the C library: TILING_LIBRARY, next to the package's files, the built one of a checkout, or
    the installed one."""
    named = os.environ.get("TILING_LIBRARY")
    if named:
        return named
    folders = (HERE, os.path.join(CHECKOUT, ".tiling"), os.path.join(PREFIX, "lib"))
    return first_of([os.path.join(folder, name) for folder in folders for name in LIBRARIES])


def first_of(paths: List[str]) -> Optional[str]:
    """The first of some paths where there is a file or a folder."""
    return next((path for path in paths if os.path.exists(path)), None)


def rules_path() -> str:
    """The folder of rule files: next to the package's files, in a checkout, or the installed one."""
    beside = [os.path.join(HERE, "rules"), *([os.path.join(CHECKOUT, "rules")] if is_checkout() else [])]
    installed = os.path.join(PREFIX, "share", "tiling", "rules")
    return first_of([*beside, installed]) or installed


def rule_path(name: str) -> Optional[str]:
    """The path of the rule file of a name, such as sphinx, or None where there is none."""
    path = os.path.join(rules_path(), f"{name}.toml")
    return path if re.fullmatch(r"[a-z0-9_]{1,60}", name) and os.path.exists(path) else None


def rule_names() -> List[str]:
    """The names of the package's rule files, sorted."""
    folder = rules_path()
    found = os.listdir(folder) if os.path.isdir(folder) else []
    return sorted(name[:-5] for name in found if name.endswith(".toml"))


def page_path() -> Optional[str]:
    """The page to pan and zoom: next to the package's files, in a checkout, or the installed one."""
    installed = os.path.join(PREFIX, "share", "doc", "tiling", "docs", "explore.html")
    return first_of(
        [os.path.join(HERE, "explore.html"), os.path.join(CHECKOUT, "docs", "explore.html"), installed]
    )


def shown_path(path: str) -> str:
    """A path as a user types it: that of a file of a checkout from there."""
    inside = is_checkout() and os.path.abspath(path).startswith(CHECKOUT + os.sep)
    return os.path.relpath(path, CHECKOUT) if inside else path


def is_checkout() -> bool:
    """True if the package lies in a checkout of the repository."""
    return os.path.exists(os.path.join(CHECKOUT, "crates.txt"))


def command() -> str:
    """What a user types before the arguments of the engine: `tiling` where it is installed, as its launcher
    reports, ./tiling in a checkout, and else `pagnetuf`, which takes them too."""
    return os.environ.get("TILING_COMMAND") or ("./tiling" if is_checkout() else "pagnetuf")
