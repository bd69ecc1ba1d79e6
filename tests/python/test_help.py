"""The help of each public call names its parameters, what it returns, and its refusals by their names. The package's
names are there when they are asked for, and load nothing before."""
import builtins
import inspect
import pathlib
import re
import subprocess
import sys

import pagnetuf
import pytest

NAMES = ("Tiling", "Window", "Patch", "WholePatch", "Ring", "Rule")
CLASSES = [getattr(pagnetuf, name) for name in NAMES]
FUNCTIONS = (pagnetuf.call, pagnetuf.rule_file, pagnetuf.strokes, pagnetuf.symmetric_place)


def calls():
    """The public calls, by their names."""
    for kind in CLASSES:
        for name, value in vars(kind).items():
            call = getattr(value, "__func__", value)
            if inspect.isfunction(call) and not name.startswith("_"):
                yield f"{kind.__name__}.{name}", call
    yield from ((call.__name__, call) for call in FUNCTIONS)


CALLS = dict(calls())


@pytest.mark.parametrize("name", CALLS)
def test_the_help_of_a_call(name):
    call = CALLS[name]
    named = [it for it in inspect.signature(call).parameters if it not in ("self", "cls")]
    sections = re.split(r"^(\w+)\n-+$", inspect.getdoc(call) or "", flags=re.M)
    told = dict(zip(sections[1::2], sections[2::2]))
    assert sections[0].strip().endswith((".", "::", "'"))
    rows = re.findall(r"^(\S[^:\n]*?)(?: :.*)?$", told.get("Parameters", ""), re.M)
    assert sorted(it.strip("* ") for row in rows for it in row.split(",")) == sorted(named)
    assert not named or "Returns" in told or call.__annotations__["return"] == "None"
    for error in re.findall(r"^([A-Z]\w+)", told.get("Raises", ""), re.M):
        assert hasattr(pagnetuf, error) or hasattr(builtins, error) or error == "NoPlace"


def test_all_names_are_there():
    assert sorted(pagnetuf.__all__) == sorted(it for it in dir(pagnetuf) if it in pagnetuf.__all__)
    assert all(getattr(pagnetuf, name) is getattr(pagnetuf, name) for name in pagnetuf.__all__)
    with pytest.raises(AttributeError, match="no attribute 'Tilings'"):
        pagnetuf.Tilings


def test_import_loads_no_other_library():
    says = "import sys, pagnetuf; print('numpy' in sys.modules); pagnetuf.Tiling; print('numpy' in sys.modules)"
    folder = pathlib.Path(pagnetuf.__file__).parents[1]
    told = subprocess.run([sys.executable, "-c", says], cwd=folder, capture_output=True, text=True, check=True)
    assert told.stdout == "False\nTrue\n"
