"""The wheel, installed into a fresh environment, with the checkout out of reach: the examples of
docs/PYTHON.md from top to bottom, and each command."""
import json
import os
import shutil
import subprocess
import sys

import pytest
from conftest import TOP
from document import commands_of

PYTHON_MD = os.path.join(TOP, "docs", "PYTHON.md")


def ran(words, folder, **more):
    """Runs a program with nothing of this environment but its PATH."""
    environment = {"PATH": "/usr/bin:/bin", "HOME": str(folder), **more}
    told = subprocess.run(words, cwd=folder, env=environment, capture_output=True, text=True, check=False)
    assert told.returncode == 0, (words, told.stdout, told.stderr)
    return told.stdout


@pytest.fixture(scope="session")
def installed(library, tmp_path_factory):
    """The folder of an environment in which the wheel is installed."""
    pytest.importorskip("wheel")
    if not shutil.which("objdump"):
        pytest.skip("there is no objdump")
    folder = tmp_path_factory.mktemp("wheel")
    script = os.path.join(TOP, "packaging", "make_wheel.sh")
    made = ran(
        ["sh", script, "made"], folder, LIBRARY=os.path.abspath(library.library.path), PYTHON=sys.executable
    )
    (wheel,) = made.split()
    assert os.path.basename(wheel).endswith("-py3-none-manylinux_2_17_x86_64.whl")
    ran([sys.executable, "-m", "venv", "--system-site-packages", "it"], folder)
    ran(["it/bin/python", "-m", "pip", "install", "--quiet", "--no-index", "--no-deps", wheel], folder)
    return folder


def test_the_package_is_whole(installed):
    told = ran(
        [
            "it/bin/python",
            "-c",
            "import pagnetuf.places as it; "
            "print(it.HERE, it.library_path(), it.rules_path(), it.page_path())",
        ],
        installed,
    ).split()
    inside = os.path.join("it", "lib")
    assert len(told) == 4 and all(inside in path and TOP not in path for path in told)
    assert os.path.exists(os.path.join(told[0], "py.typed"))
    about = ran(["it/bin/python", "-m", "pip", "show", "-v", "pagnetuf"], installed)
    assert "pagnetuf = pagnetuf.commands" in about and "Author" in about and "Typing :: Typed" in about


def test_the_document_runs_from_top_to_bottom(installed):
    for module in ("scipy.sparse.linalg", "networkx"):
        pytest.importorskip(module)
    for name in (PYTHON_MD, os.path.join(TOP, "tests", "python", "document.py")):
        shutil.copy(name, installed)
    assert int(ran(["it/bin/python", "document.py", "PYTHON.md"], installed)) > 40


def test_each_command(installed):
    lines = commands_of(PYTHON_MD)
    assert len(lines) > 8
    for line in [*lines, "pagnetuf explore sphinx --print", "pagnetuf place rule=p3 addr=2:1/0,0/0"]:
        ran(["sh", "-c", line], installed, PATH=f"{installed}/it/bin:/usr/bin:/bin")
    assert len(json.loads((installed / "board.json").read_text())["tiles"]) == 60
    assert ran(["it/bin/pagnetuf", "place", "rule=p3", "addr=2:1/0,0/0"], installed) == "2 9 1,1,0,0\n"
    assert "colours" in ran(["it/bin/python", "-m", "pagnetuf.examples.graphs"], installed)
    assert "explore.html#" in ran(["it/bin/pagnetuf", "explore", "--print"], installed)
