"""docs/PYTHON.md and docs/EMBEDDING.md: their examples give what is written there, and commands run."""
import os
import subprocess
import sys

import pytest
from conftest import TOP, environment_of
from document import commands_of, text_of, tried

NAME, EMBEDDING, README = (
    os.path.join(TOP, *it) for it in (("docs", "PYTHON.md"), ("docs", "EMBEDDING.md"), ("README.md",))
)
NEEDED = ("scipy.sparse.linalg", "networkx")


def test_the_examples(library):
    for module in NEEDED:
        pytest.importorskip(module)
    assert tried(NAME) > 40


def test_it_is_short():
    assert len(text_of(NAME).split()) <= 2000


def test_the_examples_of_embedding(library, monkeypatch):
    monkeypatch.chdir(TOP)
    assert tried(EMBEDDING) == text_of(EMBEDDING).count("\n>>> ")


def test_the_commands(library, tmp_path):
    lines = commands_of(NAME) + commands_of(README)
    assert len(lines) > 10
    for line in lines:
        words = line.replace("python3 -m pagnetuf", "pagnetuf").replace(
            "pagnetuf", f"{sys.executable} -m pagnetuf", 1
        )
        ran = subprocess.run(
            ["sh", "-c", words],
            cwd=tmp_path,
            env=environment_of(),
            capture_output=True,
            text=True,
            check=False,
        )
        assert ran.returncode == 0, (line, ran.stderr)
    made = {"board.json", "board_tiles.csv", "poster.svg", "star.svg", "cut.dxf", "sphinx.html"}
    assert made <= set(os.listdir(tmp_path))
