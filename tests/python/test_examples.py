"""Each example runs, and writes or prints what it says."""
import os
import re
import subprocess
import sys

import pytest
from conftest import TOP, environment_of

FOLDER = os.path.join(TOP, "python", "pagnetuf", "examples")
NAMES = sorted(it[:-3] for it in os.listdir(FOLDER) if it.endswith(".py") and it != "__init__.py")
NEEDS = {"plot": "matplotlib", "geojson_map": "shapely", "hdf5_pieces": "h5py", "graphs": "networkx"}
MAKES = {
    **{"diffraction": "pgm", "extended_xyz": "xyz", "geojson_map": "geojson", "graphs": "graphml"},
    **{"hdf5_pieces": "h5", "plot": "png"},
}
SAYS = {
    "tight_binding": r"2170 sites, least energy -4\.2",
    "zero_modes": r"rim 0\.0\d+, without 0\.\d+\n(within 1[468] lengths 0\.09[78]\d\n){3}limit 0\.0983",
    "geojson_map": "Polygon True",
    "hdf5_pieces": r"\d{6} vertices",
    "graphs": r"\d+ tiles, [34] colours",
    "diffraction": r"\(240, 240\) True",
}


def run(folder, *words):
    """What Python prints for these words in a folder."""
    ran = subprocess.run(
        [sys.executable, *map(str, words)],
        cwd=folder,
        env=environment_of(OPENBLAS_NUM_THREADS="1"),  # (several wait for each other on a busy machine)
        capture_output=True,
        text=True,
        check=False,
    )
    assert ran.returncode == 0, ran.stderr
    return ran


def test_help_and_import_write_nothing(library, tmp_path):
    for name in NAMES:
        ran = run(tmp_path, "-m", f"pagnetuf.examples.{name}", "--help")
        assert ran.stdout.startswith("usage: ") and ("path" in ran.stdout) == (name in MAKES)
    told = run(tmp_path, "-c", "".join(f"import pagnetuf.examples.{name}\n" for name in NAMES))
    assert not told.stdout and not list(tmp_path.iterdir())


@pytest.mark.parametrize("name", ["extended_xyz", "plot", "geojson_map", "graphs", "diffraction"])
def test_an_example_writes_where_it_is_told(library, tmp_path, name):
    pytest.importorskip(NEEDS.get(name, "scipy"))
    path = tmp_path / f"other.{MAKES[name]}"
    run(tmp_path, "-m", f"pagnetuf.examples.{name}", path)
    assert list(tmp_path.iterdir()) == [path] and path.stat().st_size > 1000


@pytest.mark.parametrize("name", NAMES)
def test_an_example(library, tmp_path, name):
    pytest.importorskip(NEEDS.get(name, "scipy"))
    path = os.path.join(FOLDER, f"{name}.py")
    ran = run(tmp_path, "-m", f"pagnetuf.examples.{name}")
    assert re.search(SAYS.get(name, ""), ran.stdout)
    with open(path, encoding="utf-8") as file:
        about = file.read().split('"""')[1]
    made = [it for it in os.listdir(tmp_path) if it in about]
    assert [it.rpartition(".")[2] for it in made] == [MAKES[it] for it in (name,) if it in MAKES]
    assert all(os.path.getsize(tmp_path / it) > 1000 for it in made)
