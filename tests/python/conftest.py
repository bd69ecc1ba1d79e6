"""Where the tests find the library and the program: as the package does. A test is skipped where there is
none, or fails if PAGNETUF_NO_SKIP is set."""
import glob
import os
import re
import shutil
import subprocess
import sys

import pytest

HERE = os.path.dirname(os.path.abspath(__file__))
TOP = os.path.dirname(os.path.dirname(HERE))
sys.path.insert(0, os.path.join(TOP, "python"))
RULES = os.path.join(TOP, "rules")
BUILT_IN = {
    "chair": "chair",
    "p2": "penrose_p2",
    "p3": "penrose_p3",
    "ab": "ammann_beenker",
    "halfhex": "half_hex",
}


SVG = "{http://www.w3.org/2000/svg}"
DTD = "/usr/share/xml/w3c-sgml-lib/schema/dtd/REC-SVG11-*/svg11.dtd"


def invalid(text):
    """Why a picture isn't SVG 1.1, or nothing. What is of other namespaces doesn't count, as the
    recommendation says. The test is skipped without xmllint or the document type."""
    types = glob.glob(DTD)
    if not types or not shutil.which("xmllint"):
        pytest.skip("there is no xmllint, or no document type of SVG 1.1")
    own = re.sub(r' (?:xmlns:)?inkscape(?::\w+)?="[^"]*"', "", text)
    words = ["xmllint", "--nonet", "--noout", "--dtdvalid", types[-1], "-"]
    return subprocess.run(words, input=own, capture_output=True, text=True, check=False).stderr


def rule_files():
    return sorted(name for name in os.listdir(RULES) if name.endswith(".toml"))


@pytest.hookimpl(hookwrapper=True)
def pytest_runtest_makereport(item, call):
    """Where nothing may be skipped, what is skipped has failed."""
    report = (yield).get_result()
    if report.skipped and os.environ.get("PAGNETUF_NO_SKIP") and not hasattr(report, "wasxfail"):
        report.outcome, report.longrepr = "failed", f"{item.nodeid} was skipped: {report.longrepr}"


@pytest.fixture(scope="session")
def program():
    """The path of the program."""
    from pagnetuf import NoEngine, find_program

    try:
        return find_program()
    except NoEngine as missing:
        pytest.skip(str(missing))


@pytest.fixture(scope="session")
def library():
    """The engine over the library."""
    from pagnetuf import LibraryEngine, NoEngine

    try:
        return LibraryEngine()
    except NoEngine as missing:
        pytest.skip(str(missing))


@pytest.fixture
def tiling(library):
    """Makes the tiling of a name or of a file of rules/."""
    from pagnetuf import Tiling

    return lambda name: Tiling(name) if name in BUILT_IN else Tiling.from_file(os.path.join(RULES, name))


@pytest.fixture
def pagnetuf(library):
    """Calls a command, and gives its status and both streams."""

    def call(*words):
        ran = subprocess.run(
            [sys.executable, "-m", "pagnetuf", *map(str, words)],
            capture_output=True,
            text=True,
            check=False,
            env=environment_of(),
        )
        assert "Traceback" not in ran.stderr
        return ran.returncode, ran.stdout, ran.stderr

    return call


def environment_of(**more):
    """The environment in which the commands find the package, and do without any program."""
    path = os.pathsep.join([os.path.join(TOP, "python"), *filter(None, [os.environ.get("PYTHONPATH")])])
    return {**os.environ, "PYTHONPATH": path, "TILING_PROGRAM": "/none", **more}
