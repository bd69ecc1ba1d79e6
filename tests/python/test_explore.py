"""The command that opens the page; checks/page.sh tests the page itself."""
import base64
import os
import re
import subprocess
import sys
from urllib.parse import parse_qs, urlparse

import pytest
from conftest import BUILT_IN, RULES, TOP

PAGE = os.path.join(TOP, "docs", "explore.html")


def ran(*words, **more):
    environment = {**os.environ, "PYTHONPATH": os.path.join(TOP, "python"), **more}
    call = [sys.executable, "-m", "pagnetuf", "explore", *words]
    return subprocess.run(call, env=environment, capture_output=True, text=True, check=False)


def address(*words):
    """The file of the address that is printed, and what it says of the view."""
    told = ran(*words, "--print")
    assert told.returncode == 0 and told.stdout.count("\n") == 1, told.stderr
    url = urlparse(told.stdout.strip())
    return url.path, {name: values[0] for name, values in parse_qs(url.fragment).items()}


def test_the_page_of_the_checkout():
    assert address()[0] == PAGE
    assert address()[1] == {"seed": "0", "base": "0:", "at": "0,0,0,0", "tiling": "p3"}


@pytest.mark.parametrize("name", [*BUILT_IN, "sphinx", os.path.join(RULES, "sphinx.toml")])
def test_a_tiling_and_a_place(name):
    view = address(name, "--seed", "18446744073709551615", "--at", "-5,7,0,1000000", "--addr", "0:1/0")[1]
    wanted = "sphinx" if "sphinx" in name else name
    assert view == {"seed": "18446744073709551615", "base": "0:1/0", "at": "-5,7,0,1000000", "tiling": wanted}


def test_a_rule_file_of_ones_own(tmp_path):
    path = tmp_path / "my rule.toml"
    path.write_bytes(b"order = 5 # \xce\xb6\n")
    view = address(str(path))[1]
    data = base64.urlsafe_b64decode(view["file"] + "=" * (-len(view["file"]) % 4))
    assert view["tiling"] == "my_rule.toml" and data == path.read_bytes()
    path.write_bytes(b"#" * 70000)
    assert ran(str(path), "--print").returncode == 1


def test_no_such_rule():
    told = ran("nonsense", "--print")
    assert told.returncode == 1 and re.match(
        "python3 -m pagnetuf explore: there is no tiling nonsense", told.stderr
    )


def test_the_browser_is_given_the_address(tmp_path):
    """BROWSER names a program that writes down what it is given."""
    script = tmp_path / "browser"
    script.write_text(f'#!/bin/sh\nprintf "%s\\n" "$1" > "{tmp_path}/given"\n')
    script.chmod(0o755)
    told = ran("ab", BROWSER=str(script))
    assert told.returncode == 0 and (tmp_path / "given").read_text() == told.stdout and not told.stderr


def test_no_browser(tmp_path):
    """Where none can be started, the address is printed all the same, and it is said."""
    told = ran("ab", BROWSER="/bin/false", PATH=str(tmp_path))
    assert told.returncode == 0 and told.stdout.endswith("&tiling=ab\n")
    assert told.stderr.startswith("python3 -m pagnetuf explore: no browser was opened")
    assert not ran("ab", "--print", PATH=str(tmp_path)).stderr
