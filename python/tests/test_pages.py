"""The manual pages, the completion and the names of the commands."""
import os
import re
import sys

import pytest

from bufr.__main__ import COMMANDS
from conftest import TOP, command, run, text


def test_the_pages_are_those_that_are_made(folder):
    """python/make-man makes them of the help of the commands and of the documents. Python 3.9 to 3.12 print the help alike."""
    if sys.version_info >= (3, 13):
        pytest.skip("argparse prints the help otherwise")
    assert run(sys.executable, f"{TOP}/python/make-man", folder) == (0, "", "")
    assert sorted(os.listdir(folder)) == sorted(os.listdir(f"{TOP}/man"))
    for name in os.listdir(folder):
        assert text(f"{folder}/{name}") == text(f"{TOP}/man/{name}"), f"{name} is another: call python/make-man"


def test_each_refusal_has_its_row():
    page = text(f"{TOP}/man/bufr-refusals.7").replace("\\-", "-")
    for word in ("M2 Edition N", "X1 UnknownElement FXY", "X3 UnsupportedOperator FXY", "V2 DataEnds SUBSET FIELD", "L2 BadValue N",
                 "E2 NotCompressible FIELD", "take a newer version"):
        assert word in page


@pytest.mark.parametrize("name", COMMANDS)
def test_names_and_versions(name):
    status, out, error = command(name, "--version")
    assert (status, out, error) == (0, f"bufr-{name} 0.1.0\n", "")
    status, out, error = command(name, "--help")
    assert (status, error) == (0, "") and out.startswith(f"usage: bufr-{name} [-h] [--version]")
    status, out, error = command(name, "--nothing")
    assert status == 2 and f"bufr-{name}: error: " in error
    page = text(f"{TOP}/man/bufr-{name}.1").replace("\\-", "-")
    completed = re.search(rf"bufr-{name}\) choices=\"([^\"]*)\"", text(f"{TOP}/scripts/completion.bash"))
    options = set(re.findall(r"(?<![\w-])--?\w[\w-]*", re.sub(r"\s+", " ", out.split("\n\n")[0]))) - {"-h"}
    for option in options:
        assert f"\\fB{option}\\fR" in page
        assert option == "--version" or option in completed[1].split(), option
    assert f'"bufr.{name.replace("-", "_")}:command"' in text(f"{TOP}/python/pyproject.toml")
    assert text(f"{TOP}/scripts/bufr-{name}") == text(f"{TOP}/scripts/bufr-annotate")
    assert os.access(f"{TOP}/scripts/bufr-{name}", os.X_OK)
