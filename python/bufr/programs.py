"""The programs `bufr`, `bufr-select` and `bufr-ls` as commands of a package that pip installed."""
import os
import sys
from typing import NoReturn

from .processes import program
from .versions import HERE, TOP


def launcher(name: str = "bufr") -> str:
    """Return the path of the launcher of a program, which takes the tables of each message.

    It is a file of this package, of this checkout or of this installation.
    """
    for path in (f"{HERE}/files/{name}", f"{os.path.dirname(os.path.dirname(TOP))}/bin/{name}"):
        if os.path.isfile(path):
            return path
    return f"{TOP}/{name}"


def run_bufr() -> NoReturn:
    """Run the launcher in place of this program."""
    os.execv("/bin/sh", ["bufr", launcher("bufr"), *sys.argv[1:]])


def run_bufr_select() -> NoReturn:
    """Run the launcher of `bufr-select` in place of this program."""
    os.execv("/bin/sh", ["bufr-select", launcher("bufr-select"), *sys.argv[1:]])


def run_bufr_ls() -> NoReturn:
    """Run `bufr-ls` in place of this program."""
    path = program("bufr-ls")
    os.execv(path, ["bufr-ls", *sys.argv[1:]])
