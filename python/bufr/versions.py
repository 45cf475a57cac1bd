"""The versions of the standard's tables, and where the files of each are."""
import os

from .errors import Fault

HERE = os.path.dirname(os.path.realpath(__file__))
# The top of the repository; where `install` puts the package, the folder of the programs.
TOP = os.path.dirname(os.path.dirname(HERE))
# The folder of the tables: in a package that pip installed, in the repository, and where `install` puts it.
FOLDERS = [os.path.join(HERE, "files", "tables"), os.path.join(TOP, "tables"),
           os.path.join(TOP, "..", "..", "share", "bufr", "tables")]
VERSIONS = (13, 14, 15, 16, 17, 18, 46)


def version_of(octet):
    """The version of the tables that reads messages of a master table version, or None beyond the newest.
    Versions up to 13 are one table, and from 19 on the tables only grow."""
    if octet <= 13:
        return 13
    if octet <= 18:
        return octet
    return 46 if octet <= VERSIONS[-1] else None


def table_paths(version):
    """The files of Tables B and D of a version."""
    for folder in FOLDERS:
        paths = [os.path.join(folder, f"table_{table}_{version}.csv") for table in "bd"]
        if all(os.path.exists(path) for path in paths):
            return [os.path.normpath(path) for path in paths]
    raise Fault(f"there are no tables of version {version}")


def read_version(word):
    """The version of the tables that read a version."""
    chosen = version_of(int(word)) if word.isdigit() and word.isascii() else None
    if chosen is None:
        raise Fault(f"no table here reads version {word}")
    return chosen
