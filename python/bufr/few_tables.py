"""Tables B and D with the rows alone that some templates ask for. To load all rows takes a program longer than to read a small file."""
from __future__ import annotations

import csv
import io
import os
from functools import lru_cache
from typing import FrozenSet, Iterable, List, Sequence, Set, Tuple

from .tables import Tables, TablesByVersion

B = ("FXY", "BUFR_Unit", "BUFR_Scale", "BUFR_ReferenceValue", "BUFR_DataWidth_Bits")
D = ("FXY1", "FXY2")


def rows_of(tables: Tables, descriptors: Iterable[str]) -> Tuple[List[Sequence[object]], List[Sequence[object]]]:
    """Return the rows of Tables B and D that descriptors ask for."""
    left, met = list(descriptors), set()  # type: Tuple[List[str], Set[str]]
    while left:
        descriptor = left.pop()
        if descriptor not in met:
            met.add(descriptor)
            left += tables.members.get(descriptor, ())
    found = sorted(met)
    elements = [(each, tables.elements[each]) for each in found if each in tables.elements]
    return ([(each, row.unit, row.scale, row.reference, row.width) for each, row in elements],
            [(each, member) for each in found for member in tables.members.get(each, ())])


@lru_cache(maxsize=100)
def texts_of(version: int, descriptors: FrozenSet[str]) -> List[bytes]:
    """Return the texts of the standard's Tables B and D of a version with these rows alone."""
    found = []
    for header, rows in zip((B, D), rows_of(TablesByVersion().of(str(version)), descriptors)):
        text = io.StringIO()
        csv.writer(text, lineterminator="\n").writerows([header, *rows])
        found.append(text.getvalue().encode())
    return found


class FewTables:
    """Files in memory, which programs that are started meanwhile can open."""

    def __init__(self) -> None:
        self.files: List[int] = []

    def options(self, version: int, descriptors: Iterable[str]) -> List[str]:
        """Return the options that name the tables of a version."""
        b_path, d_path = map(self.path_of, texts_of(version, frozenset(descriptors)))
        return ["-v", str(version), "-b", b_path, "-d", d_path]

    def path_of(self, octets: bytes) -> str:
        """Keep a table in a file, and return its path."""
        # programs inherit it
        self.files.append(os.memfd_create("table", 0))
        with open(self.files[-1], "wb", closefd=False) as file:
            file.write(octets)
        return f"/proc/self/fd/{self.files[-1]}"

    def close(self) -> None:
        while self.files:
            os.close(self.files.pop())
