"""How far a long work is, on standard error if that is a terminal."""
from __future__ import annotations

import os
import sys
import time

TYPE_CHECKING = False
if TYPE_CHECKING:
    from typing import Iterator

# The seconds before the first line, and between two.
FIRST, EACH = 1.0, 0.2


class Progress:
    """A line that says how many octets of how many were read. It is written once the work is a second old, and erased at its
    end."""

    def __init__(self, name: str, size: int | None, quiet: bool = False, unit: str = "octets") -> None:
        self.name, self.size, self.unit = name, size, unit
        self.next: float | None = None
        self.is_shown = False
        if not quiet and os.isatty(2):
            self.next = time.monotonic() + FIRST

    def at(self, octets: int) -> None:
        """Says that so many octets were read."""
        if self.next is not None and time.monotonic() >= self.next:
            self.is_shown = True
            self.next = time.monotonic() + EACH
            of = f" of {self.size:,}" if self.size is not None else ""
            sys.stderr.write(f"\r{self.name}: {octets:,}{of} {self.unit}\x1b[K")
            sys.stderr.flush()

    def end(self) -> None:
        if self.is_shown:
            sys.stderr.write("\r\x1b[K")
            sys.stderr.flush()
        self.next, self.is_shown = None, False


class InputsProgress(Progress):
    """The same of several inputs, whose parts come in order."""

    def __init__(self, name: str, paths: list[str], quiet: bool = False) -> None:
        # the size of each input, or of one that is no regular file the place that was reached
        self.sizes = [os.stat(path).st_size if os.path.isfile(path) else None for path in paths]
        super().__init__(name, None if None in self.sizes else sum(size or 0 for size in self.sizes), quiet)
        self.before = self.number = self.place = 0

    def reached(self, number: int, place: int) -> None:
        """Says that the input with this number, from 0, was read up to a place."""
        if self.next is None:
            return
        while self.number < number:
            size = self.sizes[self.number]
            self.before += self.place if size is None else size
            self.number, self.place = self.number + 1, 0
        self.place = place
        self.at(self.before + place)


def positions(pid: int, known: dict[str, int]) -> Iterator[tuple[int, int]]:
    """Yield the numbers of files that a program and those that it runs have open, and how far each is read."""
    try:
        for name in os.listdir(f"/proc/{pid}/fd"):
            number = known.get(os.readlink(f"/proc/{pid}/fd/{name}"))
            if number is not None:
                with open(f"/proc/{pid}/fdinfo/{name}", encoding="ascii") as file:
                    yield number, int(file.readline().split()[1])
        for task in os.listdir(f"/proc/{pid}/task"):
            with open(f"/proc/{pid}/task/{task}/children", encoding="ascii") as file:
                children = file.read().split()
            for child in children:
                yield from positions(int(child), known)
    except (OSError, ValueError, IndexError):
        return
