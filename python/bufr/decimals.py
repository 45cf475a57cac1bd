"""Columns of a table that has nothing but numbers in decimal digits and empty cells. numpy takes a digit of all cells of a column at once,
which is faster than a reader that goes from cell to cell. No number has more than 18 digits, or 15 if it has a point."""
from __future__ import annotations

from typing import Any, BinaryIO, Iterator, List, Optional

# The octets that are taken at once, so that what is made of them stays near the processor.
PIECE = 1 << 19
MINUS, POINT, ZERO = b"-.0"
EIGHT = 8
# Of eight octets, how many at the end are kept.
MASKS = b"".join(bytes(EIGHT - kept) + b"\xff" * kept for kept in range(EIGHT + 1))
# The octets before a table, so that it has the longest number before the end of the first cell.
BEFORE = 3 * EIGHT


def columns_of(numpy: Any, path: str, count: int) -> Optional[List[Any]]:
    """Return the columns of a table, or nothing if a column has numbers that differ in their digits after the point."""
    found = []
    with open(path, "rb") as file:
        # the names of the columns
        file.readline()
        for lines in pieces_of(file):
            # a line of one empty cell has quotes
            part = Part(numpy, lines if count > 1 else lines.replace(b'""', b""), count)
            found.append([part.column(at) for at in range(count)])
            if part.points or part.without:
                return None
    return [numpy.concatenate(parts) for parts in zip(*found)]


def pieces_of(file: BinaryIO) -> Iterator[bytes]:
    """Yield the lines of a file, many at once."""
    lines = file.read(PIECE) + file.readline()
    while lines:
        yield lines
        lines = file.read(PIECE) + file.readline()


class Part:
    """Some lines of a table. `points` is how many points are where no column has them, and `without` how many numbers have none where
    their column has it."""

    def __init__(self, numpy: Any, lines: bytes, count: int) -> None:
        self.numpy, self.octets = numpy, numpy.frombuffer(bytes(BEFORE) + lines, "uint8")
        digits = self.octets - numpy.uint8(ZERO)
        digits *= digits < 10
        # the eight octets from each place on
        self.eights = numpy.ndarray(len(digits) - EIGHT + 1, "uint64", digits, strides=(1,))
        self.masks = numpy.frombuffer(MASKS, "uint64")
        # the octets of numbers are greater than those that end a cell
        self.ends = (numpy.flatnonzero(self.octets[BEFORE:] < MINUS) + BEFORE).reshape(-1, count)
        self.points = int(numpy.count_nonzero(self.octets == POINT))
        self.without, self.is_signed = 0, b"-" in lines

    def column(self, at: int) -> Any:
        """Return the numbers of a column: whole ones, or floats if they have a point or a cell is empty."""
        numpy, ends = self.numpy, self.ends[:, at].copy()
        before = self.ends[:, at - 1] if at else numpy.concatenate(([BEFORE - 1], self.ends[:-1, -1]))
        lengths = ends - before - 1
        longest = lengths.argmax()
        cell = self.octets[before[longest] + 1:ends[longest]].tobytes()
        decimals = len(cell.partition(b".")[2])
        numbers = self.whole(ends, lengths, len(cell), decimals)
        if self.is_signed:
            is_below = self.octets.take(before + 1) == MINUS
            if is_below.any():
                numbers = numpy.where(is_below, -numbers, numbers)
        is_there = lengths > 0
        if decimals:
            points = int(numpy.count_nonzero((self.octets.take(ends - (decimals + 1)) == POINT) & is_there))
            self.points -= points
            self.without += int(numpy.count_nonzero(is_there)) - points
            # both are exact, and so this is the float that is nearest to the decimals
            numbers = numbers / 10.0 ** decimals
        return numbers if is_there.all() else numpy.where(is_there, numbers, numpy.nan)

    def whole(self, ends: Any, lengths: Any, most: int, decimals: int) -> Any:
        """Return the numbers that cells spell without their points and signs."""
        numbers = self.numpy.zeros(len(ends), "int64")
        for after in reversed(range(0, most, EIGHT)):
            eights = self.eights[ends - (after + EIGHT)] & self.masks.take(lengths - after, mode="clip")
            digits = eights.view("uint8").reshape(-1, EIGHT)
            for place in reversed(range(after, min(after + EIGHT, most))):
                if not decimals or place != decimals:
                    numbers *= 10
                    numbers += digits[:, after - place - 1]
        return numbers
