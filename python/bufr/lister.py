"""What `bufr-ls` prints, many rows at once. Nothing here takes long to load."""
import os
from time import sleep

from .processes import Process
from .starting import widen

try:
    # what Counter counts with: to load that takes long
    from _collections import _count_elements as count_rows  # type: ignore
except ImportError:
    def count_rows(found, rows):
        """Count each row."""
        for row in rows:
            found[row] = found.get(row, 0) + 1

TYPE_CHECKING = False
if TYPE_CHECKING:
    from typing import Dict, List, Set, Tuple

# How many octets of rows are read at once. The pipe has room for many times more; while fewer are there, this program sleeps for some
# seconds: it takes less to wake once for many rows.
LUMP, NAP = 1 << 16, 0.0004


class Lumps:
    """The rows that a program prints after its first line, in lumps of about so many octets, or of one longer row."""

    def __init__(self, process: Process) -> None:
        self.pipe, self.rest = process.pipes[1], b""
        self.nap = NAP if widen(self.pipe) else 0
        text = os.read(self.pipe, LUMP)
        while text and b"\n" not in text:
            more = os.read(self.pipe, LUMP)
            text = text + more if more else b""
        self.rest = text[text.find(b"\n") + 1:]

    def octets(self, size: int) -> bytes:
        """Return the next octets, fewer only at the end."""
        text, self.rest = self.rest, b""
        while len(text) < size:
            more = os.read(self.pipe, size - len(text))
            if not more:
                break
            text = text + more if text else more
            if self.nap and len(text) < size:
                sleep(self.nap)
        return text

    def first(self) -> bytes:
        """Return the rows that come first, however few they are."""
        while b"\n" not in self.rest:
            more = os.read(self.pipe, LUMP)
            if not more:
                return b""
            self.rest += more
        return self.next(len(self.rest))

    def next(self, size: int = LUMP) -> bytes:
        """Return the next lump, or nothing at the end."""
        text = self.octets(size)
        stop = text.rfind(b"\n") + 1
        if not stop and text:
            self.rest = text
            return self.next(2 * size)
        self.rest = text[stop:]
        return text[:stop]


def alike(text: bytes) -> "Tuple[bytes, int]":
    """Return the first row of a lump, and how often it comes if the rows are all alike, or else 0. They are compared at once."""
    row = text[:text.index(b"\n") + 1]
    times = len(text) // len(row)
    return row, times if text == row * times else 0


class Tally:
    """How often each row comes."""

    def __init__(self) -> None:
        self.rows: "Dict[bytes, int]" = {}

    def take(self, text: bytes) -> int:
        """Take a lump, and return how long the next one is best."""
        row, times = alike(text)
        if times:
            self.rows[row] = self.rows.get(row, 0) + times
        else:
            count_rows(self.rows, text.splitlines(True))
        # so a lump of such rows ends with one
        return LUMP - LUMP % len(row) or LUMP


class Moments:
    """The times of rows that have a time and then subsets, and how many rows there are."""

    def __init__(self) -> None:
        self.rows: "Set[bytes]" = set()
        self.number = 0

    def take(self, text: bytes) -> None:
        """Take a lump."""
        row, times = alike(text)
        if times:
            self.rows.add(row[:-1])
        else:
            rows = text[:-1].split(b"\n")
            times = len(rows)
            self.rows.update(rows)
        self.number += times

    def known(self) -> "Set[bytes]":
        """Return the times of messages that have subsets."""
        return {row.rpartition(b",")[0] for row in self.rows if row[-1:] != b","}


def head_of(row: bytes) -> bytes:
    """Return a row without its time."""
    return row.rsplit(b",", 6)[0]


class Counts:
    """How many messages have each head, and the times of those that have subsets. Rows have a head and a time, or a head alone."""

    def __init__(self, rows: "Dict[bytes, int]", is_timed: bool) -> None:
        self.heads: "Dict[bytes, int]" = {}
        self.moments: "Set[bytes]" = set()
        for row, times in rows.items():
            head = head_of(row) if is_timed else row[:-1]
            self.heads[head] = self.heads.get(head, 0) + times
            if is_timed and head.split(b",", 2)[1]:
                self.moments.add(row[len(head) + 1:-1])

    def span(self) -> "List[Tuple[int, ...]]":
        """Return the first and the last time, if there is one. Only those of the first and the last hour are compared, since it takes
        long to make numbers of all."""
        hours: "Dict[bytes, List[bytes]]" = {}
        for moment in self.moments:
            hours.setdefault(moment.rsplit(b",", 2)[0], []).append(moment)
        if not hours:
            return []
        first, last = min(hours, key=numbers_of), max(hours, key=numbers_of)
        return [min(map(numbers_of, hours[first])), max(map(numbers_of, hours[last]))]


def numbers_of(moment: bytes) -> "Tuple[int, ...]":
    """Return the numbers of a time."""
    return tuple(map(int, moment.split(b",")))


def finish(process: Process) -> None:
    """Wait for the end of a program, and raise what went wrong."""
    said, status = process.rest_of(2), process.wait()
    if status not in (0, 1):
        from .shown import error_of
        raise error_of(process.words, status, said)
