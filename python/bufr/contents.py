"""What is in BUFR files: their messages by what sections 0, 1 and 3 say of them, what is refused, and the reports of their subsets.
bufr-summary, bufr-map and bufr-report count it."""
from __future__ import annotations

import os
import re
from collections import Counter
from typing import TYPE_CHECKING, Callable, Dict, List, NamedTuple, Optional, Tuple

from .given import Files as Files
from .given import Given
from .heads import GROUPS as GROUPS
from .heads import Faults, Heads, refused_by_heads
from .lister import Counts, Lumps, finish, head_of
from .progress import Progress
from .shown import Running, words_to_show
from .skipped import losses_of
from .starting import start

if TYPE_CHECKING:
    from .subsets import Element, Report

# An abbreviated heading (WMO-No. 386, Part II): designators and centre, then the day and the time of day.
HEADING = re.compile(rb"(?:^|[\x01\r\n ])([A-Z]{4}[0-9]{0,2} [A-Z][A-Z0-9]{3}) [0-9]{6}(?: [A-Z]{3})? *(?:[\r\n]|\Z)")
LONGEST_HEADING = 4096


class Refusal(NamedTuple):
    """A message that is refused: its file, its place, and why."""

    file: str
    place: int
    reason: str


def input_of(row: bytes) -> int:
    """Return which file a row is of, from 0."""
    return int(row.split(b",", 3)[2]) - 1


def length_of(row: bytes) -> int:
    """Return the length of the message of a row."""
    return int(row[:row.index(b",")])


class Contents(Heads):
    """What is in files, and where. With `take` their data are read, and it gets each report. Without it a message is refused if any
    data would be."""

    def __init__(self, files: List[Given], tables: Optional[List[str]] = None, name: str = "bufr", quiet: bool = True) -> None:
        super().__init__(files, tables)
        self.has_input = True
        self.progress = Progress(name, sum(each.octets for each in files), quiet)
        self.refusals: List[Refusal] = []
        # what bufr-ls prints of each message, with its place
        self.placed: List[Tuple[int, bytes]] = []

    def read(self, take: Optional[Callable[[Report], None]] = None, element: Optional[Element] = None) -> None:
        """Read the files. `element` is what reports have a value of."""
        self.is_read = take is not None
        everything = range(len(self.files))
        # tables that are named take one file each
        groups = [[at] for at in everything] if self.tables else [list(everything)]
        running = self.show(groups[0], element) if self.is_read and self.files else None
        refused: List[Tuple[int, int, str]] = []
        faults = Faults(self.tables)
        try:
            counts = self.list() if self.files else Counts({}, True)
            if take is not None and self.files:
                from .subsets import Blocks
                done = 0
                for group in groups:
                    running = running or self.show(group, element)
                    blocks = Blocks({self.files[at].path: at for at in group}, take, element)
                    with running.to_the_end():
                        blocks.read(running, lambda count: self.tell(done + count))
                    running.finish()
                    running.close()
                    running = None
                    refused += blocks.refused
                    done += blocks.done
            kinds = self.kinds(counts)
            reasons = refused_by_heads(kinds, faults, not self.is_read)
            if self.is_read:
                self.refuse(refused, reasons)
            self.put(kinds, reasons)
            self.lose()
        finally:
            self.progress.end()
            faults.end()
            if running is not None:
                running.close()

    def show(self, group: List[int], element: Optional[Element]) -> Running:
        """Start to show some files."""
        from .subsets import ASKED
        asked = [*ASKED, *(each.decode() for each in (element.descriptors if element else ()))]
        pattern = f"^(message|subset|end|# |{'|'.join(f'{word} ' for word in asked)})"
        return Running(words_to_show([self.files[at].path for at in group], self.tables), through=["grep", "-aE", pattern])

    def tell(self, count: int) -> None:
        """Say how far it is after some messages."""
        if self.progress.next is not None and self.placed:
            place, row = self.placed[min(count, len(self.placed) - 1)]
            self.progress.at(place + sum(each.octets for each in self.files[:input_of(row)]))

    def list(self) -> Counts:
        """Take what bufr-ls prints, and count it but for the places."""
        lister = start([each.path for each in self.files], "place,")
        known: Dict[bytes, bytes] = {}
        try:
            lumps = Lumps(lister)
            text = lumps.next()
            while text:
                for line in text.splitlines(True):
                    place, _, row = line.partition(b",")
                    self.placed.append((int(place), known.setdefault(row, row)))
                text = lumps.next()
            finish(lister)
        finally:
            lister.end()
        return Counts(Counter([row for _, row in self.placed]), True)

    def refuse(self, refused: List[Tuple[int, int, str]], reasons: Dict[bytes, Dict[str, int]]) -> None:
        """Find the kinds of the messages that are refused, and the places of those that no tables read."""
        whys = {(at, place): reason for at, place, reason in refused}
        wholly = {kind: next(iter(each)) for kind, each in reasons.items()}
        is_plain: Dict[bytes, Tuple[int, bytes, str]] = {}
        for place, row in self.placed:
            if row not in is_plain:
                kind = self.kind_of(head_of(row))
                is_plain[row] = input_of(row), kind, wholly.get(kind, "")
            at, kind, reason = is_plain[row]
            why = whys.get((at, place))
            if why is not None:
                each = reasons.setdefault(kind, {})
                each[why] = each.get(why, 0) + 1
            if why is not None or reason:
                self.refusals.append(Refusal(self.files[at].name, place, why or reason))

    def lose(self) -> None:
        """Find what is skipped and a loss; of files whose data are not read, only if they have no message."""
        if not self.is_read:
            super().lose()
            return
        places: List[List[Tuple[int, int]]] = [[] for _ in self.files]
        for place, row in self.placed:
            places[input_of(row)].append((place, length_of(row)))
        for at, each in enumerate(self.files):
            if self.between[at] or not self.of_file[at].messages and each.octets:
                self.losses[at] = losses_of(each.path, each.octets, places[at])

    def headings(self) -> Dict[str, int]:
        """Return how many messages follow each heading; those without one follow an empty one."""
        found: Dict[str, int] = {}
        files = [open(each.path, "rb", buffering=0) for each in self.files]
        try:
            last, end = -1, 0
            for place, row in self.placed:
                at, length = input_of(row), length_of(row)
                end = end if at == last else 0
                size = min(place - end, LONGEST_HEADING)
                said = HEADING.findall(os.pread(files[at].fileno(), size, place - size)) if size else []
                heading = said[-1].decode() if said else ""
                found[heading] = found.get(heading, 0) + 1
                last, end = at, place + length
        finally:
            for file in files:
                file.close()
        return found
