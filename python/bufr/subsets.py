"""The reports of BUFR files: the station, the moment, the position and a value of each subset, as `bufr show` prints it."""
from __future__ import annotations

import os
import re
from datetime import datetime
from functools import lru_cache
from typing import Callable, Dict, List, NamedTuple, Optional, Set, Tuple

from .shown import Running

PIECE = 1 << 20
# How many subsets are kept by their lines, since many come again.
MOST_KNOWN = 100_000
ASKED = ("001001", "001002", "001011", "001125", "001126", "001127", "001128", "004001", "004002", "004003", "004004", "004005",
         "004006", "005001", "005002", "006001", "006002")
WHOLE = re.compile(rb"-?\d+")
ESCAPE = re.compile(rb"\\([0-9a-f]{2})")

Word = Optional[bytes]
Station = Tuple[str, str]
Position = Tuple[float, float]


class Report(NamedTuple):
    """What the fields of a subset say: the kind and the identifier of its station, its moment, its position, and a value."""

    station: Optional[Station]
    moment: Optional[datetime]
    position: Optional[Position]
    value: Optional[float]


class Element(NamedTuple):
    """Descriptors of which a report has a value: that of the first field, or of the one of a number that counts from 1."""

    descriptors: Tuple[bytes, ...]
    number: int = 1


def whole(word: Word) -> Optional[int]:
    """Return the whole number of a field, if it has one."""
    return int(word) if word is not None and WHOLE.fullmatch(word) else None


def number(word: Word) -> Optional[float]:
    """Return the number of a field, if it has one."""
    return float(word) if word and word[:1] in b"-0123456789" else None


def identifier(word: Word) -> str:
    """Return the text of a field without the spaces and NULs at its end."""
    if word is None or word[:1] != b'"':
        return ""
    return ESCAPE.sub(lambda found: bytes([int(found[1], 16)]), word[1:-1]).rstrip(b" \0").decode("latin-1")


STATION = (b"001001", b"001002", b"001125", b"001126", b"001127", b"001128", b"001011")
MOMENT = (b"004001", b"004002", b"004003", b"004004", b"004005", b"004006")


@lru_cache(MOST_KNOWN)
def station_of(block: Word, place: Word, series: Word, issuer: Word, issue: Word, local: Word, mobile: Word) -> Optional[Station]:
    """Return the station of a report: its WMO number, else its WIGOS identifier, else that of a ship or a mobile station."""
    numbers = whole(block), whole(place)
    if None not in numbers:
        return "WMO", "{:02}{:03}".format(*numbers)
    parts = [whole(series), whole(issuer), whole(issue)]
    if None not in parts and identifier(local):
        return "WIGOS", "-".join(map(str, [*parts, identifier(local)]))
    return ("mobile", identifier(mobile)) if identifier(mobile) else None


@lru_cache(MOST_KNOWN)
def moment_of(*words: Word) -> Optional[datetime]:
    """Return the moment of a report, of its year to its second. A minute or a second that it does not say is 0."""
    year, month, day, hour, minute, second = map(whole, words)
    if year is None or month is None or day is None or hour is None:
        return None
    try:
        return datetime(year, month, day, hour, minute or 0, second or 0)
    except (ValueError, OverflowError):
        return None


def position_of(fields: Dict[bytes, bytes]) -> Optional[Position]:
    """Return the latitude and the longitude of a report, of high accuracy if it has them so."""
    for north, east in ((b"005001", b"006001"), (b"005002", b"006002")):
        latitude, longitude = number(fields.get(north)), number(fields.get(east))
        if latitude is not None and longitude is not None and abs(latitude) <= 90 and abs(longitude) <= 180:
            return latitude, longitude
    return None


def report_of(text: bytes, element: Optional[Element]) -> Report:
    """Return what the lines of a subset say. Of several fields with one descriptor the first one counts."""
    lines = text.split(b"\n")
    fields = {line[:6]: line[7:] for line in reversed(lines)}
    value = None
    if element is not None:
        found = [line[7:] for line in lines if line[:6] in element.descriptors]
        value = number(found[element.number - 1]) if len(found) >= element.number else None
    get = fields.get
    return Report(station_of(*map(get, STATION)), moment_of(*map(get, MOMENT)), position_of(fields), value)


class Seen:
    """How often a station reported, at which moments, and where first."""

    def __init__(self) -> None:
        self.reports = 0
        self.moments: Set[datetime] = set()
        self.position: Optional[Position] = None


class Reports:
    """The reports of files, counted. With `with_values` each value is kept with its position."""

    def __init__(self, with_values: bool = False) -> None:
        self.with_values = with_values
        self.with_key = self.without_key = self.without_moment = 0
        self.stations: Dict[Station, Seen] = {}
        # what reports without a station, by their position
        self.nameless: Dict[Position, int] = {}
        self.hours: Dict[datetime, int] = {}
        self.first: Optional[datetime] = None
        self.last: Optional[datetime] = None
        self.values: List[Tuple[float, float, float]] = []
        # reports that have no position, and of the others those that have no value
        self.without_position = self.without_value = 0

    def take(self, report: Report) -> None:
        """Count a report."""
        station, moment, position, value = report
        if station is not None and moment is not None:
            self.with_key += 1
        else:
            self.without_key += 1
        if moment is None:
            self.without_moment += 1
        else:
            hour = moment.replace(minute=0, second=0)
            self.hours[hour] = self.hours.get(hour, 0) + 1
            self.first = moment if self.first is None or moment < self.first else self.first
            self.last = moment if self.last is None or moment > self.last else self.last
        if station is not None:
            seen = self.stations.get(station)
            if seen is None:
                seen = self.stations[station] = Seen()
            seen.reports += 1
            seen.position = seen.position or position
            if moment is not None:
                seen.moments.add(moment)
        elif position is not None:
            self.nameless[position] = self.nameless.get(position, 0) + 1
        if position is None:
            self.without_position += 1
        elif value is None:
            self.without_value += 1
        elif self.with_values:
            self.values.append((*position, value))

    def kinds(self) -> Dict[str, int]:
        """Return how many stations there are of each kind."""
        found = dict.fromkeys(("WMO", "WIGOS", "mobile"), 0)
        for kind, _ in self.stations:
            found[kind] += 1
        return found

    def counts(self) -> List[Tuple[float, float, int]]:
        """Return the latitude, the longitude and the number of reports of each station, and of each position without one."""
        return [(*seen.position, seen.reports) for seen in self.stations.values() if seen.position is not None] + \
            [(*position, count) for position, count in self.nameless.items()]


class Blocks:
    """What `bufr show` prints of files, of which each subset is a block that begins with its line. `take` gets each report."""

    def __init__(self, files: Dict[str, int], take: Callable[[Report], None], element: Optional[Element]) -> None:
        self.files, self.take, self.element = files, take, element
        self.file = next(iter(files.values()))
        # the numbers of their files, the places and the reasons of messages that are refused
        self.refused: List[Tuple[int, int, str]] = []
        self.known: Dict[bytes, Report] = {}
        self.done = 0

    def read(self, running: Running, told: Callable[[int], None]) -> None:
        """Read what a program prints to its end. It is told how many messages were read."""
        rest, piece = b"", b" "
        while piece:
            piece = running.output.read(PIECE)
            text = rest + piece
            cut = text.rfind(b"subset\n") if piece else len(text)
            if cut < 0:
                rest = text
                continue
            first, *blocks = text[:cut].split(b"subset\n")
            self.done += text.count(b"end\n", 0, cut)
            rest = text[cut:]
            self.between(first)
            for block in blocks:
                self.take(self.known.get(block) or self.made(block))
            told(self.done)

    def made(self, block: bytes) -> Report:
        """Return the report of a block, which may have the end of its message and what is before the next one."""
        lines, _, rest = block.partition(b"end\n")
        report = report_of(lines, self.element)
        if rest in (b"", b"message\n"):
            if len(self.known) > MOST_KNOWN:
                self.known.clear()
            self.known[block] = report
        else:
            self.between(rest)
        return report

    def between(self, lines: bytes) -> None:
        """Take the lines before a message."""
        for line in lines.split(b"\n"):
            if line.startswith(b"# refused "):
                _, _, place, reason = line.decode("latin-1").split(" ", 3)
                self.refused.append((self.file, int(place), reason))
                self.done += 1
            elif line.startswith(b"# "):
                self.file = self.files[os.fsdecode(line[2:])]
