"""Writes GeoJSON of the reports of BUFR files, or of listings as `bufr show` prints them: a feature for each report, which has its
elements with name, unit and value; with --values one for each observed value, with what qualifies it; with --each one for each
level. It is a FeatureCollection, or with --lines a feature a line.

A feature has the position as a point, with the height of the station in metres if the report has it; the time, by RFC 3339; and
the WIGOS identifier, which for a station that has only block and station number is 0-20000-0-IIiii. What a report lacks is null.

With --values the elements of the classes 01 to 09 qualify those that follow, until the next field with the same descriptor; if
that is missing, until there. Two fields with the same descriptor that follow each other are a range.

The status is 1 if a message was refused, or if a file has no message and is no listing; it is 2 if a file can't be read, or if a
listing has a wrong line. Standard error names each, and tells the octets of messages that are cut or broken; the others are written."""
import argparse
import datetime
import json
import re
import sys
from collections import namedtuple
from decimal import Decimal
from types import SimpleNamespace

from . import tables as bufr_tables
from .commands import entry
from .errors import Fault
from .given import without_folders
from .inputs import Listed, NoMessage
from .levels import Leading
from .parsers import add_inputs, parser_of
from .to_json import Fields, Messages

# A field: its descriptor, its name and unit as JSON, its value (a Decimal, a text or None) and that as JSON.
Read = namedtuple("Read", "descriptor named value spelt")
TIME = tuple(f"00400{number}" for number in range(1, 7))
WIGOS = ("001125", "001126", "001127", "001128")
STATION = ("001001", "001002")
LATITUDES, LONGITUDES = ("005001", "005002"), ("006001", "006002")
SHIFTS = {"005001": ("005015", "005016"), "006001": ("006015", "006016")}
HEIGHTS = ("007030", "007001", "007002", "007007", "007010")
# What a feature has by itself, and no qualifier of its value is.
OWN = frozenset((*TIME, *WIGOS, *STATION, *LATITUDES, *LONGITUDES))
# Periods in different units, of which one takes the place of another.
PERIODS = frozenset(("004021", "004022", "004023", "004024", "004025", "004026", "004073", "004074", "004075", "004086"))


class GeoFields(Fields):
    """The fields under some tables, each made once for its line."""

    def made(self, number, line):
        said = super().made(number, line)
        named, _, spelt = said.partition(', "value": ')
        value = line[7:]
        if value == "missing":
            found = None
        elif value[0] == '"':
            found = json.loads(spelt[:-1]).rstrip(" \0") or None
            spelt = json.dumps(found) + "}"
        else:
            found = Decimal(value)
        return Read(line[:6], named[1:], found, spelt[:-1])


def qualifies(descriptor):
    """Whether an element is in the classes 01 to 09."""
    return "001" <= descriptor[:3] <= "009"


def is_observed(field):
    """Whether a field that does not qualify has an observed value: it is no count of a replication."""
    return field.value is not None and field.descriptor[:3] not in ("000", "031")


def group(descriptor):
    """What a qualifier takes the place of."""
    return "period" if descriptor in PERIODS else descriptor


class Known:
    """What is known at a field of a report: the qualifiers in force."""

    def __init__(self):
        self.fields, self.last, self.missing = {}, None, set()

    def take(self, field):
        """Takes the next field of the report."""
        name = group(field.descriptor)
        if not qualifies(field.descriptor):
            self.last = None
            return
        self.missing.discard(name)
        if field.value is None:
            self.fields.pop(name, None)
            self.missing.add(name)
        elif name == self.last and name in self.fields:
            self.fields[name].append(field)
        else:
            self.fields.pop(name, None)
            self.fields[name] = [field]
        self.last = name

    def value(self, descriptor):
        found = self.fields.get(descriptor)
        return found[-1].value if found else None

    def is_missing(self, descriptor):
        return descriptor in self.missing

    def qualifiers(self):
        return [field for name, fields in self.fields.items() if name not in OWN for field in fields]


class Spanned:
    """What is known of a report, or of a level: the first field of its span, or else the last one before."""

    def __init__(self, span, before=()):
        self.fields = {}
        for field in before:
            self.fields[field.descriptor] = field.value
        here = {}
        for field in span:
            here.setdefault(field.descriptor, field.value)
        self.fields.update(here)

    def value(self, descriptor):
        return self.fields.get(descriptor)

    def is_missing(self, descriptor):
        return descriptor in self.fields and self.fields[descriptor] is None


def first_of(known, descriptors):
    """The first number that is known of some elements."""
    return next((value for value in map(known.value, descriptors) if isinstance(value, Decimal)), None)


def point_of(known, is_moved):
    """The position of a feature, with the displacement of a level or a value if it is moved; or None."""
    place = []
    for descriptors in (LONGITUDES, LATITUDES):
        value = first_of(known, descriptors)
        if value is None:
            return None
        place.append(value + (is_moved and first_of(known, SHIFTS[descriptors[0]]) or 0))
    if 180 < place[0] <= 360:
        place[0] -= 360
    if abs(place[0]) > 180 or abs(place[1]) > 90:
        return None
    height = first_of(known, HEIGHTS)
    return place + [height] * (height is not None)


def time_of(known):
    """The time by RFC 3339, or None if the fields have none. A minute or a second that has no field is 0."""
    parts = [known.value(each) for each in TIME]
    if None in parts[:4] or any(map(known.is_missing, TIME)):
        return None
    try:
        found = datetime.datetime(*(int(part or 0) for part in parts))
    except (ValueError, OverflowError):
        return None
    return f"{found.isoformat()}Z"


def wigos_of(known):
    """The WIGOS identifier, or None."""
    series, issuer, issue, local = map(known.value, WIGOS)
    if None not in (series, issuer, issue, local):
        return f"{series}-{issuer}-{issue}-{local}"
    block, station = map(known.value, STATION)
    return None if block is None or station is None else f"0-20000-0-{int(block):02}{int(station):03}"


class Features:
    """Writes features, as a collection or each on its line."""

    def __init__(self, out, as_lines):
        self.out, self.as_lines, self.count = out, as_lines, 0

    def put(self, text):
        if not self.as_lines:
            self.out.write(",\n" if self.count else '{"type": "FeatureCollection", "features": [\n')
        self.out.write(text + "\n" * self.as_lines)
        self.count += 1

    def end(self):
        if not self.as_lines:
            self.out.write("\n]}\n" if self.count else '{"type": "FeatureCollection", "features": []}\n')


class Reports(Messages):
    """The reports of an input, which are made features."""

    def __init__(self, tables, listed, features, arguments):
        super().__init__(tables, SimpleNamespace(is_nested=False, is_compact=False, by_subset=True, comma=", "), listed)
        self.features, self.arguments = features, arguments

    def of(self, version):
        tables = self.tables.of(version)
        if tables not in self.made:
            self.made[tables] = GeoFields(tables, False)
        return self.made[tables]

    def end_subset(self):
        if not self.subsets:
            return
        self.count += 1
        fields = self.subsets.pop()
        if self.arguments.values:
            self.put_values(fields)
        elif self.arguments.each:
            self.arguments.leading.take(self.fields.tables, self.head["descriptors"])
            starts = [place for place, field in enumerate(fields) if field.descriptor == self.arguments.each]
            before = fields[:starts[0]] if starts else []
            for start, end in zip(starts, [*starts[1:], len(fields)]):
                self.put(Spanned(fields[start:end], before), self.elements(fields[start:end]))
        else:
            self.put(Spanned(fields), self.elements(fields))

    def elements(self, fields, name="elements"):
        """The JSON of fields: those that are missing only if they are asked for."""
        said = ", ".join(f'{{{field.named}, "value": {field.spelt}}}' for field in fields
                         if field.value is not None or self.arguments.missing)
        return f'"{name}": [{said}]'

    def put_values(self, fields):
        known, front = Known(), None
        for field in fields:
            known.take(field)
            if known.last is not None:
                # what is known has changed
                front = None
            elif is_observed(field):
                if front is None:
                    front, qualifiers = self.front(known), self.elements(known.qualifiers(), "qualifiers")
                self.features.put(f'{front}{field.named}, "value": {field.spelt}, {qualifiers}}}}}')

    def put(self, known, said):
        """Writes a feature with what is known of it."""
        self.features.put(f"{self.front(known)}{said}}}}}")

    def front(self, known):
        """The JSON of a feature up to the properties that it has by itself."""
        own = {"subset": self.count, "wigos_station_identifier": wigos_of(known), "time": time_of(known)}
        if self.listed.file is not None:
            own = {"file": self.listed.file, "place": self.listed.place, **own}
        point = point_of(known, self.arguments.values or self.arguments.each)
        geometry = "null" if point is None else f'{{"type": "Point", "coordinates": [{", ".join(f"{part:f}" for part in point)}]}}'
        return f'{{"type": "Feature", "geometry": {geometry}, "properties": {{{json.dumps(own)[1:-1]}, '


def descriptor(text):
    if not re.fullmatch("0[0-9]{5}", text):
        raise argparse.ArgumentTypeError(f"{text} is no element: six digits, of which the first is 0")
    return text


def main():
    parser = parser_of("geojson", __doc__)
    parser.add_argument("--lines", action="store_true", help="a feature a line, and no collection")
    kind = parser.add_mutually_exclusive_group()
    kind.add_argument("--values", action="store_true", help="a feature for each observed value")
    kind.add_argument("--each", type=descriptor, metavar="FXY", help="a feature for each field with this descriptor, which has the "
                      "elements from there up to the next one: name the first field of a level")
    parser.add_argument("--missing", action="store_true", help="also the elements of a report or a level that are missing, as null")
    add_inputs(parser, "BUFR files or listings (standard input: -)")
    arguments = parser.parse_intermixed_args()
    tables = bufr_tables.TablesByVersion.chosen(arguments)
    arguments.leading = Leading([arguments.each])
    features = Features(sys.stdout, arguments.lines)
    status = 0
    for file in without_folders(arguments.files, parser.prog):
        try:
            status = max(status, one(parser.prog, file, tables, features, arguments))
        except Fault as fault:
            # the others are read, and the collection is ended
            sys.stderr.write(f"{parser.prog}: {fault}\n")
            status = max(status, 1 if isinstance(fault, NoMessage) else 2)
    features.end()
    for warning in arguments.leading.said(f"--each {arguments.each}", "a feature has"):
        sys.stderr.write(f"{parser.prog}: {warning}\n")
    return status


def one(name, file, tables, features, arguments):
    """Writes the features of a file, and returns its status."""
    listed = Listed(name, file, tables.paths, arguments.quiet)
    reports = Reports(tables, listed, features, arguments)
    try:
        number = reports.read()
    except NoMessage:
        raise
    except Fault as fault:
        # no line of it is one of a listing
        raise NoMessage(file) if reports.head is None and not reports.sections else Fault(f"{file}: {fault}") from None
    if reports.head is not None:
        raise Fault(f"{file}: the listing ends within a message, after line {number}")
    return listed.status()


command = entry("geojson", main)
