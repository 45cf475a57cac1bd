"""Reads observations from a CSV file and writes BUFR: a message for each row. A mapping, in JSON or from Python 3.11 on in TOML,
says what each field has: a column, with its unit, or a constant. It also has the template, and section 1. Values are converted
exactly, and an empty cell is missing. The CSV file is in UTF-8 or Windows-1252.

If a value does not fit, nothing is written. Standard error names each such cell with its row and column, what the field wants,
and what was found; and each fault of the mapping. The status is 1 if a cell does not fit, 2 after a fault of the mapping.

With --new it writes a mapping to fill in, which has a line for each field of the template. If a CSV file is named too, a field has
the column with its descriptor or the name of its element, and time and station have the columns `time` and `station`.

Standard error names the columns that the mapping does not."""
import csv
import datetime
import os
import re
import sys
from decimal import Decimal

from . import tables as bufr_tables
from . import wanted
from .commands import entry
from .csv_input import open_csv, wmo_number
from .errors import Fault
from .mapping import GREATEST, Mapping, PARTS, near, new_mapping, number_of, said, shown, wish
from .parsers import add_quiet, parser_of
from .progress import Progress
from .skeleton import counts_of
from .to_json import TIME
from .writing import encode

MOMENT = re.compile(r"(\d{4})-(\d\d)-(\d\d)[T ](\d\d):?(\d\d)(?::?(\d\d)(?:\.0+)?)?\s*(Z|[+-]\d\d:?\d\d)?", re.A)
WIGOS = re.compile(r"(\d{1,2})-(\d{1,5})-(\d{1,5})-([0-9A-Za-z]{1,16})", re.A)
TIME_FIELDS = tuple(f"00400{number}" for number in range(1, 7))
DELIMITERS = (",", ";", "\t")


class Wrong(Exception):
    """The end of a call whose cells do not fit."""


class Bad(Exception):
    """What is wrong with a value, in words."""


def text_of(text, field):
    """A text for a field."""
    stray = next((each for each in text if not " " <= each <= "~"), None)
    if stray is not None:
        raise Bad(f"{stray!r} is no character of {field.unit}")
    if len(text) > field.width // 8:
        raise Bad(f"it has {len(text)} characters")
    return text


def moment_of(text, form):
    """The time that a text says, in UTC."""
    try:
        if form:
            found = datetime.datetime.strptime(text, form)
        else:
            parts = MOMENT.fullmatch(text)
            zone = datetime.timezone.utc
            if parts[7] and parts[7] != "Z":
                minutes = int(parts[7][1:3]) * 60 + int(parts[7][-2:])
                zone = datetime.timezone(datetime.timedelta(minutes=-minutes if parts[7][0] == "-" else minutes))
            found = datetime.datetime(*(int(part or 0) for part in parts.groups()[:6]), tzinfo=zone)
        if found.tzinfo is not None:
            found = found.astimezone(datetime.timezone.utc)
    except (TypeError, ValueError, OverflowError):
        raise Bad("") from None
    return dict(zip(TIME, found.timetuple()[:6]))


class Reader:
    """The records of a CSV file after its header, each with the number of its row, which counts from 1."""

    def __init__(self, name, path, quiet, delimiter, names_row, first_row):
        self.path, self.names_row, self.first_row = path, names_row, first_row
        try:
            self.file = open_csv(path)
        except OSError as error:
            raise Fault(f"cannot open {path}: {error.strerror}") from error
        size = os.fstat(self.file.fileno()).st_size if os.path.isfile(path) else None
        self.progress, self.octets = Progress(name, size, quiet), 0
        self.delimiter = delimiter
        self.records = self.all()
        self.header = [cell.strip() for cell in self.first()]

    def lines(self):
        for line in self.file:
            if self.progress.next is not None:
                self.octets += len(line.encode("utf-8", "replace"))
                self.progress.at(self.octets)
            yield line

    def all(self):
        lines, number = self.lines(), 0
        rows = None
        try:
            if self.delimiter is None:
                head = [line for _, line in zip(range(self.names_row), lines)]
                self.delimiter = max(DELIMITERS, key=(head or [""])[-1].count)
                lines = self.again(head, lines)
            rows = csv.reader(lines, delimiter=self.delimiter, strict=True)
            for number, row in enumerate(rows, 1):
                yield number, row
        except (csv.Error, UnicodeError) as error:
            raise Fault(f"{self.path}: row {number + 1}: {error}") from error

    @staticmethod
    def again(head, lines):
        yield from head
        yield from lines

    def first(self):
        """The record that has the names of the columns."""
        for number, row in self.records:
            if number == self.names_row:
                return row
        raise Fault(f"{self.path} has no row {self.names_row} with the names of the columns")

    def __iter__(self):
        return ((number, row) for number, row in self.records if number >= self.first_row and any(cell.strip() for cell in row))


class Plan:
    """The fields of the rows that have the same counts: those of constants are known, the others have their places."""

    def __init__(self, converter, counts):
        mapping = converter.mapping
        self.base, self.varying, self.times = [], [], {}
        planned = mapping.plan(counts)
        for place, (field, key) in enumerate(planned):
            source = mapping.sources.get(key)
            value = None
            if field.descriptor in TIME_FIELDS:
                self.times.setdefault(field.descriptor, place)
            if source is not None and source.constant is not None:
                value = converter.constant(field, key, source)
            elif source is not None and not source.is_empty():
                self.varying.append((place, field, key, source))
            self.base.append((field.descriptor, value))
        here = {key for _, key in planned}
        # the columns of fields that these counts leave out
        self.left_out = [(key, source) for key, source in mapping.sources.items() if key not in here and source.column is not None]


class Converter:
    """Makes messages of rows. `faults` counts the cells that do not fit."""

    def __init__(self, mapping, reader, does_round, say):
        self.mapping, self.reader, self.does_round, self.say = mapping, reader, does_round, say
        self.faults = self.rounded = self.digits = 0
        self.plans, self.told = {}, set()
        self.places = {}
        for place, column in enumerate(reader.header):
            self.places.setdefault(column, []).append(place)
        self.row, self.number, self.parts, self.counts = [], 0, {}, {}
        self.check_columns()
        self.factors = [key for key in mapping.keys if mapping.fields_of[key].is_factor]

    def check_columns(self):
        """Finds the columns that the header lacks. Their fields are left out."""
        sources = [(said(key), source, self.mapping.sources, key) for key, source in self.mapping.sources.items()]
        sources += [(f"section1 {name}", source, self.mapping.section1, name) for name, source in self.mapping.section1.items()]
        for name, source, holder, key in sources:
            if source.column is not None and len(self.places.get(source.column, [])) != 1:
                self.absent(name, source.column)
                del holder[key]
        for name, (columns, _) in list(self.mapping.composed.items()):
            for column in columns:
                if len(self.places.get(column, [])) != 1:
                    self.absent(name, column)
                    self.mapping.composed[name] = [], None

    def unused(self):
        """The columns that the mapping does not name."""
        mapping = self.mapping
        named = {source.column for source in [*mapping.sources.values(), *mapping.section1.values()]}
        named.update(column for columns, _ in mapping.composed.values() for column in columns)
        return [column for column in self.reader.header if column and column not in named]

    def absent(self, name, column):
        count = len(self.places.get(column, []))
        self.mapping.fault(f"{name}: {self.reader.path} has {f'{count} columns' if count else 'no column'} {column}"
                           + ("" if count else near(column, self.places)))

    def cell(self, column):
        """The text of a cell of the row at hand, or None if it is missing."""
        text = self.row[self.places[column][0]].strip()
        return None if text in self.mapping.missing else text

    def fault(self, column, text):
        self.faults += 1
        self.say(f"{self.reader.path}: row {self.number}, column {column}: {text}")

    def constant(self, field, key, source):
        """The value of a constant, whose fault is told once."""
        try:
            return self.value(field, source, str(source.constant), ".")[0]
        except Bad as bad:
            if key not in self.told:
                self.told.add(key)
                self.mapping.fault(f"{said(key)} {wanted.named(field)}: wanted {wish(field)}; found {source.constant}: {bad}")
            return None

    def value(self, field, source, text, decimal):
        """The value of a text in a field, and whether it was rounded."""
        if wanted.is_text(field):
            return text_of(text, field), False
        number = number_of(text, decimal)
        if number is None:
            raise Bad(self.no_number(text, decimal))
        if source.least is not None and number < source.least:
            raise Bad(f"it is below {shown(source.least)}, the least one of the mapping")
        if source.greatest is not None and number > source.greatest:
            raise Bad(f"it is above {shown(source.greatest)}, the greatest one of the mapping")
        exact = number * source.factor + source.offset
        is_converted = (source.factor, source.offset) != (1, 0)
        it = f"{shown(exact)} {field.unit}, which" if is_converted else "it"
        scaled = exact * 10 ** field.scale if field.scale >= 0 else exact / 10 ** -field.scale
        units = round(scaled)
        judged = units if self.does_round or source.rounds else scaled
        if judged < field.reference:
            raise Bad(f"{it} is too small")
        if judged > field.reference + (1 << field.width) - 1 - wanted.can_be_missing(field):
            raise Bad(f"{it} is too great")
        if judged != units:
            self.digits += 1
            raise Bad(f"{it} {self.stray_digits(exact, field)}")
        return Decimal(wanted.spelt(units, field.scale)), units != scaled

    @staticmethod
    def no_number(text, decimal):
        """What is wrong with a text that is no number."""
        if decimal == "," and number_of(text) is not None:
            return 'it has a point, and "decimal" is ","'
        if number_of(text, ",") is not None:
            return 'it has a comma: write "decimal": "," in the mapping'
        return "it is no number"

    @staticmethod
    def stray_digits(exact, field):
        """What is wrong with a number that has more digits than a field keeps."""
        if field.scale < 0:
            return f"is no multiple of {10 ** -field.scale}"
        digits = shown(exact)
        count = len(digits.partition(".")[2])
        return "has no end of digits after the point" if digits.endswith("..") else f"has {count} digit{'s' * (count > 1)} after the point"

    def part(self, name):
        """The parts that a row has of its time, its WIGOS identifier or its station, or None. A fault is told once a row."""
        if name not in self.parts:
            self.parts[name] = self.parts_of(name, *self.mapping.composed[name])
        return self.parts[name]

    def parts_of(self, name, columns, form):
        if not columns:
            return None
        cells = [self.cell(column) for column in columns]
        if None in cells:
            if name == "time":
                self.fault(" and ".join(columns), f"wanted a time{f' as {form}' if form else ''}; found nothing")
            return None
        text = " ".join(cells)
        try:
            if name == "time":
                return moment_of(text, form)
            found = WIGOS.fullmatch(text)
            number = wmo_number(text)
            if (found if name == "wigos" else number) is None:
                raise Bad
            return dict(zip(PARTS[name], found.groups() if name == "wigos" else (number[:2], number[2:])))
        except Bad:
            what = {"time": f"a time as {form or '2024-01-15T12:00:00Z'}", "wigos": "a WIGOS identifier as 0-20000-0-10384",
                    "station": "a number IIiii, as 06610 or 6610"}[name]
            self.fault(" and ".join(columns), f"wanted {what}; found {text}")
            return None

    def decimal_of(self, source):
        """The character before the decimals of a source."""
        return "." if source.part is not None else source.decimal or self.mapping.decimal

    def field(self, field, key, source):
        """The value of a field in the row at hand. A fault is told."""
        if source.part is not None:
            name, part = source.part
            found = self.part(name)
            column, text = " and ".join(self.mapping.composed[name][0]), None if found is None else str(found[part])
            if found is None:
                return None
        else:
            column, text = source.column, self.cell(source.column)
        try:
            if text is None:
                if not wanted.can_be_missing(field):
                    raise Bad("it can't be missing")
                return None
            value, is_rounded = self.value(field, source, text, self.decimal_of(source))
            self.rounded += is_rounded
            return value
        except Bad as bad:
            unit = f" {source.unit}" if source.unit and text is not None else ""
            self.fault(column, f"{said(key)} {wanted.named(field)}: wanted {wish(field)}; "
                       f"found {'nothing' if text is None else text}{unit}: {bad}")
            return None

    def plan(self):
        """The plan of the row at hand, by its counts. If one is not known, which is told, it is that of the greatest counts."""
        counts = {}
        for key in self.factors:
            source = self.mapping.sources.get(key)
            if source is None or source.column is None:
                counts[key] = self.mapping.counts[key]
            else:
                counts[key] = None if self.cell(source.column) is None else self.count(key, source)
        self.counts = counts
        name = tuple(counts.values())
        if name not in self.plans:
            try:
                self.plans[name] = Plan(self, counts)
            except KeyError as error:
                key = error.args[0]
                if self.cell(self.mapping.sources[key].column) is None:
                    self.field(self.mapping.fields_of[key], key, self.mapping.sources[key])
                return Plan(self, self.mapping.counts)
        return self.plans[name]

    def count(self, key, source):
        """A count of the row at hand, or None if it has none."""
        found = self.field(self.mapping.fields_of[key], key, source)
        return None if found is None or found > self.mapping.counts[key] else int(found)

    def section1(self):
        heads = {}
        for name, source in self.mapping.section1.items():
            if source.column is None:
                heads[name] = source.constant
                continue
            text = self.cell(source.column)
            if text is None or not re.fullmatch("[0-9]{1,9}", text) or int(text) > GREATEST[name]:
                self.fault(source.column, f"section1 {name}: wanted a number from 0 to {GREATEST[name]}; found {text or 'nothing'}")
            else:
                heads[name] = int(text)
        return heads

    def time(self, plan, subset, before):
        """The time of section 1: that of the row, or of its first fields 004001 to 004006."""
        if "time" in self.mapping.composed:
            return self.part("time")
        parts = [subset[plan.times[each]][1] if each in plan.times else None for each in TIME_FIELDS]
        if None in parts[:4]:
            if self.faults == before:
                self.faults += 1
                self.say(f"{self.reader.path}: row {self.number}: wanted a time in the fields 004001 to 004004, or in the mapping's "
                         "time; found none")
            return None
        return dict(zip(TIME, (int(part or 0) for part in parts)))

    def message(self, number, row):
        """The message of a row, of one subset."""
        self.number, self.row, self.parts, before = number, row, {}, self.faults
        if len(row) != len(self.reader.header):
            self.faults += 1
            self.say(f"{self.reader.path}: row {number}: it has {len(row)} cells, and the header {len(self.reader.header)}")
            return None
        heads, plan = self.section1(), self.plan()
        subset = list(plan.base)
        for place, field, key, source in plan.varying:
            subset[place] = field.descriptor, self.counts[key] if field.is_factor else self.field(field, key, source)
        for key, source in plan.left_out:
            if self.cell(source.column) is not None:
                self.fault(source.column, f"{said(key)}: the counts of this row leave it out; found {self.cell(source.column)}")
        return {"section1": heads, "time": self.time(plan, subset, before), "observed": self.mapping.observed, "compressed": False,
                "descriptors": self.mapping.descriptors, "subsets": [subset]}

    def messages(self, as_subsets):
        """The messages of all rows. With `as_subsets` rows that follow each other share one, if their sections 1 agree."""
        held = None
        for number, row in self.reader:
            message = self.message(number, row)
            if self.faults or self.mapping.faults:
                held = None
                continue
            if held and as_subsets and all(held[name] == message[name] for name in ("section1", "time")):
                held["subsets"] += message["subsets"]
                continue
            if held:
                yield held
            held = message
        if not self.number:
            raise Fault(f"{self.reader.path} has no row of observations")
        if self.faults or self.mapping.faults:
            raise Wrong
        yield held


def counted(count, what):
    return f"{count:,} {what}{'s' * (count != 1)}"


def convert(parser, arguments):
    """Writes the messages of a CSV file, or what is wrong with it."""
    chosen = bufr_tables.TablesByVersion.chosen(arguments)
    mapping = Mapping(arguments.mapping, chosen)
    reader = Reader(parser.prog, arguments.csv or "-", arguments.quiet, mapping.delimiter, mapping.names_row, mapping.first_row)
    said_lines = []
    converter = Converter(mapping, reader, arguments.round, said_lines.append)
    try:
        octets = encode(converter.messages(arguments.subsets), chosen.paths)
    except Wrong:
        octets = None
    finally:
        reader.progress.end()
    for line in [f"{mapping.path}: {fault}" for fault in mapping.faults] + said_lines:
        sys.stderr.write(f"{parser.prog}: {line}\n")
    if octets is None:
        found = [counted(len(mapping.faults), "fault") + " of the mapping"] * bool(mapping.faults) + \
            [counted(converter.faults, "cell") + f" do{'es' * (converter.faults == 1)} not fit"] * bool(converter.faults)
        digits = f"; --round rounds {converter.digits:,} of them" if converter.digits else ""
        sys.stderr.write(f"{parser.prog}: {', '.join(found)}: nothing is written{digits}\n")
        return 2 if mapping.faults else 1
    if converter.rounded:
        sys.stderr.write(f"{parser.prog}: rounded {counted(converter.rounded, 'value')}\n")
    left = [" ".join(column.split()) for column in converter.unused()]
    if left and not arguments.quiet:
        sys.stderr.write(f"{parser.prog}: {mapping.path}: columns in no field: {', '.join(left)}\n")
    put(arguments.o, octets)
    return 0


def put(path, octets):
    """Writes octets to a file, or to standard output."""
    try:
        with open(path or sys.stdout.fileno(), "wb", closefd=bool(path)) as file:
            file.write(octets)
    except BrokenPipeError:
        raise
    except OSError as error:
        raise Fault(f"cannot write {path or 'standard output'}: {error.strerror}") from error


def begin(parser, arguments, words):
    """Writes a mapping to fill in. The words are more descriptors of the template, and a CSV file."""
    if not arguments.template:
        parser.error("--new wants --template and its descriptors, as 307080")
    descriptors = re.findall("[^ ,]+", arguments.template)
    while words and re.fullmatch(r"\d{6}", words[0]):
        descriptors.append(words.pop(0))
    if len(words) > 1:
        parser.error("--new takes one CSV file")
    for each in descriptors:
        if not re.fullmatch(r"[0-3][0-9]{5}", each):
            parser.error(f"{each} is no descriptor: six digits FXXYYY")
    if arguments.new.endswith(".toml"):
        raise Fault(f"{arguments.new}: a new mapping is in JSON")
    header = Reader(parser.prog, words[0], True, None, 1, 2).header if words else []
    asked = "" if arguments.b else bufr_tables.chosen_version(arguments)
    text, taken = new_mapping(bufr_tables.Tables(*bufr_tables.chosen_paths(arguments)), int(asked or 46), descriptors,
                              arguments.counts, header, arguments.centre)
    try:
        with open(arguments.new, "x", encoding="utf-8") as file:
            file.write(text)
    except OSError as error:
        raise Fault(f"cannot write {arguments.new}: {error.strerror}") from error
    by_name = [f"{column} ({word})" for column, word in taken.items() if word[:1].isdigit() and word not in column]
    if by_name:
        print(f"{arguments.new}: columns by the names of elements: {', '.join(by_name)}")
    left = [column for column in header if column not in taken]
    if left:
        print(f"{arguments.new}: columns in no field yet: {', '.join(left)}")
    return 0


def main():
    parser = parser_of("from-csv", __doc__)
    parser.add_argument("-o", metavar="FILE", help="the file that is written (standard output)")
    parser.add_argument("--round", action="store_true", help="rounds each value to the digits of its field, a half to the even "
                        "digit, and says how many were rounded")
    parser.add_argument("--subsets", action="store_true", help="one message for rows that follow each other, if they have the same "
                        "time and section 1; a subset for each")
    parser.add_argument("--new", metavar="MAPPING", help="writes a mapping to fill in")
    parser.add_argument("--template", metavar="'DESCRIPTOR ..'", help="of a new mapping: the descriptors of section 3")
    parser.add_argument("--centre", type=int, metavar="N", help="of a new mapping: the originating centre")
    parser.add_argument("--counts", type=counts_of, default=[], metavar="N,N,..", help="of a new mapping: how often the bodies of "
                        "the delayed replications come, in the order of their factors; 0 after the last")
    add_quiet(parser)
    parser.add_argument("mapping", nargs="?", metavar="MAPPING", help="the mapping; with --new the CSV file is here")
    parser.add_argument("csv", nargs="?", metavar="CSV", help="the CSV file (standard input: -)")
    arguments = parser.parse_intermixed_args()
    if arguments.new:
        return begin(parser, arguments, [word for word in (arguments.mapping, arguments.csv) if word])
    if not arguments.mapping:
        parser.error("wanted a MAPPING and a CSV file")
    if arguments.centre is not None:
        parser.error("--centre goes with --new: a mapping has its centre")
    return convert(parser, arguments)


command = entry("from-csv", main)
