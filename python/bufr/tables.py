"""What the modules of this package share: Tables B and D, the fields that descriptors ask for, and the
lines of a listing. Python 3 with its standard library alone."""
import os
import sys
from collections import namedtuple

from .errors import Fault
from .versions import read_version, table_paths

TEXT_UNIT = "CCITT IA5"
# How deep sequences stand in each other at most.
MOST_SEQUENCE_LEVELS = 16

# An element of Table B: width in bits.
Element = namedtuple("Element", "name unit scale reference width")
# A field that a template asks for: its descriptor, its element's name and unit, its scale and its width in
# bits with all operators, whether it is the factor of a delayed replication, and its reference value with all operators.
Field = namedtuple("Field", "descriptor name unit scale width is_factor reference", defaults=(0,))
# What `marked` hands out beside fields: where a replication begins, where each of its turns begins, and where it ends.
BEGIN, TURN, END = "begin", "turn", "end"

def chosen_version(arguments):
    """The version that the options or the variable name, as a text, or nothing."""
    return arguments.tables or os.environ.get("BUFR_TABLES") or ""


def chosen_paths(arguments):
    """The files that the options name, or those of the version that is asked for."""
    if arguments.b or arguments.d:
        if not (arguments.b and arguments.d):
            raise Fault("-b and -d go together")
        return [arguments.b, arguments.d]
    return table_paths(read_version(chosen_version(arguments) or "46"))


# The tables of the standard that were read, by their versions.
STANDARD = {}


class TablesByVersion:
    """The tables of each message: those that the options or the variable name, or else those of its own version."""

    def __init__(self, paths=None):
        self.paths, self.named = paths, None

    @classmethod
    def chosen(cls, arguments):
        is_named = arguments.b or arguments.d or chosen_version(arguments)
        made = cls(chosen_paths(arguments) if is_named else None)
        if is_named:
            # a fault of theirs is told before anything is read
            made.of()
        return made

    def of(self, word="46"):
        """The tables of a message that names a version, as the word of its listing does."""
        if self.paths:
            if self.named is None:
                self.named = Tables(*self.paths)
            return self.named
        version = read_version(word)
        if version not in STANDARD:
            STANDARD[version] = Tables(*table_paths(version))
        return STANDARD[version]


def records(path, needed, last=None):
    """The records of a table file, as `bufr` reads them: the cells of the columns `needed`, and at last of one that may not be there.
    Headers that come again and records whose needed cells are empty are passed over."""
    import csv
    try:
        with open(path, encoding="utf-8-sig", errors="replace", newline="") as file:
            rows = csv.reader(file)
            header = [name.strip(" ") for name in next(rows, [])]
            missing = [name for name in needed if name not in header]
            if missing:
                raise Fault(f"{path} has no column {missing[0]}")
            # of a name that comes twice the first column counts
            places = [header.index(name) for name in [*needed, last] if name in header]
            rest = [""] * (last is not None and last not in header)
            for row in rows:
                row += [""] * (len(header) - len(row))
                cells = [row[at].strip(" ") for at in places]
                is_header = cells[0] == needed[0] and [cell.strip(" ") for cell in row] == header
                if (cells[0] or any(cells[:len(needed)])) and not is_header:
                    yield cells + rest
    except OSError as error:
        raise Fault(f"cannot open {path}: {error.strerror}") from error


class Tables:
    """Tables B and D as their files have them."""

    def __init__(self, b_path, d_path):
        self.elements = {}
        self.members = {}
        self.titles = {}
        needed = ["FXY", "BUFR_Unit", "BUFR_Scale", "BUFR_ReferenceValue", "BUFR_DataWidth_Bits"]
        for descriptor, unit, scale, reference, width, name in records(b_path, needed, "ElementName_en"):
            try:
                self.elements[descriptor] = Element(name, unit, int(scale), int(reference), int(width))
            except ValueError as error:
                raise Fault(f"{b_path}: the row of {descriptor} has a number that is none") from error
        for sequence, member, title in records(d_path, ["FXY1", "FXY2"], "Title_en"):
            self.members.setdefault(sequence, []).append(member)
            if title:
                self.titles.setdefault(sequence, title)

    def name(self, descriptor):
        """The name of an element; of a field of 205 and of a local one, what it is."""
        element = self.elements.get(descriptor)
        if element:
            return element.name or "no name in the table"
        return f"{int(descriptor[3:])} characters" if descriptor.startswith("205") else "not in Table B"

    def unit(self, descriptor):
        """The unit of an element, that of a text for a field of 205, and nothing for a local one."""
        element = self.elements.get(descriptor)
        if element:
            return element.unit
        return TEXT_UNIT if descriptor.startswith("205") else ""

    def title(self, descriptor):
        """The title of a sequence, where the table has one; else its members."""
        members = self.members.get(descriptor)
        if members is None:
            return "not in Table D"
        return self.titles.get(descriptor) or " ".join(members)

    def fields(self, descriptors, count_of):
        """The fields that descriptors ask for, in order. Of the factor of a delayed replication
        `count_of(field)` answers how often its body stands, once the field was handed out."""
        return (field for field in self.marked(descriptors, count_of) if field.__class__ is Field)

    def marked(self, descriptors, count_of):
        """These fields, and between them BEGIN, TURN and END of each replication. A factor comes before its BEGIN."""
        return Walk(self, count_of).over(descriptors, 0)


class Walk:
    """The fields of one subset, with the operators in force."""

    def __init__(self, tables, count_of):
        self.tables = tables
        self.count_of = count_of
        self.width = self.scale = self.increase = self.characters = 0

    def over(self, descriptors, depth):
        if depth > MOST_SEQUENCE_LEVELS:
            raise Fault(f"more than {MOST_SEQUENCE_LEVELS} sequences in each other")
        place = 0
        while place < len(descriptors):
            descriptor = descriptors[place]
            kind, x, y = descriptor[0], int(descriptor[1:3]), int(descriptor[3:])
            place += 1
            if kind == "0":
                yield self.element(descriptor)
            elif kind == "3":
                if descriptor not in self.tables.members:
                    raise Fault(f"X2 UnknownSequence {descriptor}")
                yield from self.over(self.tables.members[descriptor], depth + 1)
            elif kind == "1":
                times = y
                factor = None
                if y == 0 and place < len(descriptors):
                    factor = self.factor(descriptors[place])
                    place += 1
                if x == 0 or (y == 0 and not factor) or place + x > len(descriptors):
                    raise Fault(f"X4 BadReplication {descriptor}")
                if factor:
                    yield factor
                    times = self.count_of(factor)
                yield BEGIN
                for _ in range(times):
                    yield TURN
                    yield from self.over(descriptors[place:place + x], depth)
                yield END
                place += x
            elif x == 5:
                yield Field(descriptor, self.tables.name(descriptor), TEXT_UNIT, 0, 8 * y, False)
            elif x == 6:
                if place == len(descriptors) or descriptors[place][0] != "0":
                    raise Fault(f"X7 Dangling206 {descriptor}")
                yield self.local(descriptors[place], y)
                place += 1
            else:
                self.operator(descriptor, x, y)

    def operator(self, descriptor, x, y):
        if x == 1:
            self.width = y - 128 if y else 0
        elif x == 2:
            self.scale = y - 128 if y else 0
        elif x == 7:
            self.increase = y
        elif x == 8:
            self.characters = y
        else:
            raise Fault(f"X3 UnsupportedOperator {descriptor}")

    def element(self, descriptor):
        element = self.tables.elements.get(descriptor)
        if element is None:
            raise Fault(f"X1 UnknownElement {descriptor}")
        scale, width, reference = element.scale, element.width, element.reference
        unit = element.unit.upper()
        if unit == TEXT_UNIT:
            scale, width, reference = 0, 8 * self.characters or width, 0
        elif not (unit in ("CODE TABLE", "FLAG TABLE") or unit.startswith("COMMON CODE TABLE")
                  or descriptor.startswith("031")):
            scale += self.scale + self.increase
            width += self.width + (10 * self.increase + 2) // 3 if self.increase else self.width
            reference *= 10 ** self.increase
        return Field(descriptor, element.name, element.unit, scale, width, False, reference)

    def factor(self, descriptor):
        element = self.tables.elements.get(descriptor)
        if element is None or descriptor not in ("031000", "031001", "031002"):
            raise Fault(f"X5 BadFactor {descriptor}")
        return Field(descriptor, element.name, element.unit, 0, element.width, True)

    def local(self, descriptor, width):
        """The element behind 206: by its row where that has this width, else a number of so many bits."""
        element = self.tables.elements.get(descriptor)
        if element and element.width == width:
            return Field(descriptor, element.name, element.unit, element.scale, width, False, element.reference)
        return Field(descriptor, self.tables.name(descriptor), "", 0, width, False)


def lines_of(path):
    """The lines of a file, or of standard input for `-`, without their ends, counted from 1."""
    try:
        file = sys.stdin.buffer if path == "-" else open(path, "rb")
    except OSError as error:
        raise Fault(f"cannot open {path}: {error.strerror}") from error
    with file:
        for number, line in enumerate(file, 1):
            if line.endswith(b"\n"):
                line = line[:-2] if line.endswith(b"\r\n") else line[:-1]
            yield number, line.decode("latin-1")
