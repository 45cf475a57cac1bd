"""Reads a BUFR file, or a listing as `bufr show` prints it, and writes one JSON object a line for each message; with `--lines`
one for each subset. An object has section 1 by the names of its fields, the descriptors, and each field in order with its
descriptor, name, unit and value: a number with the digits of the listing, a text as a string whose characters are its octets,
`null` if the value is missing. Of a BUFR file it also has the file and the place of the message. Names are those of the tables
of each message, unless an option names others. bufr-from-json writes the listing again.

The status is 1 if a message was refused: standard error names each, and tells the octets of messages that are cut or broken."""
import json
import re
import sys

from . import tables as bufr_tables
from .commands import entry
from .errors import Fault
from .inputs import Listed, decoded
from .parsers import add_input, parser_of

SECTION_1 = ("originating_centre", "originating_sub_centre", "update_sequence_number", "data_category",
             "international_data_sub_category", "local_data_sub_category", "master_table_version",
             "local_table_version")
TIME = ("year", "month", "day", "hour", "minute", "second")
ESCAPE = re.compile(r"\\([0-9a-f]{2})")
NUMBER = re.compile(r"-?(?:0|[1-9][0-9]*)(?:\.[0-9]+)?")
# How many lines of fields are kept with their JSON.
MOST_KEPT = 1 << 17


def bad(number):
    return Fault(f"line {number} is no line of a listing at its place")


class Fields:
    """The JSON of fields under some tables. What comes before a value is made once for each descriptor, and the JSON of a line is
    kept, since most lines come again. With `is_compact` a field has its descriptor and its value alone."""

    def __init__(self, tables, is_compact):
        self.tables, self.is_compact = tables, is_compact
        self.heads, self.kept, self.templates = {}, {}, {}

    def head(self, descriptor):
        found = self.heads.get(descriptor)
        if found is None:
            if self.is_compact:
                found = f'["{descriptor}",'
            else:
                named = {"descriptor": descriptor, "name": self.tables.name(descriptor),
                         "unit": self.tables.unit(descriptor)}
                found = json.dumps(named)[:-1] + ', "value": '
            self.heads[descriptor] = found
        return found

    def json_of(self, number, line, octets):
        """The JSON of a line, which is kept by its octets."""
        found = self.made(number, line)
        if len(self.kept) == MOST_KEPT:
            self.kept.clear()
        self.kept[octets] = found
        return found

    def made(self, number, line):
        value = line[7:]
        if line[6:7] != " " or not line[:6].isdigit():
            raise bad(number)
        if value == "missing":
            value = "null"
        elif value[:1] == '"' and value[-1:] == '"' and len(value) > 1:
            value = json.dumps(ESCAPE.sub(lambda found: chr(int(found[1], 16)), value[1:-1]))
        elif not NUMBER.fullmatch(value):
            raise bad(number)
        return self.head(line[:6]) + value + "]}"[not self.is_compact]


class Writer:
    """Messages as JSON, a line for each message or for each subset. With `is_nested` each replication is a list of its turns."""

    def __init__(self, out, by_subset=False, is_compact=False, is_nested=False):
        self.out, self.by_subset, self.is_compact, self.is_nested = out, by_subset, is_compact, is_nested
        self.comma = "," if is_compact else ", "

    def dumped(self, head):
        """The JSON of the entries of a dict."""
        return json.dumps(head, separators=(",", ":") if self.is_compact else None)[1:-1]

    def key(self, name):
        return f'{self.comma}"{name}":' + " " * (not self.is_compact)

    def subset(self, head, count, fields):
        self.out.write(f'{{{head}{self.key("subset")}{count}{self.key("fields")}[{self.comma.join(fields)}]}}\n')

    def message(self, head, subsets):
        text = self.comma.join([f'[{self.comma.join(fields)}]' for fields in subsets])
        self.out.write(f'{{{head}{self.key("subsets")}[{text}]}}\n')


class Messages:
    """The messages of a listing, read line by line. Of a message `head` has its sections, and `subsets` the JSON of each field. `kept`
    has the JSON of lines whose fields can be put by `append` as they are."""

    def __init__(self, tables, writer, listed):
        self.tables, self.writer, self.listed = tables, writer, listed
        self.made, self.fields = {}, None
        self.head = self.subsets = None
        self.count = 0
        self.kept, self.append = {}, None
        # the sections by the lines that have them, and the JSON of sections by all their lines
        self.sections, self.heads, self.head_lines = {}, {}, []

    def of(self, version):
        """The fields under the tables of a version."""
        tables = self.tables.of(version)
        if tables not in self.made:
            self.made[tables] = Fields(tables, self.writer.is_compact)
        return self.made[tables]

    def read(self):
        """Reads all lines, and returns how many there are."""
        number = 0
        for number, octets in enumerate(self.listed.raw(), 1):
            said = self.kept.get(octets)
            if said is None:
                self.take(number, decoded(octets), octets)
            else:
                self.append(said)
        return number

    def take(self, number, line, octets):
        first = line[:1]
        if first.isdigit():
            if not self.subsets:
                raise bad(number)
            said = self.fields.json_of(number, line, octets)
            self.subsets[-1].append((said, line, number) if self.writer.is_nested else said)
        elif line == "subset":
            if self.head is None or "descriptors" not in self.head:
                raise bad(number)
            self.end_subset()
            self.subsets.append([])
            if not self.writer.is_nested:
                self.kept, self.append = self.fields.kept, self.subsets[-1].append
        elif line == "end":
            self.end(number)
        elif line == "message":
            if self.head is not None:
                raise bad(number)
            self.head, self.subsets, self.count, self.head_lines = {}, [], 0, []
            self.fields = None
        elif first not in ("", "#"):
            if self.head is None or self.subsets:
                raise bad(number)
            if line not in self.sections:
                if len(self.sections) == MOST_KEPT:
                    self.sections.clear()
                self.sections[line] = self.section(number, line.split(" "))
            self.head.update(self.sections[line])
            self.head_lines.append(line)
            if line.startswith("section1 "):
                self.fields = self.of(line.split(" ")[7])
            elif self.fields is None and line.startswith("descriptors"):
                self.fields = self.of("46")

    def section(self, number, words):
        """What a line before the first subset says, by its name in the JSON."""
        word, rest = words[0], words[1:]
        names = {"section1": SECTION_1, "time": TIME}.get(word)
        if names:
            if len(rest) != len(names) or not all(part.isdigit() for part in rest):
                raise bad(number)
            return {word: dict(zip(names, map(int, rest)))}
        if word in ("local1", "section2") and len(rest) <= 1:
            return {word: rest[0].lower() if rest else ""}
        if word == "flags":
            return {"observed": "observed" in rest, "compressed": "compressed" in rest}
        if word == "descriptors":
            return {"descriptors": rest}
        raise bad(number)

    def said(self):
        """The JSON of the sections, with the file and the place of the message."""
        lines = tuple(self.head_lines)
        if lines not in self.heads:
            if len(self.heads) == MOST_KEPT:
                self.heads.clear()
            self.heads[lines] = self.writer.dumped(self.head)
        if self.listed.file is None:
            return self.heads[lines]
        where = self.writer.dumped({"file": self.listed.file, "place": self.listed.place})
        return f"{where}{self.writer.comma}{self.heads[lines]}"

    def end_subset(self):
        """Makes the levels of the last subset, if there is one, and writes it if subsets are written."""
        if self.subsets and self.writer.is_nested:
            self.subsets[-1] = nested(self.fields.tables, self.head["descriptors"], self.subsets[-1], self.writer.comma)
        if self.subsets and self.writer.by_subset:
            self.count += 1
            self.writer.subset(self.said(), self.count, self.subsets.pop())

    def end(self, number):
        if self.head is None or "descriptors" not in self.head:
            raise bad(number)
        self.end_subset()
        if not self.writer.by_subset:
            self.writer.message(self.said(), self.subsets)
        self.head = self.subsets = None
        self.kept = {}


def nested(tables, descriptors, fields, comma):
    """The JSON of fields, with a list of its turns for each replication of the template."""
    at, count = 0, 0
    top = items = []
    # what surrounds each replication that is open, and its turns that are whole; items is None before its first turn
    around = []
    for each in tables.marked(descriptors, lambda _factor: count):
        if each is bufr_tables.BEGIN:
            around.append((items, []))
            items = None
        elif each is bufr_tables.TURN or each is bufr_tables.END:
            if items is not None:
                around[-1][1].append(f"[{comma.join(items)}]")
            items = []
            if each is bufr_tables.END:
                items, turns = around.pop()
                items.append(f"[{comma.join(turns)}]")
        else:
            if at == len(fields):
                raise Fault(f"line {fields[-1][2] + 1 if fields else 0}: the descriptors ask for {each.descriptor} here")
            said, line, number = fields[at]
            if line[:6] != each.descriptor:
                raise Fault(f"line {number}: the descriptors ask for {each.descriptor} here")
            if each.is_factor:
                count = int(line[7:]) if line[7:].isdigit() else 0
            items.append(said)
            at += 1
    if at < len(fields):
        raise Fault(f"line {fields[at][2]}: the descriptors ask for no field here")
    return top


def main():
    parser = parser_of("to-json", __doc__)
    parser.add_argument("--lines", action="store_true", help="one object for each subset")
    parser.add_argument("--nested", action="store_true", help="each replication is a list of its turns, and each turn a list of "
                        "fields and replications")
    parser.add_argument("--compact", action="store_true", help="a field is a list of its descriptor and its value, without name "
                        "and unit")
    add_input(parser, "file", "a BUFR file or a listing (standard input: -)")
    arguments = parser.parse_args()
    tables = bufr_tables.TablesByVersion.chosen(arguments)
    listed = Listed(parser.prog, arguments.file, tables.paths, arguments.quiet)
    messages = Messages(tables, Writer(sys.stdout, arguments.lines, arguments.compact, arguments.nested), listed)
    number = messages.read()
    if messages.head is not None:
        raise Fault(f"the listing ends within a message, after line {number}")
    return listed.status()


command = entry("to-json", main)
