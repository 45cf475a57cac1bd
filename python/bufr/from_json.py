"""Reads JSON as bufr-to-json writes it, an object a line for each message or for each subset, and writes the listing, for `bufr
encode`. Each octet of the listing that bufr-to-json read comes back, but for lines with `#`. Names, units, files and places are
not read. Messages without a subset are not in what `bufr-to-json --lines` writes."""
import json
import sys

from . import tables as bufr_tables
from .commands import entry
from .errors import Fault
from .parsers import add_input, parser_of
from .progress import InputsProgress
from .to_json import NUMBER, SECTION_1, TIME


class Number(str):
    """A number with its digits."""


# How each character of a text is spelt.
SPELT = {code: f"\\{code:02x}" for code in range(256) if not 32 <= code <= 126 or chr(code) in '"\\'}


def value_of(value):
    """A value as listings spell it."""
    if value is None:
        return "missing"
    if isinstance(value, Number):
        if not NUMBER.fullmatch(value):
            raise ValueError(f"the number {value} is not spelt as listings spell one")
        return value
    if not isinstance(value, str):
        raise ValueError(f"{json.dumps(value)} is no value of a field")
    if value and max(value) > "\xff":
        raise ValueError(f"the text {json.dumps(value)} has a character that is no octet")
    return f'"{value.translate(SPELT)}"'


def field_lines(items):
    """The lines of fields, also of those in replications."""
    for item in items:
        if isinstance(item, dict):
            found = item.get("descriptor"), item.get("value", ...)
        elif isinstance(item, list) and len(item) == 2 and isinstance(item[0], str) and not isinstance(item[0], Number):
            found = item
        elif isinstance(item, list):
            for turn in item:
                if not isinstance(turn, list):
                    raise ValueError("a replication is no list of turns")
                yield from field_lines(turn)
            continue
        else:
            raise ValueError(f"{json.dumps(item)} is no field")
        descriptor, value = found
        if not isinstance(descriptor, str) or len(descriptor) != 6 or not descriptor.isdigit() or value is ...:
            raise ValueError(f"a field has the descriptor {json.dumps(descriptor)}, or no value")
        yield f"{descriptor} {value_of(value)}"


def numbers(message, name, names):
    found = message.get(name)
    if not isinstance(found, dict) or any(not isinstance(found.get(each), Number) for each in names):
        raise ValueError(f"{name} has not the numbers {', '.join(names)}")
    return " ".join(found[each] for each in names)


def head_lines(message):
    yield "message"
    yield f"section1 {numbers(message, 'section1', SECTION_1)}"
    yield f"time {numbers(message, 'time', TIME)}"
    if "local1" in message:
        yield f"local1 {message['local1']}"
    if "section2" in message:
        yield f"section2 {message['section2']}".rstrip(" ")
    yield "flags" + "".join(f" {flag}" for flag in ("observed", "compressed") if message.get(flag) is True)
    descriptors = message.get("descriptors")
    if not isinstance(descriptors, list) or not all(isinstance(each, str) for each in descriptors):
        raise ValueError("descriptors is no list of texts")
    yield f"descriptors {' '.join(descriptors)}"


class Listings:
    """The listings of messages, of which the last is ended before the next one or at the end."""

    def __init__(self, out):
        self.out, self.is_open = out, False
        # what the subsets of a message have in common, and the number of its last one
        self.head, self.last = None, 0

    def put(self, lines):
        self.out.write("".join([f"{line}\n" for line in lines]))

    def take(self, message):
        if not isinstance(message, dict):
            raise ValueError("a line is no object")
        if "subset" in message:
            lines = ["subset", *field_lines(message.get("fields", []))]
            if not isinstance(message["subset"], Number) or not message["subset"].isdigit():
                raise ValueError("subset is no number")
            head, number = [*head_lines(message)], int(message["subset"])
            known = head, message.get("file"), message.get("place")
            if not self.is_open or known != self.head or number <= self.last:
                self.end()
                self.put(head)
                self.is_open, self.head = True, known
            self.last = number
            self.put(lines)
            return
        lines = list(head_lines(message))
        for subset in message.get("subsets", []):
            lines += ["subset", *field_lines(subset)]
        self.end()
        self.put([*lines, "end"])

    def end(self):
        if self.is_open:
            self.put(["end"])
        self.is_open = False


def parsed(line):
    """The value of a JSON text, in which a number is a Number."""
    return json.loads(line, parse_float=Number, parse_int=Number, parse_constant=Number)


def main():
    parser = parser_of("from-json", __doc__, has_tables=False)
    add_input(parser, "file", "the JSON (standard input: -)")
    arguments = parser.parse_args()
    listings = Listings(sys.stdout)
    progress, place = InputsProgress(parser.prog, [arguments.file], arguments.quiet), 0
    try:
        for number, line in bufr_tables.lines_of(arguments.file):
            if line.strip():
                try:
                    listings.take(parsed(line.encode("latin-1")))
                except (ValueError, RecursionError) as error:
                    raise Fault(f"line {number}: {error}") from error
            place += len(line) + 1
            progress.reached(0, place)
    finally:
        progress.end()
    listings.end()
    return 0


command = entry("from-json", main)
