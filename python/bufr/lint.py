"""Reads a listing, and says for each bad line what is wanted there and what was found: the element with its unit, the digits after
the point, the least and the greatest value, or the length of a text. It reads each message under the tables of its version, unless
an option names others. After a line that is another than the one that is wanted, it goes on with the next message. It looks at lines
alone: bufr encode may still refuse a message of good lines, by E2 if its subsets cannot be compressed, or by E3 if it is too long.

It also warns if section 1 still has what bufr-skeleton puts there: the centre 0, or the time 2000-01-01 00:00:00. With --set-time
it writes the listing with the time of each message from the fields 004001 to 004006 of its first subset, and says the rest on
standard error.

The status is 1 if a line is bad."""
import os
import re
import sys

from . import tables as bufr_tables
from . import wanted
from .commands import entry, listing_out
from .errors import Fault
from .inputs import Listed
from .parsers import add_input, parser_of
from .to_json import SECTION_1, TIME

WORDS = re.compile(r"\d+(?: \d+)*")
GREATEST = {"section1": (65535, 65535, 255, 255, 255, 255, 255, 255), "time": (65535, 255, 255, 255, 255, 255)}
NAMES = {"section1": SECTION_1, "time": TIME}
SECTION_LINES = ("section1", "time", "local1", "section2", "flags", "descriptors")
FLAGS = ("flags", "flags observed", "flags compressed", "flags observed compressed")


class Bad(Exception):
    """A line that is another than the one that is wanted: the rest of its message is passed over."""


class Message:
    """What is known of the message at hand: its lines that came, what its subset still asks for, and its time by its fields."""

    def __init__(self, number):
        self.number, self.section, self.tables, self.descriptors = number, 0, None, None
        self.fields, self.wanted, self.count, self.is_off = None, None, 0, False
        self.words, self.time_line, self.moment, self.subsets = {}, None, {}, 0


class Linter:
    """Judges the lines of listings, one after the other. With `sets_time` the time of each message is set by its fields."""

    def __init__(self, tables, say, sets_time=False):
        self.tables, self.say, self.sets_time = tables, say, sets_time
        self.bad = 0
        self.message, self.is_stray = None, False

    def fault(self, number, text):
        self.bad += 1
        self.say(number, text)

    def take(self, number, line):
        """Judges a line."""
        if line[:1] == "#" or not line:
            return
        if self.message is None:
            if line == "message":
                self.message, self.is_stray = Message(number), False
            elif not self.is_stray:
                self.fault(number, f"wanted the line message; found {line}")
                self.is_stray = True
            return
        message = self.message
        if line == "message" and message.is_off:
            self.message = Message(number)
            return
        if message.is_off:
            if line == "end":
                self.message = None
            return
        try:
            if message.section < len(SECTION_LINES):
                self.section(number, line)
            else:
                self.subset(number, line)
        except Bad as bad:
            self.fault(number, f"wanted {bad}; found {line}")
            message.is_off = True
            if line == "message":
                self.message = Message(number)
            elif line == "end":
                self.message = None

    def section(self, number, line):
        """A line before the first subset."""
        message = self.message
        word, _, rest = line.partition(" ")
        here = SECTION_LINES[message.section]
        while here in ("local1", "section2") and word != here:
            message.section += 1
            here = SECTION_LINES[message.section]
        if word != here:
            raise Bad(f"the line {here}")
        message.section += 1
        if word in NAMES:
            self.numbers(number, word, rest)
        elif word in ("local1", "section2"):
            if not re.fullmatch(r"(?:[0-9a-fA-F]{2})*", rest) or word == "local1" and not rest:
                self.fault(number, f"wanted two hexadecimal digits for each octet; found {rest}")
        elif word == "flags":
            if line not in FLAGS:
                self.fault(number, f"wanted one of {', '.join(FLAGS)}; found {line}")
        else:
            self.template(number, rest)

    def numbers(self, number, word, rest):
        """The numbers of section1 or time."""
        names, words = NAMES[word], rest.split(" ")
        if len(words) != len(names):
            raise Bad(f"{len(names)} numbers after {word} ({', '.join(names)})")
        for name, most, found in zip(names, GREATEST[word], words):
            if not re.fullmatch("0|[1-9][0-9]*", found) or int(found) > most:
                self.fault(number, f"{name}: wanted a number from 0 to {most}; found {found}")
        self.message.words[word] = words
        if word == "section1":
            try:
                self.message.tables = self.tables.of(words[6])
            except Fault as fault:
                raise Bad(f"a master table version that tables here read ({fault})") from fault
        else:
            self.message.time_line = number

    def template(self, number, rest):
        message = self.message
        message.descriptors = rest.split(" ")
        try:
            for each in message.descriptors:
                if not re.fullmatch(r"[0-3][0-9]{5}", each) or int(each[1:3]) > 63 or int(each[3:]) > 255:
                    raise Bad("descriptors of six digits FXXYYY")
            # each factor is met once
            for _ in message.tables.marked(message.descriptors, lambda _factor: 1):
                pass
        except Fault as fault:
            raise Bad(f"descriptors that have a template ({fault})") from fault

    def next_field(self):
        """The next field that the subset asks for, or nothing."""
        message = self.message
        message.wanted = next(message.fields, None) if message.fields else None

    def subset(self, number, line):
        """A line of a subset, or the end of one."""
        message = self.message
        if line in ("subset", "end"):
            if message.wanted is not None:
                raise Bad(f"{message.wanted.descriptor} {wanted.named(message.wanted)}: {wanted.wanted(message.wanted)}")
            if line == "end":
                self.end()
                return
            message.subsets += 1
            message.fields = message.tables.fields(message.descriptors, lambda _factor: message.count)
            self.next_field()
            return
        field = message.wanted
        if field is None:
            raise Bad("the line subset or end")
        if line[:7] != f"{field.descriptor} ":
            raise Bad(f"{field.descriptor} {wanted.named(field)}: {wanted.wanted(field)}")
        value = line[7:]
        why = wanted.fault(field, value)
        if why:
            self.fault(number, f"{field.descriptor} {wanted.named(field)}: wanted {wanted.wanted(field)}; found {value}: {why}")
        elif message.subsets == 1 and "004001" <= field.descriptor <= "004006":
            message.moment.setdefault(field.descriptor, value)
        if field.is_factor:
            if why:
                # how often its body comes is not known
                message.is_off = True
                return
            message.count = int(value)
        self.next_field()

    def end(self):
        """Warns of what a skeleton has."""
        message, self.message = self.message, None
        if message.words.get("section1", [""])[0] == "0":
            self.say(message.number, "warning: the originating centre is 0: write the centre that makes the message")
        if message.words.get("time") != "2000 1 1 0 0 0".split(" ") or self.sets_time and moment_of(message):
            return
        said = "warning: the time is 2000-01-01 00:00:00"
        self.say(message.time_line, f"{said}, and the fields 004001 to 004004 of the first subset have no other: write that of the data"
                 if self.sets_time else f"{said}: write that of the data, or call bufr-lint --set-time")

    def finish(self, number):
        if self.message is not None and not self.message.is_off:
            self.fault(number + 1, "wanted the rest of the message; found the end of the listing")


def moment_of(message):
    """The line time of a message by the fields of its first subset, if these have a date and an hour."""
    found = [message.moment.get(f"00400{part}", "missing") for part in range(1, 7)]
    if any(not word.isdigit() for word in found[:4]) or any(word.startswith("-") for word in found):
        return None
    return "time " + " ".join(word if word.isdigit() else "0" for word in found)


class Timed:
    """Writes a listing whose messages have the time of their fields."""

    def __init__(self, out):
        self.out, self.held, self.at = out, [], None

    def take(self, line, before, after):
        """A line, with the message that it was read in, and the one that is at hand after it."""
        self.held.append(line)
        if line.startswith("time ") and before is not None:
            self.at = len(self.held) - 1
        if before is not None and after is None:
            said = moment_of(before)
            if said and self.at is not None:
                self.held[self.at] = said
        if after is None:
            self.flush()

    def flush(self):
        self.out.write("".join(f"{line}\n" for line in self.held))
        self.held, self.at = [], None


def main():
    parser = parser_of("lint", __doc__)
    parser.add_argument("--set-time", action="store_true", help="writes the listing, with the time of each message from its fields")
    add_input(parser, "listing", "the listing (standard input: -)")
    arguments = parser.parse_args()
    listed = Listed(parser.prog, arguments.listing, None, arguments.quiet)
    if not listed.is_listing:
        raise Fault(f"{arguments.listing} is no listing")
    listed.is_told = False
    out = listing_out()
    # each character of a listing is an octet, so those of the name are too
    said, name = (sys.stderr, arguments.listing) if arguments.set_time else (out, os.fsencode(arguments.listing).decode("latin-1"))
    linter = Linter(bufr_tables.TablesByVersion.chosen(arguments),
                    lambda number, text: said.write(f"{name}:{number}: {text}\n"), arguments.set_time)
    timed = Timed(out) if arguments.set_time else None
    number = 0
    for number, line in enumerate(listed, 1):
        before = linter.message
        linter.take(number, line)
        if timed:
            timed.take(line, before, linter.message)
    linter.finish(number)
    if timed:
        timed.flush()
    out.flush()
    return int(linter.bad > 0)


command = entry("lint", main)
