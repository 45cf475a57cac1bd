"""Reads a BUFR file, or a listing as `bufr show` prints it, and writes the listing with the names of what it has: above each
field a line `# NAME [UNIT]`, and above the line `descriptors` a line for each sequence that it has. The names are those of the
tables of each message, unless an option names others. What is written is still a listing, which `bufr encode` takes to the same
octets, since it passes over lines with `#`.

The status is 1 if a message was refused: standard error names each, and its line `# refused` is in the listing. Standard error
also tells the octets of messages that are cut or broken."""

from . import tables as bufr_tables
from .commands import entry, listing_out
from .inputs import Listed
from .parsers import add_input, parser_of


def comment(text):
    """A line that is passed over. The listing's octets are written as they are, a name in UTF-8."""
    octets = " ".join(text.split()).encode("utf-8", "replace")
    return f"# {octets.decode('latin-1')}\n"


class Notes:
    """The line above each field by its descriptor, made once for each pair of tables."""

    def __init__(self, tables):
        self.tables = tables
        self.lines = {}

    def above(self, descriptor):
        line = self.lines.get(descriptor)
        if line is None:
            unit = self.tables.unit(descriptor)
            line = comment(self.tables.name(descriptor) + (f" [{unit}]" if unit else ""))
            self.lines[descriptor] = line
        return line

    def above_descriptors(self, words):
        """A line for each sequence, once for one that comes several times."""
        sequences = dict.fromkeys(word for word in words if word.startswith("3"))
        return "".join(comment(f"{word}: {self.tables.title(word)}") for word in sequences)


class NotesByVersion:
    """The notes of each version."""

    def __init__(self, tables):
        self.tables, self.made = tables, {}

    def of(self, word="46"):
        tables = self.tables.of(word)
        if tables not in self.made:
            self.made[tables] = Notes(tables)
        return self.made[tables]


def main():
    parser = parser_of("annotate", __doc__)
    add_input(parser, "file", "a BUFR file or a listing (standard input: -)")
    arguments = parser.parse_args()
    tables = bufr_tables.TablesByVersion.chosen(arguments)
    listed = Listed(parser.prog, arguments.file, tables.paths, arguments.quiet)
    made, notes = NotesByVersion(tables), None
    out = listing_out()
    for line in listed:
        if line[:1].isdigit():
            notes = notes or made.of()
            out.write(notes.above(line[:6]))
        elif line.startswith("section1 "):
            notes = made.of((line.split(" ") + ["46"] * 8)[7])
        elif line.startswith("descriptors "):
            notes = notes or made.of()
            out.write(notes.above_descriptors(line.split(" ")[1:]))
        out.write(line + "\n")
    out.flush()
    return listed.status()


command = entry("annotate", main)
