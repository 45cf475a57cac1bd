"""Draws the positions of the reports of BUFR files on a map with coastlines: each station, and each position without one, coloured by
how many reports it has; with --element each report, coloured by the value of its first field with that descriptor, of a sounding that of its first level. A
report is a subset; its position is its first latitude and longitude. The title says how many reports are drawn, and why not all.

It needs matplotlib, cartopy and its coastlines (Debian: python3-matplotlib, python3-cartopy, python-cartopy-data). If this Python lacks
them and /usr/bin/python3 has them, that one draws. Nothing is downloaded.

The status is 1 if a message was refused: standard error names each, and tells what is skipped."""
import io
import os
import sys

from . import drawing, summary, summary_text
from . import tables as bufr_tables
from .commands import entry
from .errors import Fault
from .given import Files
from .parsers import add_inputs, parser_of

KINDS = ("png", "svg", "pdf")


class Chosen:
    """The element that a map shows: what a report has of it, and its name with its unit."""

    def __init__(self, word, paths):
        from .reading import columns_of
        from .subsets import Element
        column = columns_of([word], paths)[0]
        if not column.word[:1].isdigit():
            raise Fault(f"--element is a descriptor or the name of an element, not {word}")
        self.word = column.word.replace(" ", " or ") + (f"; these have its name in theirs: {column.near}" if column.near else "")
        descriptors = column.word.split(" ")
        self.element = Element(tuple(each.encode() for each in descriptors), column.number or 1)
        tables = bufr_tables.TablesByVersion(paths).of()
        name, unit = tables.name(descriptors[0]), tables.unit(descriptors[0])
        self.label = f"{descriptors[0]} {name}{f' [{unit}]' if unit else ''}"


def kind_of(path):
    """The kind of a picture by the end of its name."""
    kind = path.rpartition(".")[2].lower()
    if kind not in KINDS:
        raise Fault(f"{path} ends in none of .png, .svg and .pdf")
    return kind


def title_of(reports):
    """How many reports a map has of how many stations, how many reports have no station, and when they are of."""
    total = reports.with_key + reports.without_key
    nameless = total - sum(each.reports for each in reports.stations.values())
    beside = f" and {plural(nameless, 'report')} without a station" if nameless else ""
    when = summary_text.span(*(each and each.isoformat(" ", "minutes") for each in (reports.first, reports.last)))
    return f"{plural(total, 'report')}, {plural(len(reports.stations), 'station')}{beside}, {when}"


def drawn_of(reports, points, is_count):
    """How many reports of a map are drawn, at how many positions, and why not all."""
    total = reports.with_key + reports.without_key
    drawn = sum(count for *_, count in points) if is_count else len(points)
    at = f" at {plural(len({point[:2] for point in points}), 'position')}"
    left = total - drawn if is_count else reports.without_position
    why = [f"; {left:,} {'has' if left == 1 else 'have'} no position"] * (left > 0)
    if not is_count and reports.without_value:
        why.append(f"; {reports.without_value:,} {'has' if reports.without_value == 1 else 'have'} no value")
    return f"{drawn:,} of {total:,} drawn{at}{''.join(why)}"


def plural(count, word):
    return f"{count:,} {word}{'s' * (count != 1)}"


def tell(name, contents):
    """Tells on standard error what is refused and what is skipped."""
    for each in contents.refusals:
        sys.stderr.write(f"{name}: {each.file}: refused {each.place} {each.reason}\n")
    for file, losses in zip(contents.files, contents.losses):
        for loss in losses:
            sys.stderr.write(f"{name}: {file.name}: skipped {loss.length} octets at {loss.place}: {loss.why}\n")


def write_whole(path, octets):
    """Writes a file under another name, and puts it in its place whole; what is no regular file is written itself."""
    try:
        written = path if os.path.exists(path) and not os.path.isfile(path) else f"{path}.{os.getpid()}.new"
        with open(written, "wb") as file:
            file.write(octets)
        if written != path:
            os.replace(written, os.path.realpath(path))
    except OSError as error:
        raise Fault(f"cannot write {path}: {error.strerror}") from error


def main():
    parser = parser_of("map", __doc__)
    parser.add_argument("-o", metavar="OUT", required=True, help="the map that is written: a name that ends in .png, .svg or .pdf")
    parser.add_argument("--element", metavar="WORD", help="colours by this element: a descriptor, as 012101, or a name in Table B")
    add_inputs(parser)
    arguments = parser.parse_args()
    kind = kind_of(arguments.o)
    drawing.run_by_debian("map")
    paths = bufr_tables.TablesByVersion.chosen(arguments).paths
    with Files(arguments.files, parser.prog) as files:
        drawing.need(parser.prog)
        chosen = Chosen(arguments.element, paths) if arguments.element else None
        contents, reports = summary.read(files, paths, chosen and chosen.element, True, name=parser.prog, quiet=arguments.quiet,
                                         with_values=chosen is not None)
    tell(parser.prog, contents)
    points = reports.values if chosen else reports.counts()
    if not points:
        raise Fault("no report has a position" + (f" and a value of {chosen.word}" if chosen else ""))
    out = io.BytesIO()
    drawn = drawn_of(reports, points, not chosen)
    drawing.draw(out, kind, points, chosen.label if chosen else "reports", f"{title_of(reports)}\n{drawn}", not chosen)
    write_whole(arguments.o, out.getvalue())
    print(f"{arguments.o}: {title_of(reports)}; {drawn}")
    return int(contents.all.refused > 0)


command = entry("map", main)
