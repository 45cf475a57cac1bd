"""Prints the listing of one message with every field `missing`, for you to fill in and hand to `bufr encode`. The fields are those
that the descriptors ask for under the tables, of version 46 unless an option names others. A field that cannot be missing has a
number: the factor of a delayed replication its count, a field of one bit 0. With --notes a line above each field says what it
wants; bufr-lint says what is wrong with a listing that was filled in."""
import argparse
import re
import sys

from . import tables as bufr_tables
from . import wanted
from .commands import entry
from .errors import Fault
from .parsers import parser_of


def counts_of(text):
    """The counts that an option names, in order."""
    if not re.fullmatch(r"\d+(,\d+)*", text):
        raise argparse.ArgumentTypeError("counts are numbers parted by commas, as 2,0,3")
    return [int(word) for word in text.split(",")]


def descriptor_of(text):
    if not re.fullmatch(r"\d{6}", text):
        raise argparse.ArgumentTypeError(f"{text} is no descriptor: six digits FXXYYY")
    if int(text[0]) > 3 or int(text[1:3]) > 63 or int(text[3:]) > 255:
        raise argparse.ArgumentTypeError(f"{text} is no descriptor: F is 0 to 3, XX 0 to 63, YYY 0 to 255")
    return text


def positive(text):
    if not re.fullmatch(r"[0-9]+", text) or int(text) < 1:
        raise argparse.ArgumentTypeError(f"{text} is not a number from 1 on")
    return int(text)


def subset_lines(tables, descriptors, counts, notes=False):
    """The lines of one subset. The counts are taken from the front as factors are met; after the last one a factor is 1. With
    notes a line above each field says its element and what it wants."""
    left = list(counts)
    met = []

    def count_of(_field):
        return met[-1]

    for field in tables.fields(descriptors, count_of):
        if notes:
            yield f"# {wanted.named(field)}: {wanted.wanted(field)}"
        if field.is_factor:
            met.append(left.pop(0) if left else 1)
            if met[-1] >= 1 << field.width:
                raise Fault(f"a count of {met[-1]} does not fit {field.descriptor}")
            yield f"{field.descriptor} {met[-1]}"
        elif field.width == 1:
            yield f"{field.descriptor} 0"
        else:
            yield f"{field.descriptor} missing"
    if left:
        raise Fault(f"{len(met)} counts are asked for, {len(counts)} are given")


def version_named(arguments, path):
    """The version of the master tables in section 1: the one that was asked for, or that of a file of tables by its name."""
    found = re.search(r"_(\d+)\.csv$", path)
    asked = "" if arguments.b else bufr_tables.chosen_version(arguments)
    return int(asked or (found[1] if found and arguments.b else 46))


def main():
    parser = parser_of("skeleton", __doc__, formatter=argparse.HelpFormatter)
    parser.add_argument("--counts", type=counts_of, default=[], metavar="N,N,..", help="how often the bodies "
                        "of the delayed replications come, in the order of their factors; 1 after the last")
    parser.add_argument("--subsets", type=positive, default=1, metavar="N", help="how many subsets (1)")
    parser.add_argument("--compressed", action="store_true", help="with the flag for compressed data")
    parser.add_argument("--centre", default="0 0", metavar="'CENTRE SUB_CENTRE'",
                        help="originating centre and sub-centre ('0 0')")
    parser.add_argument("--category", default="0 0 0", metavar="'CATEGORY INTERNATIONAL LOCAL'",
                        help="data category and sub-categories ('0 0 0')")
    parser.add_argument("--time", default="2000 1 1 0 0 0", metavar="'YEAR MONTH DAY HOUR MINUTE SECOND'",
                        help="the time of section 1 ('2000 1 1 0 0 0')")
    parser.add_argument("--notes", action="store_true", help="above each field what it wants")
    parser.add_argument("descriptors", nargs="+", type=descriptor_of, metavar="DESCRIPTOR",
                        help="a descriptor of section 3, six digits FXXYYY")
    arguments = parser.parse_args()
    for words, count in ((arguments.centre, 2), (arguments.category, 3), (arguments.time, 6)):
        if not re.fullmatch(r"\d+( \d+){%d}" % (count - 1), words):
            raise Fault(f"'{words}' is not {count} numbers parted by spaces")
    paths = bufr_tables.chosen_paths(arguments)
    lines = list(subset_lines(bufr_tables.Tables(*paths), arguments.descriptors, arguments.counts, arguments.notes))
    out = ["message"]
    if arguments.notes and arguments.centre.split(" ")[0] == "0":
        out.append("# the first number is the originating centre: write yours, or name it by --centre")
    out.append(f"section1 {arguments.centre} 0 {arguments.category} {version_named(arguments, paths[0])} 0")
    if arguments.notes and arguments.time == "2000 1 1 0 0 0":
        out.append("# the time of the data: write it, name it by --time, or call bufr-lint --set-time when the fields have it")
    out += [f"time {arguments.time}", "flags observed" + " compressed" * arguments.compressed,
            "descriptors " + " ".join(arguments.descriptors)]
    sys.stdout.write("\n".join(out) + "\n")
    for _ in range(arguments.subsets):
        sys.stdout.write("\n".join(["subset", *lines]) + "\n")
    sys.stdout.write("end\n")
    return 0


command = entry("skeleton", main)
