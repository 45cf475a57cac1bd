"""The parsers of the commands: what several of them ask for."""
import argparse

from . import __version__
from .commands import called


def parser_of(name, text, has_tables=True, formatter=argparse.RawDescriptionHelpFormatter):
    """The parser of a command, with what the command does and the options that all have, or all that take tables."""
    parser = argparse.ArgumentParser(prog=called(name), description=text, formatter_class=formatter)
    parser.add_argument("--version", action="version", version=f"{parser.prog} {__version__}")
    if has_tables:
        parser.add_argument("-b", metavar="TABLE_B", help="the CSV file of Table B")
        parser.add_argument("-d", metavar="TABLE_D", help="the CSV file of Table D")
        parser.add_argument("--tables", metavar="VERSION", help="the version of the tables if neither -b nor -d is "
                            "given, from 0 to 46 (the variable BUFR_TABLES, or else that of each message)")
    return parser


def add_quiet(parser, what="how far it is"):
    """Adds the option that stops what is said on the way."""
    parser.add_argument("--quiet", action="store_true", help=f"does not say {what}")


def add_input(parser, word, said):
    """Adds the only input of a command, which is standard input if none is named."""
    add_quiet(parser)
    parser.add_argument(word, nargs="?", default="-", metavar=word.upper(), help=said)


def add_inputs(parser, said="BUFR files (standard input: -)"):
    """Adds the inputs of a command, or standard input if none is named."""
    add_quiet(parser)
    parser.add_argument("files", nargs="*", default=["-"], metavar="FILE", help=said)
