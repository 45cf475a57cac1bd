"""Says what is in BUFR files: messages, the subsets that they announce and messages that are refused, by file, centre, category,
edition, version of the tables and descriptors; reports with and without a key, stations by kind, and the times of the messages and the reports.
It also tells the octets between messages, and of a file without a message what it is: packed, or text.

More than 4,000,000 octets have their data read by --data alone. Without it a message is refused for its sections and its descriptors,
reports and stations are not counted, and a message that is cut or broken is not found in a file that has others.

The status is 1 if a message was refused, if one is cut or broken, or if a file has octets and no message."""
import os
import sys

from .commands import called, entry
from .starting import start_all, start_early

TYPE_CHECKING = False
if TYPE_CHECKING:
    from .given import Files

# The most octets whose data are read unasked, which takes a second or so.
MOST_READ = 4_000_000


def read(files: "Files", tables=None, element=None, with_data=None, with_places=False, name="bufr", quiet=True, with_values=False,
         listers=()):
    """The contents of files and their reports, which are None if no data were read. `listers` are those that run."""
    is_read = files.octets <= MOST_READ if with_data is None else with_data
    if files.given and not is_read and not with_places:
        # bufr-ls runs while the rest is loaded
        listers = listers or start_all([each.path for each in files.given])
        from . import summary_text  # noqa: F401
        from .heads import Heads
        contents = Heads(files.given, tables)
        contents.read_heads(listers)
        return contents, None
    from .contents import Contents
    reports = None
    if is_read:
        from .subsets import Reports
        reports = Reports(with_values)
    contents = Contents(files.given, tables, name, quiet)
    contents.read(reports.take if reports else None, element)
    return contents, reports


def json_of(contents, reports, with_headings=False):
    """What was counted, as it is printed as JSON."""
    from .summary_json import json_of as made
    return made(contents, reports, with_headings)


def status_of(contents):
    """The status: 1 if a message is refused or something is lost."""
    return int(contents.all.refused > 0 or any(contents.losses))


class Plain:
    """What a call without options asks for. It needs no parser, which takes long to load."""

    b = d = tables = None
    data = headings = json = quiet = False

    def __init__(self, files):
        self.files = files


def parsed():
    """What the words of a call ask for."""
    from .parsers import add_inputs, parser_of
    parser = parser_of("summary", __doc__)
    parser.add_argument("--data", action="store_true", help="reads the data of any number of octets")
    parser.add_argument("--headings", action="store_true", help="also counts the abbreviated headings that come before messages")
    parser.add_argument("--json", action="store_true", help="prints one JSON object, with all rows")
    add_inputs(parser)
    return parser.parse_args()


def main():
    listers = start_early(sys.argv[1:], MOST_READ)
    try:
        return summarize(called("summary"), sys.argv[1:], listers)
    finally:
        for each in listers:
            each.end()


def summarize(name, words, listers):
    """Prints what is in files, and returns the status. `listers` run if the words are no options."""
    from .given import Files
    has_options = any(word.startswith("-") and word != "-" for word in words)
    arguments = parsed() if has_options else Plain(words or ["-"])
    paths = None
    if has_options or os.environ.get("BUFR_TABLES"):
        from .tables import TablesByVersion
        paths = TablesByVersion.chosen(arguments).paths
    with Files(arguments.files, name) as files:
        contents, reports = read(files, paths, with_data=arguments.data or None, with_places=arguments.headings, name=name,
                                 quiet=arguments.quiet, listers=listers)
        if arguments.json:
            import json
            print(json.dumps(json_of(contents, reports, arguments.headings)))
        else:
            from .summary_text import lines_of
            for line in lines_of(contents, reports, arguments.headings):
                print(line)
    return status_of(contents)


command = entry("summary", main)
