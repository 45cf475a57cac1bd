"""What the commands share that read CSV files: how they decode them, and the numbers of stations. Python 3 with its standard library
alone."""
import codecs
import re

WMO = re.compile(r"0-20000-0-(\d{5})|(\d{4,5})(?:\.0)?", re.A)


def as_windows(error):
    """Decodes octets that are not UTF-8 as Windows-1252, in which Excel writes its ordinary CSV."""
    if not isinstance(error, UnicodeDecodeError):
        raise error
    return error.object[error.start:error.end].decode("cp1252", "replace"), error.end


codecs.register_error("bufr.windows", as_windows)


def open_csv(path):
    """Opens a CSV file, whose octets are UTF-8 or Windows-1252. `-` is standard input."""
    return open(0 if path == "-" else path, encoding="utf-8-sig", errors="bufr.windows", newline="", closefd=path != "-")


def wmo_number(word):
    """The five digits IIiii of a WMO station, of a number that may have lost its zero or have .0 at its end, or of a WIGOS identifier;
    nothing of other words."""
    found = WMO.fullmatch(word)
    return found and (found[1] or found[2].zfill(5))
