"""What the commands share: their names, their outputs and their ends. It loads nothing that takes long."""
import os
import sys

from .errors import BufrError, Ended, Fault
from .processes import tell_of_ends


def called(name):
    """The name of a command, under which it is installed."""
    return f"bufr-{name}"


def listing_out():
    """Standard output for a listing, of which each character is an octet. One that is none is escaped, as of a name in a table."""
    return open(sys.stdout.fileno(), "w", encoding="latin-1", errors="backslashreplace", newline="\n", closefd=False)


def run(name, main):
    """Runs a command's `main`, which answers a status. A fault is one line and status 2; a reader that went
    away ends the command quietly."""
    sys.stdout.reconfigure(errors="surrogateescape")
    tell_of_ends()
    try:
        status = main()
        sys.stdout.flush()
    except (Fault, BufrError) as fault:
        sys.stderr.write(f"{name}: {fault}\n")
        status = 2
    except Ended as ended:
        status = ended.status
    except BrokenPipeError:
        os.dup2(os.open(os.devnull, os.O_WRONLY), sys.stdout.fileno())
        status = 2
    except OSError as error:
        sys.stderr.write(f"{name}: {error.strerror or error}\n")
        status = 2
    except KeyboardInterrupt:
        status = 130
    sys.exit(status)


def entry(name, main):
    """The function that runs a command, by its name."""
    return lambda: run(called(name), main)
