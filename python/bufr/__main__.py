#!/usr/bin/env -S python3 -S
"""Runs a command of the package: the one by whose name a link leads here, as annotate or bufr-annotate, or else the one that
the first word names:

    python3 -m bufr annotate LISTING"""
import gc
import os
import sys

COMMANDS = ("annotate", "by-version", "collect-slurm", "from-csv", "from-json", "geojson", "lint", "map", "report",
            "skeleton", "summary", "to-json")
DRAWING = ("map", "report")

if not __package__:
    # run as a file: the package is the folder that has it, and nothing is written there
    sys.dont_write_bytecode = True
    here = os.path.dirname(os.path.realpath(__file__))
    sys.path = [os.path.dirname(here), *(path for path in sys.path if path != here)]
    import bufr
    del sys.path[0]


def main():
    name = os.path.basename(sys.argv[0]).removeprefix("bufr-")
    if name not in COMMANDS:
        name = sys.argv.pop(1) if len(sys.argv) > 1 else ""
    if name not in COMMANDS:
        sys.exit(f"usage: python3 -m bufr COMMAND ..: a COMMAND is one of {', '.join(COMMANDS)}")
    # what is loaded leaves nothing to collect
    gc.disable()
    __import__("bufr." + name.replace("-", "_"))
    gc.enable()
    try:
        sys.modules["bufr." + name.replace("-", "_")].command()
    except SystemExit as end:
        if name in DRAWING:
            raise
        # the others need nothing of what Python does at its end, which takes long
        try:
            sys.stdout.flush()
            sys.stderr.flush()
        except OSError:
            raise end from None
        os._exit(end.code)


if __name__ == "__main__":
    main()
