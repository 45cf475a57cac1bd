"""Octets of messages, and archives."""
from __future__ import annotations

import os
import tempfile
import time
from decimal import Decimal, InvalidOperation
from typing import Any, Callable, Dict, Iterable, Iterator, List, Mapping, NamedTuple, Optional, Tuple, Union

from . import wanted
from .errors import BufrError, Fault
from .from_json import SPELT
from .progress import positions
from .shown import PathLike, Running, TablesLike, files_of, paths_of, words_of
from .tables import TablesByVersion
from .to_json import SECTION_1, TIME

Progress = Callable[[int, int], Any]


def encode(messages: Iterable[Mapping[str, Any]], tables: TablesLike = None, *, compressed: bool = False) -> bytes:
    """
    Encode messages.

    Parameters
    ----------
    messages : iterable of dict
        Messages as :func:`bufr.messages` gives them. Of a field its ``descriptor`` and its ``value`` are read; a text that is
        shorter than its field is filled with spaces, and NaN is missing.
    tables : int or pair of paths, optional
        As of :func:`bufr.rows`.
    compressed : bool, default False
        Write every message with compressed data.

    Returns
    -------
    bytes
        The octets that ``bufr encode`` writes.

    Raises
    ------
    BufrError
        With what a field wants and what it has, or with the line of the program.
    """
    paths = paths_of(tables)
    by_version = TablesByVersion(paths)
    with tempfile.NamedTemporaryFile("w", encoding="latin-1", newline="\n", suffix=".txt") as listing:
        for number, message in enumerate(messages, 1):
            try:
                listing.write("".join(f"{line}\n" for line in _lines(message, by_version)))
            except (BufrError, Fault) as error:
                raise BufrError(f"message {number}: {error}") from None
            except (KeyError, TypeError, AttributeError, UnicodeEncodeError) as error:
                raise BufrError(f"message {number} is no message: {type(error).__name__} {error}") from None
        listing.flush()
        running = Running([*words_of("encode", paths), *["--compressed"] * compressed, "--", listing.name])
        try:
            octets = running.output.read()
            running.finish()
            return octets
        finally:
            running.close()


def _lines(message: Mapping[str, Any], by_version: TablesByVersion) -> Iterator[str]:
    """Yield the lines of the listing of a message."""
    yield "message"
    yield "section1 " + " ".join(str(int(message["section1"][name])) for name in SECTION_1)
    yield "time " + " ".join(str(int(message["time"][name])) for name in TIME)
    if "local1" in message:
        yield f"local1 {message['local1']}"
    if "section2" in message:
        yield f"section2 {message['section2']}".rstrip(" ")
    yield "flags" + " observed" * bool(message["observed"]) + " compressed" * bool(message["compressed"])
    yield "descriptors " + " ".join(message["descriptors"])
    known = by_version.of(str(int(message["section1"]["master_table_version"])))
    for subset in message["subsets"]:
        yield "subset"
        yield from _fields(known.fields, message["descriptors"], subset)
    yield "end"


def _flat(items: Iterable[Any]) -> Iterator[Tuple[str, Any]]:
    """Yield the descriptors and values of fields, also of those in lists of turns and of pairs."""
    for item in items:
        if isinstance(item, Mapping):
            yield item["descriptor"], item["value"]
        elif len(item) == 2 and isinstance(item[0], str):
            yield item[0], item[1]
        else:
            for turn in item:
                yield from _flat(turn)


def _fields(fields_of: Callable[..., Iterator[Any]], descriptors: List[str], subset: Iterable[Any]) -> Iterator[str]:
    count = 0
    given = _flat(subset)
    for field in fields_of(descriptors, lambda _factor: count):
        descriptor, value = next(given, ("nothing", None))
        if descriptor != field.descriptor:
            raise BufrError(f"the descriptors ask for {field.descriptor}; found {descriptor}")
        word = _spelt(field, value)
        why = wanted.fault(field, word)
        if why:
            raise BufrError(f"{field.descriptor} {wanted.named(field)}: wanted {wanted.wanted(field)}; found {value}: {why}")
        if field.is_factor:
            count = int(word)
        yield f"{field.descriptor} {word}"
    for descriptor, _ in given:
        raise BufrError(f"the descriptors ask for no field; found {descriptor}")


def _spelt(field: Any, value: Any) -> str:
    """Return a value as the listing of this field spells it; one that has more digits stays as it is."""
    if hasattr(value, "item"):
        value = value.item()
    if value is None or value != value:
        return "missing"
    if isinstance(value, str):
        return f'"{value.ljust(field.width // 8 if wanted.is_text(field) else 0).translate(SPELT)}"'
    try:
        units = Decimal(str(value)).scaleb(field.scale)
        whole = int(units)
    except (InvalidOperation, OverflowError, ValueError):
        return str(value)
    return wanted.spelt(whole, field.scale) if whole == units else str(value)


class Added(NamedTuple):
    """What ``bufr add`` says of an archive that it made."""

    path: str
    version: Optional[int]
    frames: int
    refused: int
    reports: int


class Merged(NamedTuple):
    """What ``bufr merge`` says of an archive that it made."""

    path: str
    version: Optional[int]
    archives: int
    reports: int


def add(out: PathLike, files: Union[PathLike, Iterable[PathLike]], tables: TablesLike = None, *,
        progress: Optional[Progress] = None) -> List[Added]:
    """
    Make an archive of the reports of BUFR files.

    Parameters
    ----------
    out : str, bytes or path
        The archive. ``{}`` in it stands for the version of the tables: then there is an archive for each.
    files : str, bytes, path or iterable of them
        The files.
    tables : int or pair of paths, optional
        As of :func:`bufr.rows`.
    progress : callable, optional
        Is called with the number of octets that were read, and of all octets, some times a second.

    Returns
    -------
    list of Added
        Of each archive its path and counts. A message that is refused is counted.

    Raises
    ------
    BufrError
        With the line of the program.
    """
    found = _archive("add", os.fsdecode(out), files_of(files), tables, progress)
    return [Added(path, version, counts["frames"], counts["refused"], counts["reports"]) for path, version, counts in found]


def merge(out: PathLike, files: Union[PathLike, Iterable[PathLike]], tables: TablesLike = None, *,
          progress: Optional[Progress] = None) -> List[Merged]:
    """
    Make one archive of several, or with ``{}`` in its name one for each version of the tables.

    Parameters and exceptions are those of :func:`add`.

    Returns
    -------
    list of Merged
        Of each archive its path and counts.
    """
    found = _archive("merge", os.fsdecode(out), files_of(files), tables, progress)
    return [Merged(path, version, counts["archives"], counts["reports"]) for path, version, counts in found]


def _archive(command: str, out: str, files: List[str], tables: TablesLike,
             progress: Optional[Progress]) -> List[Tuple[str, Optional[int], Dict[str, int]]]:
    paths = paths_of(tables)
    if not files:
        raise BufrError(f"there is no file to {command}")
    running = Running([*words_of(command, paths), "-o", out, "--", *files])
    try:
        if progress is not None:
            _watch(running, files, progress)
        text = running.output.read().decode()
        running.finish()
    finally:
        running.close()
    found = []
    for line in text.splitlines():
        words = line.split(" ")
        version = int(words.pop(0)) if words[0].isdigit() else None
        path = out if version is None else out.replace("{}", str(version))
        found.append((path, version, dict(zip(words[::2], map(int, words[1::2])))))
    return found


def _watch(running: Running, files: List[str], progress: Progress) -> None:
    """Call back with the read positions of a program and of those that it runs, until it ends."""
    known = {os.path.realpath(file): number for number, file in reversed(list(enumerate(files)))}
    sizes = [os.path.getsize(file) if os.path.isfile(file) else 0 for file in files]
    total, most = sum(sizes), 0
    while running.process.poll() is None:
        for number, octets in positions(running.process.pid, known):
            most = max(most, min(sum(sizes[:number]) + octets, total))
        progress(most, total)
        time.sleep(0.1)
    progress(total if running.process.returncode in (0, 1) else most, total)
