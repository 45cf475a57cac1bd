"""Rows of BUFR files by the program `bufr-select`, which does not build the fields that nobody asks for. A listing says more than
its table: which field is a text, and whether a field that has no value is there. What the templates of the files do not answer is left
to listings."""
from __future__ import annotations

import csv
import os
import re
import shutil
from array import array
from collections import Counter
from contextlib import contextmanager
from itertools import accumulate
from typing import Callable, Dict, FrozenSet, Iterator, List, NamedTuple, Optional, Sequence, Set, Tuple

from .errors import BufrError, Fault
from .few_tables import FewTables
from .lister import Lumps, alike, finish
from .processes import Process, program
from .shown import Running, error_of, words_to_show
from .skipped import is_regular
from .starting import lister, widen
from .tables import BEGIN, END, TEXT_UNIT, TURN, Field, Tables, TablesByVersion
from .versions import VERSIONS, table_paths, version_of

PIECE = 1 << 20
TOLD = re.compile(rb"bufr-select: input (\d+) at (\d+): (.*)\n")
BEYOND = re.compile(r"no tables of version (\d+)")


def selector() -> Optional[str]:
    """Return the path of the program, if it is there. Another `bufr` that is named alone prints listings in its place."""
    if os.environ.get("BUFR") and not os.environ.get("BUFR_SELECT"):
        return None
    path = program("bufr-select")
    return path if os.path.isabs(path) or "/" in path else shutil.which(path)


class Template(NamedTuple):
    """What a list of descriptors asks for: which descriptors have texts and which have numbers, which are in each subset before the
    first field of `each`, which may be there or not, and which have numbers that are no float or no int of 64 bits."""

    texts: FrozenSet[str]
    numbers: FrozenSet[str]
    always: FrozenSet[str]
    maybe: FrozenSet[str]
    long: FrozenSet[str]

    def all(self) -> FrozenSet[str]:
        return self.texts | self.numbers

    def has(self, words: Sequence[str]) -> Tuple[bool, ...]:
        """Return whether each of some fields is always there."""
        return tuple(word in self.always for word in words)


def template_of(tables: Tables, descriptors: Sequence[str], each: FrozenSet[str]) -> Template:
    """Return what descriptors ask for; raise the fault of a template that has one."""
    texts: Set[str] = set()
    numbers: Set[str] = set()
    always: Set[str] = set()
    maybe: Set[str] = set()
    long: Set[str] = set()
    # for each replication that is open, whether it may have no turn
    around: List[bool] = []
    is_delayed = is_after = False
    for item in tables.marked(descriptors, lambda _factor: 1):
        if item is BEGIN:
            around.append(is_delayed)
        elif item is END:
            around.pop()
        elif item is not TURN:
            is_after = is_after or item.descriptor in each
            (texts if item.unit.upper() == TEXT_UNIT else numbers).add(item.descriptor)
            (maybe if is_after or any(around) else always).add(item.descriptor)
            if item.descriptor not in texts and is_long(item):
                long.add(item.descriptor)
            is_delayed = item.is_factor
            continue
        is_delayed = False
    return Template(frozenset(texts), frozenset(numbers), frozenset(always), frozenset(maybe - always), frozenset(long))


def is_long(field: Field) -> bool:
    """Return whether the number of a field may have more digits than a float or an int of 64 bits keeps."""
    digits = len(str(max(abs(field.reference), abs(field.reference + (1 << field.width)))))
    return max(digits, field.scale + 1) > 13 if field.scale > 0 else digits - field.scale > 18


# The templates of versions and descriptors under the standard's tables, for each `each`: a stream has the same ones again and again.
MADE: Dict[Tuple[bytes, FrozenSet[str]], Optional[Template]] = {}
MOST_MADE = 1000


class Order(Dict[bytes, int]):
    """The rows that messages have, numbered as they come first, and the number of each message's row, in the order of the messages."""

    def __init__(self) -> None:
        super().__init__()
        self.numbers = array("I")

    def __missing__(self, row: bytes) -> int:
        self[row] = number = len(self)
        return number

    def take(self, text: bytes) -> None:
        """Take the rows that come next."""
        row, times = alike(text)
        if times:
            self.numbers.extend(array("I", [self[row]]) * times)
        else:
            self.numbers.extend(map(self.__getitem__, text.splitlines(True)))


class Templates:
    """The templates of files by the versions of their tables and their descriptors, in the order in which they come first."""

    def __init__(self, names: List[str], paths: Optional[List[str]], each: FrozenSet[str]) -> None:
        self.names, self.paths, self.each = names, paths, each
        self.by_version = TablesByVersion(paths)
        self.known: Dict[bytes, Optional[Template]] = {}
        # the versions whose tables are named, what few rows of them are for, and the sizes of the files
        self.named: Set[int] = set()
        self.asked: Optional[Set[bytes]] = None
        self.sizes: List[int] = []
        # the octets that messages have, the versions and descriptors of messages, and which of these each message has
        self.length = 0
        self.rows: List[bytes] = []
        self.order = array("I")
        # of all messages, which is the first one of each file
        self.firsts: List[int] = []

    def list(self, columns: str) -> Process:
        return lister(self.names, columns)

    def read(self) -> None:
        """Read the heads of all messages."""
        self.sizes = list(map(os.path.getsize, self.names))
        order, process = Order(), self.list("input,length,master_version,descriptors")
        try:
            lumps = Lumps(process)
            text = lumps.next()
            while text:
                order.take(text)
                text = lumps.next()
            finish(process)
        finally:
            process.end()
        self.count(order)

    def count(self, order: Order) -> None:
        """Take what the rows of all messages say."""
        rows = [row.split(b",", 2) for row in order]
        counts = Counter(order.numbers)
        messages = [0] * len(self.names)
        self.length = 0
        for number, (at, length, _) in enumerate(rows):
            messages[int(at) - 1] += counts[number]
            self.length += counts[number] * int(length)
        self.order, self.rows = order.numbers, [row for _, _, row in rows]
        self.firsts = [0, *accumulate(messages)]
        for row in self.rows:
            self.of(row)

    def is_whole(self) -> bool:
        """Return whether messages are all that the files have, as far as they were read."""
        return self.length == sum(self.sizes)

    def renew(self) -> None:
        """Read the heads again if a file has changed since."""
        if self.sizes != list(map(os.path.getsize, self.names)):
            self.read()

    def of(self, row: bytes) -> Optional[Template]:
        """Return the template of a version and descriptors; nothing of messages that are refused for them."""
        if row not in self.known:
            self.known[row] = self.made(row) if self.paths is not None else self.made_once(row)
        return self.known[row]

    def made_once(self, row: bytes) -> Optional[Template]:
        key = row, self.each
        if key in MADE:
            return MADE[key]
        if len(MADE) >= MOST_MADE:
            MADE.clear()
        MADE[key] = found = self.made(row)
        return found

    def made(self, row: bytes) -> Optional[Template]:
        tables, descriptors = self.parts(row)
        if tables is None:
            return None
        try:
            return template_of(tables, descriptors, self.each)
        except Fault:
            return None

    def parts(self, row: bytes) -> Tuple[Optional[Tables], List[str]]:
        """Return the tables and the descriptors of a row."""
        version, _, descriptors = row.decode().rstrip("\n").partition(",")
        if not version or self.paths is None and version_of(int(version)) is None:
            return None, []
        return self.by_version.of(version), descriptors.split()

    def versions(self) -> Set[int]:
        """Return the versions of the tables that read the messages."""
        found = {version_of(int(row.partition(b",")[0] or b"255")) for row in self.known}
        return {version for version in found if version is not None}

    def options(self, few: Optional[FewTables] = None) -> List[str]:
        """Return the options that name the tables, and no others, since to load them takes long: with all rows, or with those `few`
        that the messages ask for."""
        if self.paths is not None:
            return ["-b", self.paths[0], "-d", self.paths[1]]
        self.named, self.asked = self.versions() or {VERSIONS[-1]}, set(self.known) if few is not None else None
        found = []
        for version in sorted(self.named):
            if few is not None:
                parts = [row.decode().rstrip("\n").partition(",") for row in self.known]
                found += few.options(version, [word for named, _, words in parts if named and version_of(int(named)) == version
                                               for word in words.split()])
            else:
                b_path, d_path = table_paths(version)
                found += ["-v", str(version), "-b", b_path, "-d", d_path]
        return found

    def have_grown(self) -> bool:
        """Return whether a message has come for which the few rows of the tables were not asked."""
        self.renew()
        return self.asked is not None and not self.asked.issuperset(self.known)

    def check(self) -> None:
        """Raise that a file has changed since its heads were read, if a message then takes other tables."""
        self.renew()
        if self.paths is None and not self.versions() <= self.named:
            raise BufrError("a file has changed while it was read")

    def all(self) -> List[Template]:
        return [each for each in self.known.values() if each is not None]

    def accepted(self, refused: Set[Tuple[int, int]]) -> Iterator[Tuple[Tables, List[str]]]:
        """Yield the tables and the descriptors of the messages that are not refused."""
        rows = dict.fromkeys(row for number, place, row in self.stream() if (number - 1, place) not in refused) if refused else self.known
        for row in rows:
            tables, descriptors = self.parts(row)
            if tables is not None and self.of(row) is not None:
                yield tables, descriptors

    def at(self, number: int, message: int) -> Template:
        """Return the template of a message of a file, both counted from 1, that is not refused."""
        if self.firsts[number - 1] + message > self.firsts[number]:
            # the file has grown
            self.read()
        found = self.of(self.rows[self.order[self.firsts[number - 1] + message - 1]])
        assert found is not None
        return found

    def stream(self) -> Iterator[Tuple[int, int, bytes]]:
        """Yield the input, the place and the version with the descriptors of each message."""
        process = self.list("input,place,master_version,descriptors")
        try:
            lumps = Lumps(process)
            text = lumps.next()
            while text:
                for line in text.splitlines(True):
                    number, place, row = line.split(b",", 2)
                    yield int(number), int(place), row
                text = lumps.next()
            finish(process)
        finally:
            process.end()


class Told:
    """What the program says of messages that it refuses, while it runs."""

    def __init__(self) -> None:
        self.file, self.at = os.memfd_create("refusals"), 0
        self.refusals: List[Tuple[int, int, str]] = []
        # the first of those that tables read
        self.first: Optional[Tuple[int, int, str]] = None
        self.text = b""

    def read(self) -> None:
        """Take what was said since the last call."""
        piece = os.pread(self.file, PIECE, self.at)
        while piece:
            self.at += len(piece)
            self.text += piece
            piece = os.pread(self.file, PIECE, self.at)
        stop = self.text.rfind(b"\n") + 1
        said, self.text = self.text[:stop], self.text[stop:]
        for number, place, reason in TOLD.findall(said):
            version = BEYOND.fullmatch(reason.decode("latin-1"))
            refusal = int(number) - 1, int(place), f"no table here reads version {version[1]}" if version else reason.decode("latin-1")
            self.refusals.append(refusal)
            self.first = self.first or (None if version else refusal)

    def first_before(self, number: int, place: int) -> Optional[Tuple[int, int, str]]:
        """Return the first message before a place that is refused under its tables."""
        return self.first if self.first is not None and self.first[:2] < (number, place) else None

    def all(self) -> bytes:
        """Return all that was said."""
        return os.pread(self.file, PIECE, max(self.at - PIECE, 0))

    def close(self) -> None:
        os.close(self.file)


class Selection:
    """A run of the program. `words` are its columns. What it prints comes through a pipe, or is kept in a file."""

    def __init__(self, path: str, names: List[str], words: List[str], each: Optional[str], tables: List[str],
                 is_kept: bool = False) -> None:
        self.told = Told()
        self.words = [path, *tables, "-c", ",".join(words), *(["-e", each] if each else []), "--", *names]
        self.first = len(",".join(words) + "\n")
        environment = {key: value for key, value in os.environ.items() if key not in ("BUFR_TABLES", "BUFR_VERBOSE")}
        self.kept = os.memfd_create("rows") if is_kept else None
        given = {2: self.told.file} if self.kept is None else {1: self.kept, 2: self.told.file}
        try:
            with open(os.devnull, "rb") as nothing:
                self.process = Process(self.words, (1,) if self.kept is None else (), {0: nothing.fileno(), **given}, environment)
        except Fault as fault:
            self.shut()
            raise BufrError(str(fault)) from None

    def path(self) -> Optional[str]:
        """Return a path of what is kept, or nothing if there is no row after the first one."""
        assert self.kept is not None
        return f"/proc/self/fd/{self.kept}" if os.fstat(self.kept).st_size > self.first else None

    def pieces(self) -> Iterator[bytes]:
        """Yield what the program prints as it comes."""
        pipe = self.process.pipes[1]
        widen(pipe)
        piece = os.read(pipe, PIECE)
        while piece:
            yield piece
            piece = os.read(pipe, PIECE)
        self.finish()

    def finish(self) -> None:
        """Wait for the end of the program, and raise what went wrong."""
        status = self.process.wait()
        self.told.read()
        if status not in (0, 1):
            raise error_of(self.words[:1], status, self.told.all())

    def rows(self) -> Iterator[List[str]]:
        """Yield the rows after the first one. What is refused before a message is told before its rows."""
        rest, is_first = b"", True
        for piece in self.pieces():
            self.told.read()
            piece = rest + piece
            stop = piece.rfind(b"\n") + 1
            rest = piece[stop:]
            lines = piece[:stop].decode("ascii").split("\n")
            lines.pop()
            if is_first and lines:
                is_first = False
                del lines[0]
            yield from csv.reader(lines)

    def shut(self) -> None:
        """Close the files."""
        self.told.close()
        if self.kept is not None:
            os.close(self.kept)

    def close(self) -> None:
        """End the program, if it still runs."""
        self.process.end()
        self.shut()


class Plan:
    """How the rows of files are selected: what the program is asked for, and which of it are texts."""

    def __init__(self, path: str, templates: Templates, each: Optional[str]) -> None:
        self.path, self.templates, self.each = path, templates, each
        self.words: List[str] = []
        self.texts = frozenset(word for template in templates.all() for word in template.texts)

    def ask(self, word: str) -> int:
        """Ask for a column, and return which it is."""
        if word not in self.words:
            self.words.append(word)
        return self.words.index(word)

    def has(self, word: str) -> bool:
        """Return whether a message has a field with one of some descriptors."""
        words, templates = word.split(), self.templates
        if not any(each in template.all() for template in templates.all() for each in words):
            return False
        groups = [[name] for name in templates.names] if templates.paths else [templates.names]
        pattern = f"^({'|'.join(f'{each} ' for each in words)})"
        return any(is_shown(Running(words_to_show(group, templates.paths), through=["grep", "-aEm1", pattern])) for group in groups)

    def start(self) -> Selection:
        """Start the program. What it prints comes through a pipe."""
        return Selection(self.path, self.templates.names, self.words, self.each, self.templates.options())

    @contextmanager
    def kept(self, wait_for: Callable[[Selection], None]) -> Iterator[Selection]:
        """Run the program to its end. What it prints is kept. Tables of few rows are loaded, or all of them if a file grew meanwhile by a
        message that asks for others."""
        few: Optional[FewTables] = FewTables() if self.templates.paths is None else None
        while True:
            try:
                selection = Selection(self.path, self.templates.names, self.words, self.each, self.templates.options(few), True)
                try:
                    wait_for(selection)
                    if few is None or not self.templates.have_grown():
                        yield selection
                        return
                finally:
                    selection.close()
            finally:
                if few is not None:
                    few.close()
            few = None


def plan_of(names: List[str], columns: Sequence[str], each: Optional[str], paths: Optional[List[str]],
            parts: Sequence[str]) -> Optional[Plan]:
    """Return how rows are selected, or nothing if listings have to tell them. Columns are descriptors, with spaces between those of
    which one has the value; `parts` are those whose value depends on whether they are there."""
    path = selector()
    if path is None or not names or not all(map(is_regular, names)):
        return None
    levels = each.split() if each is not None else []
    templates = Templates(names, paths, frozenset(levels))
    try:
        templates.read()
    except (BufrError, Fault):
        return None
    found = templates.all()
    met = [word for word in levels if any(word in template.all() for template in found)]
    if levels and len(met) != 1:
        return None
    plan = Plan(path, templates, met[0] if met else None)
    asked = {word for column in columns for word in column.split()}.union(parts)
    for template in found:
        # a field may be a text here and a number there, which of two comes first is not told, and a part may be there or not
        if asked & plan.texts & template.numbers or template.maybe.intersection(parts) or \
                any(len(template.all().intersection(column.split())) > 1 for column in columns):
            return None
    return plan


def is_shown(running: Running) -> bool:
    """Return whether a program prints something, and end it."""
    try:
        return bool(running.output.read(1))
    finally:
        running.close()
