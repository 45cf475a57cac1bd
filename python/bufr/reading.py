"""Messages, rows and DataFrames of BUFR files."""
from __future__ import annotations

import datetime
import os
import re
import sys
import warnings
from decimal import Decimal
from typing import (TYPE_CHECKING, AbstractSet, Any, Callable, Dict, FrozenSet, Generator, Iterable, Iterator, List, Mapping,
                    NamedTuple, Optional, Sequence, Tuple, Union)

from .errors import BufrError, Fault, Missing, Refused
from .framing import Framer, wait_for
from .levels import Leading
from .moments import PARTS, TIME, moment_of
from .processes import program
from .progress import Progress
from .selecting import Plan, Selection, plan_of
from .shown import PathLike, Running, TablesLike, file_of, files_of, left_out, paths_of, plain_name, words_of, words_to_show
from .skipped import Loss, Skipped, is_regular
from .tables import Tables, TablesByVersion, records
from .to_json import SECTION_1
from .to_json import TIME as TIME_NAMES
from .versions import VERSIONS, table_paths, version_of

if TYPE_CHECKING:
    import pandas

Value = Union[None, int, float, Decimal, str]
Columns = Union[Sequence[str], Mapping[str, str]]
# The places of the words of the lines section1 and time.
HEADS = {"centre": ("section1", 1), "sub_centre": ("section1", 2), "update": ("section1", 3), "category": ("section1", 4),
         "international": ("section1", 5), "local_category": ("section1", 6), "master_version": ("section1", 7),
         "local_version": ("section1", 8), "year": ("time", 1), "month": ("time", 2), "day": ("time", 3), "hour": ("time", 4),
         "minute": ("time", 5), "second": ("time", 6)}
FLAGS = ("observed", "compressed")
WHERE = ("file", "message", "place", "subset")
ESCAPE = re.compile(r"\\([0-9a-f]{2})")
COLUMN = re.compile(r"(\d{6})(?:#([1-9]\d*))?", re.A)
DESCRIPTOR = re.compile(r"\d{6}", re.A)


def value_of(word: str) -> Value:
    """Return the value that a listing spells: a number, a text with its octets as characters, or None where it is missing."""
    if word == "missing":
        return None
    if word[:1] == '"':
        return ESCAPE.sub(lambda found: chr(int(found[1], 16)), word[1:-1])
    if "." not in word:
        return int(word)
    # a float has fifteen digits that come back
    return float(word) if len(word) < 16 else Decimal(word)


def cell_of(word: str) -> Value:
    """Return the value of a cell of a table: a text loses the spaces and NULs at its end, and is None where none is left."""
    value = value_of(word)
    if isinstance(value, str):
        return value.rstrip(" \0") or None
    return value


class Column(NamedTuple):
    """A column: what it is called, the word or the descriptors (parted by spaces) that it has, which field of a span, if that is
    told, and of a name other names that have it in theirs."""

    name: str
    word: str
    number: int
    near: str = ""


class Cells(Dict[str, Value]):
    """The values of a column by the words that spell them."""

    def __init__(self, value_of: Callable[[str], Value]) -> None:
        super().__init__()
        self.value_of = value_of

    def __missing__(self, word: str) -> Value:
        if len(self) > 100000:
            self.clear()
        self[word] = found = self.value_of(word)
        return found


def number_of(word: str) -> Value:
    """Return the number that a cell of `bufr-select` spells."""
    return value_of(word) if word else None


def text_of(word: str) -> Value:
    """Return the text that a cell of `bufr-select` spells."""
    return ESCAPE.sub(lambda found: chr(int(found[1], 16)), word).rstrip(" \0") or None


# The descriptors of the elements of a file of Table B.
ELEMENTS: Dict[str, FrozenSet[str]] = {}


def has_element(path: str, descriptor: str) -> bool:
    """Return whether a file of Table B has an element. Table D, which is longer, is not read."""
    if path not in ELEMENTS:
        ELEMENTS[path] = frozenset(descriptor for descriptor, in records(path, ["FXY"]))
    return descriptor in ELEMENTS[path]


# The descriptors of elements by their names, for the tables of the standard.
NAMED: Dict[str, List[str]] = {}


class Names:
    """The descriptors of elements by their names in Table B, of the newest version that has the name. 012001 and 012101 have one
    name, as have others: then a column has the first field of either."""

    def __init__(self, tables: Optional[List[str]]) -> None:
        self.tables = tables
        self.by_version = TablesByVersion(tables)
        self.b_path = (tables or table_paths(VERSIONS[-1]))[0]
        self.found: Optional[Dict[str, List[str]]] = None

    def all(self) -> Iterator[Tables]:
        """Yield the tables, the newest first."""
        return (self.by_version.of(str(version)) for version in (VERSIONS[-1:] if self.tables else reversed(VERSIONS)))

    def known(self) -> Dict[str, List[str]]:
        """Return the descriptors of each name."""
        if self.found is None:
            self.found = {} if self.tables else NAMED
            for tables in () if self.found else self.all():
                newer = set(self.found)
                for descriptor, element in tables.elements.items():
                    key = " ".join(element.name.upper().split())
                    if key not in newer:
                        self.found.setdefault(key, []).append(descriptor)
        return self.found

    def descriptors(self, name: str) -> str:
        key = " ".join(name.upper().split())
        found = self.known()
        if key in found:
            return " ".join(found[key])
        bad = re.fullmatch(r"(.*?)\s*#(.*)", name)
        if bad:
            self.refuse_number(bad[1], bad[2])
        if name.isdigit() and len(name) < 6 and any(name.zfill(6) in tables.elements for tables in self.all()):
            raise BufrError(f"a descriptor has six digits: write {name.zfill(6)} for {name}")
        near = self.near(name)
        if near:
            raise BufrError(f"no element has the name {name}; these have it in theirs: {near}")
        import difflib
        near = self.listed(difflib.get_close_matches(key, found, 5, 0.6))
        raise BufrError(f"no element has the name {name}" + (f"; these are like it: {near}" if near else ""))

    def near(self, name: str) -> str:
        """Return some names that have another as a part, with their descriptors: first those that are so called between strokes, then
        those that begin so, those of which a word does, and the shortest."""
        key = " ".join(name.upper().split())
        found = [each for each in self.known() if key in each and key != each]
        begins = re.compile(r"\b" + re.escape(key))
        found.sort(key=lambda each: (key not in each.split("/"), not each.startswith(key), not begins.search(each), len(each)))
        return self.listed(found[:5])

    def listed(self, names: List[str]) -> str:
        return "; ".join(f"{each} ({', '.join(self.known()[each])})" for each in names)

    def refuse_number(self, word: str, number: str) -> None:
        """Raise what is wrong with a word that has `#`."""
        if not DESCRIPTOR.fullmatch(word):
            known = self.known().get(" ".join(word.upper().split()))
            instead = f": write {' or '.join(f'{each}#{number}' for each in known)}" if known else ""
            raise BufrError(f"# follows a descriptor alone, not a name{instead}")
        digits = number.lstrip("0")
        raise BufrError(f"the number after # counts from 1, without zeros before it: write {word}#{digits if digits.isdigit() else 1} "
                        f"for {word}#{number}")

    def check(self, descriptor: str) -> None:
        """Raise what is wrong with a descriptor of which a listing has no field."""
        if has_element(self.b_path, descriptor):
            return
        kind, x, y = descriptor[0], int(descriptor[1:3]), int(descriptor[3:])
        # a local element may be behind 206, and 205 is a field of characters
        if any(descriptor in tables.elements for tables in self.all()) or descriptor[:3] == "205" and y < 256 or \
                kind == "0" and x < 64 and y < 256 and (x >= 48 or y >= 192):
            return
        if kind in "12" and x < 64 and y < 256:
            raise BufrError(f"{descriptor} is {'a replication' if kind == '1' else 'an operator'}, and no element")
        for tables in self.all():
            if descriptor in tables.members:
                members = " ".join(tables.members[descriptor])
                raise BufrError(f"{descriptor} is a sequence: a column is one of its elements; it has {members}")
        raise BufrError(f"no element has the descriptor {descriptor}")


def columns_of(columns: Columns, tables: Optional[List[str]]) -> List[Column]:
    """Return the columns that a caller names."""
    try:
        pairs = list(columns.items()) if isinstance(columns, Mapping) else [(word, word) for word in columns]
    except TypeError:
        pairs = []
    if isinstance(columns, str) or not pairs:
        raise BufrError("columns is a list of words, or a dict of a word for each name")
    for _, word in pairs:
        if not isinstance(word, str):
            raise BufrError(f"a column is a word in quotes, not {word!r}")
    for name, word in pairs:
        if isinstance(name, str) and COLUMN.fullmatch(name) and not COLUMN.fullmatch(word) and isinstance(columns, Mapping):
            raise BufrError(f"the name of a column comes first: write {{{word!r}: {name!r}}} for {{{name!r}: {word!r}}}")
    found = []
    try:
        names = Names(tables)
        for name, word in pairs:
            if word == "time":
                raise BufrError("time is no element: time=True makes it the first column; year to second are those of section 1")
            descriptor = COLUMN.fullmatch(word)
            if descriptor:
                names.check(descriptor[1])
                found.append(Column(name, descriptor[1], int(descriptor[2] or 0)))
            elif word in HEADS or word in FLAGS or word in WHERE:
                found.append(Column(name, word, 0))
            else:
                found.append(Column(name, names.descriptors(word), 0, names.near(word)))
    except Fault as fault:
        raise BufrError(str(fault)) from None
    if len({column.name for column in found}) < len(found):
        raise BufrError("a column is named twice")
    return found


class Rows:
    """The rows of files, as their listings have them. `files` has each file by the name that the program is given."""

    def __init__(self, files: Dict[str, str], columns: List[Column], each: Optional[str], with_time: bool,
                 tables: TablesByVersion) -> None:
        self.files, self.columns, self.each, self.with_time = files, columns, each, with_time
        self.file = next(iter(files.values()))
        # the words of which no field has come
        self.unmet = {column.word for column in columns if column.word[:1].isdigit()} | ({each} if each is not None else set())
        self.has_subsets = False
        self.asked = {descriptor for word in self.unmet for descriptor in word.split()} | set(TIME if with_time else ())
        self.tables, self.leading = tables, None if each is None else Leading(each.split(), self.asked)
        # the words of several descriptors that each descriptor is one of
        self.others: Dict[str, List[str]] = {}
        for word in {word for word in self.unmet if " " in word}:
            for descriptor in word.split():
                self.others.setdefault(descriptor, []).append(word)
        self.refusals: List[Tuple[str, int, str]] = []
        self.heads: Dict[str, List[str]] = {}
        self.cells: Dict[str, Value] = {}
        self.number = self.subset = 0

    def pattern(self) -> str:
        """Return what `grep -E` chooses of a listing."""
        words = ["message", "subset", "end", "# ", *sorted(f"{word} " for word in self.asked)]
        asked = {column.word for column in self.columns}
        for name in ("section1", "time"):
            if any(HEADS.get(word, ("",))[0] == name for word in asked):
                words.append(f"{name} ")
        if asked & set(FLAGS):
            words.append("flags")
        if self.leading is not None:
            words += ["section1 ", "descriptors "]
        return f"^({'|'.join(words)})"

    def of(self, lines: Iterable[bytes], places: Iterator[Tuple[int, int]]) -> Iterator[Tuple[Any, ...]]:
        """Yield the rows of the lines of listings. The number and the place of each message come beside them, if they are asked for."""
        each = frozenset(self.each.split() if self.each is not None else ())
        others = self.others
        before: Dict[str, List[str]] = {}
        spans: List[Dict[str, List[str]]] = []
        is_open, place = False, 0
        for octets in lines:
            line = octets[:-1].decode("latin-1")
            first = line[:1]
            if first.isdigit():
                word = line[:6]
                if word in each:
                    spans.append({})
                span = spans[-1] if spans else before
                span.setdefault(word, []).append(line[7:])
                for other in others.get(word, ()):
                    span.setdefault(other, []).append(line[7:])
            elif line in ("subset", "end"):
                if is_open:
                    yield from self.rows_of(before, spans, place)
                is_open = line == "subset"
                if is_open:
                    self.subset += 1
                    before, spans = {}, []
            elif line == "message":
                self.subset, self.heads = 0, {}
                self.number, place = next(places, (0, 0))
            elif line.startswith("# refused "):
                next(places, None)
                _, _, said, reason = line.split(" ", 3)
                self.refusals.append((self.file, int(said), reason))
            elif first == "#":
                self.file = self.files[os.fsdecode(octets[2:-1])]
            else:
                words = line.split(" ")
                self.heads[words[0]] = words
                if words[0] == "descriptors" and self.leading is not None:
                    self.leading.take(self.tables.of(self.heads["section1"][7]), words[1:])

    def rows_of(self, before: Dict[str, List[str]], spans: List[Dict[str, List[str]]], place: int) -> Iterator[Tuple[Any, ...]]:
        self.has_subsets = True
        if self.unmet:
            self.unmet.difference_update(before, *spans)
        if self.each is None:
            yield self.row(before, {}, place)
        for span in spans:
            yield self.row(span, before, place)

    def row(self, span: Dict[str, List[str]], before: Dict[str, List[str]], place: int) -> Tuple[Any, ...]:
        cells: List[Any] = [self.moment(span, before)] if self.with_time else []
        for column in self.columns:
            word = column.word
            if word[:1].isdigit():
                cells.append(self.field(word, column.number, span, before))
            elif word in HEADS:
                name, at = HEADS[word]
                cells.append(int(self.heads[name][at]))
            elif word in FLAGS:
                cells.append(word in self.heads["flags"])
            else:
                cells.append({"file": self.file, "message": self.number, "place": place, "subset": self.subset}[word])
        return tuple(cells)

    def field(self, word: str, number: int, span: Dict[str, List[str]], before: Dict[str, List[str]]) -> Value:
        if number:
            found = span.get(word, [])
            said = found[number - 1] if number <= len(found) else "missing"
        elif word in span:
            said = span[word][0]
        elif word in before:
            said = before[word][-1]
        else:
            return None
        if said not in self.cells:
            if len(self.cells) > 100000:
                self.cells.clear()
            self.cells[said] = cell_of(said)
        return self.cells[said]

    def moment(self, span: Dict[str, List[str]], before: Dict[str, List[str]]) -> Optional[datetime.datetime]:
        return moment_of([self.field(word, 0, span, before) for word in TIME], [word in span or word in before for word in PARTS])


def rows(files: Union[PathLike, Iterable[PathLike]], columns: Columns, each: Optional[str] = None, tables: TablesLike = None,
         *, time: bool = False, strict: bool = False, quiet: bool = True,
         refusals: Optional[List[Tuple[str, int, str]]] = None) -> Iterator[Tuple[Any, ...]]:
    """
    Iterate over the rows of BUFR files: a row for each subset of each message.

    Parameters
    ----------
    files : str, bytes, path or iterable of them
        The files, in order, with names in UTF-8: no folder and no pattern.
    columns : sequence of str, or dict of str to str
        What each column has. A descriptor such as ``"012101"``, or the name of its element in Table B, is the first field of the
        subset with that descriptor, and ``"012101#2"`` the second. Other words: ``file``, ``message``, ``place``, ``subset``;
        ``centre``, ``sub_centre``, ``update``, ``category``, ``international``, ``local_category``, ``master_version``,
        ``local_version``, ``year`` to ``second`` of section 1; ``observed``, ``compressed``. A dict gives the columns names. A
        warning tells a column of which no message has a field.
    each : str, optional
        A descriptor without ``#``, or a name: there is a row for each field with this descriptor, and none where there is none. A
        column has the first field from there up to the next row, or else the last one before the first row. Warnings tell the
        columns that come before this field in its replication, and so have the values of the next level, and that some messages
        have it in no replication.
    tables : int or pair of paths, optional
        The version of the tables, or the files of Tables B and D. By default each message is read under the tables of its version.
    time : bool, default False
        The first column is the time of the fields 004001 to 004006. It is missing if one of them is missing or is no part of a time;
        without a field for the minute or the second that is 0.
    strict : bool, default False
        Raise at the first message that is refused, or that is skipped.
    quiet : bool, default True
        Do not say on a terminal how far it is.
    refusals : list, optional
        Takes the file, the place and the reason of each message that is refused, and of octets that are skipped and a loss: of a file
        that is not empty and has no message, and of a message that is cut or broken. What is skipped of a pipe is not told.

    Yields
    ------
    tuple
        Numbers are int or float, texts are str without the spaces and NULs at their end, and what is missing is None.

    Raises
    ------
    Refused
        With `strict`, for the first message that is refused.
    BufrError
        With the line of the program.
    """
    return _rows(*_asked(files, columns, each, tables), time, strict, quiet, refusals if refusals is not None else [], 2)


def _asked(files: Union[PathLike, Iterable[PathLike]], columns: Columns, each: Optional[str],
           tables: TablesLike) -> Tuple[List[str], List[Column], Optional[str], Optional[List[str]]]:
    """Return what the words of a call name."""
    paths = paths_of(tables)
    found = columns_of(columns, paths)
    if each is None:
        return files_of(files), found, None, paths
    if not isinstance(each, str):
        raise BufrError(f"each is a descriptor or the name of an element, not {each!r}")
    level = columns_of([each], paths)[0]
    if level.number:
        raise BufrError(f"each is a descriptor without #, since all fields with it have a row: write {level.word} for {each}")
    if not level.word[:1].isdigit():
        raise BufrError(f"each is a descriptor or the name of an element, not {each}")
    return files_of(files), found, level.word, paths


def _rows(files: List[str], columns: List[Column], each: Optional[str], paths: Optional[List[str]], time: bool, strict: bool,
          quiet: bool, refusals: List[Tuple[str, int, str]], depth: int) -> Iterator[Tuple[Any, ...]]:
    # tables that are named take one file each, which strict goes by
    plan = _planned(files, columns, each, paths, time) if not (strict and paths) else None
    is_done = False
    if plan is not None:
        is_done = yield from _selected(plan, files, columns, each, time, strict, quiet, refusals, depth + 1)
    if not is_done:
        yield from _listed(files, columns, each, paths, time, strict, quiet, refusals, depth + 1)


def _selected(plan: Plan, files: List[str], columns: List[Column], each: Optional[str], time: bool, strict: bool, quiet: bool,
              refusals: List[Tuple[str, int, str]], depth: int) -> Generator[Tuple[Any, ...], None, bool]:
    """Yield the rows by `bufr-select`. Return whether there is nothing that listings have to tell."""
    makers = [_time_of(plan)] if time else []
    makers += [_cell_of(plan, files, column) for column in columns]
    empty = {at: column.word for at, column in enumerate(columns, int(time)) if column.word[:1].isdigit()}
    number, place = plan.ask("input"), plan.ask("place") if strict else 0
    sizes = [os.path.getsize(file) for file in files]
    progress = Progress("bufr", sum(sizes), quiet)
    has_rows, at = False, ""
    selection = plan.start()
    try:
        for row in selection.rows():
            made = tuple([maker(row) for maker in makers])
            yield made
            has_rows = True
            for filled in [each for each in empty if made[each] is not None]:
                del empty[filled]
            if strict:
                first = selection.told.first_before(int(row[number]) - 1, int(row[place]))
                if first is not None:
                    raise Refused(files[first[0]], *first[1:])
            if row[number] != at and progress.next is not None:
                at = row[number]
                progress.at(sum(sizes[:int(at) - 1]))
        if each is not None and not has_rows:
            return False
        _settle(plan, selection, files, columns, each, time, strict, refusals, set(empty.values()) if has_rows else set(), depth + 1)
        return True
    finally:
        progress.end()
        selection.close()


def _settle(plan: Plan, selection: Selection, files: List[str], columns: List[Column], each: Optional[str], time: bool, strict: bool,
            refusals: List[Tuple[str, int, str]], empty: AbstractSet[str], depth: int) -> None:
    """Tell what is refused and skipped, and warn, after the last row. `empty` are the words that no row has a value of."""
    plan.templates.check()
    told = [*selection.told.refusals, *_lost(plan)]
    here = {file: number for number, file in enumerate(files)}
    told.sort(key=lambda each: (here[files[each[0]]], each[1]))
    if strict and told:
        raise Refused(files[told[0][0]], *told[0][1:])
    refusals += [(files[at], place, reason) for at, place, reason in told]
    leading = None
    if each is not None:
        words = [each, *(column.word for column in columns if column.word[:1].isdigit())]
        leading = Leading(each.split(), {descriptor for word in words for descriptor in word.split()}.union(TIME if time else ()))
        for tables, descriptors in plan.templates.accepted({each[:2] for each in told}):
            leading.take(tables, descriptors)
    _warn(columns, each, {word for word in empty if not plan.has(word)}, leading, depth + 1)


def _lost(plan: Plan) -> List[Tuple[int, int, str]]:
    """Return the files, the places and the reasons of what is skipped and a loss."""
    if plan.templates.is_whole():
        return []
    heads = Heads(plan.templates.names, plan.templates.paths)
    try:
        numbers = {name: number for number, name in enumerate(plan.templates.names)}
        return [(numbers[name], loss.place, loss.reason) for name, loss in heads.losses()]
    finally:
        heads.close()


def _framed(pandas: Any, plan: Plan, files: List[str], columns: List[Column], each: Optional[str], time: bool, quiet: bool,
            refusals: List[Tuple[str, int, str]], depth: int) -> Optional[List[Any]]:
    """Return the columns of a DataFrame by `bufr-select`, or nothing if rows have to be made one by one."""
    framer = Framer(pandas, plan, files)
    if time:
        framer.add_time()
    for column in columns:
        framer.add(column, text_of)
    if not framer.is_able:
        return None
    if not plan.words:
        # there is a row for each subset, though no column has a value
        plan.ask("input")
    with plan.kept(lambda selection: wait_for(selection, files, quiet)) as selection:
        path = selection.path()
        if path is None:
            return None
        made, are_met = framer.columns(path)
        empty = {column.word for column, is_met in zip(columns, are_met[int(time):]) if column.word[:1].isdigit() and not is_met}
        _settle(plan, selection, files, columns, each, time, False, refusals, empty, depth + 1)
        return made


def _cell_of(plan: Plan, files: List[str], column: Column) -> Callable[[List[str]], Any]:
    """Return what makes the cell of a column of a row of `bufr-select`."""
    word = column.word
    if word[:1].isdigit():
        suffix = f"#{column.number}" if column.number else ""
        asked = [(plan.ask(each + suffix), Cells(text_of if each in plan.texts else number_of)) for each in word.split()]
        if len(asked) > 1:
            return lambda row: next((cells[row[at]] for at, cells in asked if row[at]), None)
        at, cells = asked[0]
        return lambda row: cells[row[at]]
    at = plan.ask("input" if word == "file" else word)
    if word == "file":
        return lambda row: files[int(row[at]) - 1]
    if word in FLAGS:
        return lambda row: row[at] == "1"
    return lambda row: int(row[at])


def _time_of(plan: Plan) -> Callable[[List[str]], Optional[datetime.datetime]]:
    """Return what makes the time of a row of `bufr-select`."""
    asked = [(plan.ask(word), Cells(text_of if word in plan.texts else number_of)) for word in TIME]
    parts = lambda row: [cells[row[at]] for at, cells in asked]
    there = {template.has(PARTS) for template in plan.templates.all()}
    if len(there) < 2:
        is_there = next(iter(there), (False, False))
        return lambda row: moment_of(parts(row), is_there)
    # it depends on the template of the message
    number, message = plan.ask("input"), plan.ask("message")

    def time_of(row: List[str]) -> Optional[datetime.datetime]:
        return moment_of(parts(row), plan.templates.at(int(row[number]), int(row[message])).has(PARTS))
    return time_of


def _planned(files: List[str], columns: List[Column], each: Optional[str], paths: Optional[List[str]], time: bool) -> Optional[Plan]:
    words = [column.word for column in columns if column.word[:1].isdigit()]
    return plan_of([plain_name(file) for file in files], [*words, *(TIME[:4] if time else ())], each, paths, PARTS if time else ())


def _warn(columns: List[Column], each: Optional[str], unmet: AbstractSet[Optional[str]], leading: Optional[Leading], depth: int) -> None:
    """Warn of what no message has, and of what comes before `each`."""
    if each is not None and each in unmet:
        warnings.warn(f"there is no row: no message has a field {each.replace(' ', ' or ')} for each", stacklevel=depth)
    elif leading is not None and each is not None:
        for warning in leading.said(f"each={each.replace(' ', ' or ')}", "a row has"):
            warnings.warn(warning, stacklevel=depth)
    for column in columns:
        if column.word in unmet:
            near = f"; these have its name in theirs: {column.near}" if column.near else ""
            warnings.warn(f"the column {column.name} is empty: no message has a field {column.word.replace(' ', ' or ')}{near}",
                          stacklevel=depth)


def _listed(files: List[str], columns: List[Column], each: Optional[str], paths: Optional[List[str]], time: bool, strict: bool,
            quiet: bool, refusals: List[Tuple[str, int, str]], depth: int) -> Iterator[Tuple[Any, ...]]:
    """Yield the rows by listings."""
    sizes = {file: os.path.getsize(file) if os.path.isfile(file) else 0 for file in files}
    progress = Progress("bufr", sum(sizes.values()), quiet)
    known = {plain_name(file): file for file in files}
    names = [plain_name(file) for file in files]
    is_placed = any(column.word in ("place", "message") for column in columns)
    by_version, leading = TablesByVersion(paths), None
    done, unmet, has_subsets = 0, {each, *(column.word for column in columns if column.word[:1].isdigit())}, False
    try:
        # one program shows all files; tables that are named take one file each
        for group in [[name] for name in names] if paths else [names] if names else []:
            rows_of = Rows({name: known[name] for name in group}, columns, each, time, by_version)
            leading = rows_of.leading = leading or rows_of.leading
            running = Running(words_to_show(group, paths), through=["grep", "-aE", rows_of.pattern()])
            heads, at = None, None
            try:
                # a pipe is read once
                if is_placed or all(map(is_regular, group)):
                    heads = Heads(group, paths)
                with running.to_the_end():
                    for row in rows_of.of(running.output, heads.places if heads else iter(())):
                        yield row
                        if strict and rows_of.refusals:
                            raise Refused(*rows_of.refusals[0])
                        if rows_of.file != at and progress.next is not None:
                            at = rows_of.file
                            progress.at(done)
                            done += sizes[at]
                _, said = running.finish()
                here = {file: number for number, file in enumerate(files)}
                rows_of.refusals += [(known.get(name, name), place, reason) for name, place, reason in left_out(said)]
                rows_of.refusals += [(known[name], loss.place, loss.reason) for name, loss in (heads.losses() if heads else ())]
                rows_of.refusals.sort(key=lambda each: (here.get(each[0], 0), each[1]))
                if strict and rows_of.refusals:
                    raise Refused(*rows_of.refusals[0])
                refusals += rows_of.refusals
                unmet &= rows_of.unmet
                has_subsets = has_subsets or rows_of.has_subsets
            finally:
                running.close()
                if heads:
                    heads.close()
    finally:
        progress.end()
    _warn(columns, each, unmet if has_subsets else set(), leading, depth + 1)


class Heads:
    """What `bufr-ls` says of the messages of files, and what is skipped of each file."""

    def __init__(self, names: List[str], paths: Optional[List[str]]) -> None:
        self.names, self.paths = names, paths
        self.skipped = [Skipped(name) if is_regular(name) else None for name in names]
        self.running = Running([program("bufr-ls"), "-c", "input,message,place,length,master_version", "--", *names])
        self.places = self.rows()
        # the lengths of the messages that no tables read, by their places in the last file
        self.beyond: Dict[int, int] = {}

    def rows(self) -> Iterator[Tuple[int, int]]:
        """Yield the numbers and places of the messages that `show` answers: all but those that no tables read."""
        skipped = None
        for number, row in enumerate(self.running.output):
            if number:
                at, message, place, length, version = row[:-1].split(b",")
                if skipped is not None and skipped is not self.skipped[int(at) - 1]:
                    skipped.end()
                skipped = self.skipped[int(at) - 1]
                if skipped is not None:
                    skipped.message(int(place), int(length))
                if self.paths or not version or version_of(int(version)):
                    yield int(message), int(place)
                else:
                    self.beyond[int(place)] = int(length)
        self.running.finish()

    def losses(self) -> List[Tuple[str, Loss]]:
        """Return the losses of each file, after its last message."""
        for _ in self.places:
            pass
        return [(name, loss) for name, skipped in zip(self.names, self.skipped) if skipped is not None for loss in skipped.end()]

    def close(self) -> None:
        self.running.close()
        for skipped in self.skipped:
            if skipped is not None:
                skipped.close()


def read(files: Union[PathLike, Iterable[PathLike]], columns: Columns, each: Optional[str] = None, tables: TablesLike = None, *,
         time: bool = False, strict: bool = False, quiet: bool = False) -> "pandas.DataFrame":
    """
    Read BUFR files into a DataFrame: a row for each subset of each message.

    It needs pandas (Debian: python3-pandas). :func:`rows` gives the same rows without it.

    Parameters
    ----------
    files : str, bytes, path or iterable of them
        The files, in order, with names in UTF-8: no folder and no pattern.
    columns : sequence of str, or dict of str to str
        What each column has. A descriptor such as ``"012101"``, or the name of its element in Table B, is the first field of the
        subset with that descriptor, and ``"012101#2"`` the second. Other words: ``file``, ``message``, ``place``, ``subset``;
        ``centre``, ``sub_centre``, ``update``, ``category``, ``international``, ``local_category``, ``master_version``,
        ``local_version``, ``year`` to ``second`` of section 1; ``observed``, ``compressed``. A dict gives the columns names. A
        warning tells a column of which no message has a field.
    each : str, optional
        A descriptor without ``#``, or a name: there is a row for each field with this descriptor, and none where there is none. A
        column has the first field from there up to the next row, or else the last one before the first row. Warnings tell the
        columns that come before this field in its replication, and so have the values of the next level, and that some messages
        have it in no replication.
    tables : int or pair of paths, optional
        The version of the tables, or the files of Tables B and D. By default each message is read under the tables of its version.
    time : bool, default False
        The first column is the time of the fields 004001 to 004006. It is NaT if one of them is missing or is no part of a time;
        without a field for the minute or the second that is 0.
    strict : bool, default False
        Raise at the first message that is refused, or that is skipped.
    quiet : bool, default False
        Do not say on a terminal how far it is.

    Returns
    -------
    pandas.DataFrame
        Numbers are numbers, a missing one is NaN; texts are str, a missing one is None. ``attrs["refusals"]`` is a list of the
        file, the place and the reason of each message that was refused or skipped.

    Raises
    ------
    Missing
        If pandas is not installed.
    Refused
        With `strict`, for the first message that is refused.
    BufrError
        With the line of the program.

    Examples
    --------
    >>> frame = bufr.read("day.bufr", {"station": "001002", "kelvin": "012101"}, time=True)  # doctest: +SKIP
    """
    try:
        import pandas
    except ImportError:
        raise Missing(f"bufr.read needs the package pandas, which {sys.executable} does not have (Debian: python3-pandas, for "
                      "/usr/bin/python3)") from None
    refusals: List[Tuple[str, int, str]] = []
    words = _asked(files, columns, each, tables)
    plan = None if strict else _planned(*words, time)
    made = _framed(pandas, plan, *words[:3], time, quiet, refusals, 3) if plan else None
    names = (["time"] if time else []) + list(columns)
    if made is None:
        found = list(_rows(*words, time, strict, quiet, refusals, 3))
        made = [_series(pandas, cells) for cells in (zip(*found) if found else ((),) * len(names))]
    frame = pandas.DataFrame(dict(zip(names, made)))
    if time and frame["time"].dtype == object:
        frame["time"] = pandas.to_datetime(frame["time"], errors="coerce")
    frame.attrs["refusals"] = refusals
    return frame


def _series(pandas: Any, cells: Sequence[Value]) -> Any:
    """Return a column: of numbers, if it has nothing else."""
    kinds = {type(cell) for cell in cells}
    if kinds <= {int, float, type(None)} and kinds & {int, float}:
        whole = kinds == {int} and all(-(1 << 63) <= cell < 1 << 63 for cell in cells)  # type: ignore[operator]
        return pandas.Series([float("nan") if cell is None else cell for cell in cells], dtype="int64" if whole else "float64")
    return pandas.Series(list(cells), dtype=None if kinds == {bool} else "object")


def messages(file: PathLike, tables: TablesLike = None, *, strict: bool = False,
             refusals: Optional[List[Tuple[str, int, str]]] = None) -> Iterator[Dict[str, Any]]:
    """
    Iterate over the messages of a BUFR file, each as a dict as ``bufr-to-json`` prints it. It holds one message at a time.

    Parameters
    ----------
    file : str, bytes or path
        The file.
    tables, strict, refusals
        As of :func:`rows`.

    Yields
    ------
    dict
        ``file``, ``place``, ``section1`` and ``time`` (a dict of numbers each), ``local1`` and ``section2`` (hexadecimal digits, if
        they are there), ``observed``, ``compressed``, ``descriptors``, and ``subsets``: lists of dicts with ``descriptor``,
        ``name``, ``unit`` and ``value``.

    Raises
    ------
    Refused
        With `strict`, for the first message that is refused.
    BufrError
        With the line of the program.
    """
    return _messages(file_of(file), paths_of(tables), strict, refusals if refusals is not None else [])


def _messages(file: str, paths: Optional[List[str]], strict: bool, refusals: List[Tuple[str, int, str]]) -> Iterator[Dict[str, Any]]:
    by_version = TablesByVersion(paths)
    running = Running(words_to_show([file], paths))
    heads = None
    here: List[Tuple[str, int, str]] = []
    message: Dict[str, Any] = {}
    known: Dict[Tables, Dict[str, Dict[str, Any]]] = {}
    fields: Dict[str, Dict[str, Any]] = {}
    subset: List[Dict[str, Any]] = []
    named: Tables
    try:
        heads = Heads([file], paths)
        places = heads.places
        with running.to_the_end():
            for octets in running.output:
                line = octets[:-1].decode("latin-1")
                if line[:1].isdigit():
                    field = fields.get(line)
                    if field is None:
                        descriptor = line[:6]
                        field = {"descriptor": descriptor, "name": named.name(descriptor), "unit": named.unit(descriptor),
                                 "value": value_of(line[7:])}
                        if len(fields) > 100000:
                            fields.clear()
                        fields[line] = field
                    subset.append(dict(field))
                elif line == "message":
                    message = {"file": file, "place": next(places, (0, 0))[1]}
                elif line == "subset":
                    subset = []
                    message["subsets"].append(subset)
                elif line == "end":
                    yield message
                elif line[:1] == "#":
                    next(places, None)
                    _, _, said, reason = line.split(" ", 3)
                    here.append((file, int(said), reason))
                    if strict:
                        raise Refused(*here[0])
                else:
                    word, *rest = line.split(" ")
                    if word in ("section1", "time"):
                        message[word] = dict(zip(SECTION_1 if word == "section1" else TIME_NAMES, map(int, rest)))
                        if word == "section1":
                            named = by_version.of(rest[6])
                            fields = known.setdefault(named, {})
                    elif word == "flags":
                        message["observed"], message["compressed"] = "observed" in rest, "compressed" in rest
                    elif word == "descriptors":
                        message["descriptors"], message["subsets"] = rest, []
                    else:
                        message[word] = rest[0] if rest else ""
        _, said = running.finish()
        here += [(file, place, reason) for _, place, reason in left_out(said)]
        here += [(file, loss.place, loss.reason) for _, loss in heads.losses()]
        here.sort(key=lambda each: each[1])
        if strict and here:
            raise Refused(*here[0])
        refusals += here
    finally:
        running.close()
        if heads:
            heads.close()


class Checked(NamedTuple):
    """What ``bufr check`` says of a message."""

    place: int
    length: int
    subsets: Optional[int]
    slack: Optional[int]
    refusal: Optional[str]


def check(file: PathLike, tables: TablesLike = None) -> List[Checked]:
    """
    Check the messages of a BUFR file.

    Parameters
    ----------
    file : str, bytes or path
        The file.
    tables : int or pair of paths, optional
        As of :func:`rows`.

    Returns
    -------
    list of Checked
        A row for each message: its place and length in octets, the number of its subsets and the octets that follow its data in
        section 4, or its refusal. Octets that are skipped and a loss have a row as a refusal (as of :func:`rows`).

    Raises
    ------
    BufrError
        With the line of the program.
    """
    name, paths = file_of(file), paths_of(tables)
    running = Running([*words_of("check", paths), "--", name])
    found = []
    try:
        lines = running.output.read().decode("latin-1").splitlines()
        for line in lines[:-1]:
            place, length, kind, *rest = line.split(" ")
            if kind == "ok":
                found.append(Checked(int(place), int(length), int(rest[0]), int(rest[1]), None))
            else:
                found.append(Checked(int(place), int(length), None, None, " ".join(rest)))
        _, said = running.finish()
    finally:
        running.close()
    beyond = {place: reason for _, place, reason in left_out(said)}
    skipped = int(lines[-1].split(" ")[-1])
    if skipped and not found and not beyond and not is_regular(name):
        found.append(Checked(0, skipped, None, None, f"skipped {skipped} octets: no message"))
    elif beyond or skipped and is_regular(name):
        heads = Heads([name], paths)
        try:
            found += [Checked(loss.place, loss.length, None, None, loss.reason) for _, loss in heads.losses()]
            found += [Checked(place, heads.beyond[place], None, None, reason) for place, reason in beyond.items()]
        finally:
            heads.close()
    return sorted(found)
