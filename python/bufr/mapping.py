"""Mappings of bufr-from-csv: what they say of each field, and a new one to fill in. Python 3 with its standard library alone."""
import argparse
import difflib
import json
import re
from collections import Counter
from decimal import Decimal
from fractions import Fraction

from . import units, wanted
from .errors import Fault
from .skeleton import descriptor_of
from .tables import BEGIN, END, TURN
from .to_json import SECTION_1, TIME

KEYS = ("template", "section1", "observed", "time", "wigos", "station", "missing", "delimiter", "decimal", "names_row", "first_row",
        "fields", "notes")
SOURCE_KEYS = ("column", "constant", "unit", "factor", "offset", "round", "least", "greatest", "decimal", "time", "wigos",
               "station", "name", "wants")
# The words that `time`, `wigos` and `station` of a mapping give to fields.
PARTS = {"time": TIME, "wigos": ("series", "issuer", "issue", "local"), "station": ("block", "number")}
# Which field has which part in a mapping to fill in.
PARTS_OF = {**{f"00400{number}": ("time", part) for number, part in enumerate(TIME, 1)},
            **{f"00112{number}": ("wigos", part) for number, part in enumerate(PARTS["wigos"], 5)},
            **{f"00100{number}": ("station", part) for number, part in enumerate(PARTS["station"], 1)}}
# By which names of columns a new mapping knows the time, a WIGOS identifier and a station.
WORDS_OF = {"time": ("time", "time utc", "datetime", "date time", "timestamp", "date"),
            "wigos": ("wigos", "wigos id", "wsi", "wigos identifier", "wigos station identifier"),
            "station": ("station", "station number", "wmo", "wmo number", "wmo id", "iiiii")}
GREATEST = dict(zip(SECTION_1, (65535, 65535, 255, 255, 255, 255, 255, 255)))
NUMBER = re.compile(r"[+-]?(?:[0-9]{1,30}(?:\.[0-9]{0,30})?|\.[0-9]{1,30})(?:[eE][+-]?[0-9]{1,2})?")
KEY = re.compile(r"([0-9]{6})(?:#([1-9][0-9]*))?")
# How many fields a row has at most.
MOST_FIELDS = 1000000
# The data category by the class of Table D of a sequence, as far as that tells it.
CATEGORIES = {"307": 0, "308": 1, "309": 2, "310": 3, "311": 4, "312": 12, "315": 31}


def said(key):
    """A field's descriptor, with its number if it is not the first one."""
    return key[0] if key[1] == 1 else f"{key[0]}#{key[1]}"


def range_of(field):
    """What a field has room for, with its unit."""
    if wanted.is_text(field):
        return wish(field)
    least, greatest = wanted.bounds(field)
    kind = wanted.wanted(field).partition(",")[0]
    unit = "" if "TABLE" in field.unit.upper() or field.unit.upper() == "NUMERIC" else f" {' '.join(field.unit.split())}"
    return f"{kind}; the field has room for {least} to {greatest}{unit}{', or missing' if wanted.can_be_missing(field) else ''}"


def wish(field):
    """What a field wants of a column."""
    return f"a text of at most {field.width // 8} characters, or missing" if wanted.is_text(field) else wanted.wanted(field)


def number_of(text, decimal="."):
    """The exact number that a text spells, or None."""
    if decimal != ".":
        text = text.replace(decimal, ".") if "." not in text else "none"
    return Fraction(text) if NUMBER.fullmatch(text) else None


def shown(number):
    """A number as it is shown: with all its digits, if these end."""
    rest = number.denominator
    for prime in (2, 5):
        while rest % prime == 0:
            rest //= prime
    if rest == 1:
        return f"{Decimal(number.numerator) / Decimal(number.denominator):f}"
    return f"{float(number):.6g}.."


class Source:
    """What a mapping says of one field: a column, a constant, or a part of the time, the WIGOS identifier or the station."""

    def __init__(self, column=None, constant=None, part=None):
        self.column, self.constant, self.part = column, constant, part
        self.unit, self.factor, self.offset = None, Fraction(1), Fraction(0)
        self.rounds, self.least, self.greatest, self.decimal = False, None, None, None

    def is_empty(self):
        return self.column is None and self.constant is None and self.part is None


def refuse_twice(pairs):
    """The dict of an object whose names are all different."""
    found = Counter(name for name, _ in pairs)
    twice = [name for name, count in found.items() if count > 1]
    if twice:
        raise Fault(f"{twice[0]} is there twice")
    return dict(pairs)


def loaded(path):
    """The object of a file of JSON or TOML."""
    try:
        with open(path, encoding="utf-8-sig") as file:
            text = file.read()
    except OSError as error:
        raise Fault(f"cannot open {path}: {error.strerror}") from error
    except UnicodeDecodeError as error:
        raise Fault(f"{path} is not in UTF-8") from error
    try:
        if path.endswith(".toml"):
            try:
                import tomllib
            except ImportError:
                raise Fault("TOML needs Python 3.11: write the mapping in JSON") from None
            found = tomllib.loads(text, parse_float=Decimal)
        else:
            found = json.loads(text, parse_float=Decimal, object_pairs_hook=refuse_twice)
    except Fault as fault:
        raise Fault(f"{path}: {fault}") from None
    except (ValueError, RecursionError) as error:
        raise Fault(f"{path} is no {'TOML' if path.endswith('.toml') else 'JSON'}: {error}") from error
    if not isinstance(found, dict):
        raise Fault(f"{path} has no object")
    return found


def near(word, words):
    """The word that is most like one that is not among them, in a sentence."""
    found = difflib.get_close_matches(str(word), list(words), 1, 0.5)
    return f": is it {found[0]}" if found else ""


class Mapping:
    """A mapping that was read. `faults` has what is wrong with it, in a line each."""

    def __init__(self, path, chosen):
        self.path, self.faults = path, []
        found = loaded(path)
        for key in found:
            if key not in KEYS:
                self.fault(f"{key} is no word of a mapping{near(key, KEYS)}")
        self.descriptors = self.template(found.get("template"))
        self.section1 = self.heads(found.get("section1", {}))
        version = self.section1.get("master_table_version")
        if version is None or not isinstance(version.constant, int):
            others = [name for name in SECTION_1 if name not in self.section1 and name != "master_table_version"]
            raise Fault(f"{path}: section1 has no number master_table_version: write the version of the tables, such as 46"
                        + (f"; and write the numbers {', '.join(others)}" if others else ""))
        self.tables = chosen.of(str(version.constant))
        self.observed = self.of_kind(found, "observed", bool, True)
        self.decimal = self.of_kind(found, "decimal", str, ".")
        self.delimiter = self.of_kind(found, "delimiter", str, None)
        self.missing = {"", *map(str, self.of_kind(found, "missing", list, []))}
        self.names_row = self.of_kind(found, "names_row", int, 1)
        self.first_row = self.of_kind(found, "first_row", int, self.names_row + 1)
        if self.decimal not in (".", ",") or self.delimiter is not None and (len(self.delimiter) != 1 or self.delimiter in '"\r\n'):
            raise Fault(f"{path}: decimal is a point or a comma, and delimiter one character")
        if not 1 <= self.names_row < self.first_row:
            raise Fault(f"{path}: names_row counts from 1, and first_row is below it")
        self.composed = {name: self.composed_of(name, found[name]) for name in PARTS if found.get(name) is not None}
        # those to which the mapping gives no column: their parts are missing
        self.unfilled = {name for name in ("wigos", "station") if name in found and found[name] is None}
        self.sources = self.fields(self.of_kind(found, "fields", dict, {}))
        self.keys, self.fields_of, self.tree, self.counts = [], {}, [], {}
        self.expand()
        self.check()

    def fault(self, text):
        self.faults.append(text)

    def of_kind(self, found, key, kind, default):
        """What a mapping has under a word, of its kind."""
        value = found.get(key)
        if value is None:
            return default
        if not isinstance(value, kind) or kind is int and isinstance(value, bool):
            self.fault(f"{key} is {json.dumps(value, default=str)}, and not a {kind.__name__}")
            return default
        return value

    def template(self, found):
        words = found.split() if isinstance(found, str) else found
        if not words or not isinstance(words, list):
            raise Fault(f"{self.path}: template has no descriptors, such as \"307080\"")
        try:
            return [descriptor_of(str(word)) for word in words]
        except argparse.ArgumentTypeError as error:
            raise Fault(f"{self.path}: template: {error}") from error

    def heads(self, found):
        """The sources of section 1."""
        if not isinstance(found, dict):
            raise Fault(f"{self.path}: section1 has no numbers by their names")
        for name in found:
            if name not in SECTION_1:
                self.fault(f"section1: {name} is no number of it{near(name, SECTION_1)}")
        sources = {}
        for name in SECTION_1:
            source = self.source(f"section1 {name}", found.get(name))
            if source.is_empty():
                self.fault(f"section1 {name}: wanted a number from 0 to {GREATEST[name]}, or a column; found nothing")
            elif source.column is None and not (isinstance(source.constant, int) and 0 <= source.constant <= GREATEST[name]):
                self.fault(f"section1 {name}: wanted a number from 0 to {GREATEST[name]}, or a column; found {source.constant}")
            else:
                sources[name] = source
        return sources

    def composed_of(self, name, found):
        """The columns, and the format, of what has parts."""
        if isinstance(found, str):
            found = {"column": found}
        words = ("column", "columns", "format") if name == "time" else ("column",)
        if not isinstance(found, dict) or any(key not in words for key in found):
            self.fault(f"{name} has a column{', or columns, and a format' if name == 'time' else ''}")
            return [], None
        columns = found.get("columns") or [found["column"]] if found.get("columns") or found.get("column") else []
        if not isinstance(columns, list) or not columns or not all(isinstance(each, str) for each in columns):
            self.fault(f"{name} has no column: write its name")
            return [], None
        return columns, found.get("format")

    def source(self, name, found):
        """What a mapping says of one value."""
        if found is None:
            return Source()
        if isinstance(found, str):
            return Source(column=found)
        if isinstance(found, (int, Decimal, float)) and not isinstance(found, bool):
            return Source(constant=found)
        if not isinstance(found, dict):
            self.fault(f"{name}: {json.dumps(found, default=str)} is no column and no constant")
            return Source()
        for key in found:
            if key not in SOURCE_KEYS:
                self.fault(f"{name}: {key} is no word of a field{near(key, SOURCE_KEYS)}")
        kinds = [key for key in ("column", "constant", *PARTS) if found.get(key) is not None]
        if len(kinds) > 1:
            self.fault(f"{name} has {' and '.join(kinds)}: one of them goes")
            return Source()
        constant = found.get("constant")
        if constant is not None and (isinstance(constant, bool) or not isinstance(constant, (int, Decimal, str))):
            self.fault(f"{name}: the constant {json.dumps(constant, default=str)} is no number and no text")
            return Source()
        made = Source(found.get("column"), constant)
        for part in PARTS:
            if found.get(part) is not None:
                made.part = (part, found[part])
                if not isinstance(found[part], str) or found[part] not in PARTS[part]:
                    self.fault(f"{name}: {part} is one of {', '.join(PARTS[part])}, not {found[part]}")
                    return Source()
        if made.column is not None and not isinstance(made.column, str):
            self.fault(f"{name}: a column is named by its name in quotes, not by {found['column']}")
            return Source()
        made.unit, made.rounds = found.get("unit"), found.get("round") is True
        if found.get("round") not in (None, True, False):
            self.fault(f"{name}: round is true or false, not {found['round']}")
        made.decimal = found.get("decimal")
        if made.decimal not in (None, ".", ","):
            self.fault(f"{name}: decimal is a point or a comma, not {made.decimal}")
            made.decimal = None
        for key in ("factor", "offset", "least", "greatest"):
            if found.get(key) is not None:
                number = number_of(str(found[key]))
                if number is None:
                    self.fault(f"{name}: {key} is {found[key]}, and no number")
                else:
                    setattr(made, key, number)
        return made

    def fields(self, found):
        """The sources by the descriptors and numbers of their fields."""
        sources = {}
        for word, what in found.items():
            key = KEY.fullmatch(word)
            if not key:
                self.fault(f"{word} is no descriptor of six digits, nor one with # and a number, such as 007032#2")
                continue
            key = key[1], int(key[2] or 1)
            if key in sources:
                self.fault(f"{said(key)} is there twice")
            sources[key] = self.source(word, what)
        return sources

    def most(self, key, field):
        """How often the body after a count comes at most."""
        source = self.sources.get(key, Source())
        most = source.constant if source.column is None else source.greatest
        number = None if most is None else number_of(str(most))
        if number is None or number.denominator > 1 or not 0 <= number < 1 << field.width:
            if source.column is not None:
                self.fault(f"{said(key)}: a count from a column has \"greatest\": the greatest count of a row, below {1 << field.width}")
            elif source.constant is not None:
                self.fault(f"{said(key)}: the count {most} is no count below {1 << field.width}")
            return 0
        return int(number)

    def expand(self):
        """Finds the fields that the template has at most, each under its descriptor and number."""
        seen, depths = Counter(), []
        stack = [self.tree]

        def count_of(field):
            key = field.descriptor, seen[field.descriptor]
            self.counts[key] = self.most(key, field)
            return self.counts[key]

        try:
            for each in self.tables.marked(self.descriptors, count_of):
                if each is BEGIN:
                    depths.append(len(stack))
                    stack[-1].append([])
                elif each is TURN:
                    del stack[depths[-1]:]
                    turn = []
                    stack[-1][-1].append(turn)
                    stack.append(turn)
                elif each is END:
                    del stack[depths.pop():]
                else:
                    seen[each.descriptor] += 1
                    key = each.descriptor, seen[each.descriptor]
                    if len(self.keys) == MOST_FIELDS:
                        raise Fault(f"a row has more than {MOST_FIELDS:,} fields")
                    self.keys.append(key)
                    self.fields_of[key] = each
                    stack[-1].append(key)
        except Fault as fault:
            raise Fault(f"{self.path}: template: {fault}") from None

    def check(self):
        """Finds what is wrong with each source, by its field. A source with a fault is left out."""
        seen = Counter(descriptor for descriptor, _ in self.keys)
        parts = {source.part[0] for source in self.sources.values() if source.part}
        for name in self.composed:
            if name != "time" and name not in parts:
                parts_of = [f"{json.dumps(dict([part]))} for {key}" for key, part in PARTS_OF.items() if part[0] == name]
                self.fault(f"{name}: no field has a part of it: write {', '.join(parts_of)}")
        for key in list(self.sources):
            source, field = self.sources[key], self.fields_of.get(key)
            if field is None:
                count = seen[key[0]]
                self.fault(f"{said(key)}: the template has {f'{count} such field' + 's' * (count > 1) if count else 'no such field'}"
                           + ("" if count else near(key[0], seen)))
                del self.sources[key]
            elif source.part and source.part[0] not in self.composed:
                if source.part[0] not in self.unfilled:
                    self.fault(f"{said(key)}: the mapping has no {source.part[0]}")
                del self.sources[key]
            elif source.unit is not None and not self.convert(source, field):
                self.fault(f"{said(key)} {wanted.named(field)}: no unit {source.unit} is converted to it; these are: "
                           f"{', '.join(units.known(field.unit))}")
                del self.sources[key]
        for key, field in self.fields_of.items():
            if not wanted.can_be_missing(field) and self.sources.get(key, Source()).is_empty():
                self.fault(f"{said(key)} {wanted.named(field)}: wanted {wish(field)}; found nothing")

    def convert(self, source, field):
        """Gives a source the factor and the offset of its unit, and returns whether there are any."""
        found = units.conversion(str(source.unit), field)
        if found is None:
            return False
        source.factor, source.offset = source.factor * found[0], source.offset * found[0] + found[1]
        return True

    def plan(self, counts):
        """The fields of a row with these counts, each with its key. A count that is None raises KeyError with its key."""
        found, depths, turns = [], [], []
        stack = [iter(self.tree)]

        def count_of(_field):
            key = found[-1][1]
            if counts[key] is None:
                raise KeyError(key)
            return counts[key]

        for each in self.tables.marked(self.descriptors, count_of):
            if each is BEGIN:
                depths.append(len(stack))
                turns.append(iter(next(stack[-1])))
            elif each is TURN:
                del stack[depths[-1]:]
                stack.append(iter(next(turns[-1])))
            elif each is END:
                turns.pop()
                del stack[depths.pop():]
            else:
                found.append((each, next(stack[-1])))
        return found


def plain_word(text):
    """A word of a header or a name, for comparing."""
    return " ".join(re.findall(r"[a-z0-9]+", text.lower()))


class Columns:
    """The columns of a header, of which each is taken once."""

    def __init__(self, header):
        self.by_word = {plain_word(column): column for column in header}

    def find(self, *words):
        """The column that is called by one of some words, or None."""
        return next((self.by_word[plain_word(word)] for word in words if plain_word(word) in self.by_word), None)

    def take(self, *words):
        """Takes the column that is called by one of some words, or None."""
        column = self.find(*words)
        if column is not None:
            del self.by_word[plain_word(column)]
        return column


def new_mapping(tables, version, descriptors, counts, header, centre=None):
    """The text of a mapping with a line for each field, to be filled in, and what it has taken of the columns of a header: the name of
    each, and the descriptor or the word that has it."""
    left, met, seen, rows, columns = list(counts), [], Counter(), [], Columns(header)
    taken, parted = {}, {"time"}
    has = {field.descriptor for field in tables.fields(descriptors, lambda _field: 1)}
    for name in PARTS:
        fields = {each for each, part in PARTS_OF.items() if part[0] == name}
        # fields may have columns of their own
        if name != "time" and fields <= has and not any(columns.find(*words_of(tables, each)) for each in fields):
            parted.add(name)
        if name in parted:
            taken[name] = columns.take(*WORDS_OF[name])
    for field in tables.fields(descriptors, lambda _field: met[-1]):
        seen[field.descriptor] += 1
        key = said((field.descriptor, seen[field.descriptor]))
        if field.is_factor:
            met.append(left.pop(0) if left else 0)
            what = {"constant": met[-1]}
        elif key in PARTS_OF and PARTS_OF[key][0] in parted:
            what = dict([PARTS_OF[key]])
        elif not wanted.can_be_missing(field):
            what = {"constant": 0}
        else:
            what = {"column": columns.take(key, *words_of(tables, field.descriptor)[1:] if seen[field.descriptor] == 1 else ())}
            taken[key] = what["column"]
            if not wanted.is_text(field) and units.plain(field.unit) in units.UNITS:
                what["unit"] = field.unit
        rows.append((key, {**what, "name": " ".join(field.name.split()), "wants": range_of(field)}))
    if left:
        raise Fault(f"{len(met)} counts are asked for, {len(counts)} are given")
    head = {"template": " ".join(descriptors),
            "section1": dict(zip(SECTION_1, (centre, 0, 0, CATEGORIES.get(category_of(descriptors)), 255, 255, version, 0))),
            "time": {"column": taken["time"], "format": None}, "missing": [], "decimal": None}
    head.update({name: taken.get(name) for name, descriptor in (("wigos", "001128"), ("station", "001002")) if descriptor in seen})
    lines = [f" {json.dumps(key)}: {json.dumps(value, ensure_ascii=False)}," for key, value in head.items()]
    lines.append(' "fields": {')
    lines += [f"  {json.dumps(key)}: {json.dumps(what, ensure_ascii=False)}," for key, what in rows]
    lines[-1] = lines[-1].rstrip(",")
    return "{\n" + "\n".join(lines) + "\n }\n}\n", {column: word for word, column in taken.items() if column is not None}


def words_of(tables, descriptor):
    """The names of the columns that a field takes: its descriptor, or with or without it the name of its element."""
    name = tables.name(descriptor)
    return descriptor, f"{descriptor} {name}", name


def category_of(descriptors):
    """The class of Table D that tells the data category: that of the last sequence of one."""
    return next((each[:3] for each in reversed(descriptors) if each[:3] in CATEGORIES), "")
