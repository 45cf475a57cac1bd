"""Columns of DataFrames of what `bufr-select` prints. pandas is handed on by the caller."""
from __future__ import annotations

import os
from typing import TYPE_CHECKING, Any, Callable, Dict, List, Sequence, Tuple

from .decimals import columns_of
from .moments import PARTS, TIME, moments_of
from .progress import Progress, positions
from .selecting import Plan, Selection

if TYPE_CHECKING:
    from .reading import Column

# The columns that the program prints, by their words.
Table = Dict[str, Any]
Maker = Callable[[Table], Any]


class Framer:
    """How the columns of a DataFrame are made of the table that the program prints. `is_able` is false if one has to be made row by
    row."""

    def __init__(self, pandas: Any, plan: Plan, files: List[str]) -> None:
        import numpy
        self.pandas, self.numpy, self.plan, self.files, self.is_able = pandas, numpy, plan, files, True
        templates = plan.templates.all()
        self.met = frozenset(word for template in templates for word in template.all())
        self.long = frozenset(word for template in templates for word in template.long)
        self.texts: List[str] = []
        self.makers: List[Maker] = []

    def add(self, column: "Column", text_of: Callable[[str], Any]) -> None:
        """Add a column."""
        word = column.word
        if not word[:1].isdigit():
            self.add_place(word)
            return
        met = [each for each in word.split() if each in self.met]
        if not met:
            self.makers.append(self.nothing)
            return
        asked = f"{met[0]}#{column.number}" if column.number else met[0]
        self.is_able = self.is_able and len(met) == 1 and met[0] not in self.long
        self.plan.ask(asked)
        if met[0] in self.plan.texts:
            self.texts.append(asked)
            self.makers.append(lambda table: self.mapped(table[asked], text_of))
        else:
            self.makers.append(lambda table: self.numbers(table[asked]))

    def add_place(self, word: str) -> None:
        """Add a column of where a row comes from, or of section 1."""
        if word == "file":
            self.plan.ask("input")
            self.makers.append(lambda table: self.mapped(table["input"], lambda number: self.files[number - 1]))
        else:
            self.plan.ask(word)
            is_flag = word in ("observed", "compressed")
            self.makers.append(lambda table: table[word].astype("bool") if is_flag else table[word])

    def add_time(self) -> None:
        """Add the column of the times of the fields of TIME."""
        there = list(dict.fromkeys(template.has(PARTS) for template in self.plan.templates.all()))
        self.is_able = self.is_able and len(there) > 0 and not (self.long | self.plan.texts).intersection(TIME)
        asked = [word for word in TIME if word in self.met]
        # a minute that is missing counts as 0 if the template of the message has none
        where = ["input", "message"] if len(self.files) > 1 else ["message"]
        for word in asked + where * (len(there) > 1):
            self.plan.ask(word)

        def made(table: Table) -> Any:
            is_there = self.numpy.array(there)[self.kinds(table, there) if len(there) > 1 else 0]
            found = moments_of(self.numpy, [table[word] if word in asked else None for word in TIME], is_there.T)
            return found if asked else found.repeat(count_of(table))
        self.makers.append(made)

    def kinds(self, table: Table, there: List[Tuple[bool, ...]]) -> Any:
        """Return for each row which of `there` the template of its message has."""
        templates = self.plan.templates
        templates.renew()
        found = [templates.of(row) for row in templates.rows]
        kinds = self.numpy.array([there.index(each.has(PARTS)) if each is not None else 0 for each in found])
        firsts = self.numpy.array(templates.firsts)[table["input"] - 1] if len(self.files) > 1 else 0
        messages = firsts + table["message"] - 1
        return kinds[self.numpy.frombuffer(templates.order, templates.order.typecode)[messages]]

    def mapped(self, cells: Any, cell_of: Callable[[Any], Any]) -> Any:
        """Return what cells become, each made once."""
        codes, kept = self.pandas.factorize(cells)
        return self.numpy.array([cell_of(cell) for cell in kept.tolist()], dtype="object")[codes]

    def nothing(self, table: Table) -> Any:
        """Return a column that has nothing but None."""
        return self.numpy.empty(count_of(table), dtype="object")

    def numbers(self, cells: Any) -> Any:
        """Return a column of numbers; one that has none has None."""
        is_empty = cells.dtype.kind == "f" and self.numpy.isnan(cells).all()
        return self.numpy.empty(len(cells), dtype="object") if is_empty else cells

    def table(self, path: str) -> Table:
        """Return the table that the program has written into a file."""
        found = columns_of(self.numpy, path, len(self.plan.words)) if not self.texts else None
        return self.read(path) if found is None else dict(zip(self.plan.words, found))

    def read(self, path: str) -> Table:
        """Return a table that may have texts."""
        # no number has more than 15 digits, and these come back; an empty text stays one
        numbers = [word for word in self.plan.words if word not in self.texts]
        table = self.pandas.read_csv(path, dtype={word: str for word in self.texts}, keep_default_na=False,
                                     na_values={word: [""] for word in numbers}, float_precision="high", low_memory=False)
        return {word: table[word].to_numpy() for word in self.plan.words}

    def columns(self, path: str) -> Tuple[List[Any], List[bool]]:
        """Return the columns, and whether each has a value."""
        table = self.table(path)
        made = [maker(table) for maker in self.makers]
        return made, [each.dtype.kind in "biufM" or bool(self.pandas.notna(each).any()) for each in made]


def count_of(table: Table) -> int:
    """Return how many rows a table has."""
    return len(next(iter(table.values())))


def wait_for(selection: Selection, files: Sequence[str], quiet: bool) -> None:
    """Wait for the end of the program, and say how far it is."""
    sizes = [os.path.getsize(file) for file in files]
    progress = Progress("bufr", sum(sizes), quiet)
    is_told = progress.next is not None
    known = {os.path.realpath(file): number for number, file in reversed(list(enumerate(files)))} if is_told else {}
    try:
        while progress.next is not None and not selection.process.has_ended(within=0.1):
            for number, octets in positions(selection.process.number, known):
                progress.at(sum(sizes[:number]) + octets)
        selection.finish()
    finally:
        progress.end()
