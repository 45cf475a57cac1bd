"""Columns of numbers are what the decimals spell, each alone."""
import random
from decimal import Decimal

import numpy
import pytest
from bufr import decimals


def columns(folder, lines, count):
    path = f"{folder}/table"
    with open(path, "w", encoding="ascii") as file:
        file.write("\n".join([",".join(["012101"] * count), *lines, ""]))
    return decimals.columns_of(numpy, path, count)


def same(column, wanted, kind):
    assert column.dtype == kind
    assert [None if number != number else number for number in column.tolist()] == wanted


@pytest.mark.parametrize("piece", [1, 20, decimals.PIECE])
def test_columns(folder, monkeypatch, piece):
    monkeypatch.setattr(decimals, "PIECE", piece)
    whole, point, some, none, long = columns(folder, ["2024,277.25,,,-123456789012345678", "7,-0.05,10,,5",
                                                     "-1,,-384,,100000000", "0,-12345678901.23,0,,-10000000000000000"], 5)
    same(whole, [2024, 7, -1, 0], "int64")
    same(point, [277.25, -0.05, None, -12345678901.23], "float64")
    same(some, [None, 10.0, -384.0, 0.0], "float64")
    same(none, [None] * 4, "float64")
    same(long, [-123456789012345678, 5, 100000000, -10000000000000000], "int64")


def test_one_column(folder):
    """An empty cell alone has quotes."""
    same(columns(folder, ['""', "273.10", '""', "-1.00"], 1)[0], [None, 273.1, None, -1.0], "float64")
    same(columns(folder, ["12345678", "-1"], 1)[0], [12345678, -1], "int64")


def test_point_before_an_empty_cell(folder):
    """The point of the cell before it is not its own."""
    before, empty = columns(folder, ["0.19936,", "1.00000,2.500000"], 2)
    same(before, [0.19936, 1.0], "float64")
    same(empty, [None, 2.5], "float64")


@pytest.mark.parametrize("lines", [["1,2.5", "1,2"], ["10000,2", "1.5,2"], ["1,2.5", "1,3.25"], ["1.5,2", "1,2"], ["1,2.50", ",3.5", "1,"]])
def test_points_that_differ(folder, lines):
    assert columns(folder, lines, 2) is None


def test_nearest_floats(folder):
    """A float is the one that Python reads, for all places of the point."""
    rng = random.Random(1)
    for places in range(13):
        scaled = [rng.randint(-10 ** 13 + 1, 10 ** 13 - 1) // 10 ** rng.randint(0, 12) for _ in range(300)]
        words = [f"{Decimal(number).scaleb(-places):f}" for number in scaled]
        column, beside = columns(folder, [f"{word},{at}" for at, word in enumerate(words)], 2)
        same(column, [float(word) for word in words], "float64" if places else "int64")
        same(beside, list(range(300)), "int64")
