"""The warning that a column comes before `each` in its replication."""
import warnings

import pytest

import bufr
from bufr import levels, tables
from conftest import TOP, command, write
import makers

TEMP = f"{TOP}/examples/standard/temp.bufr"
NEXT = "so a row has those of the next level; the replication begins with 004086"


def told(call):
    """What a call returns, and its warnings."""
    with warnings.catch_warnings(record=True) as found:
        warnings.simplefilter("always")
        got = call()
    return got, [(str(each.message), each.filename) for each in found]


@pytest.mark.parametrize("columns, each, first, said", [
    (["007004", "012101", "005015"], "012101", (100000, 278.06, 0.00037),
     f"each=012101 is not the first field of its replication: 007004 and 005015 come before it, {NEXT}"),
    (["004086", "007004"], "007004", (46, 101400),
     "each=007004 is not the first field of its replication: 004086 comes before it, so a row has that of the next level; the "
     "replication begins with 004086"),
    (["004086", "012101", "005015"], "temperature/air temperature", (46, 278.06, 0.00037),
     f"each=012001 or 012101 is not the first field of its replication: 004086 and 005015 come before it, {NEXT}")])
def test_a_column_before_each_is_told(columns, each, first, said):
    """Once a call, at the line of the caller. The values are those of the sample's listing: of the first level and the second."""
    frame, found = told(lambda: bufr.read([TEMP, TEMP], columns, each=each))
    assert found == [(said, __file__)] and tuple(frame.iloc[0]) == first
    rows, found = told(lambda: list(bufr.rows(TEMP, columns, each=each)))
    assert found == [(said, __file__)] and rows[0] == first
    _, found = told(lambda: list(bufr.rows([TEMP, TEMP], columns, each=each, tables=46)))
    assert [each for each, _ in found] == [said]


@pytest.mark.parametrize("file, columns, each, first", [
    ("temp", {"station": "001002", "pressure": "007004", "kelvin": "012101", "wind": "011002"}, "007004", (393, 101400, 278.06, 5.7)),
    ("temp", ["004086", "007004", "012101", "005015"], "004086", (23, 101400, 278.06, 0.00019)),
    ("temp", ["001002", "012101"], "012101", (393, 278.06)), ("temp", ["007004", "005015"], None, (101400, 0.00019)),
    ("synop", ["001002", "007030", "012101"], "012101", (384, 48.0, 277.25))])
def test_other_columns_are_not(file, columns, each, first):
    """They come from the field on, or before the replication, or in none."""
    rows, found = told(lambda: list(bufr.rows(f"{TOP}/examples/standard/{file}.bufr", columns, each=each)))
    assert (rows[0], found) == (first, [])


def test_time_is_asked(folder):
    """The hour of a level comes before the temperature."""
    listing = "message\nsection1 98 0 0 0 2 0 46 0\ntime 2024 1 15 12 0 0\nflags observed\ndescriptors 301011 102002 004004 012101\n" \
        "subset\n004001 2024\n004002 1\n004003 15\n004004 6\n012101 273.15\n004004 12\n012101 274.15\nend\n"
    status, octets, error = makers.encoded(write(f"{folder}/listing", listing))
    assert (status, error) == (0, "")
    path = write(f"{folder}/file", octets)
    rows, found = told(lambda: list(bufr.rows(path, ["012101"], each="012101", time=True)))
    assert [row[1] for row in rows] == [273.15, 274.15] and [row[0].hour for row in rows] == [12, 6]
    assert [each for each, _ in found] == ["each=012101 is not the first field of its replication: 004004 comes before it, so a row has "
                                           "that of the next level; the replication begins with 004004"]
    assert told(lambda: list(bufr.rows(path, ["012101"], each="012101")))[1] == []


@pytest.mark.parametrize("descriptors, each, wanted", [
    ("001002 012101", "012101", []), ("001002 102003 007004 012101", "012101", [["007004"]]),
    ("001002 102001 007004 012101", "012101", []), ("001002 102000 031001 012101 007004", "012101", []),
    ("105000 031001 005002 006002 101000 031002 012101", "012101", [["005002", "006002", "031002"]]),
    ("105002 005002 102000 031001 007004 012101 011002", "012101", [["007004"], ["005002", "031001", "007004"]]),
    ("103002 201130 205003 012101 201000", "012101", [["205003"]]), ("101000 031001 301011", "004003", [["004001", "004002"]]),
    ("102000 031000 007004 012101", "012101", []), ("105000 031002 005002 102000 031000 007004 012101", "012101", [["005002", "031000", "007004"]]),
    ("101000 031001 399999 012101", "012101", [])])
def test_what_comes_before_in_a_template(descriptors, each, wanted):
    """Typed by the regulations of replication: a replication has the descriptors that X counts, after its factor if Y is 0. The factor
    031000 has one bit."""
    known = tables.Tables(*tables.table_paths(46))
    assert list(levels.leading(levels.body_of(known, descriptors.split()), frozenset([each]))) == wanted


def test_many_fields_are_named_in_part():
    known, found = tables.Tables(*tables.table_paths(46)), levels.Leading(["012101"])
    found.take(known, ["101002", "301011", "107002", "001001", "001002", "002001", "004001", "004002", "004003", "012101"])
    assert found.said("--each 012101", "a feature has") == [
        "--each 012101 is not the first field of its replication: 001001, 001002, 002001, 004001, 004002 and 1 more come before it, so a "
        "feature has those of the next level; the replication begins with 001001"]


def test_levels_among_messages_without_them():
    """007004 is one field of a SYNOP, and in the levels of a sounding; 004086 is in these alone."""
    synop = f"{TOP}/examples/standard/synop.bufr"
    said = "each=007004 is in a replication of 309052, but one field of 307080, which has no levels: part the messages by their category"
    for how in ({}, {"tables": 46}):
        frame, found = told(lambda: bufr.read([synop, TEMP], {"category": "category", "kelvin": "012101"}, each="007004", **how))
        assert found == [(said, __file__)] and frame["category"].value_counts().to_dict() == {0: 4, 2: 101}
        assert told(lambda: list(bufr.rows([TEMP, synop], ["012101"], each="007004", **how)))[1] == [(said, __file__)]
    for files, each in (([synop, TEMP], "004086"), ([synop, synop], "007004"), ([TEMP], "007004")):
        assert told(lambda: bufr.read(files, ["012101"], each=each))[1] == []
    status, _, error = command("geojson", "--each", "007004", synop, TEMP)
    assert status == 0 and error.splitlines()[-1] == f"bufr-geojson: {said.replace('each=', '--each ')}"


def test_a_template_that_has_a_field_alone_too_has_levels():
    """The first templates of each kind are named."""
    known, found = tables.Tables(*tables.table_paths(46)), levels.Leading(["007004"], ["012101"])
    found.take(known, ["007004", "102002", "007004", "012101"])
    assert found.said("each=007004", "a row has") == []
    for words in ("001001 007004", "007004", "102003 007004 012101"):
        found.take(known, words.split())
    assert found.said("each=007004", "a row has") == [
        "each=007004 is in a replication of 007004 102002 007004 012101, but one field of 001001 007004, which has no levels: part the messages "
        "by their category"]
