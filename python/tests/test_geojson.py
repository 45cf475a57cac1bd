"""bufr-geojson: the features of reports."""
import json
import os
import random
from decimal import Decimal

import geojson
import pytest

import bufr
import makers
from conftest import TOP, command, inside, message, read, text, write

SYNOP, TEMP = f"{TOP}/examples/standard/synop.bufr", f"{TOP}/examples/standard/temp.bufr"
STATION = {"type": "Point", "coordinates": [13.40214, 52.4675, 48.0]}


def features(*words, given=None, status=0, error=""):
    """The features that bufr-geojson writes, which python3-geojson finds valid, as a collection and one a line."""
    got, out, said = inside("geojson", *words) if given is None else command("geojson", *words, given=given)
    assert (got, said) == (status, error)
    collection = geojson.loads(out)
    assert collection.is_valid and isinstance(collection, geojson.FeatureCollection)
    found = json.loads(out)
    assert set(found) == {"type", "features"} and found["type"] == "FeatureCollection"
    assert all(set(each) == {"type", "geometry", "properties"} and each["type"] == "Feature" for each in found["features"])
    got, out, said = inside("geojson", "--lines", *words) if given is None else command("geojson", "--lines", *words, given=given)
    assert (got, said) == (status, error) and [json.loads(line) for line in out.splitlines()] == found["features"]
    return found["features"]


def encoded(folder, fields, descriptors=None):
    """A file with a message of these fields, or of each of several lists of fields."""
    lines = []
    for each in fields if isinstance(fields[0], list) else [fields]:
        lines += ["message", "section1 98 0 0 0 2 0 46 0", "time 2024 1 15 12 0 0", "flags observed",
                  f"descriptors {descriptors or ' '.join(line[:6] for line in each)}", "subset", *each, "end"]
    status, octets, error = makers.encoded(write(f"{folder}/listing", "\n".join([*lines, ""])))
    assert status == 0, error
    return write(f"{folder}/a", octets)


def pairs(elements):
    return [(each["descriptor"], each["value"]) for each in elements]


def test_a_feature_of_each_report():
    """The fields are typed from the listing of the sample."""
    found = features(SYNOP)
    assert len(found) == 4 and found[0]["geometry"] == STATION
    properties = found[0]["properties"]
    assert {key: value for key, value in properties.items() if key != "elements"} == {
        "file": SYNOP, "place": 0, "subset": 1, "wigos_station_identifier": "0-20000-0-10384", "time": "2024-01-15T12:00:00Z"}
    assert properties["elements"][0] == {"descriptor": "001001", "name": "WMO BLOCK NUMBER", "unit": "Numeric", "value": 10}
    assert properties["elements"][2] == {"descriptor": "001015", "name": "STATION OR SITE NAME", "unit": "CCITT IA5", "value": "BERLIN-TEMPELHOF"}
    listed = [line.split(" ") for line in text(f"{TOP}/examples/standard/synop.txt").split("subset\n")[1].splitlines() if line[0].isdigit()]
    assert len(properties["elements"]) == sum(value != "missing" for _, value, *_ in listed)
    everything = features(SYNOP, "--missing")[0]["properties"]["elements"]
    assert [each["descriptor"] for each in everything] == [descriptor for descriptor, *_ in listed]
    assert [each for each in everything if each["value"] is not None] == properties["elements"]
    assert [each["properties"]["wigos_station_identifier"] for each in found] == [f"0-20000-0-{each}" for each in (10384, 10469, 10738, 10962)]
    assert [each["properties"]["subset"] for each in found] in ([1, 2, 3, 4], [1, 1, 1, 1])


def test_a_feature_of_each_value(folder):
    """What qualifies a value: what came before it, until it comes again or is missing; two that follow each other are a range."""
    fields = ["001001 6", "001002 1", "002001 1", "004001 2024", "004002 2", "004003 29", "004004 6", "004005 30", "005001 46.81155",
              "006001 -6.94240", "007030 490.0", "010004 95850", "007032 2.00", "012101 272.75", "012103 missing", "007032 missing",
              "020010 100", "004024 -12", "004024 0", "012111 274.05", "004024 -24", "013011 1.3", "004025 -10", "011002 4.1",
              "004025 missing", "020003 10"]
    path = encoded(folder, fields)
    found = features("--values", path)
    common = [("002001", 1), ("007030", 490.0)]
    assert [(each["properties"]["descriptor"], each["properties"]["value"], pairs(each["properties"]["qualifiers"])) for each in found] == [
        ("010004", 95850, common), ("012101", 272.75, [*common, ("007032", 2.0)]), ("020010", 100, common),
        ("012111", 274.05, [*common, ("004024", -12), ("004024", 0)]), ("013011", 1.3, [*common, ("004024", -24)]),
        ("011002", 4.1, [*common, ("004025", -10)]), ("020003", 10, common)]
    assert found[1] == {
        "type": "Feature", "geometry": {"type": "Point", "coordinates": [-6.9424, 46.81155, 490.0]}, "properties": {
            "file": path, "place": 0, "subset": 1, "wigos_station_identifier": "0-20000-0-06001", "time": "2024-02-29T06:30:00Z",
            "descriptor": "012101", "name": "TEMPERATURE/AIR TEMPERATURE", "unit": "K", "value": 272.75, "qualifiers": [
                {"descriptor": "002001", "name": "TYPE OF STATION", "unit": "Code table", "value": 1},
                {"descriptor": "007030", "name": "HEIGHT OF STATION GROUND ABOVE MEAN SEA LEVEL", "unit": "m", "value": 490.0},
                {"descriptor": "007032", "name": "HEIGHT OF SENSOR ABOVE LOCAL GROUND (OR DECK OF MARINE PLATFORM)", "unit": "m", "value": 2.0}]}}


def test_counts_are_no_values(folder):
    path = encoded(folder, ["008002 1", "031001 2", "020011 3", "020011 4", "031000 0"], "008002 101000 031001 020011 "
                   "101000 031000 020012")
    assert pairs(features(path)[0]["properties"]["elements"]) == [("008002", 1), ("031001", 2), ("020011", 3), ("020011", 4), ("031000", 0)]
    assert [(each["properties"]["descriptor"], each["properties"]["value"]) for each in features("--values", path)] == [("020011", 3), ("020011", 4)]


def test_a_value_has_the_place_and_the_time_that_came_last(folder):
    """Also with displacements; a minute that became missing makes the time null."""
    fields = ["004001 2024", "004002 1", "004003 15", "004004 12", "005001 10.00000", "006001 20.00000", "012101 273.15", "005015 0.50000",
              "006015 -0.25000", "012101 274.15", "004004 13", "005001 11.00000", "012101 275.15", "004005 5", "012101 276.15",
              "004005 missing", "012101 277.15"]
    found = features("--values", encoded(folder, fields))
    assert [(each["geometry"]["coordinates"], each["properties"]["time"]) for each in found] == [
        ([20, 10], "2024-01-15T12:00:00Z"), ([19.75, 10.5], "2024-01-15T12:00:00Z"), ([19.75, 11.5], "2024-01-15T13:00:00Z"),
        ([19.75, 11.5], "2024-01-15T13:05:00Z"), ([19.75, 11.5], None)]
    report = features(f"{folder}/a")
    assert [(each["geometry"]["coordinates"], each["properties"]["time"]) for each in report] == [([20, 10], "2024-01-15T12:05:00Z")]


def test_a_feature_of_each_level():
    """From a field of the descriptor to the next, with its displacement; a report without that field has none."""
    warning = "bufr-geojson: --each 007004 is not the first field of its replication: 004086 and 008042 come before it, so a feature " \
        "has those of the next level; the replication begins with 004086\n"
    found = features("--each", "007004", TEMP, error=warning)
    listed = text(f"{TOP}/examples/standard/temp.txt").splitlines()
    assert len(found) == sum(line.startswith("007004 ") for line in listed) == 101
    # the last one is of the wind shear; the launch is at 52.20931 14.12012
    assert [each["geometry"]["coordinates"] for each in found[:2]] == [[14.12056, 52.2095, 112.0], [14.121, 52.20968, 112.0]]
    assert pairs(found[1]["properties"]["elements"])[:4] == [("007004", 100000), ("010009", 228), ("005015", 0.00037), ("006015", 0.00088)]
    assert {each["properties"]["time"] for each in found} == {"2024-01-15T10:45:12Z"}
    assert {each["properties"]["wigos_station_identifier"] for each in found} == {"0-20000-0-10393"}
    # all fields from the first level on, in their order
    first = next(number for number, line in enumerate(listed) if line.startswith("007004 "))
    assert [each["descriptor"] for feature in features("--each", "007004", "--missing", TEMP, error=warning) for each in feature["properties"]["elements"]] == [
        line[:6] for line in listed[first:-1]]
    # from its first field on, a level is whole, and nothing is told
    assert pairs(features("--each", "004086", TEMP)[1]["properties"]["elements"])[:4] == [
        ("004086", 46), ("008042", 65536), ("007004", 100000), ("010009", 228)]
    assert features("--each", "063255", TEMP) == []
    # a report is where it was launched
    assert features(TEMP)[0]["geometry"]["coordinates"] == [14.12012, 52.20931, 112.0]
    for words in (["--each", "301011"], ["--each", "7004"], ["--each", "007004", "--values"]):
        assert inside("geojson", *words, TEMP)[:2] == (2, "")


IDENTIFIERS = [
    ("001125 0|001126 20000|001127 0|001128 \"10384           \"|001001 6|001002 1", "0-20000-0-10384"),
    ("001125 0|001126 276|001127 1|001128 \"K17A            \"", "0-276-1-K17A"), ("001001 6|001002 7", "0-20000-0-06007"),
    ("001125 missing|001126 276|001127 1|001128 \"K17A            \"|001001 6|001002 7", "0-20000-0-06007"),
    ("001125 0|001126 276|001127 1|001128 \"                \"", None), ("001001 6|001002 missing", None), ("001001 6", None),
    ("001011 \"DBFR     \"", None)]


@pytest.mark.parametrize("words", [[], ["--values"], ["--each", "012101"]])
def test_identifiers(words, folder):
    found = features(*words, encoded(folder, [[*fields.split("|"), "012101 273.15"] for fields, _ in IDENTIFIERS]))
    assert [each["properties"]["wigos_station_identifier"] for each in found] == [identifier for _, identifier in IDENTIFIERS]


POSITIONS = [
    ("005001 52.46750|006001 13.40214|007030 48.0", [13.40214, 52.4675, 48.0]), ("005002 -33.50|006002 18.25|007001 42", [18.25, -33.5, 42]),
    ("005001 52.46750|006001 13.40214", [13.40214, 52.4675]), ("005001 52.46750|006001 missing", None), ("006001 13.40214", None),
    ("005001 90.00000|006001 -180.00000", [-180, 90]), ("005001 -90.00000|006001 180.00000", [180, -90]), ("005001 90.00001|006001 0.00000", None),
    ("005001 0.00000|006001 200.00000", [-160, 0]), ("005001 0.00000|006001 360.00000", [0, 0]), ("005001 0.00000|006001 360.00001", None),
    ("005001 1.00000|006001 2.00000|007030 missing|007001 5", [2, 1, 5]), ("005001 1.00000|006001 2.00000|007010 3048", [2, 1, 3048]),
    ("005001 1.00000|006001 2.00000|007002 -390", [2, 1, -390]), ("005001 missing|005002 1.25|006002 2.50|006001 missing", [2.5, 1.25])]


@pytest.mark.parametrize("words", [[], ["--values"], ["--each", "012101"]])
def test_positions(words, folder):
    found = features(*words, encoded(folder, [[*fields.split("|"), "012101 273.15"] for fields, _ in POSITIONS]))
    assert [each["geometry"] and each["geometry"]["coordinates"] for each in found] == [coordinates for _, coordinates in POSITIONS]


TIMES = [
    ("2024 2 29", "004004 12|004005 30", "2024-02-29T12:30:00Z"), ("2024 2 29", "004004 12|004005 30|004006 5", "2024-02-29T12:30:05Z"),
    ("2024 2 29", "004004 12", "2024-02-29T12:00:00Z"), ("2024 2 29", "004004 12|004005 missing", None), ("2023 2 29", "004004 12", None),
    ("2024 2 29", "004004 24", None), ("2024 2 29", "004004 missing", None), ("0 1 1", "004004 0", None), ("999 1 1", "004004 0", "0999-01-01T00:00:00Z")]


@pytest.mark.parametrize("words", [[], ["--values"], ["--each", "012101"]])
def test_times(words, folder):
    """A time is never invented."""
    made = [[*(f"00400{number} {part}" for number, part in enumerate(date.split(" "), 1)), *hour.split("|"), "012101 273.15"]
            for date, hour, _ in TIMES]
    assert [each["properties"]["time"] for each in features(*words, encoded(folder, made))] == [time for *_, time in TIMES]


def test_texts_and_digits(folder):
    """A text loses the spaces and NULs at its end; one with nothing else is missing. Numbers have all their digits."""
    path = encoded(folder, ['001015 "A \\22B\\5c\\e4              "', '001011 "         "', "012101 280.00"], "001015 001011 012101")
    assert pairs(features(path, "--missing")[0]["properties"]["elements"]) == [("001015", 'A "B\\\xe4'), ("001011", None), ("012101", 280.0)]
    assert [each["descriptor"] for each in features(path)[0]["properties"]["elements"]] == ["001015", "012101"]
    assert '"value": 280.00}' in inside("geojson", path)[1]


def test_inputs(folder):
    """Several files, a listing, standard input, none; a file that is none leaves a collection of the others."""
    listing = f"{TOP}/examples/standard/synop.txt"
    both = features(SYNOP, TEMP)
    assert [each["properties"]["file"] for each in both] == [SYNOP] * 4 + [TEMP]
    listed = features(listing)
    assert [each["properties"].get("file") for each in listed] == [None] * 4
    assert [each["geometry"] for each in listed] == [each["geometry"] for each in both[:4]]
    octets = read(SYNOP)
    for words in ([], ["-"]):
        found = features(*words, given=octets)
        assert [each["geometry"] for each in found] == [each["geometry"] for each in listed]
        assert {each["properties"]["file"] for each in found} == {"-"}
    empty = write(f"{folder}/empty", b"")
    assert features(empty) == []
    none = f"{folder}/none"
    assert features(SYNOP, none, TEMP, status=2, error=f"bufr-geojson: cannot open {none}: No such file or directory\n") == both
    packed = write(f"{folder}/packed", b"\x1f\x8b\x08\0" + b"\1" * 50)
    status, out, error = inside("geojson", packed)
    assert status == 1 and error == f"bufr-geojson: {packed} has no message, and is no listing: packed by gzip; unpack it\n" and json.loads(out)["features"] == []
    cut = write(f"{folder}/cut", "message\nsection1 98 0 0 0 2 0 46 0\ntime 2024 1 15 12 0 0\nflags\ndescriptors 012101\nsubset\n012101 x\n")
    assert inside("geojson", cut)[::2] == (2, f"bufr-geojson: {cut}: line 7 is no line of a listing at its place\n")
    assert inside("geojson", write(cut, text(cut).replace(" x", " 1.00")))[::2] == (
        2, f"bufr-geojson: {cut}: the listing ends within a message, after line 7\n")
    assert inside("geojson", SYNOP, "--lines", TEMP) == inside("geojson", "--lines", SYNOP, TEMP)


def test_all_files_of_a_folder(folder):
    """What is neither a BUFR file nor a listing is named, a folder is passed over, and the others are written."""
    os.mkdir(f"{folder}/a")
    write(f"{folder}/b.csv", "station,name\n10384,Berlin\n")
    write(f"{folder}/c.txt", "")
    write(f"{folder}/d.cut", message(46)[:20])
    write(f"{folder}/e.bufr", message(46))
    write(f"{folder}/f.gz", b"\x1f\x8b\x08\0" + bytes(50))
    write(f"{folder}/g.txt", "a readme\n")
    write(f"{folder}/h.bufr", message(13))
    files = [f"{folder}/{name}" for name in sorted(os.listdir(folder))]
    no = "has no message, and is no listing"
    found = features(*files, status=1, error="".join(f"bufr-geojson: {line}\n" for line in (
        f"{folder}/a is a folder, and passed over", f"{folder}/b.csv {no}", f"{folder}/d.cut {no}: a message that is cut or broken",
        f"{folder}/f.gz {no}: packed by gzip; unpack it", f"{folder}/g.txt {no}")))
    assert [each["properties"]["file"] for each in found] == [f"{folder}/e.bufr", f"{folder}/h.bufr"]
    assert inside("geojson", f"{folder}/a") == (2, "", f"bufr-geojson: {folder}/a is a folder: name its files, as {folder}/a/*\n")


def test_refusals_and_losses_are_told(folder):
    path = write(f"{folder}/a", message(46) + read(f"{TOP}/examples/refused.bufr") + message(13, edition=3))
    refused = f"bufr-geojson: {path}: refused 49 M2 Edition 5\n"
    found = features(path, status=1, error=refused)
    assert [(each["properties"]["place"], pairs(each["properties"]["elements"])) for each in found] == [(0, [("012101", 273.15)]),
                                                                                                 (49 + 62, [("012101", 273.15)])]
    assert found[0]["geometry"] is None and found[0]["properties"]["time"] is None
    path = write(f"{folder}/b", message(46) + message(46)[:20])
    assert len(features(path, error=f"bufr-geojson: {path}: skipped 20 octets at 49: a message that is cut or broken\n")) == 1


def test_tables(folder):
    """Names are those of the tables that an option names."""
    path = write(f"{folder}/a", message(46))
    words = ["-b", f"{TOP}/tables/table_b_13.csv", "-d", f"{TOP}/tables/table_d_13.csv"]
    assert features(*words, path) == features("--tables", "13", path)
    assert inside("geojson", "--tables", "47", path)[::2] == (2, "bufr-geojson: no table here reads version 47\n")
    assert os.path.getsize(path) == 49


def test_random_messages(folder):
    """Each subset is a feature that has its fields, and each field that is no count and in no class up to 09 is one with --values."""
    rng = random.Random(66)
    path = f"{folder}/a"
    status, octets, error = makers.encoded(write(f"{folder}/listing", "".join(makers.listing(rng) for _ in range(60))))
    assert status == 0, error
    write(path, octets)
    subsets = [subset for each in bufr.messages(path) for subset in each["subsets"]]
    assert len(subsets) > 40
    found = features("--missing", path)
    assert [pairs(each["properties"]["elements"]) for each in found] == [
        [(field["descriptor"], plain(field["value"])) for field in subset] for subset in subsets]
    observed = [(field["descriptor"], plain(field["value"])) for subset in subsets for field in subset
                if field["descriptor"][:3] == "205" or int(field["descriptor"][1:3]) > 9 and field["descriptor"][1:3] != "31"]
    assert [(each["properties"]["descriptor"], each["properties"]["value"]) for each in features("--values", path)] == [
        each for each in observed if each[1] is not None]


def plain(value):
    """A value without the spaces and NULs at its end, and a number as JSON reads it."""
    return value.rstrip(" \0") or None if isinstance(value, str) else float(value) if isinstance(value, Decimal) else value
